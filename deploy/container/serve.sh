#!/bin/sh
# serve.sh SET DIR PORT WORD..: serves, and ends well on TERM, INT and HUP, which end `lynx serve` itself without its audit,
# or do nothing where it is process 1. A service that still opens its stores can't be asked for its end, so it is asked
# again for a minute.
dir=$2 status=0 service='' early='' asked=''
# shellcheck disable=SC2317  # the trap calls it
shut() {
    early=yes
    # Asked once: a service that ends answers nobody, and a second signal must not end its audit.
    if [ -z "$service" ] || [ -n "$asked" ]; then return; fi
    asked=yes
    for _ in $(seq 120); do
        echo shut | lynx ask "$dir" > /dev/null 2>&1 && return
        kill -0 "$service" 2> /dev/null || return
        sleep 0.5
    done
    kill "$service"
}
trap shut TERM INT HUP
(trap '' INT HUP; exec lynx serve "$@") &
service=$!
[ -z "$early" ] || shut
while kill -0 "$service" 2> /dev/null; do
    wait "$service"
    status=$?
done
# One that ended while the trap ran was reaped there, and the shell still has its status.
wait "$service" 2> /dev/null
last=$?
[ "$last" = 127 ] || status=$last
exit "$status"
