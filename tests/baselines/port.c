/* port FOLDER|:memory: PORT each|all: a server at a port that answers begins as `lynx serve` does over the set that
   `lynx_bench set 1` prints, by libsqlite3. Each begin adds an entry, and its amount to a cell. With `each` a begin has a
   transaction of its own; with `all` those share one that came since the last, of all connections. It is one thread, and
   doesn't look whether a request came before. tests/measure_port has `lynx_bench port` load it.

   cc -O2 -o port tests/baselines/port.c -lsqlite3 */
#include "store.h"
#include <arpa/inet.h>
#include <netinet/in.h>
#include <netinet/tcp.h>
#include <poll.h>
#include <sys/socket.h>
#include <unistd.h>

enum { MOST = 65, ROOM = 1 << 16, REQUEST = 31, ANSWER = 25 };

/* A connection: what was read and not taken, and what is to be written. */
typedef struct {
    unsigned char in[ROOM], out[ROOM];
    size_t got, answered;
} Line;

static Store store;
static Line lines[MOST];
static struct pollfd fds[MOST];
static int count = 1, is_open, shares;
static uint64_t entries, total;

static uint64_t number_at(const unsigned char *bytes) {
    uint64_t number = 0;
    for (int i = 0; i < 8; i++)
        number = number << 8 | bytes[i];
    return number;
}

/* The entry of a begin, whose request is these bytes. */
static void begun_encoding(Encoding *encoding, const unsigned char *request) {
    begin_encoding(encoding, 0x22);
    for (int i = 5; i < REQUEST; i++)
        put_byte(encoding, request[i]);
    put_number(encoding, 0);
    put_byte(encoding, 0);
    put_number(encoding, entries);
    put_byte(encoding, 1);
    put_byte(encoding, 0);
    put_number(encoding, entries);
    put_number(encoding, entries + 1);
    put_byte(encoding, 0);
    end_encoding(encoding);
}

/* The answer to it: chain 0:entries began with stamp entries + 1. */
static void put_answer(Line *line) {
    Encoding encoding;
    begin_encoding(&encoding, 0x11);
    put_byte(&encoding, 0);
    put_byte(&encoding, 0);
    put_number(&encoding, entries);
    put_number(&encoding, entries + 1);
    put_byte(&encoding, 0);
    put_byte(&encoding, 0);
    end_encoding(&encoding);
    memcpy(line->out + line->answered, encoding.bytes, ANSWER);
    line->answered += ANSWER;
}

static void open_transaction(void) {
    if (!is_open)
        step(&store, store.begin);
    is_open = 1;
}

static void close_transaction(void) {
    if (is_open)
        step(&store, store.commit);
    is_open = 0;
}

/* Does what a request asks. */
static void take(Line *line, const unsigned char *request) {
    Encoding body;
    begun_encoding(&body, request);
    total += number_at(request + REQUEST - 8);
    open_transaction();
    put_row(&store, entries, &body, 0, total);
    put_answer(line);
    entries++;
    if (!shares)
        close_transaction();
}

/* Takes the whole requests that were read. */
static void take_all(Line *line) {
    size_t at = 0;
    while (line->got - at >= REQUEST && line->answered + ANSWER <= ROOM) {
        take(line, line->in + at);
        at += REQUEST;
    }
    memmove(line->in, line->in + at, line->got - at);
    line->got -= at;
}

/* Whether the connection goes on. */
static int read_some(int place) {
    Line *line = &lines[place];
    ssize_t got = read(fds[place].fd, line->in + line->got, ROOM - line->got);
    if (got <= 0)
        return 0;
    line->got += (size_t)got;
    take_all(line);
    return 1;
}

static void write_all(int place) {
    Line *line = &lines[place];
    for (size_t at = 0; at < line->answered;) {
        ssize_t put = write(fds[place].fd, line->out + at, line->answered - at);
        if (put <= 0)
            break;
        at += (size_t)put;
    }
    line->answered = 0;
}

static void let_in(void) {
    int fd = accept(fds[0].fd, NULL, NULL), one = 1;
    if (fd < 0 || count == MOST)
        return;
    setsockopt(fd, IPPROTO_TCP, TCP_NODELAY, &one, sizeof one);
    fds[count] = (struct pollfd){.fd = fd, .events = POLLIN};
    lines[count].got = lines[count].answered = 0;
    count++;
}

static void let_go(int place) {
    close(fds[place].fd);
    count--;
    fds[place] = fds[count];
    lines[place] = lines[count];
}

static void serve(void) {
    for (;;) {
        need(poll(fds, (nfds_t)count, -1) > 0, NULL);
        for (int place = count - 1; place > 0; place--)
            if (fds[place].revents && !read_some(place))
                let_go(place);
        close_transaction();
        for (int place = 1; place < count; place++)
            write_all(place);
        if (fds[0].revents)
            let_in();
    }
}

static int listening(const char *port) {
    struct sockaddr_in at = {.sin_family = AF_INET, .sin_port = htons((uint16_t)atoi(port))};
    int fd = socket(AF_INET, SOCK_STREAM, 0), one = 1;
    at.sin_addr.s_addr = htonl(INADDR_LOOPBACK);
    setsockopt(fd, SOL_SOCKET, SO_REUSEADDR, &one, sizeof one);
    need(!bind(fd, (struct sockaddr *)&at, sizeof at) && !listen(fd, MOST), NULL);
    return fd;
}

int main(int words, char **word) {
    if (words != 4) {
        fprintf(stderr, "port: a folder, a port, and each or all are wanted\n");
        return 2;
    }
    shares = strcmp(word[3], "all") == 0;
    make(&store, word[1], 0);
    fds[0] = (struct pollfd){.fd = listening(word[2]), .events = POLLIN};
    printf("listening\n");
    fflush(stdout);
    serve();
    return 0;
}
