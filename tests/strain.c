/* Has the disk and the clock of a program do what a test wants, from call to call: what the files of the folder LYNX_STRAINS say. A
   sync of a file whose path has in it what stands in `hold` waits as long as that is so; one whose path has what stands in `slow`
   takes so many milliseconds more as stand in `millis`; and one whose path has what stands in `fail` fails, and nothing is synced.
   The clock that only rises is as many seconds ahead as stand in `ahead`. Preloaded by tests/serving.py. */
#define _GNU_SOURCE
#include <dlfcn.h>
#include <errno.h>
#include <fcntl.h>
#include <stdio.h>
#include <stdlib.h>
#include <string.h>
#include <time.h>
#include <unistd.h>

enum { PATH = 4096, LOOK_MICROS = 1000 };

/* What stands in a file of the folder, nothing where it isn't there. */
static const char *told(const char *name, char *text) {
    char path[PATH];
    const char *folder = getenv("LYNX_STRAINS");
    snprintf(path, sizeof path, "%s/%s", folder ? folder : "", name);
    int file = folder ? open(path, O_RDONLY | O_CLOEXEC) : -1;
    ssize_t length = file < 0 ? 0 : read(file, text, PATH - 1);
    if (file >= 0)
        close(file);
    text[length > 0 ? length : 0] = 0;
    return text;
}

/* Whether the path of an open file has in it what stands in a file of the folder. */
static int is_told(int handle, const char *name) {
    char link[64], path[PATH], text[PATH];
    snprintf(link, sizeof link, "/proc/self/fd/%d", handle);
    ssize_t length = readlink(link, path, sizeof path - 1);
    path[length > 0 ? length : 0] = 0;
    return *told(name, text) && strstr(path, text);
}

static int synced(int handle, const char *call) {
    char text[PATH];
    while (is_told(handle, "hold"))
        usleep(LOOK_MICROS);
    if (is_told(handle, "slow"))
        usleep((useconds_t)atoi(told("millis", text)) * 1000);
    if (is_told(handle, "fail")) {
        errno = EIO;
        return -1;
    }
    return ((int (*)(int))dlsym(RTLD_NEXT, call))(handle);
}

int fsync(int handle) { return synced(handle, "fsync"); }

int fdatasync(int handle) { return synced(handle, "fdatasync"); }

int clock_gettime(clockid_t clock, struct timespec *now) {
    char text[PATH];
    int done = ((int (*)(clockid_t, struct timespec *))dlsym(RTLD_NEXT, "clock_gettime"))(clock, now);
    if (done == 0 && clock == CLOCK_MONOTONIC)
        now->tv_sec += atol(told("ahead", text));
    return done;
}
