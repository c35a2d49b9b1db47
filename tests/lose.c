/* Loses the power of a machine, as far as stores see it. Of each file below the folder LYNX_LOSES it keeps what was synced
   and what was written since. At the sync whose number is LYNX_LOSE_AT, before it is done, each file is left with what was
   synced and some of the sectors that were written since, by chance (LYNX_CHANCE), and the process is killed. Preloaded by
   tests/test_kills.py. */
#define _GNU_SOURCE
#include <dlfcn.h>
#include <fcntl.h>
#include <pthread.h>
#include <signal.h>
#include <stdio.h>
#include <stdlib.h>
#include <string.h>
#include <sys/stat.h>
#include <unistd.h>

enum { SECTOR = 512, MOST_FILES = 64, PATH = 4096 };

/* Bytes that were written and not synced, or a new length, where there are none. */
typedef struct Change {
    struct Change *next;
    off_t at;
    size_t count;
    unsigned char bytes[];
} Change;

typedef struct {
    char path[PATH];
    int synced; /* a file without a name, with what was synced */
    Change *first, **last;
} File;

static pthread_mutex_t lock = PTHREAD_MUTEX_INITIALIZER;
static File files[MOST_FILES];
static int count;
static unsigned long syncs;

static ssize_t (*real_pwrite)(int, const void *, size_t, off_t);
static int (*real_ftruncate)(int, off_t), (*real_fsync)(int), (*real_fdatasync)(int);

__attribute__((constructor)) static void begin(void) {
    real_pwrite = (ssize_t (*)(int, const void *, size_t, off_t))dlsym(RTLD_NEXT, "pwrite");
    real_ftruncate = (int (*)(int, off_t))dlsym(RTLD_NEXT, "ftruncate");
    real_fsync = (int (*)(int))dlsym(RTLD_NEXT, "fsync");
    real_fdatasync = (int (*)(int))dlsym(RTLD_NEXT, "fdatasync");
    const char *chance = getenv("LYNX_CHANCE");
    srand(chance ? (unsigned)atoi(chance) : 1);
}

static void copy(int from, int to) {
    unsigned char bytes[1 << 16];
    ssize_t got;
    off_t at = 0;
    real_ftruncate(to, 0);
    while ((got = pread(from, bytes, sizeof bytes, at)) > 0) {
        real_pwrite(to, bytes, (size_t)got, at);
        at += got;
    }
}

/* The file behind a descriptor, where it is one of those that are watched. */
static File *file_of(int fd) {
    char link[64], path[PATH];
    const char *folder = getenv("LYNX_LOSES");
    snprintf(link, sizeof link, "/proc/self/fd/%d", fd);
    ssize_t length = readlink(link, path, sizeof path - 1);
    if (!folder || length <= 0)
        return NULL;
    path[length] = 0;
    if (strncmp(path, folder, strlen(folder)) != 0)
        return NULL;
    for (int i = 0; i < count; i++)
        if (strcmp(files[i].path, path) == 0)
            return &files[i];
    if (count == MOST_FILES)
        return NULL;
    File *file = &files[count++];
    strcpy(file->path, path);
    file->synced = open(folder, O_TMPFILE | O_RDWR, 0600);
    int own = open(path, O_RDONLY);
    copy(own, file->synced);
    close(own);
    file->first = NULL;
    file->last = &file->first;
    return file;
}

static void note(File *file, const void *bytes, size_t size, off_t at) {
    Change *change = malloc(sizeof *change + size);
    change->next = NULL;
    change->at = at;
    change->count = size;
    if (size)
        memcpy(change->bytes, bytes, size);
    *file->last = change;
    file->last = &change->next;
}

/* Does to the synced file what was done since: all of it, or some sectors by chance. */
static void settle(File *file, int is_lost) {
    for (Change *change = file->first, *next; change; change = next) {
        next = change->next;
        if (!change->count && (!is_lost || rand() % 2))
            real_ftruncate(file->synced, change->at);
        for (size_t at = 0; at < change->count; at += SECTOR) {
            size_t size = change->count - at < SECTOR ? change->count - at : SECTOR;
            if (!is_lost || rand() % 2)
                real_pwrite(file->synced, change->bytes + at, size, change->at + (off_t)at);
        }
        free(change);
    }
    file->first = NULL;
    file->last = &file->first;
}

static void lose(void) {
    for (int i = 0; i < count; i++) {
        settle(&files[i], 1);
        int own = open(files[i].path, O_RDWR);
        if (own >= 0)
            copy(files[i].synced, own);
    }
    kill(getpid(), SIGKILL);
    pause();
}

static int synced(int fd, int (*real)(int)) {
    pthread_mutex_lock(&lock);
    File *file = file_of(fd);
    const char *number = getenv("LYNX_LOSE_AT");
    if (file && number && ++syncs >= strtoul(number, NULL, 10))
        lose();
    int done = real(fd);
    if (file && done == 0)
        settle(file, 0);
    pthread_mutex_unlock(&lock);
    return done;
}

ssize_t pwrite(int fd, const void *bytes, size_t size, off_t at) {
    pthread_mutex_lock(&lock);
    File *file = file_of(fd);
    ssize_t done = real_pwrite(fd, bytes, size, at);
    if (file && done > 0)
        note(file, bytes, (size_t)done, at);
    pthread_mutex_unlock(&lock);
    return done;
}

int ftruncate(int fd, off_t length) {
    pthread_mutex_lock(&lock);
    File *file = file_of(fd);
    int done = real_ftruncate(fd, length);
    if (file && done == 0)
        note(file, NULL, 0, length);
    pthread_mutex_unlock(&lock);
    return done;
}

ssize_t pwrite64(int fd, const void *bytes, size_t size, off_t at) { return pwrite(fd, bytes, size, at); }

int ftruncate64(int fd, off_t length) { return ftruncate(fd, length); }

int fsync(int fd) { return synced(fd, real_fsync); }

int fdatasync(int fd) { return synced(fd, real_fdatasync); }
