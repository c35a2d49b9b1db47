/* reads PORT STATUS-PORT PAYERS SECONDS PATH [RATE]: payers that each begin one chain after the other, and, where PATH isn't "-", one
   reader that gets PATH again and again over one kept connection, RATE times a second at most. It prints begins and reads a second. */
#include <netinet/in.h>
#include <netinet/tcp.h>
#include <pthread.h>
#include <stdint.h>
#include <stdio.h>
#include <stdlib.h>
#include <string.h>
#include <sys/socket.h>
#include <time.h>
#include <unistd.h>

enum { HEAD = 5, REQUEST = 31, MOST = 65536, PAYERS = 256 };

static int port, status_port;
static double until, rate;
static const char *path;
static uint64_t first;

static double now(void) {
  struct timespec time;
  clock_gettime(CLOCK_MONOTONIC, &time);
  return (double)time.tv_sec + (double)time.tv_nsec / 1e9;
}

static void fail(const char *what) {
  perror(what);
  exit(1);
}

static int connected(int to) {
  int one = 1, line = socket(AF_INET, SOCK_STREAM, 0);
  struct sockaddr_in place = {.sin_family = AF_INET, .sin_port = htons((uint16_t)to)};
  place.sin_addr.s_addr = htonl(INADDR_LOOPBACK);
  if (connect(line, (struct sockaddr *)&place, sizeof place)) fail("connect");
  setsockopt(line, IPPROTO_TCP, TCP_NODELAY, &one, sizeof one);
  return line;
}

static void send_all(int line, const char *bytes, size_t count) {
  if (write(line, bytes, count) != (ssize_t)count) fail("write");
}

static void receive(int line, unsigned char *bytes, size_t count) {
  while (count) {
    ssize_t some = read(line, bytes, count);
    if (some <= 0) fail("read");
    bytes += some;
    count -= (size_t)some;
  }
}

static void put(unsigned char *at, uint64_t value, int bytes) {
  for (int i = 0; i < bytes; i++) at[i] = (unsigned char)(value >> 8 * (bytes - 1 - i));
}

/* Requests of one client: the first program with one argument, 1. */
static void *pay(void *given) {
  uint64_t client = (uint64_t)(uintptr_t)given, number = 0;
  unsigned char request[REQUEST] = {1}, answer[MOST];
  int line = connected(port);
  put(request + 1, REQUEST - HEAD, 4);
  put(request + 5, first + client, 8);
  request[22] = 1;
  put(request + 23, 1, 8);
  while (now() < until) {
    put(request + 13, ++number, 8);
    send_all(line, (char *)request, REQUEST);
    receive(line, answer, HEAD);
    receive(line, answer + HEAD, (size_t)answer[3] << 8 | answer[4]);
  }
  close(line);
  return (void *)(uintptr_t)number;
}

/* A whole answer with its length in its head. */
static void receive_answer(int line, char *answer) {
  size_t have = 0;
  for (;;) {
    ssize_t some = read(line, answer + have, MOST - 1 - have);
    if (some <= 0) fail("read");
    have += (size_t)some;
    answer[have] = 0;
    char *end = strstr(answer, "\r\n\r\n"), *length = strcasestr(answer, "content-length:");
    if (end && length && have >= (size_t)(end + 4 - answer) + strtoul(length + 15, 0, 10)) break;
  }
  if (strncmp(answer, "HTTP/1.1 200", 12)) {
    fputs(answer, stderr);
    exit(1);
  }
}

static void *look(void *unused) {
  char request[1024], answer[MOST];
  int line = connected(status_port), count = snprintf(request, sizeof request, "GET %s HTTP/1.1\r\nHost: 127.0.0.1:%d\r\n\r\n", path, status_port);
  uint64_t reads = 0;
  double since = now(), time;
  (void)unused;
  while ((time = now()) < until) {
    if (rate > 0 && (double)reads > (time - since) * rate) {
      usleep(1000);
      continue;
    }
    send_all(line, request, (size_t)count);
    receive_answer(line, answer);
    reads++;
  }
  close(line);
  return (void *)(uintptr_t)reads;
}

int main(int count, char **words) {
  pthread_t payers[PAYERS], reader;
  void *done;
  if (count != 6 && count != 7) {
    fputs("reads PORT STATUS-PORT PAYERS SECONDS PATH [RATE]\n", stderr);
    return 2;
  }
  int paying = atoi(words[3]), seconds = atoi(words[4]);
  port = atoi(words[1]), status_port = atoi(words[2]), path = words[5];
  rate = count == 7 ? atof(words[6]) : 0;
  first = (uint64_t)getpid() << 16;
  double since = now();
  until = since + seconds;
  uint64_t begins = 0, reads = 0;
  int is_read = strcmp(path, "-") != 0;
  for (int i = 0; i < paying; i++) pthread_create(&payers[i], 0, pay, (void *)(uintptr_t)(i + 1));
  if (is_read) pthread_create(&reader, 0, look, 0);
  for (int i = 0; i < paying; i++) {
    pthread_join(payers[i], &done);
    begins += (uint64_t)(uintptr_t)done;
  }
  if (is_read) {
    pthread_join(reader, &done);
    reads = (uint64_t)(uintptr_t)done;
  }
  double took = now() - since;
  printf("%.0f begins and %.0f reads a second\n", (double)begins / took, (double)reads / took);
  return 0;
}
