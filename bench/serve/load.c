/*
 * Asks a dRuby server for writes and takes of [:job, i, "text"], by the bytes that a Ruby client sends, and prints what
 * it measured. See ../serve.sh, which runs it.
 *
 *   load PORT write CONNECTIONS SECONDS    each connection writes            prints requests a second
 *   load PORT pairs CONNECTIONS SECONDS    each writes, takes, writes ..     prints requests a second
 *   load PORT count CONNECTIONS PAIRS      the same, so many pairs of each   prints requests a second
 *   load PORT paced TIMES                  writes with a pause between       prints the median in microseconds
 *   load PORT wake TIMES OTHERS            a write wakes a waiting take      prints the median in microseconds
 */
#include <arpa/inet.h>
#include <netinet/in.h>
#include <netinet/tcp.h>
#include <pthread.h>
#include <stdatomic.h>
#include <stdint.h>
#include <stdio.h>
#include <stdlib.h>
#include <string.h>
#include <sys/socket.h>
#include <time.h>
#include <unistd.h>

/* A dump, and the packet around it: its size in four bytes, then the dump. */
#define NIL "\0\0\0\3\4\b0"
#define ONE "\0\0\0\4\4\bi\6"
#define WRITE "\0\0\0\17\4\bI\"\nwrite\6:\6EF"
#define TAKE "\0\0\0\16\4\bI\"\ttake\6:\6EF"

/* [:job, i, "text"], with i in four bytes from the place NUMBER on; a take has nil in place of the text. */
#define JOB "\0\0\0\33\4\b[\b:\bjobi\4\0\0\0\0I\"\ttext\6:\6ET"
#define WANTED "\0\0\0\20\4\b[\b:\bjobi\4\0\0\0\0000"
#define ANY "\0\0\0\13\4\b[\b:\bjob00"
#define NUMBER 15

/* Numbers whose dumps have four bytes: of jobs, of those that are waited for, and of those that never come. */
#define FIRST (1 << 24)
#define AWAITED (1 << 28)
#define NEVER (1 << 29)

struct request {
  char bytes[128];
  size_t size;
  size_t number; /* where its number stands */
};

static int port;

static void fail(const char *what) {
  perror(what);
  exit(1);
}

static void add(struct request *request, const char *bytes, size_t size) {
  memcpy(request->bytes + request->size, bytes, size);
  request->size += size;
}

#define ADD(request, packet) add(request, packet, sizeof packet - 1)

static struct request asking(const char *name, size_t name_size, const char *tuple, size_t tuple_size) {
  struct request request = {.size = 0};
  ADD(&request, NIL);
  add(&request, name, name_size);
  ADD(&request, ONE);
  request.number = request.size + NUMBER;
  add(&request, tuple, tuple_size);
  ADD(&request, NIL);
  return request;
}

#define ASKING(name, tuple) asking(name, sizeof name - 1, tuple, sizeof tuple - 1)

static void set_number(struct request *request, uint32_t number) {
  for (int i = 0; i < 4; i++) request->bytes[request->number + i] = (char)(number >> (8 * i));
}

static double now(void) {
  struct timespec t;
  clock_gettime(CLOCK_MONOTONIC, &t);
  return t.tv_sec + t.tv_nsec / 1e9;
}

static void rest(double seconds) {
  struct timespec t = {.tv_sec = (time_t)seconds, .tv_nsec = (long)((seconds - (time_t)seconds) * 1e9)};
  nanosleep(&t, NULL);
}

static int dial(void) {
  struct sockaddr_in to = {.sin_family = AF_INET, .sin_port = htons(port), .sin_addr.s_addr = htonl(INADDR_LOOPBACK)};
  int one = 1, line = socket(AF_INET, SOCK_STREAM, 0);
  if (line < 0 || connect(line, (struct sockaddr *)&to, sizeof to) < 0) fail("connect");
  setsockopt(line, IPPROTO_TCP, TCP_NODELAY, &one, sizeof one);
  return line;
}

static void say(int line, const struct request *request) {
  if (send(line, request->bytes, request->size, MSG_NOSIGNAL) != (ssize_t)request->size) fail("send");
}

/* Reads one reply, which must be one of success. No other reply may be on its way. */
static void hear(int line) {
  unsigned char bytes[4096];
  size_t got = 0, wanted = 7 + 4;
  while (got < wanted) {
    ssize_t n = recv(line, bytes + got, sizeof bytes - got, 0);
    if (n <= 0) fail("the connection ended");
    got += n;
    if (got >= 11)
      wanted = 11 + ((size_t)bytes[7] << 24 | (size_t)bytes[8] << 16 | (size_t)bytes[9] << 8 | bytes[10]);
    if (wanted > sizeof bytes) fail("a long reply");
  }
  if (memcmp(bytes, "\0\0\0\3\4\bT", 7) != 0) {
    fprintf(stderr, "a reply of failure\n");
    exit(1);
  }
}

static pthread_barrier_t begin;
static atomic_bool ended;
static int is_pairs;
static long pairs; /* of each connection, where they are counted */

static void *work(void *arg) {
  long asked = 0;
  int line = dial();
  uint32_t number = FIRST + ((uint32_t)(uintptr_t)arg << 21);
  struct request write = ASKING(WRITE, JOB), take = ASKING(TAKE, ANY);
  pthread_barrier_wait(&begin);
  while (pairs ? asked < 2 * pairs : !ended) {
    set_number(&write, number++);
    say(line, &write);
    hear(line);
    asked++;
    if (is_pairs) {
      say(line, &take);
      hear(line);
      asked++;
    }
  }
  close(line);
  return (void *)asked;
}

/* Requests a second of so many connections, each on a thread of its own. */
static double rate(int connections, double seconds) {
  pthread_t *threads = calloc(connections, sizeof *threads);
  long asked = 0;
  pthread_barrier_init(&begin, NULL, connections + 1);
  for (int i = 0; i < connections; i++)
    if (pthread_create(&threads[i], NULL, work, (void *)(uintptr_t)i)) fail("thread");
  pthread_barrier_wait(&begin);
  double started = now();
  if (!pairs) {
    rest(seconds);
    ended = 1;
  }
  for (int i = 0; i < connections; i++) {
    void *each;
    pthread_join(threads[i], &each);
    asked += (long)each;
  }
  free(threads);
  return asked / (now() - started);
}

static int compare(const void *a, const void *b) {
  double x = *(const double *)a, y = *(const double *)b;
  return (x > y) - (x < y);
}

/* The median time in microseconds from a write to the reply of its own connection, or of the take that it wakes. */
static double median(long times, int wakes, int others) {
  struct request write = ASKING(WRITE, JOB), take = ASKING(TAKE, WANTED);
  int writer = dial(), taker = wakes ? dial() : -1;
  double *took = calloc(times, sizeof *took);
  for (int i = 0; i < others; i++) {
    set_number(&take, NEVER + i);
    say(dial(), &take);
  }
  rest(others ? 0.5 : 0);
  for (long i = 0; i < times; i++) {
    set_number(&write, (wakes ? AWAITED : FIRST) + i);
    set_number(&take, AWAITED + i);
    if (wakes) say(taker, &take);
    rest(0.001);
    double started = now();
    say(writer, &write);
    hear(wakes ? taker : writer);
    took[i] = (now() - started) * 1e6;
    if (wakes) hear(writer);
  }
  qsort(took, times, sizeof *took, compare);
  return took[times / 2];
}

int main(int argc, char **argv) {
  if (argc < 4) {
    fprintf(stderr, "usage: load PORT write|pairs|count|paced|wake NUMBER [NUMBER]\n");
    return 1;
  }
  port = atoi(argv[1]);
  long first = atol(argv[3]);
  double second = argc > 4 ? atof(argv[4]) : 0;
  if (!strcmp(argv[2], "write")) {
    printf("%.0f\n", rate(first, second));
  } else if (!strcmp(argv[2], "pairs")) {
    is_pairs = 1;
    printf("%.0f\n", rate(first, second));
  } else if (!strcmp(argv[2], "count")) {
    is_pairs = 1;
    pairs = second;
    printf("%.0f\n", rate(first, 0));
  } else if (!strcmp(argv[2], "paced")) {
    printf("%.1f\n", median(first, 0, 0));
  } else if (!strcmp(argv[2], "wake")) {
    printf("%.1f\n", median(first, 1, second));
  }
  return 0;
}
