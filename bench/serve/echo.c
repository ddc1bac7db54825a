/*
 * Reads dRuby requests, and answers each with success and nil: what a server could be that does nothing. It has a
 * thread a connection, one read where a request comes in one, and one write. Prints its uri, as `drbts serve` does; the
 * words that it is given play no part.
 */
#include <arpa/inet.h>
#include <netinet/in.h>
#include <netinet/tcp.h>
#include <pthread.h>
#include <stdint.h>
#include <stdio.h>
#include <stdlib.h>
#include <string.h>
#include <sys/socket.h>
#include <unistd.h>

struct input {
  int line;
  size_t from, to;
  unsigned char bytes[8192];
};

/* The next packet's body, of at least the size least; NULL at the end. */
static unsigned char *packet(struct input *in, size_t least) {
  for (;;) {
    size_t there = in->to - in->from;
    unsigned char *head = in->bytes + in->from;
    size_t size = there < 4 ? 0 : (size_t)head[0] << 24 | head[1] << 16 | head[2] << 8 | head[3];
    if (there >= 4 && there - 4 >= size) {
      in->from += 4 + size;
      return size < least ? NULL : head + 4;
    }
    memmove(in->bytes, head, there);
    in->from = 0;
    in->to = there;
    ssize_t n = recv(in->line, in->bytes + there, sizeof in->bytes - there, 0);
    if (n <= 0) return NULL;
    in->to += n;
  }
}

static void *serve(void *arg) {
  static const char reply[] = "\0\0\0\3\4\bT\0\0\0\3\4\b0";
  struct input *in = arg;
  for (;;) {
    unsigned char *count;
    /* the reference, the name, and the count of arguments, which is a small integer */
    if (!packet(in, 0) || !packet(in, 0) || !(count = packet(in, 4))) break;
    int left = count[3] ? count[3] - 5 : 0;
    while (left > 0 && packet(in, 0)) left--;
    if (left > 0 || !packet(in, 0)) break;
    if (send(in->line, reply, sizeof reply - 1, MSG_NOSIGNAL) < 0) break;
  }
  close(in->line);
  free(in);
  return NULL;
}

int main(void) {
  int one = 1, door = socket(AF_INET, SOCK_STREAM, 0);
  struct sockaddr_in here = {.sin_family = AF_INET, .sin_addr.s_addr = htonl(INADDR_LOOPBACK)};
  socklen_t size = sizeof here;
  if (bind(door, (struct sockaddr *)&here, sizeof here) || listen(door, 1024)
      || getsockname(door, (struct sockaddr *)&here, &size)) {
    perror("echo");
    return 1;
  }
  printf("druby://127.0.0.1:%d\n", ntohs(here.sin_port));
  fflush(stdout);
  for (;;) {
    struct input *in = calloc(1, sizeof *in);
    pthread_t thread;
    if (!in || (in->line = accept(door, NULL, NULL)) < 0) return 1;
    setsockopt(in->line, IPPROTO_TCP, TCP_NODELAY, &one, sizeof one);
    if (pthread_create(&thread, NULL, serve, in)) return 1;
    pthread_detach(thread);
  }
}
