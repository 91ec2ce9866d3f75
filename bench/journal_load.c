/* Loads a server: journal_load PORT AHEAD SECONDS HAND..
 *
 * Each HAND is a file of command lines, which one connection sends, so many of them ahead: it sends AHEAD lines, reads their
 * replies, and sends the next. All begin at the same moment, and end with the time or with the first hand. It prints how many
 * replies came, in how many seconds, how long a reply took from when its line was sent, in microseconds, at the median and at 99
 * of 100, and how many calls were refused.
 */
#define _GNU_SOURCE
#include <arpa/inet.h>
#include <netinet/tcp.h>
#include <pthread.h>
#include <stdatomic.h>
#include <stdio.h>
#include <stdlib.h>
#include <string.h>
#include <time.h>

struct connection {
  int socket;
  char *line, *end;     /* what of the hand is not sent yet */
  float *waits;         /* of each reply, in microseconds */
  size_t replies, room;
  size_t refused;
  int begins_line;      /* whether the next byte is the first one of a reply */
};

static int ahead;
static double until;
static atomic_int is_over;
static pthread_barrier_t start;

static void fail(const char *why) {
  perror(why);
  exit(1);
}

static double now(void) {
  struct timespec time;
  clock_gettime(CLOCK_MONOTONIC, &time);
  return time.tv_sec + time.tv_nsec * 1e-9;
}

static void read_hand(struct connection *one, const char *name) {
  FILE *file = fopen(name, "rb");
  if (!file || fseek(file, 0, SEEK_END)) fail(name);
  size_t size = ftell(file);
  rewind(file);
  one->line = malloc(size + 1);
  if (!one->line || fread(one->line, 1, size, file) != size) fail(name);
  one->end = one->line + size;
  fclose(file);
}

static void connect_to(struct connection *one, int port) {
  struct sockaddr_in address = {.sin_family = AF_INET, .sin_port = htons(port), .sin_addr.s_addr = htonl(INADDR_LOOPBACK)};
  int yes = 1;
  one->socket = socket(AF_INET, SOCK_STREAM, 0);
  if (connect(one->socket, (struct sockaddr *)&address, sizeof address)) fail("connect");
  setsockopt(one->socket, IPPROTO_TCP, TCP_NODELAY, &yes, sizeof yes);
}

/* Sends the next lines. How many they are: none where the hand has not so many. */
static int send_lines(struct connection *one) {
  char *end = one->line;
  for (int count = 0; count < ahead; count++) {
    end = memchr(end, '\n', one->end - end);
    if (!end) return 0;
    end++;
  }
  while (one->line < end) {
    ssize_t sent = send(one->socket, one->line, end - one->line, MSG_NOSIGNAL);
    if (sent <= 0) fail("send");
    one->line += sent;
  }
  return ahead;
}

static void note(struct connection *one, double wait) {
  if (one->replies == one->room) {
    one->room = one->room ? 2 * one->room : 4096;
    one->waits = realloc(one->waits, one->room * sizeof *one->waits);
    if (!one->waits) fail("memory");
  }
  one->waits[one->replies++] = wait * 1e6;
}

/* Counts what begins or ends among these bytes: a refusal begins by `{"c`, and a fault of a line by `{"fa`. */
static int count_replies(struct connection *one, const char *bytes, ssize_t size, double wait) {
  int count = 0;
  for (const char *at = bytes, *end = bytes + size; at < end; one->begins_line = 1) {
    if (one->begins_line && end - at > 3) {
      one->refused += at[2] == 'c';
      if (at[2] == 'f' && at[3] == 'a') exit((fputs("a line was no call\n", stderr), 1));
    }
    one->begins_line = 0;
    at = memchr(at, '\n', end - at);
    if (!at) break;
    at++;
    note(one, wait);
    count++;
  }
  return count;
}

static void *ask(void *given) {
  static _Thread_local char bytes[1 << 18];
  struct connection *one = given;
  pthread_barrier_wait(&start);
  while (!is_over) {
    double sent = now();
    int open = sent < until ? send_lines(one) : 0;
    if (open == 0) is_over = 1;
    while (open > 0) {
      ssize_t size = recv(one->socket, bytes, sizeof bytes, 0);
      if (size <= 0) fail("a reply did not come");
      open -= count_replies(one, bytes, size, now() - sent);
    }
  }
  return NULL;
}

static int compare(const void *one, const void *other) {
  float difference = *(const float *)one - *(const float *)other;
  return (difference > 0) - (difference < 0);
}

static void print(struct connection *all, int count, double seconds) {
  size_t replies = 0, refused = 0;
  for (int k = 0; k < count; k++) replies += all[k].replies;
  float *waits = malloc((replies + 1) * sizeof *waits), *at = waits;
  for (int k = 0; k < count; k++) {
    memcpy(at, all[k].waits, all[k].replies * sizeof *waits);
    at += all[k].replies;
    refused += all[k].refused;
  }
  qsort(waits, replies, sizeof *waits, compare);
  waits[replies] = 0;
  printf("%zu %.6f %.1f %.1f %zu\n", replies, seconds, waits[replies / 2], waits[replies * 99 / 100], refused);
}

int main(int count, char **words) {
  if (count < 5) exit((fputs("usage: journal_load PORT AHEAD SECONDS HAND..\n", stderr), 2));
  int hands = count - 4;
  struct connection *all = calloc(hands, sizeof *all);
  pthread_t *threads = calloc(hands, sizeof *threads);
  ahead = atoi(words[2]);
  pthread_barrier_init(&start, NULL, hands + 1);
  for (int k = 0; k < hands; k++) {
    all[k].begins_line = 1;
    read_hand(&all[k], words[4 + k]);
    connect_to(&all[k], atoi(words[1]));
    if (pthread_create(&threads[k], NULL, ask, &all[k])) fail("thread");
  }
  double begun = now();
  until = begun + atof(words[3]);
  pthread_barrier_wait(&start);
  for (int k = 0; k < hands; k++) pthread_join(threads[k], NULL);
  print(all, hands, now() - begun);
}
