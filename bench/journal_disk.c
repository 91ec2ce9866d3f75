/* Measures what a disk allows: journal_disk FILE BYTES SECONDS THREADS AHEAD
 *
 * Each thread makes AHEAD calls, which are but counted, and then waits until their lines, of BYTES each, are on the disk: who
 * finds nobody at it writes the lines of all calls that there are by then, with one write and one fdatasync, and the others
 * wait for that. So do the desks of a server with a journal, which compute and reply besides. It prints how many calls there
 * were, in how many seconds, how long such a wait took, in microseconds, at the median and at 99 of 100, and how many syncs.
 */
#define _GNU_SOURCE
#include <fcntl.h>
#include <pthread.h>
#include <stdio.h>
#include <stdlib.h>
#include <string.h>
#include <time.h>
#include <unistd.h>

enum { MOST_THREADS = 1024, MOST_WAITS = 1 << 20, CHUNK = 1 << 20 };

static pthread_mutex_t history_lock = PTHREAD_MUTEX_INITIALIZER, journal_lock = PTHREAD_MUTEX_INITIALIZER;
static pthread_cond_t changed = PTHREAD_COND_INITIALIZER;
static long history, journaled, syncs;
static int is_taken, file, ahead;
static long bytes;
static double until;
static char chunk[CHUNK];
static float *waits_of[MOST_THREADS];
static long counts[MOST_THREADS];

static double now(void) {
  struct timespec time;
  clock_gettime(CLOCK_MONOTONIC, &time);
  return time.tv_sec + time.tv_nsec * 1e-9;
}

static void fail(const char *why) {
  perror(why);
  exit(1);
}

/* Makes so many calls. How many there are then. */
static long call(int count) {
  pthread_mutex_lock(&history_lock);
  long all = history += count;
  pthread_mutex_unlock(&history_lock);
  return all;
}

static void put_on_disk(long count) {
  for (long left = count * bytes; left > 0;) {
    ssize_t written = write(file, chunk, left < CHUNK ? left : CHUNK);
    if (written <= 0) fail("write");
    left -= written;
  }
  if (fdatasync(file)) fail("fdatasync");
}

/* Waits until the disk has so many calls. */
static void settle(long needed) {
  pthread_mutex_lock(&journal_lock);
  while (journaled < needed) {
    if (is_taken) {
      pthread_cond_wait(&changed, &journal_lock);
      continue;
    }
    is_taken = 1;
    pthread_mutex_unlock(&journal_lock);
    long all = call(0);
    put_on_disk(all - journaled);
    pthread_mutex_lock(&journal_lock);
    journaled = all;
    syncs++;
    is_taken = 0;
    pthread_cond_broadcast(&changed);
  }
  pthread_mutex_unlock(&journal_lock);
}

static void *ask(void *given) {
  long number = (long)given;
  for (double begun = now(), ended; begun < until; begun = ended) {
    settle(call(ahead));
    ended = now();
    if (counts[number] < MOST_WAITS) waits_of[number][counts[number]++] = (ended - begun) * 1e6;
  }
  return NULL;
}

static int compare(const void *one, const void *other) {
  float difference = *(const float *)one - *(const float *)other;
  return (difference > 0) - (difference < 0);
}

int main(int count, char **words) {
  if (count != 6) exit((fputs("usage: journal_disk FILE BYTES SECONDS THREADS AHEAD\n", stderr), 2));
  int number_of_threads = atoi(words[4]);
  pthread_t threads[MOST_THREADS];
  bytes = atol(words[2]);
  ahead = atoi(words[5]);
  if (number_of_threads > MOST_THREADS) exit(2);
  memset(chunk, 'x', CHUNK);
  file = open(words[1], O_CREAT | O_WRONLY | O_APPEND | O_TRUNC, 0600);
  if (file < 0) fail(words[1]);
  double begun = now();
  until = begun + atof(words[3]);
  for (long k = 0; k < number_of_threads; k++) {
    waits_of[k] = malloc(MOST_WAITS * sizeof **waits_of);
    if (!waits_of[k] || pthread_create(&threads[k], NULL, ask, (void *)k)) fail("thread");
  }
  for (int k = 0; k < number_of_threads; k++) pthread_join(threads[k], NULL);
  double seconds = now() - begun;
  long all = 0;
  for (int k = 0; k < number_of_threads; k++) all += counts[k];
  float *waits = malloc(all * sizeof *waits), *at = waits;
  for (int k = 0; k < number_of_threads; at += counts[k++]) memcpy(at, waits_of[k], counts[k] * sizeof *waits);
  qsort(waits, all, sizeof *waits, compare);
  printf("%ld %.6f %.1f %.1f %ld\n", history, seconds, waits[all / 2], waits[all * 99 / 100], syncs);
  unlink(words[1]);
}
