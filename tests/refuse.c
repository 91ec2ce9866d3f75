/* Loaded before a program (LD_PRELOAD), this refuses some of its requests for memory, as malloc and realloc do where there
 * is none: those from number REFUSE_FIRST on, up to number REFUSE_LAST; without the second, all further ones.
 *
 * Only the requests between the first two reads of standard input are counted, those of all threads. When the program ends,
 * how many there were is written to file descriptor 3. Nothing else changes.
 */
#define _GNU_SOURCE
#include <dlfcn.h>
#include <errno.h>
#include <limits.h>
#include <stdatomic.h>
#include <stdio.h>
#include <stdlib.h>
#include <unistd.h>

enum { STANDARD_INPUT = 0, REPORT = 3 };

static void *(*next_malloc)(size_t);
static void *(*next_realloc)(void *, size_t);
static ssize_t (*next_read)(int, void *, size_t);
static void (*next_exit)(int);
static long first, last;
static atomic_long requests;
static atomic_int reads;

static long number(const char *name, long otherwise) {
  const char *text = getenv(name);
  return text && *text ? atol(text) : otherwise;
}

__attribute__((constructor)) static void begin(void) {
  next_malloc = dlsym(RTLD_NEXT, "malloc");
  next_realloc = dlsym(RTLD_NEXT, "realloc");
  next_read = dlsym(RTLD_NEXT, "read");
  next_exit = dlsym(RTLD_NEXT, "_exit");
  first = number("REFUSE_FIRST", LONG_MAX);
  last = number("REFUSE_LAST", LONG_MAX);
}

/* Counts a request, and says whether it is refused. */
static int is_refused(void) {
  if (reads != 1) return 0;
  long request = ++requests;
  if (request < first || request > last) return 0;
  errno = ENOMEM;
  return 1;
}

void *malloc(size_t size) {
  if (!next_malloc) next_malloc = dlsym(RTLD_NEXT, "malloc");
  return is_refused() ? NULL : next_malloc(size);
}

void *realloc(void *block, size_t size) {
  if (!next_realloc) next_realloc = dlsym(RTLD_NEXT, "realloc");
  return is_refused() ? NULL : next_realloc(block, size);
}

/* The second read is counted before it is made, so that no request of its own is refused. */
ssize_t read(int file, void *to, size_t size) {
  int is_input = file == STANDARD_INPUT;
  if (is_input && reads > 0) reads++;
  ssize_t got = next_read(file, to, size);
  if (is_input && reads == 0) reads = 1;
  return got;
}

static void report(void) {
  dprintf(REPORT, "%ld\n", (long)requests);
}

void _exit(int status) {
  report();
  next_exit(status);
  __builtin_unreachable();
}

__attribute__((destructor)) static void end(void) {
  report();
}
