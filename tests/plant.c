/* Loaded before a program (LD_PRELOAD), this plants one fault in it, for tests/planted. PLANT says which:
 *
 *   write   in what is written to PLANT_TO (`output`, `errors`, `sockets` or `files`) the text PLANT_OLD becomes PLANT_NEW
 *   digits  likewise the digits behind PLANT_OLD become PLANT_NEW
 *   lose    a line that is written there and has PLANT_OLD in it is never written
 *   twice   such a line is written twice
 *   read    in what comes over sockets PLANT_OLD becomes PLANT_NEW, which may be two bytes longer
 *   cut     a connection over which PLANT_OLD comes is at its end
 *   hold    nothing is written to the standard output until the program ends
 *   late    a file is put on the disk only when it is to be put there the next time
 *   status  the program ends with status PLANT_NEW where it has written PLANT_OLD
 *   serial  a connection is accepted only when the one before it is closed
 *   open    a socket that listens is never closed
 *   leak    each connection that is accepted keeps 20,000 bytes for ever
 *   modes   a file gets the right to be read and written by all
 *   clock   the system's clock is two days ahead
 *   silent  so many calls are answered as PLANT_AT says, and no further one: its reply is not written to any socket
 *
 * Else with PLANT_AT a text becomes another one, or a line is lost or written twice, only the time with this number. Nothing
 * else changes. A text that two writes or reads share is left as it is.
 */
#define _GNU_SOURCE
#include <dlfcn.h>
#include <pthread.h>
#include <stdatomic.h>
#include <stdlib.h>
#include <string.h>
#include <sys/socket.h>
#include <sys/stat.h>
#include <time.h>
#include <unistd.h>

enum { ROOM = 2, LEAKED = 20000, TWO_DAYS = 172800 };

static const char *deed = "", *to = "", *old = "", *new = "";
static long at;
static atomic_long times;
static pthread_mutex_t one = PTHREAD_MUTEX_INITIALIZER;

#define NEXT(name) ((typeof(&name))dlsym(RTLD_NEXT, #name))

static const char *word(const char *name) {
  const char *text = getenv(name);
  return text ? text : "";
}

__attribute__((constructor)) static void begin(void) {
  deed = word("PLANT");
  to = word("PLANT_TO");
  old = word("PLANT_OLD");
  new = word("PLANT_NEW");
  at = atol(word("PLANT_AT"));
}

static int is(const char *name) {
  return !strcmp(deed, name);
}

/* Whether it is the time that is meant. */
static int is_time(void) {
  long time = ++times;
  return at == 0 || time == at;
}

static int has_mode(int file, mode_t kind) {
  struct stat status;
  return !fstat(file, &status) && (status.st_mode & S_IFMT) == kind;
}

/* Whether what is written to a file is meant. */
static int is_meant(int file) {
  if (!strcmp(to, "output")) return file == STDOUT_FILENO;
  if (!strcmp(to, "errors")) return file == STDERR_FILENO;
  return !strcmp(to, "sockets") ? has_mode(file, S_IFSOCK) : !strcmp(to, "files") && file > 2 && has_mode(file, S_IFREG);
}

/* A text of bytes that is written in the place of another one. */
struct text {
  char *bytes;
  size_t length;
};

static void add(struct text *text, const char *from, size_t length) {
  memcpy(text->bytes + text->length, from, length);
  text->length += length;
}

/* Adds a text in which the old text is the new one, or the new one stands behind it in place of digits. */
static void add_changed(struct text *text, const char *from, size_t length) {
  size_t old_length = strlen(old);
  const char *found, *end = from + length;
  while ((found = old_length ? memmem(from, end - from, old, old_length) : NULL)) {
    add(text, from, found - from);
    from = found + old_length;
    if (is("digits") || !is_time()) add(text, old, old_length);
    else add(text, new, strlen(new));
    if (!is("digits")) continue;
    add(text, new, strlen(new));
    while (from < end && *from >= '0' && *from <= '9') from++;
  }
  add(text, from, end - from);
}

/* Whether a line is the reply to a call behind those that are answered. */
static int is_behind(const char *line, size_t length) {
  return memmem(line, length, "\"n\":", 4) && ++times > at;
}

/* Adds the lines of a text: without those that are lost, and twice those that come twice. */
static void add_lines(struct text *text, const char *from, size_t length) {
  const char *end = from + length;
  while (from < end) {
    const char *feed = memchr(from, '\n', end - from), *next = feed ? feed + 1 : end;
    size_t size = next - from;
    int is_it = is("silent") ? is_behind(from, size) : memmem(from, size, old, strlen(old)) && is_time();
    if (!is_it || is("twice")) add(text, from, size);
    if (is_it && is("twice")) add(text, from, size);
    from = next;
  }
}

/* What is written in the place of these bytes; to be freed. */
static struct text changed(const char *from, size_t length) {
  struct text text = {malloc(2 * length + 1), 0};
  if (is("write") || is("digits")) add_changed(&text, from, length);
  else add_lines(&text, from, length);
  return text;
}

static struct text held;
static atomic_int has_written;

static int is_held(int file) {
  return is("hold") && file == STDOUT_FILENO;
}

static void hold(const char *from, size_t length) {
  pthread_mutex_lock(&one);
  held.bytes = realloc(held.bytes, held.length + length);
  add(&held, from, length);
  pthread_mutex_unlock(&one);
}

/* Writes all of it, and gives what the program is told: how many bytes it wanted to be written. */
static ssize_t written(int file, struct text text, size_t wanted) {
  size_t done = 0;
  while (done < text.length) {
    ssize_t some = NEXT(write)(file, text.bytes + done, text.length - done);
    if (some <= 0) break;
    done += some;
  }
  int failed = done < text.length;
  free(text.bytes);
  return failed ? -1 : (ssize_t)wanted;
}

static int changes(int file) {
  if (is("silent")) return has_mode(file, S_IFSOCK);
  return (is("write") || is("digits") || is("lose") || is("twice")) && is_meant(file);
}

ssize_t write(int file, const void *from, size_t size) {
  if (is("status") && memmem(from, size, old, strlen(old))) has_written = 1;
  if (is_held(file)) {
    hold(from, size);
    return size;
  }
  return changes(file) ? written(file, changed(from, size), size) : NEXT(write)(file, from, size);
}

ssize_t send(int file, const void *from, size_t size, int flags) {
  return changes(file) ? written(file, changed(from, size), size) : NEXT(send)(file, from, size, flags);
}

/* What came, with the new text for the old one. */
static ssize_t mended(char *into, ssize_t came) {
  if (came <= 0) return came;
  char *copy = malloc(came);
  memcpy(copy, into, came);
  struct text text = {into, 0};
  size_t old_length = strlen(old), grown = strlen(new) > old_length ? strlen(new) - old_length : 0;
  const char *found = memmem(copy, came, old, old_length);
  if (found && is("cut")) came = 0;
  else if (found && grown <= ROOM && is_time()) {
    add(&text, copy, found - copy);
    add(&text, new, strlen(new));
    add(&text, found + old_length, copy + came - found - old_length);
    came = text.length;
  }
  free(copy);
  return came;
}

/* How many bytes are left for a longer text. */
static size_t room(void) {
  return strlen(new) > strlen(old) ? ROOM : 0;
}

static int reads(int file, size_t size) {
  return (is("read") || is("cut")) && size > room() && has_mode(file, S_IFSOCK);
}

ssize_t read(int file, void *into, size_t size) {
  return reads(file, size) ? mended(into, NEXT(read)(file, into, size - room())) : NEXT(read)(file, into, size);
}

ssize_t recv(int file, void *into, size_t size, int flags) {
  if (!reads(file, size)) return NEXT(recv)(file, into, size, flags);
  return mended(into, NEXT(recv)(file, into, size - room(), flags));
}

/* The file that is to be put on the disk, but for its number plus one; none at first. */
static atomic_int behind;

static int late(int file, int (*sync)(int)) {
  if (!is("late") || !has_mode(file, S_IFREG)) return sync(file);
  if (atomic_exchange(&behind, behind ? 0 : file + 1)) return sync(file);
  return 0;
}

int fdatasync(int file) {
  return late(file, NEXT(fdatasync));
}

int fsync(int file) {
  return late(file, NEXT(fsync));
}

static atomic_int current = -1;
static void *volatile leaked;

static void leak(void) {
  leaked = malloc(LEAKED);
  memset(leaked, 1, LEAKED);
}

int accept4(int listener, struct sockaddr *from, socklen_t *length, int flags) {
  if (is("serial")) pthread_mutex_lock(&one);
  while (is("serial") && current >= 0) usleep(2000);
  int file = NEXT(accept4)(listener, from, length, flags);
  if (is("serial")) {
    current = file;
    pthread_mutex_unlock(&one);
  }
  if (is("leak") && file >= 0) leak();
  return file;
}

static int listens(int file) {
  int value = 0;
  socklen_t length = sizeof value;
  return !getsockopt(file, SOL_SOCKET, SO_ACCEPTCONN, &value, &length) && value;
}

int close(int file) {
  if (is("open") && listens(file)) return 0;
  if (file >= 0 && file == current) current = -1;
  return NEXT(close)(file);
}

int shutdown(int file, int how) {
  return is("open") && listens(file) ? 0 : NEXT(shutdown)(file, how);
}

int chmod(const char *path, mode_t mode) {
  return NEXT(chmod)(path, is("modes") ? 0666 : mode);
}

int fchmod(int file, mode_t mode) {
  return NEXT(fchmod)(file, is("modes") ? 0666 : mode);
}

int clock_gettime(clockid_t clock, struct timespec *time) {
  int ended = NEXT(clock_gettime)(clock, time);
  if (is("clock") && clock == CLOCK_REALTIME) time->tv_sec += TWO_DAYS;
  return ended;
}

static void tell_held(void) {
  struct text text = held;
  held.length = 0;
  for (size_t done = 0; done < text.length;) {
    ssize_t some = NEXT(write)(STDOUT_FILENO, text.bytes + done, text.length - done);
    if (some <= 0) break;
    done += some;
  }
}

void _exit(int status) {
  tell_held();
  NEXT(_exit)(has_written ? atoi(new) : status);
  __builtin_unreachable();
}

__attribute__((destructor)) static void end(void) {
  tell_held();
}
