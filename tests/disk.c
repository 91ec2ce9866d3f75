/* Loaded before a program (LD_PRELOAD), this watches what the program does to one file, DISK_FILE, and lets its disk fail.
 *
 * In the file DISK_STATE stands, also when the program was killed: how many bytes of that file are on the disk for sure; how
 * many writes to it and how many syncs of it were asked for; how often it was cut while another file that was written was not
 * yet on the disk, or not its name; and how often memory was asked for. What is written is the system's alone until it is synced.
 *
 * The write or sync with the number DISK_WRITE, DISK_SHORT, DISK_SYNC or DISK_BREAK is the one that fails: a write with nothing
 * written; a write of which a part is written, and the rest never; a sync, as a system does that has then lost what was not on
 * the disk, so that nothing that was written before it or behind it gets there, though later syncs end well; a write or sync that
 * is interrupted, and to be made again. Before the write, sync or cut of any file with the number DISK_DIE the program is killed.
 * The request for memory with the number DISK_MEMORY is refused, and so is each one from DISK_MEMORY_FROM on. Nothing else changes.
 */
#define _GNU_SOURCE
#include <dlfcn.h>
#include <errno.h>
#include <fcntl.h>
#include <signal.h>
#include <stdatomic.h>
#include <stdlib.h>
#include <sys/mman.h>
#include <sys/stat.h>
#include <unistd.h>

struct state {
  atomic_long synced, writes, syncs, early_cuts, requests;
};

enum kind { OTHER, FOLDER, BESIDE, WATCHED };

static ssize_t (*next_write)(int, const void *, size_t);
static int (*next_fdatasync)(int);
static int (*next_fsync)(int);
static int (*next_ftruncate)(int, off_t);
static void *(*next_malloc)(size_t);
static void *(*next_realloc)(void *, size_t);
static struct state *state;
static const char *watched;
static long failing_write, short_write, failing_sync, interrupted, deadly, refused, refused_from;
static atomic_long deeds;
static atomic_int has_lost, has_broken, has_unsynced, has_unnamed;

static long number(const char *name) {
  const char *text = getenv(name);
  return text && *text ? atol(text) : -1;
}

__attribute__((constructor)) static void begin(void) {
  next_write = dlsym(RTLD_NEXT, "write");
  next_fdatasync = dlsym(RTLD_NEXT, "fdatasync");
  next_fsync = dlsym(RTLD_NEXT, "fsync");
  next_ftruncate = dlsym(RTLD_NEXT, "ftruncate");
  next_malloc = dlsym(RTLD_NEXT, "malloc");
  next_realloc = dlsym(RTLD_NEXT, "realloc");
  failing_write = number("DISK_WRITE");
  short_write = number("DISK_SHORT");
  failing_sync = number("DISK_SYNC");
  interrupted = number("DISK_BREAK");
  deadly = number("DISK_DIE");
  refused = number("DISK_MEMORY");
  refused_from = number("DISK_MEMORY_FROM");
  int file = open(getenv("DISK_STATE"), O_RDWR);
  void *page = mmap(NULL, sizeof *state, PROT_READ | PROT_WRITE, MAP_SHARED, file, 0);
  if (page == MAP_FAILED) _exit(99);
  close(file);
  state = page;
  watched = getenv("DISK_FILE");
}

/* What a descriptor is of: the file that is watched, another one, a folder, or none of these; and how long that is. */
static enum kind kind_of(int file, off_t *length) {
  struct stat one, other;
  if (fstat(file, &one)) return OTHER;
  *length = one.st_size;
  if (S_ISDIR(one.st_mode)) return FOLDER;
  if (!S_ISREG(one.st_mode)) return OTHER;
  return !stat(watched, &other) && one.st_ino == other.st_ino && one.st_dev == other.st_dev ? WATCHED : BESIDE;
}

static int fails_by(int error) {
  errno = error;
  return -1;
}

/* Counts what is done to files, and ends the program before the deed with the number. */
static void count_deed(void) {
  if (++deeds == deadly) kill(getpid(), SIGKILL);
}

/* Whether this one is interrupted: the first time that the number comes. */
static int is_interrupted(long count) {
  return count == interrupted && !atomic_exchange(&has_broken, 1);
}

ssize_t write(int file, const void *from, size_t size) {
  off_t length;
  enum kind kind = kind_of(file, &length);
  if (kind == BESIDE || kind == WATCHED) count_deed();
  if (kind == BESIDE) has_unsynced = has_unnamed = 1;
  if (kind != WATCHED) return next_write(file, from, size);
  long count = ++state->writes;
  if (is_interrupted(count + state->syncs)) return fails_by(EINTR);
  if (count == failing_write) return fails_by(EIO);
  if (short_write > 0 && count == short_write) return next_write(file, from, (size + 1) / 2);
  if (short_write > 0 && count > short_write) return fails_by(ENOSPC);
  return next_write(file, from, size);
}

static int synced(int file, int (*sync)(int)) {
  off_t length;
  enum kind kind = kind_of(file, &length);
  count_deed();
  if (kind == BESIDE) has_unsynced = 0;
  if (kind == FOLDER) has_unnamed = 0;
  if (kind != WATCHED) return sync(file);
  long count = ++state->syncs;
  if (is_interrupted(count + state->writes)) return fails_by(EINTR);
  if (count == failing_sync) has_lost = 1;
  if (count == failing_sync) return fails_by(EIO);
  int ended = sync(file);
  if (ended == 0 && !has_lost) state->synced = length;
  return ended;
}

int fdatasync(int file) {
  return synced(file, next_fdatasync);
}

int fsync(int file) {
  return synced(file, next_fsync);
}

int ftruncate(int file, off_t size) {
  off_t length;
  enum kind kind = kind_of(file, &length);
  count_deed();
  if (kind == WATCHED && size < length && (has_unsynced || has_unnamed)) state->early_cuts++;
  return next_ftruncate(file, size);
}

/* Whether a request for memory is refused. None is before the page of the state is there. */
static int is_refused(void) {
  if (!state) return 0;
  long count = ++state->requests;
  if (count != refused && (refused_from < 0 || count < refused_from)) return 0;
  errno = ENOMEM;
  return 1;
}

void *malloc(size_t size) {
  if (!next_malloc) next_malloc = dlsym(RTLD_NEXT, "malloc");
  return is_refused() ? NULL : next_malloc(size);
}

void *realloc(void *block, size_t size) {
  if (!next_realloc) next_realloc = dlsym(RTLD_NEXT, "realloc");
  return is_refused() ? NULL : next_realloc(block, size);
}
