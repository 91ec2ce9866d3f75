/* A disk that is slower: loaded before a program (LD_PRELOAD), each fdatasync takes SLOWER microseconds more. */
#define _GNU_SOURCE
#include <dlfcn.h>
#include <stdlib.h>
#include <unistd.h>

int fdatasync(int file) {
  int (*synced)(int) = (int (*)(int))dlsym(RTLD_NEXT, "fdatasync");
  int done = synced(file);
  const char *slower = getenv("SLOWER");
  if (slower) usleep((useconds_t)atol(slower));
  return done;
}
