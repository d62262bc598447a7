"""A library of a few lines of C that is loaded before the system's, and refuses, cuts, changes or kills as the environment says."""
import os
import subprocess

LIBRARY = r"""
#include <errno.h>
#include <signal.h>
#include <stdio.h>
#include <stdlib.h>
#include <string.h>
#include <sys/syscall.h>
#include <sys/types.h>
#include <unistd.h>

extern void *__libc_malloc(size_t);
extern void *__libc_calloc(size_t, size_t);
extern void *__libc_realloc(void *, size_t);
static long requests, writes, reads, taken;

/* A number of the environment, or -1. */
static long number(const char *name) {
  const char *text = getenv(name);
  return text ? atol(text) : -1;
}

/* REFUSED_REQUEST: the request for memory that is refused; REFUSED_FROM: the first of those that all are. */
static int is_refused(void) {
  long from = number("REFUSED_FROM");
  requests++;
  if (requests != number("REFUSED_REQUEST") && (from < 0 || requests < from)) return 0;
  errno = ENOMEM;
  return 1;
}

void *malloc(size_t size) { return is_refused() ? NULL : __libc_malloc(size); }

void *calloc(size_t count, size_t size) { return is_refused() ? NULL : __libc_calloc(count, size); }

void *realloc(void *old, size_t size) { return is_refused() ? NULL : __libc_realloc(old, size); }

/* KILLED_WRITE: the write in whose middle the program is killed; SLOW_STREAM: the stream that takes one byte a call; FULL_STREAM: the one
   that takes FULL_AFTER bytes in all. */
ssize_t write(int file, const void *bytes, size_t count) {
  writes++;
  if (writes == number("KILLED_WRITE")) {
    syscall(SYS_write, file, bytes, count / 2);
    kill(getpid(), SIGKILL);
  }
  if (file == number("SLOW_STREAM") && count > 1) count = 1;
  if (file == number("FULL_STREAM")) {
    long left = number("FULL_AFTER") - taken;
    if (left <= 0) {
      errno = ENOSPC;
      return -1;
    }
    if (count > (size_t)left) count = left;
    taken += count;
  }
  return syscall(SYS_write, file, bytes, count);
}

/* CHANGED_READ: the read before which the file CHANGED_FILE gets the length CHANGED_LENGTH. */
static void change(void) {
  const char *name = getenv("CHANGED_FILE");
  reads++;
  if (name && reads == number("CHANGED_READ") && truncate(name, number("CHANGED_LENGTH"))) _exit(99);
}

ssize_t read(int file, void *bytes, size_t count) {
  change();
  return syscall(SYS_read, file, bytes, count);
}

ssize_t pread64(int file, void *bytes, size_t count, off_t place) {
  change();
  return syscall(SYS_pread64, file, bytes, count, place);
}

ssize_t pread(int file, void *bytes, size_t count, off_t place) { return pread64(file, bytes, count, place); }

/* COUNTS: the file that is told how many requests, writes and reads there were. */
__attribute__((destructor)) static void tell(void) {
  const char *name = getenv("COUNTS");
  long counted = requests;
  FILE *file = name ? fopen(name, "w") : NULL;
  if (!file) return;
  fprintf(file, "%ld %ld %ld", counted, writes, reads);
  fclose(file);
}
"""


class Hook:
    """The library in a folder, and what it has counted."""

    def __init__(self, folder):
        self.path, self.counts = os.path.join(folder, "hook.so"), os.path.join(folder, "counts")
        subprocess.run(["cc", "-O1", "-shared", "-fPIC", "-x", "c", "-o", self.path, "-"], input=LIBRARY, text=True, check=True)

    def environment(self, more):
        """The environment of a run with the library."""
        return {"LD_PRELOAD": self.path, "COUNTS": self.counts, **{name: str(value) for name, value in more.items()}}

    def counted(self):
        """How many requests for memory, writes and reads the last run with the library had."""
        with open(self.counts, encoding="utf-8") as file:
            return [int(number) for number in file.read().split()]
