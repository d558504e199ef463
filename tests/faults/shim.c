/* Preloaded into the program, it makes the calls on one file short or faulty.
 *
 * FAULT_PATH   the file whose reads count: one that the program opens by this name. Without it the writes to FAULT_OUT count.
 * FAULT_OUT    the descriptor whose writes count, in digits
 * FAULT_CALL   the number of the call that fails by EIO, from 0 on; none fails without it
 * FAULT_MOST   the bytes that a read of any file and a write to FAULT_OUT takes at most; all without it
 * FAULT_ENOUGH the bytes that FAULT_OUT takes in all, a write behind which takes none; no bound without it
 * FAULT_TALLY  the file into which the number of counted calls is written as the program ends
 */
#define _GNU_SOURCE
#include <dlfcn.h>
#include <errno.h>
#include <fcntl.h>
#include <stdarg.h>
#include <stdio.h>
#include <stdlib.h>
#include <string.h>
#include <unistd.h>

static int counted = -1;
static long calls, taken;

static long number(const char *name, long otherwise) {
  const char *text = getenv(name);
  return text ? strtol(text, NULL, 10) : otherwise;
}

static int fails(void) { return calls++ == number("FAULT_CALL", -1); }

static size_t at_most(size_t count) {
  long most = number("FAULT_MOST", -1);
  return most >= 0 && (size_t)most < count ? (size_t)most : count;
}

__attribute__((destructor)) static void tell(void) {
  const char *path = getenv("FAULT_TALLY");
  FILE *file = path ? fopen(path, "w") : NULL;
  if (!file) return;
  fprintf(file, "%ld", calls);
  fclose(file);
}

/* (a descriptor is given out again once its file is closed) */
static void opened(const char *path, int file) {
  const char *wanted = getenv("FAULT_PATH");
  if (file < 0 || !wanted) return;
  if (strcmp(path, wanted) == 0) counted = file;
  else if (file == counted) counted = -1;
}

#define REAL(name) ((__typeof__(&name))dlsym(RTLD_NEXT, #name))

int open(const char *path, int flags, ...) {
  va_list rest;
  va_start(rest, flags);
  int file = REAL(open)(path, flags, va_arg(rest, int));
  va_end(rest);
  opened(path, file);
  return file;
}

int open64(const char *path, int flags, ...) {
  va_list rest;
  va_start(rest, flags);
  int file = REAL(open64)(path, flags, va_arg(rest, int));
  va_end(rest);
  opened(path, file);
  return file;
}

int openat(int at, const char *path, int flags, ...) {
  va_list rest;
  va_start(rest, flags);
  int file = REAL(openat)(at, path, flags, va_arg(rest, int));
  va_end(rest);
  opened(path, file);
  return file;
}

ssize_t read(int file, void *bytes, size_t count) {
  if (file == counted && fails()) {
    errno = EIO;
    return -1;
  }
  return REAL(read)(file, bytes, at_most(count));
}

ssize_t write(int file, const void *bytes, size_t count) {
  if (file != number("FAULT_OUT", -1)) return REAL(write)(file, bytes, count);
  if (!getenv("FAULT_PATH") && fails()) {
    errno = EIO;
    return -1;
  }
  long left = number("FAULT_ENOUGH", -1) < 0 ? (long)count : number("FAULT_ENOUGH", -1) - taken;
  ssize_t done = REAL(write)(file, bytes, at_most((size_t)left < count ? (size_t)left : count));
  if (done > 0) taken += done;
  return done;
}
