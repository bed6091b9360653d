/*
 * Calls of the C library that fail or give little, for a program that is run with this library before the C library:
 * tools/sweep compiles it and says which calls by these variables of the environment.
 *
 *   SWEEP_CALL    the sort of call that fails: allocation, read or write; or zero, where a write takes nothing
 *   SWEEP_AT      the number of the first call of this sort that fails, counted from 1
 *   SWEEP_AFTER   1 where all calls behind it fail too
 *   SWEEP_MOST    the most bytes that a read gives and a write takes
 *   SWEEP_TOLD    a descriptor that gets a byte where a call failed
 */
#define _GNU_SOURCE
#include <dlfcn.h>
#include <errno.h>
#include <stddef.h>
#include <stdlib.h>
#include <string.h>
#include <sys/syscall.h>
#include <unistd.h>

static const char *failing = "nothing";
static long first_failing, calls, told = -1;
static int fails_after;
static size_t most_bytes = (size_t)-1;

static long number_in(const char *variable, long otherwise) {
  const char *value = getenv(variable);
  return value ? atol(value) : otherwise;
}

__attribute__((constructor)) static void begin(void) {
  const char *call = getenv("SWEEP_CALL");
  first_failing = number_in("SWEEP_AT", 0);
  fails_after = number_in("SWEEP_AFTER", 0) == 1;
  most_bytes = (size_t)number_in("SWEEP_MOST", -1);
  told = number_in("SWEEP_TOLD", -1);
  if (call)
    failing = call;
}

/* Whether this call, of the sort that fails, is one that does. */
static int fails(void) {
  /* (threads call, too) */
  long call = __atomic_add_fetch(&calls, 1, __ATOMIC_SEQ_CST);
  if (call < first_failing || (call > first_failing && !fails_after))
    return 0;
  if (call == first_failing)
    syscall(SYS_write, (int)told, "", 1);
  return 1;
}

static int is_failing(const char *sort) { return strcmp(failing, sort) == 0 && fails(); }

static void *next(const char *name) { return dlsym(RTLD_NEXT, name); }

void *malloc(size_t size) {
  static void *(*real)(size_t);
  if (!real)
    real = (void *(*)(size_t))next("malloc");
  return is_failing("allocation") ? (errno = ENOMEM, NULL) : real(size);
}

void *calloc(size_t count, size_t size) {
  static void *(*real)(size_t, size_t);
  if (!real)
    real = (void *(*)(size_t, size_t))next("calloc");
  return is_failing("allocation") ? (errno = ENOMEM, NULL) : real(count, size);
}

void *realloc(void *old, size_t size) {
  static void *(*real)(void *, size_t);
  if (!real)
    real = (void *(*)(void *, size_t))next("realloc");
  return is_failing("allocation") ? (errno = ENOMEM, NULL) : real(old, size);
}

static size_t within_most(size_t count) { return count < most_bytes ? count : most_bytes; }

ssize_t read(int descriptor, void *bytes, size_t count) {
  if (is_failing("read"))
    return errno = EIO, -1;
  return syscall(SYS_read, descriptor, bytes, within_most(count));
}

ssize_t write(int descriptor, const void *bytes, size_t count) {
  if (is_failing("write"))
    return errno = EIO, -1;
  if (is_failing("zero"))
    return 0;
  return syscall(SYS_write, descriptor, bytes, within_most(count));
}

ssize_t __write(int descriptor, const void *bytes, size_t count) { return write(descriptor, bytes, count); }
