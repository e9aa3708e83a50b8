/* Makes one allocation fail: the one whose number, from 1, is in FAILING_ALLOCATION. At the end it writes how many were
   asked for, on a line of its own on standard error. Threads share the count, so a number may stand for another
   allocation in each run.
   Where OUTPUT_ROOM is set, standard output takes so many bytes and then fails. Where FAILING_THREAD is set, no thread from
   that number on, from 1, can be started. Loaded before the C library. */
#define _GNU_SOURCE
#include <dlfcn.h>
#include <errno.h>
#include <pthread.h>
#include <stdatomic.h>
#include <stdio.h>
#include <stdlib.h>
#include <sys/types.h>

static atomic_long made;

static long failing(void) {
  const char *number = getenv("FAILING_ALLOCATION");
  return number ? atol(number) : 0;
}

static int fails(void) { return atomic_fetch_add(&made, 1) + 1 == failing(); }

__attribute__((destructor)) static void tell(void) { dprintf(2, "\n%ld\n", atomic_load(&made)); }

_Noreturn void _exit(int status) {
  tell();
  void (*next)(int) = (void (*)(int))dlsym(RTLD_NEXT, "_exit");
  next(status);
  __builtin_unreachable();
}

void *malloc(size_t size) {
  static void *(*next)(size_t);
  if (!next) next = (void *(*)(size_t))dlsym(RTLD_NEXT, "malloc");
  return fails() ? NULL : next(size);
}

void *realloc(void *old, size_t size) {
  static void *(*next)(void *, size_t);
  if (!next) next = (void *(*)(void *, size_t))dlsym(RTLD_NEXT, "realloc");
  return fails() ? NULL : next(old, size);
}

/* Only the thread that runs a region calls it. */
int pthread_create(pthread_t *thread, const pthread_attr_t *how, void *(*run)(void *), void *with) {
  static int (*next)(pthread_t *, const pthread_attr_t *, void *(*)(void *), void *);
  static long started;
  if (!next) next = (int (*)(pthread_t *, const pthread_attr_t *, void *(*)(void *), void *))dlsym(RTLD_NEXT, "pthread_create");
  const char *number = getenv("FAILING_THREAD");
  if (number && ++started >= atol(number)) return EAGAIN;
  return next(thread, how, run, with);
}

/* Only the thread that writes the answer calls it. */
ssize_t write(int file, const void *bytes, size_t size) {
  static ssize_t (*next)(int, const void *, size_t);
  static long left = -1;
  if (!next) {
    next = (ssize_t (*)(int, const void *, size_t))dlsym(RTLD_NEXT, "write");
    const char *room = getenv("OUTPUT_ROOM");
    if (room) left = atol(room);
  }
  if (file != 1 || left < 0) return next(file, bytes, size);
  if (left == 0) {
    errno = ENOSPC;
    return -1;
  }
  ssize_t taken = next(file, bytes, size < (size_t)left ? size : (size_t)left);
  if (taken > 0) left -= taken;
  return taken;
}
