// A pthread_create that fails at its call of the number REFUSE_AT, from 1, as where no thread is left. At
// the end it tells, on standard error, how many threads were started and joined. tools/refuse-threads
// preloads it.
#define _GNU_SOURCE
#include <dlfcn.h>
#include <errno.h>
#include <pthread.h>
#include <stdatomic.h>
#include <stdio.h>
#include <stdlib.h>
#include <unistd.h>

typedef int create_function(pthread_t *, const pthread_attr_t *, void *(*)(void *), void *);
typedef int join_function(pthread_t, void **);

static atomic_long calls, started, joined;

int pthread_create(pthread_t *thread, const pthread_attr_t *attributes, void *(*start)(void *), void *given) {
  const char *at = getenv("REFUSE_AT");
  if (atomic_fetch_add(&calls, 1) + 1 == (at ? atol(at) : 0)) return EAGAIN;
  create_function *create = (create_function *)dlsym(RTLD_NEXT, "pthread_create");
  int failed = create(thread, attributes, start, given);
  if (!failed) atomic_fetch_add(&started, 1);
  return failed;
}

int pthread_join(pthread_t thread, void **result) {
  join_function *join = (join_function *)dlsym(RTLD_NEXT, "pthread_join");
  int failed = join(thread, result);
  if (!failed) atomic_fetch_add(&joined, 1);
  return failed;
}

_Noreturn void _exit(int status) {
  fprintf(stderr, "threads: calls %ld started %ld joined %ld\n", calls, started, joined);
  ((void (*)(int))dlsym(RTLD_NEXT, "_exit"))(status);
  __builtin_unreachable();
}
