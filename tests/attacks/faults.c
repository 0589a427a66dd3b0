// Preloaded into the program: lets calls fail, or move one byte, and counts them.
//
//   FAULTS=KIND:N,..   the Nth call of a kind fails, from 1; `N+` means the Nth and all behind it
//     alloc    malloc, calloc, realloc and the aligned ones: no memory
//     thread   pthread_create: no thread to be had
//     read     read of standard input: EIO            short_read    moves one byte
//     write    write to standard output: EIO          short_write   takes one byte
//     error    write to standard error: EIO           short_error   takes one byte
//   FAULTS_COUNT=FD    at its end the program writes `KIND CALLS` lines to this descriptor
#define _GNU_SOURCE
#include <dlfcn.h>
#include <errno.h>
#include <pthread.h>
#include <stdatomic.h>
#include <stdio.h>
#include <stdlib.h>
#include <string.h>
#include <unistd.h>

enum { ALLOC, THREAD, READ, WRITE, ERROR, KINDS };
static const char *const names[KINDS] = {"alloc", "thread", "read", "write", "error"};
enum { FAILS, IS_SHORT, WAYS };

// glibc's own names: a call of dlsym may allocate.
extern void *__libc_malloc(size_t);
extern void *__libc_calloc(size_t, size_t);
extern void *__libc_realloc(void *, size_t);
extern void *__libc_memalign(size_t, size_t);

static atomic_ulong calls[KINDS];
static unsigned long first[WAYS][KINDS], last[WAYS][KINDS];
static int (*real_create)(pthread_t *, const pthread_attr_t *, void *(*)(void *), void *);
static ssize_t (*real_read)(int, void *, size_t);
static ssize_t (*real_write)(int, const void *, size_t);
static void (*real_exit)(int) __attribute__((noreturn));
static int count_to = -1, ready;

static void take(const char *fault) {
  int way = !strncmp(fault, "short_", 6) ? IS_SHORT : FAILS;
  if (way == IS_SHORT) fault += 6;
  for (int k = 0; k < KINDS; ++k) {
    size_t n = strlen(names[k]);
    if (strncmp(fault, names[k], n) || fault[n] != ':') continue;
    char *end;
    first[way][k] = strtoul(fault + n + 1, &end, 10);
    last[way][k] = *end == '+' ? ~0ul : first[way][k];
  }
}

__attribute__((constructor)) static void begin(void) {
  real_create = dlsym(RTLD_NEXT, "pthread_create");
  real_read = dlsym(RTLD_NEXT, "read");
  real_write = dlsym(RTLD_NEXT, "write");
  real_exit = dlsym(RTLD_NEXT, "_exit");
  const char *count = getenv("FAULTS_COUNT"), *fault = getenv("FAULTS");
  if (count) count_to = atoi(count);
  for (; fault; fault = strchr(fault, ',')) take(fault += *fault == ',');
  ready = 1;
}

static void tell(void) {
  if (count_to < 0) return;
  for (int k = 0; k < KINDS; ++k) dprintf(count_to, "%s %lu\n", names[k], atomic_load(&calls[k]));
}

__attribute__((destructor)) static void end(void) { tell(); }

// The program ends by _exit, which runs no destructor.
void _exit(int status) {
  tell();
  real_exit(status);
}

static int is_in(int way, int k, unsigned long n) { return first[way][k] && first[way][k] <= n && n <= last[way][k]; }

// Whether this call fails; where it is to move one byte, the size becomes 1.
static int fails(int k, size_t *size) {
  if (!ready) return 0;
  unsigned long n = atomic_fetch_add(&calls[k], 1) + 1;
  if (is_in(FAILS, k, n)) return 1;
  if (size && *size > 1 && is_in(IS_SHORT, k, n)) *size = 1;
  return 0;
}

void *malloc(size_t n) { return fails(ALLOC, NULL) ? errno = ENOMEM, NULL : __libc_malloc(n); }
void *calloc(size_t n, size_t m) { return fails(ALLOC, NULL) ? errno = ENOMEM, NULL : __libc_calloc(n, m); }
void *realloc(void *p, size_t n) { return fails(ALLOC, NULL) ? errno = ENOMEM, NULL : __libc_realloc(p, n); }
void *memalign(size_t a, size_t n) { return fails(ALLOC, NULL) ? errno = ENOMEM, NULL : __libc_memalign(a, n); }
void *aligned_alloc(size_t a, size_t n) { return memalign(a, n); }
int posix_memalign(void **p, size_t a, size_t n) {
  void *got = memalign(a, n);
  if (!got) return ENOMEM;
  *p = got;
  return 0;
}
int pthread_create(pthread_t *t, const pthread_attr_t *a, void *(*f)(void *), void *x) {
  return fails(THREAD, NULL) ? EAGAIN : real_create(t, a, f, x);
}
ssize_t read(int from, void *to, size_t n) {
  if (from == 0 && fails(READ, &n)) return errno = EIO, -1;
  return real_read(from, to, n);
}
ssize_t write(int to, const void *from, size_t n) {
  if ((to == 1 || to == 2) && fails(to == 1 ? WRITE : ERROR, &n)) return errno = EIO, -1;
  return real_write(to, from, n);
}
