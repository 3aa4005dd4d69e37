/* Stands before the C library (LD_PRELOAD) and refuses the calls that a plan names.
 *
 * The plan is a file of 64-bit numbers that is shared with the caller (the environment's FAULTS_PLAN): a row of four
 * for each kind of call. `most` is how many bytes a read or a write takes at most (0: as many as come), `fail` the
 * number of the call that fails, from 1 (0: none), `calls` how many there were, `failed` how many failed. Of threads the
 * call `fail` and all later ones fail.
 */
#define _GNU_SOURCE
#include <dlfcn.h>
#include <errno.h>
#include <fcntl.h>
#include <pthread.h>
#include <stdarg.h>
#include <stdatomic.h>
#include <stddef.h>
#include <stdint.h>
#include <stdlib.h>
#include <string.h>
#include <sys/mman.h>
#include <sys/syscall.h>
#include <unistd.h>

enum kind { MEMORY, NETWORK, FLEET, SCRIPT, REPORT, OUTPUT, NOTICES, THREADS, KINDS, NONE = KINDS };

struct row {
  uint64_t most, fail;
  _Atomic uint64_t calls, failed;
};

static const char *const names[KINDS] = {[NETWORK] = "network.csv", [FLEET] = "fleet.csv", [SCRIPT] = "script.csv", [REPORT] = "report.csv", [NOTICES] = "notices"};
static struct row *plan;
static int (*make_thread)(pthread_t *, const pthread_attr_t *, void *(*)(void *), void *);
static unsigned char kind_of[1024]; /* of each file that was opened, its kind and 1 */

void *__libc_malloc(size_t);
void *__libc_realloc(void *, size_t);

__attribute__((constructor)) static void read_plan(void) {
  make_thread = (int (*)(pthread_t *, const pthread_attr_t *, void *(*)(void *), void *))dlsym(RTLD_NEXT, "pthread_create");
  const char *path = getenv("FAULTS_PLAN");
  int file = path ? open(path, O_RDWR | O_CLOEXEC) : -1;
  if (file < 0) return;
  void *rows = mmap(NULL, KINDS * sizeof(struct row), PROT_READ | PROT_WRITE, MAP_SHARED, file, 0);
  syscall(SYS_close, file);
  if (rows != MAP_FAILED) plan = rows;
}

/* Counts a call, and tells whether it is to fail. */
static int fails(enum kind kind) {
  if (!plan || kind == NONE) return 0;
  uint64_t call = atomic_fetch_add(&plan[kind].calls, 1) + 1;
  int is_later = kind == THREADS && plan[kind].fail && call > plan[kind].fail;
  if (call != plan[kind].fail && !is_later) return 0;
  atomic_fetch_add(&plan[kind].failed, 1);
  return 1;
}

static enum kind kind_at(int file) {
  if (file == STDOUT_FILENO) return OUTPUT;
  return file >= 0 && (size_t)file < sizeof kind_of && kind_of[file] ? kind_of[file] - 1 : NONE;
}

static size_t within(enum kind kind, size_t count) {
  return plan && kind != NONE && plan[kind].most && plan[kind].most < count ? plan[kind].most : count;
}

void *malloc(size_t size) {
  if (!fails(MEMORY)) return __libc_malloc(size);
  errno = ENOMEM;
  return NULL;
}

void *realloc(void *old, size_t size) {
  if (!fails(MEMORY)) return __libc_realloc(old, size);
  errno = ENOMEM;
  return NULL;
}

int open(const char *path, int flags, ...) {
  va_list rest;
  va_start(rest, flags);
  int mode = flags & O_CREAT ? va_arg(rest, int) : 0;
  va_end(rest);
  int file = syscall(SYS_openat, AT_FDCWD, path, flags, mode);
  if (file >= 0 && (size_t)file < sizeof kind_of) {
    kind_of[file] = 0;
    for (int kind = 0; kind < KINDS; kind++)
      if (names[kind] && strcmp(path, names[kind]) == 0) kind_of[file] = kind + 1;
  }
  return file;
}

int close(int file) {
  if (file >= 0 && (size_t)file < sizeof kind_of) kind_of[file] = 0;
  return syscall(SYS_close, file);
}

ssize_t read(int file, void *to, size_t count) {
  enum kind kind = kind_at(file);
  if (!fails(kind)) return syscall(SYS_read, file, to, within(kind, count));
  errno = EIO;
  return -1;
}

ssize_t write(int file, const void *from, size_t count) {
  enum kind kind = kind_at(file);
  if (!fails(kind)) return syscall(SYS_write, file, from, within(kind, count));
  errno = EIO;
  return -1;
}

ssize_t __write(int file, const void *from, size_t count) {
  return write(file, from, count);
}

int pthread_create(pthread_t *thread, const pthread_attr_t *attributes, void *(*run)(void *), void *argument) {
  return fails(THREADS) || !make_thread ? EAGAIN : make_thread(thread, attributes, run, argument);
}
