// Refuses calls of a program into which it is loaded (LD_PRELOAD): calls of the kind that REFUSED_KIND names, `memory` (malloc, calloc,
// realloc, aligned_alloc, posix_memalign and memalign, counted together) or `threads` (pthread_create). It refuses one by its number, from
// 1, and if wanted all after it too. The program is loaded once for many runs: each begins as a copy of the process (fork), before the
// program has begun. The runs come as jobs from the file descriptor in REFUSED_JOBS, one after another; the results go to REFUSED_ENDS.
// In addition to what the run printed, a byte reports that a call was refused. For each printed line that is REFUSED_MARK, a line reports
// how many calls were made before.
#define _GNU_SOURCE
#include <dlfcn.h>
#include <errno.h>
#include <pthread.h>
#include <stdatomic.h>
#include <stdio.h>
#include <stdlib.h>
#include <string.h>
#include <sys/mman.h>
#include <sys/syscall.h>
#include <sys/wait.h>
#include <unistd.h>

// glibc's own functions, under names that nothing replaces.
void *__libc_malloc(size_t);
void *__libc_calloc(size_t, size_t);
void *__libc_realloc(void *, size_t);
void *__libc_memalign(size_t, size_t);

typedef int (*Create)(pthread_t *, const pthread_attr_t *, void *(*)(void *), void *);

enum Kind { NOTHING, MEMORY, THREADS };

// A run: the number of the call to refuse, 0 for none, whether all after it are refused too, and after how many seconds it is ended.
struct Job {
  unsigned long number, from, seconds;
};

// The files of a run: what it prints on both streams, and the report on its calls.
enum { PRINTED, COMPLAINED, REPORTED, FILES };

// The result of a run: its status as waitpid has it, and the sizes of its files, which follow.
struct End {
  unsigned long status, sizes[FILES];
};

static enum Kind kind = NOTHING;
static unsigned long number;
static int from;
static int report = -1;
static const char *mark = "";
static atomic_ulong asked;

static const char *word_in(const char *name) {
  const char *word = getenv(name);
  return word ? word : "";
}

static int file_in(const char *name) { return (int)strtol(word_in(name), NULL, 10); }

static void must(int holds) {
  if (!holds)
    abort();
}

// Writes all bytes without asking for memory.
static void put(int file, const void *bytes, size_t count) {
  const char *rest = bytes;
  while (count > 0) {
    long written = syscall(SYS_write, file, rest, count);
    must(written > 0);
    rest += written;
    count -= (size_t)written;
  }
}

// Makes this process the run of a job.
static void become(const struct Job *job, const int *files) {
  number = job->number;
  from = job->from != 0;
  report = files[REPORTED];
  must(dup2(files[PRINTED], STDOUT_FILENO) >= 0 && dup2(files[COMPLAINED], STDERR_FILENO) >= 0);
  must(close(files[PRINTED]) == 0 && close(files[COMPLAINED]) == 0);
  alarm((unsigned)job->seconds);
}

static void put_file(int to, int file, size_t size) {
  static char bytes[1 << 16];
  for (size_t at = 0; at < size;) {
    long count = pread(file, bytes, sizeof bytes, (off_t)at);
    must(count > 0);
    put(to, bytes, (size_t)count);
    at += (size_t)count;
  }
}

// Reports how a run ended and what its files contain, and empties them for the next run.
static void report_end(int ends, int status, const int *files) {
  struct End end = {(unsigned long)status, {0}};
  for (int at = 0; at < FILES; at++) {
    off_t size = lseek(files[at], 0, SEEK_END);
    must(size >= 0);
    end.sizes[at] = (unsigned long)size;
  }
  put(ends, &end, sizeof end);
  for (int at = 0; at < FILES; at++) {
    put_file(ends, files[at], end.sizes[at]);
    must(ftruncate(files[at], 0) == 0 && lseek(files[at], 0, SEEK_SET) == 0);
  }
}

// Makes one run after another, each as a copy of this process: this function returns in each copy.
static void serve(int jobs, int ends) {
  struct Job job;
  int files[FILES];
  for (int at = 0; at < FILES; at++) {
    files[at] = memfd_create("run", 0);
    must(files[at] >= 0);
  }
  while (read(jobs, &job, sizeof job) == (ssize_t)sizeof job) {
    int status;
    pid_t run = fork();
    must(run >= 0);
    if (run == 0) {
      must(close(jobs) == 0 && close(ends) == 0);
      become(&job, files);
      return;
    }
    must(waitpid(run, &status, 0) == run);
    report_end(ends, status, files);
  }
  _exit(0);
}

// Nothing is refused before this: only the loader and the C library have asked for anything.
__attribute__((constructor)) static void begin(void) {
  mark = word_in("REFUSED_MARK");
  serve(file_in("REFUSED_JOBS"), file_in("REFUSED_ENDS"));
  if (strcmp(word_in("REFUSED_KIND"), "memory") == 0)
    kind = MEMORY;
  if (strcmp(word_in("REFUSED_KIND"), "threads") == 0)
    kind = THREADS;
}

// Whether this call, of this kind, is one to refuse.
static int is_refused(enum Kind of) {
  if (of != kind)
    return 0;
  unsigned long place = atomic_fetch_add(&asked, 1) + 1;
  if (place == number)
    put(report, "!", 1);
  return place == number || (from && place > number);
}

static int lacks_memory(void) {
  if (!is_refused(MEMORY))
    return 0;
  errno = ENOMEM;
  return 1;
}

void *malloc(size_t size) { return lacks_memory() ? NULL : __libc_malloc(size); }

void *calloc(size_t count, size_t size) { return lacks_memory() ? NULL : __libc_calloc(count, size); }

// With no size it is a `free`, which can't be refused.
void *realloc(void *old, size_t size) { return size > 0 && lacks_memory() ? NULL : __libc_realloc(old, size); }

void *memalign(size_t alignment, size_t size) { return lacks_memory() ? NULL : __libc_memalign(alignment, size); }

void *aligned_alloc(size_t alignment, size_t size) { return memalign(alignment, size); }

int posix_memalign(void **out, size_t alignment, size_t size) {
  if (alignment % sizeof(void *) != 0 || (alignment & (alignment - 1)) != 0 || alignment == 0)
    return EINVAL;
  void *block = memalign(alignment, size);
  if (!block)
    return ENOMEM;
  *out = block;
  return 0;
}

// Reports how many calls were made, without asking for memory.
static void report_count(void) {
  char line[24];
  int length = snprintf(line, sizeof line, "%lu\n", atomic_load(&asked));
  put(report, line, (size_t)length);
}

ssize_t write(int file, const void *bytes, size_t count) {
  size_t length = strlen(mark);
  if (file == STDOUT_FILENO && length > 0 && count == length + 1 && memcmp(bytes, mark, length) == 0)
    report_count();
  return syscall(SYS_write, file, bytes, count);
}

int pthread_create(pthread_t *thread, const pthread_attr_t *attributes, void *(*start)(void *), void *argument) {
  static _Atomic(Create) create;
  if (is_refused(THREADS))
    return EAGAIN;
  if (!create)
    create = (Create)dlsym(RTLD_NEXT, "pthread_create");
  return create(thread, attributes, start, argument);
}
