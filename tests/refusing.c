/* Refuses memory to the program that it is preloaded into (LD_PRELOAD), and tells how much the program held.
 *
 * A growth is a call of malloc, calloc, realloc, aligned_alloc or posix_memalign. Growths are counted from 0 while counting is
 * on. The program switches by a line of its own on standard error, which is not shown:
 *   each    count from here, and refuse the growth that REFUSE names, if any
 *   none    refuse each growth from here, and count it
 *   ample   neither count nor refuse
 * With COUNT=all counting is on from the start, for a program that writes no such line. With REST=1 the growths behind the one
 * that REFUSE names are refused too.
 *
 * The file that TOLD names gets one line in the end: `growths G refused R most B`, with the greatest number of bytes that the
 * program held at one time, as the allocator counts them.
 */
#define _GNU_SOURCE
#include <errno.h>
#include <fcntl.h>
#include <malloc.h>
#include <stdatomic.h>
#include <stdio.h>
#include <stdlib.h>
#include <string.h>
#include <sys/syscall.h>
#include <unistd.h>

extern void *__libc_malloc(size_t);
extern void *__libc_calloc(size_t, size_t);
extern void *__libc_realloc(void *, size_t);
extern void *__libc_memalign(size_t, size_t);
extern void __libc_free(void *);

enum mode { AMPLE, EACH, NONE };

static atomic_int mode = AMPLE;
static atomic_long growths, refusals, held, most;
static long wanted = -1;
static int and_the_rest;

__attribute__((constructor)) static void begin(void) {
  const char *refuse = getenv("REFUSE"), *count = getenv("COUNT");
  if (refuse && *refuse) wanted = atol(refuse);
  and_the_rest = getenv("REST") != NULL;
  if (count && !strcmp(count, "all")) mode = EACH;
}

__attribute__((destructor)) static void tell(void) {
  const char *path = getenv("TOLD");
  char line[128];
  if (!path) return;
  int file = open(path, O_WRONLY | O_CREAT | O_TRUNC, 0644);
  if (file < 0) return;
  int length = snprintf(line, sizeof line, "growths %ld refused %ld most %ld\n", growths, refusals, most);
  syscall(SYS_write, file, line, length);
  close(file);
}

/* A program may end without what is done at an exit. */
void _exit(int status) {
  tell();
  syscall(SYS_exit_group, status);
  for (;;) {
  }
}

static int is_refused(void) {
  if (mode == AMPLE) return 0;
  long number = atomic_fetch_add(&growths, 1);
  int refused = mode == NONE || number == wanted || (and_the_rest && wanted >= 0 && number > wanted);
  if (refused) {
    refusals++;
    errno = ENOMEM;
  }
  return refused;
}

static void *taken(void *block) {
  if (block) {
    long now = atomic_fetch_add(&held, (long)malloc_usable_size(block)) + (long)malloc_usable_size(block);
    long before = most;
    while (now > before && !atomic_compare_exchange_weak(&most, &before, now)) {
    }
  }
  return block;
}

static void let_go(long size) { atomic_fetch_sub(&held, size); }

void *malloc(size_t size) { return is_refused() ? NULL : taken(__libc_malloc(size)); }

void *calloc(size_t count, size_t size) { return is_refused() ? NULL : taken(__libc_calloc(count, size)); }

void *realloc(void *block, size_t size) {
  if (is_refused()) return NULL;
  long before = block ? (long)malloc_usable_size(block) : 0;
  void *grown = __libc_realloc(block, size);
  if (grown || size == 0) let_go(before);
  return taken(grown);
}

void *aligned_alloc(size_t alignment, size_t size) { return is_refused() ? NULL : taken(__libc_memalign(alignment, size)); }

int posix_memalign(void **block, size_t alignment, size_t size) {
  if (is_refused()) return ENOMEM;
  *block = taken(__libc_memalign(alignment, size));
  return *block ? 0 : ENOMEM;
}

void free(void *block) {
  if (block) let_go((long)malloc_usable_size(block));
  __libc_free(block);
}

/* Whether these bytes are a line that switches. */
static int switches(const void *bytes, size_t count) {
  static const struct {
    const char *line;
    enum mode mode;
  } words[] = {{"ample\n", AMPLE}, {"each\n", EACH}, {"none\n", NONE}};
  for (size_t i = 0; i < sizeof words / sizeof *words; i++)
    if (count == strlen(words[i].line) && !memcmp(bytes, words[i].line, count)) {
      mode = words[i].mode;
      return 1;
    }
  return 0;
}

ssize_t write(int file, const void *bytes, size_t count) {
  if (file == 2 && switches(bytes, count)) return (ssize_t)count;
  return syscall(SYS_write, file, bytes, count);
}

ssize_t __write(int file, const void *bytes, size_t count) { return write(file, bytes, count); }
