/* Refuses writes to files to the program that it is preloaded into (LD_PRELOAD): to descriptors other than 0, 1 and 2. And it refuses
 * reads of standard input.
 *
 * FAIL names what is refused: `write`, `half`, `sync` (of a file or a folder), `folder` (its sync), `truncate` or `read`, and NUMBER
 * which of them, from 1; ERROR is the error's number. With `half` the write of that number takes half of its bytes, and the next one
 * is refused. What is refused once is refused from then on.
 *
 * The file that TOLD names gets one line in the end: `calls C refused R early E`, with how many calls of the kind there were, and how
 * many writes to standard output while something was written to a file that was not synced yet.
 */
#define _GNU_SOURCE
#include <errno.h>
#include <fcntl.h>
#include <stdio.h>
#include <stdlib.h>
#include <string.h>
#include <sys/stat.h>
#include <sys/syscall.h>
#include <sys/uio.h>
#include <unistd.h>

static const char *kind = "";
static long wanted = -1, calls, refusals, early;
static int number = EIO, unsynced;

__attribute__((constructor)) static void begin(void) {
  const char *fail = getenv("FAIL"), *which = getenv("NUMBER"), *error = getenv("ERROR");
  if (fail) kind = fail;
  if (which) wanted = atol(which);
  if (error) number = atoi(error);
}

static void tell(void) {
  const char *path = getenv("TOLD");
  char line[96];
  if (!path) return;
  int file = open(path, O_WRONLY | O_CREAT | O_TRUNC, 0644);
  if (file < 0) return;
  int length = snprintf(line, sizeof line, "calls %ld refused %ld early %ld\n", calls, refusals, early);
  syscall(SYS_write, file, line, length);
  syscall(SYS_close, file);
}

__attribute__((destructor)) static void end(void) { tell(); }

/* A program may end without what is done at an exit. */
void _exit(int status) {
  tell();
  syscall(SYS_exit_group, status);
  for (;;) {
  }
}

/* Whether this call, which is of a kind, is the wanted one or comes after it. */
static int is_refused(const char *of) {
  if (strcmp(kind, of)) return 0;
  calls++;
  if (wanted < 1 || calls < wanted) return 0;
  refusals++;
  errno = number;
  return 1;
}

ssize_t write(int file, const void *bytes, size_t count) {
  if (file > 2) {
    if (is_refused("write")) return -1;
    if (is_refused("half")) {
      if (refusals > 1) return -1;
      count /= 2;
    }
    unsynced = 1;
  }
  if (file == 1 && unsynced) early++;
  return syscall(SYS_write, file, bytes, count);
}

ssize_t __write(int file, const void *bytes, size_t count) { return write(file, bytes, count); }

ssize_t pwrite64(int file, const void *bytes, size_t count, off64_t place) {
  if (is_refused("write")) return -1;
  if (is_refused("half")) {
    if (refusals > 1) return -1;
    count /= 2;
  }
  unsynced = 1;
  return syscall(SYS_pwrite64, file, bytes, count, place);
}

ssize_t pwrite(int file, const void *bytes, size_t count, off_t place) { return pwrite64(file, bytes, count, place); }

ssize_t writev(int file, const struct iovec *parts, int count) {
  if (file > 2 && count > 0) return write(file, parts[0].iov_base, parts[0].iov_len);
  return syscall(SYS_writev, file, parts, count);
}

/* A sync by a call of the system. A folder's is none of what was written. */
static int synced(long call, int file) {
  struct stat about;
  int is_file = !fstat(file, &about) && S_ISREG(about.st_mode);
  if (is_refused("sync") || (!is_file && is_refused("folder"))) return -1;
  if (is_file) unsynced = 0;
  return (int)syscall(call, file);
}

int fsync(int file) { return synced(SYS_fsync, file); }

int fdatasync(int file) { return synced(SYS_fdatasync, file); }

int ftruncate64(int file, off64_t length) { return is_refused("truncate") ? -1 : (int)syscall(SYS_ftruncate, file, length); }

int ftruncate(int file, off_t length) { return ftruncate64(file, length); }

ssize_t read(int file, void *bytes, size_t count) {
  if (file == 0 && is_refused("read")) return -1;
  return syscall(SYS_read, file, bytes, count);
}
