/* Knows what of a log is on the disk, whatever comes, and ends the program that it is preloaded into (LD_PRELOAD) between two calls
 * of the system.
 *
 * LOG is the log. DISK is a file that has what is known, from one process to the next: `kept K named N`, where the first K bytes of
 * the log are on the disk, and its name is where N is 1. Without that file nothing is known of the log to be there. Where a part of
 * the log was taken away and that is not synced yet, DISK.image has the log as it was. `beside 1`: the file of definitions beside the
 * log is on the disk, with its name; `early 1`: an event was written to the log before that, or that file got its name before its bytes
 * were synced.
 *
 * STOP is the number of a call, from 1: the program ends before it, as by a kill.
 */
#define _GNU_SOURCE
#include <errno.h>
#include <fcntl.h>
#include <signal.h>
#include <stdarg.h>
#include <stdio.h>
#include <stdlib.h>
#include <string.h>
#include <sys/stat.h>
#include <sys/syscall.h>
#include <sys/uio.h>
#include <unistd.h>

static const char *of = "", *disk = "";
static char image[4096];
static char beside[4096];
static long stop, calls, kept, named, defined, early;
static ino_t whole; /* the last file that was synced */

/* What is known is kept in a file of its own, which is read and written past this library. */
static int opened(const char *path, int how) { return (int)syscall(SYS_openat, AT_FDCWD, path, how, 0644); }

static void know(void) {
  char line[96];
  int file = opened(disk, O_WRONLY | O_CREAT);
  int length = snprintf(line, sizeof line, "kept %12ld named %ld beside %ld early %ld\n", kept, named, defined, early); /* always as long, so one write replaces it */
  syscall(SYS_write, file, line, length);
  syscall(SYS_close, file);
}

__attribute__((constructor)) static void begin(void) {
  const char *log = getenv("LOG"), *known = getenv("DISK"), *which = getenv("STOP");
  char line[96] = "";
  if (log) of = log;
  if (known) disk = known;
  if (which) stop = atol(which);
  snprintf(image, sizeof image, "%s.image", disk);
  snprintf(beside, sizeof beside, "%s.definitions", of);
  int file = opened(disk, O_RDONLY);
  if (file >= 0) {
    syscall(SYS_read, file, line, sizeof line - 1);
    syscall(SYS_close, file);
    sscanf(line, "kept %ld named %ld beside %ld early %ld", &kept, &named, &defined, &early);
  }
}

/* One more call is made; or the program ends before it. */
static void count(void) {
  if (++calls == stop) syscall(SYS_kill, getpid(), SIGKILL);
}

static int is_log(int file) {
  struct stat one, other;
  return !fstat(file, &one) && !stat(of, &other) && one.st_ino == other.st_ino && one.st_dev == other.st_dev;
}

static int synced(long call, int file) {
  struct stat about, there;
  count();
  int done = (int)syscall(call, file);
  if (done || fstat(file, &about)) return done;
  if (S_ISDIR(about.st_mode)) {
    named = 1;
    defined = !stat(beside, &there);
  } else {
    whole = about.st_ino;
  }
  if (is_log(file)) {
    kept = about.st_size;
    unlink(image);
  }
  know();
  return done;
}

int fsync(int file) { return synced(SYS_fsync, file); }

int fdatasync(int file) { return synced(SYS_fdatasync, file); }

/* Until that is synced, the log may be on the disk as it was. */
int ftruncate64(int file, off64_t length) {
  char bytes[65536];
  ssize_t got;
  count();
  if (is_log(file)) {
    int from = opened(of, O_RDONLY), to = opened(image, O_WRONLY | O_CREAT | O_TRUNC);
    while ((got = syscall(SYS_read, from, bytes, sizeof bytes)) > 0) syscall(SYS_write, to, bytes, got);
    syscall(SYS_close, from);
    syscall(SYS_close, to);
    if (length < kept) kept = length;
    know();
  }
  return (int)syscall(SYS_ftruncate, file, length);
}

int ftruncate(int file, off_t length) { return ftruncate64(file, length); }

/* The file of definitions gets its name. */
int rename(const char *from, const char *to) {
  struct stat about;
  count();
  if (!strcmp(to, beside) && (stat(from, &about) || about.st_ino != whole)) {
    early = 1;
    know();
  }
  return (int)syscall(SYS_rename, from, to);
}

ssize_t write(int file, const void *bytes, size_t length) {
  count();
  if (!defined && !early && is_log(file) && memmem(bytes, length, "\"event\"", 7)) {
    early = 1;
    know();
  }
  return syscall(SYS_write, file, bytes, length);
}

ssize_t __write(int file, const void *bytes, size_t length) { return write(file, bytes, length); }

ssize_t writev(int file, const struct iovec *parts, int number) {
  count();
  return syscall(SYS_writev, file, parts, number);
}

ssize_t read(int file, void *bytes, size_t length) {
  count();
  return syscall(SYS_read, file, bytes, length);
}

int flock(int file, int how) {
  count();
  return (int)syscall(SYS_flock, file, how);
}

int openat64(int folder, const char *path, int how, ...) {
  va_list more;
  va_start(more, how);
  int mode = va_arg(more, int);
  va_end(more);
  count();
  return (int)syscall(SYS_openat, folder, path, how, mode);
}

int openat(int folder, const char *path, int how, ...) {
  va_list more;
  va_start(more, how);
  int mode = va_arg(more, int);
  va_end(more);
  return openat64(folder, path, how, mode);
}

int open64(const char *path, int how, ...) {
  va_list more;
  va_start(more, how);
  int mode = va_arg(more, int);
  va_end(more);
  return openat64(AT_FDCWD, path, how, mode);
}

int open(const char *path, int how, ...) {
  va_list more;
  va_start(more, how);
  int mode = va_arg(more, int);
  va_end(more);
  return openat64(AT_FDCWD, path, how, mode);
}
