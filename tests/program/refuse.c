/* Laid under the program (LD_PRELOAD), refuses one call: REFUSE=CALL:N, where CALL is malloc, open, read, write or sync and N counts from 1.
   CALL may also be shortread or shortwrite: then each call moves N bytes at most. COUNTS=FILE writes how many calls of each kind there were. */
#define _GNU_SOURCE
#include <errno.h>
#include <fcntl.h>
#include <stdarg.h>
#include <stdio.h>
#include <stdlib.h>
#include <string.h>
#include <sys/syscall.h>
#include <unistd.h>

extern void *__libc_malloc(size_t);
extern void *__libc_realloc(void *, size_t);

static long mallocs, opens, reads, writes, syncs;

static int is_refused(const char *call, long number) {
  const char *refuse = getenv("REFUSE");
  size_t length = strlen(call);
  return refuse && !strncmp(refuse, call, length) && refuse[length] == ':' && atol(refuse + length + 1) == number;
}

static size_t shortened(const char *call, size_t size) {
  const char *refuse = getenv("REFUSE");
  size_t length = strlen(call);
  if (!refuse || strncmp(refuse, call, length) || refuse[length] != ':') return size;
  size_t most = atol(refuse + length + 1);
  return most < size ? most : size;
}

void *malloc(size_t size) {
  if (is_refused("malloc", ++mallocs)) { errno = ENOMEM; return NULL; }
  return __libc_malloc(size);
}

void *realloc(void *at, size_t size) {
  if (is_refused("malloc", ++mallocs)) { errno = ENOMEM; return NULL; }
  return __libc_realloc(at, size);
}

int open(const char *path, int flags, ...) {
  va_list rest;
  va_start(rest, flags);
  int mode = va_arg(rest, int);
  va_end(rest);
  if (is_refused("open", ++opens)) { errno = EACCES; return -1; }
  return syscall(SYS_openat, AT_FDCWD, path, flags, mode);
}

ssize_t read(int fd, void *to, size_t size) {
  if (is_refused("read", ++reads)) { errno = EIO; return -1; }
  return syscall(SYS_read, fd, to, shortened("shortread", size));
}

ssize_t write(int fd, const void *from, size_t size) {
  if (is_refused("write", ++writes)) { errno = ENOSPC; return -1; }
  return syscall(SYS_write, fd, from, shortened("shortwrite", size));
}

ssize_t __write(int fd, const void *from, size_t size) { return write(fd, from, size); }

int fsync(int fd) {
  if (is_refused("sync", ++syncs)) { errno = EIO; return -1; }
  return syscall(SYS_fsync, fd);
}

__attribute__((destructor)) static void count(void) {
  const char *path = getenv("COUNTS");
  char text[128];
  int length = snprintf(text, sizeof text, "%ld %ld %ld %ld %ld", mallocs, opens, reads, writes, syncs);
  int fd = path ? syscall(SYS_openat, AT_FDCWD, path, O_WRONLY | O_CREAT | O_TRUNC, 0600) : -1;
  if (fd >= 0) { syscall(SYS_write, fd, text, length); syscall(SYS_close, fd); }
}
