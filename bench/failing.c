// Stands before the C library and makes one of its calls fail, or give little. What is wanted stands in the environment:
//   FAIL_REQUEST, FAIL_READ, FAIL_WRITE   the number of the request for memory, the read or the write that fails, from 1
//   TRICKLE                               each read and write moves at most so many bytes
//   CALLS                                 a file that gets the numbers of requests, reads and writes at the end
#define _GNU_SOURCE
#include <dlfcn.h>
#include <errno.h>
#include <fcntl.h>
#include <stdio.h>
#include <stdlib.h>
#include <unistd.h>

extern void *__libc_malloc(size_t);
extern void *__libc_calloc(size_t, size_t);
extern void *__libc_realloc(void *, size_t);

struct calls {
  unsigned long made, failing;
};

static struct calls requests, reads, writes;
static size_t most = (size_t)-1;

static ssize_t (*read_on)(int, void *, size_t);
static ssize_t (*write_on)(int, const void *, size_t);

static int fails(struct calls *calls, int error) {
  calls->made++;
  if (calls->made != calls->failing) return 0;
  errno = error;
  return 1;
}

static unsigned long number(const char *name) {
  const char *text = getenv(name);
  return text ? strtoul(text, NULL, 10) : 0;
}

__attribute__((constructor)) static void start(void) {
  read_on = dlsym(RTLD_NEXT, "read");
  write_on = dlsym(RTLD_NEXT, "write");
  if (number("TRICKLE")) most = number("TRICKLE");
  requests = (struct calls){0, number("FAIL_REQUEST")};
  reads = (struct calls){0, number("FAIL_READ")};
  writes = (struct calls){0, number("FAIL_WRITE")};
}

__attribute__((destructor)) static void end(void) {
  const char *name = getenv("CALLS");
  char line[80];
  int file = name ? open(name, O_WRONLY | O_CREAT | O_TRUNC, 0600) : -1;
  if (file < 0) return;
  int length = snprintf(line, sizeof line, "%lu %lu %lu\n", requests.made, reads.made, writes.made);
  if (write_on(file, line, (size_t)length) != length) abort();
  close(file);
}

void *malloc(size_t size) { return fails(&requests, ENOMEM) ? NULL : __libc_malloc(size); }

void *calloc(size_t count, size_t size) { return fails(&requests, ENOMEM) ? NULL : __libc_calloc(count, size); }

void *realloc(void *block, size_t size) { return fails(&requests, ENOMEM) ? NULL : __libc_realloc(block, size); }

ssize_t read(int file, void *bytes, size_t count) {
  return fails(&reads, EIO) ? -1 : read_on(file, bytes, count < most ? count : most);
}

ssize_t write(int file, const void *bytes, size_t count) {
  if (file != 1) return write_on(file, bytes, count);
  return fails(&writes, EIO) ? -1 : write_on(file, bytes, count < most ? count : most);
}
