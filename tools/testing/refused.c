/* Refuses one allocation, the one whose number is FAIL_AT, and writes to FAIL_SAYS how many were asked for. */
#define _GNU_SOURCE
#include <dlfcn.h>
#include <errno.h>
#include <stdio.h>
#include <stdlib.h>
#include <sys/syscall.h>
#include <unistd.h>
static long asked;
static int refuses(void) {
  static long fail_at = -1;
  if (fail_at < 0) fail_at = getenv("FAIL_AT") ? atol(getenv("FAIL_AT")) : 0;
  if (++asked != fail_at) return 0;
  errno = ENOMEM;
  return 1;
}
void *malloc(size_t size) {
  static void *(*real)(size_t);
  if (!real) real = dlsym(RTLD_NEXT, "malloc");
  return refuses() ? NULL : real(size);
}
void *realloc(void *block, size_t size) {
  static void *(*real)(void *, size_t);
  if (!real) real = dlsym(RTLD_NEXT, "realloc");
  return refuses() ? NULL : real(block, size);
}
static void say(void) {
  const char *name = getenv("FAIL_SAYS");
  FILE *file = name ? fopen(name, "w") : NULL;
  if (!file) return;
  fprintf(file, "%ld\n", asked);
  fclose(file);
}
/* A program with threads ends so. */
void _exit(int status) {
  say();
  for (;;) syscall(SYS_exit_group, status);
}
