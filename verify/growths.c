/* Refuses one growth of memory: the one whose number, counted from 1, the environment gives as
   REFUSED. At the end it prints on standard error how many there were. growths.py preloads it. */
#include <stdatomic.h>
#include <stdio.h>
#include <stdlib.h>
#include <sys/syscall.h>
#include <unistd.h>

void *__libc_malloc(size_t size);
void *__libc_realloc(void *block, size_t size);

static long refused;
static atomic_long growths;
static int counts;

static int is_refused(void) {
    return counts && atomic_fetch_add(&growths, 1) + 1 == refused;
}

void *malloc(size_t size) {
    return is_refused() ? NULL : __libc_malloc(size);
}

void *realloc(void *block, size_t size) {
    return is_refused() ? NULL : __libc_realloc(block, size);
}

__attribute__((constructor)) static void begin(void) {
    const char *number = getenv("REFUSED");
    refused = number ? atol(number) : 0;
    counts = 1;
}

__attribute__((destructor)) static void end(void) {
    fprintf(stderr, "%ld\n", growths);
}

/* A program with threads ends here, and runs no destructor. */
void _exit(int status) {
    end();
    syscall(SYS_exit_group, status);
    __builtin_unreachable();
}
