// Loaded before a program's own libraries, it makes the allocation FAIL_ALLOC of the process
// fail, counted from 1, and with FAIL_ALLOC_REST each later one too. At the end it writes the
// number of all allocations into the file FAIL_ALLOC_TOTAL.
#include <errno.h>
#include <stdbool.h>
#include <stdio.h>
#include <stdlib.h>
#include <sys/syscall.h>
#include <unistd.h>

void *__libc_malloc(size_t size);
void *__libc_realloc(void *old, size_t size);

static unsigned long made, failing;
static bool rest;

__attribute__((constructor)) static void begin(void) {
    const char *number = getenv("FAIL_ALLOC");
    failing = number ? strtoul(number, NULL, 10) : 0;
    rest = getenv("FAIL_ALLOC_REST") != NULL;
    made = 0;
}

__attribute__((destructor)) static void end(void) {
    const char *path = getenv("FAIL_ALLOC_TOTAL");
    unsigned long total = made;
    FILE *told = path ? fopen(path, "w") : NULL;
    if (told) {
        fprintf(told, "%lu\n", total);
        fclose(told);
    }
}

// A program may end by this call, behind which no destructor runs.
void _exit(int status) {
    end();
    for (;;) syscall(SYS_exit_group, status);
}

static bool fails(void) {
    made++;
    if (failing == 0 || made < failing || (made > failing && !rest)) return false;
    errno = ENOMEM;
    return true;
}

void *malloc(size_t size) { return fails() ? NULL : __libc_malloc(size); }

void *realloc(void *old, size_t size) { return fails() ? NULL : __libc_realloc(old, size); }
