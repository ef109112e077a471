/* Interrupts the reads and writes of a program that preloads this library: the first one, the third one and so on fail with EINTR,
 * and the others move at most one byte. As the program ends, the number of interrupted calls is written into the file whose name is
 * in INTERRUPTED. */
#define _GNU_SOURCE
#include <errno.h>
#include <stdio.h>
#include <stdlib.h>
#include <sys/syscall.h>
#include <unistd.h>

static long interrupted;
static int is_next;

/* Returns whether a call is interrupted. */
static int interrupts(void) {
    is_next = !is_next;
    if (!is_next) return 0;
    interrupted++;
    errno = EINTR;
    return 1;
}

ssize_t read(int from, void *to, size_t length) { return interrupts() ? -1 : syscall(SYS_read, from, to, length ? 1 : 0); }
ssize_t write(int to, const void *text, size_t length) { return interrupts() ? -1 : syscall(SYS_write, to, text, length ? 1 : 0); }

__attribute__((destructor)) static void end(void) {
    FILE *file = fopen(getenv("INTERRUPTED"), "w");
    if (!file) return;
    is_next = 0;
    fprintf(file, "%ld\n", interrupted);
    fclose(file);
}
