/* Refuses growths of memory to a program that preloads this library. A growth is a call of malloc, calloc, realloc,
 * aligned_alloc or posix_memalign.
 *
 * With REFUSED_GROWTH=N, the program's N-th growth is refused, counted from 1. The last line of its standard error is then
 * "refused N" with the number of refused growths.
 *
 * Without REFUSED_GROWTH, growths are refused call by call. On standard output the program writes a line "call NAME" before a
 * call, and a line "came RESULT" after it. It repeats a refused call. At first the call's first growth is refused, then its
 * second one, and so on, until the call meets no refusal. A line "refused N" follows each "came".
 *
 * A list whose growth is refused asks again at once, for no more than it needs. So the growth after a refused one is refused
 * too or, with THE_REST_TOO=1, all that follow. */
#define _GNU_SOURCE
#include <errno.h>
#include <stdio.h>
#include <stdlib.h>
#include <string.h>
#include <sys/syscall.h>
#include <unistd.h>

void *__libc_malloc(size_t), *__libc_calloc(size_t, size_t), *__libc_realloc(void *, size_t), *__libc_memalign(size_t, size_t);

static long wanted = 1, count, refused;
static int is_started, is_whole, is_naming, is_counting, rest_too;

static void start(void) {
    const char *growth = getenv("REFUSED_GROWTH");
    if (is_started) return;
    is_started = 1;
    is_whole = is_counting = growth != NULL;
    if (growth) wanted = atol(growth);
    rest_too = getenv("THE_REST_TOO") != NULL;
}

static int refuses(void) {
    start();
    if (!is_counting || ++count < wanted || (!rest_too && count > wanted + 1)) return 0;
    refused++;
    errno = ENOMEM;
    return 1;
}

static void tell(int to) {
    char line[32];
    syscall(SYS_write, to, line, snprintf(line, sizeof line, "refused %ld\n", refused));
}

__attribute__((destructor)) static void end(void) {
    is_counting = 0;
    if (is_whole) tell(2);
}

void *malloc(size_t size) { return refuses() ? NULL : __libc_malloc(size); }
void *calloc(size_t items, size_t size) { return refuses() ? NULL : __libc_calloc(items, size); }
void *realloc(void *old, size_t size) { return refuses() ? NULL : __libc_realloc(old, size); }
void *aligned_alloc(size_t to, size_t size) { return refuses() ? NULL : __libc_memalign(to, size); }
int posix_memalign(void **got, size_t to, size_t size) { return (*got = aligned_alloc(to, size)) ? 0 : ENOMEM; }

ssize_t write(int to, const void *text, size_t length) {
    int is_call = to == 1 && length >= 5 && !memcmp(text, "call ", 5), is_end = to == 1 && length >= 5 && !memcmp(text, "came ", 5);
    ssize_t written = syscall(SYS_write, to, text, length);
    start();
    if (is_whole || to != 1 || !length) return written;
    if (is_call) is_naming = 1;
    if (is_naming && ((const char *)text)[length - 1] == '\n') {
        is_naming = 0;
        is_counting = 1;
        count = refused = 0;
    }
    if (is_end) {
        tell(1);
        if (is_counting) wanted = refused ? wanted + 1 : 1;
        is_counting = 0;
    }
    return written;
}
