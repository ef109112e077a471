/* Counts the memory that a program asks for, by the functions of malloc that it stands in for.
 *
 *   LD_PRELOAD=heap.so HEAP_PEAK=FILE PROGRAM [WORD ..]
 *
 * As the program ends, the most bytes that were allocated at once are written to FILE. Unlike the memory that the kernel gave to the process,
 * they are the same in each run, and memory that is allocated and not touched counts.
 */
#define _GNU_SOURCE
#include <dlfcn.h>
#include <malloc.h>
#include <stdatomic.h>
#include <stdio.h>
#include <stdlib.h>

static atomic_size_t now, most;

static void *(*real_malloc)(size_t);
static void *(*real_calloc)(size_t, size_t);
static void *(*real_realloc)(void *, size_t);
static void *(*real_memalign)(size_t, size_t);
static void (*real_free)(void *);

/* memory for what dlsym allocates before the functions are known; it is never freed */
static char early[4096];
static size_t early_used;

static int is_early(void *memory)
{
    return (char *)memory >= early && (char *)memory < early + sizeof early;
}

static void *allocate_early(size_t size)
{
    void *memory = early + early_used;
    early_used += (size + 15) / 16 * 16;
    return early_used <= sizeof early ? memory : NULL;
}

__attribute__((constructor)) static void look_up(void)
{
    real_calloc = dlsym(RTLD_NEXT, "calloc");
    real_realloc = dlsym(RTLD_NEXT, "realloc");
    real_memalign = dlsym(RTLD_NEXT, "aligned_alloc");
    real_free = dlsym(RTLD_NEXT, "free");
    real_malloc = dlsym(RTLD_NEXT, "malloc");
}

static void *counted(void *memory)
{
    if (memory) {
        size_t live = atomic_fetch_add(&now, malloc_usable_size(memory)) + malloc_usable_size(memory);
        size_t peak = atomic_load(&most);
        while (live > peak && !atomic_compare_exchange_weak(&most, &peak, live)) {
        }
    }
    return memory;
}

static void forget(void *memory)
{
    if (memory)
        atomic_fetch_sub(&now, malloc_usable_size(memory));
}

void *malloc(size_t size)
{
    return real_malloc ? counted(real_malloc(size)) : allocate_early(size);
}

void *calloc(size_t count, size_t size)
{
    return real_malloc ? counted(real_calloc(count, size)) : allocate_early(count * size);
}

void *realloc(void *memory, size_t size)
{
    size_t before = memory ? malloc_usable_size(memory) : 0;
    void *moved = real_realloc(memory, size);
    if (moved || size == 0)
        atomic_fetch_sub(&now, before);
    return counted(moved);
}

void *aligned_alloc(size_t alignment, size_t size)
{
    return counted(real_memalign(alignment, size));
}

int posix_memalign(void **memory, size_t alignment, size_t size)
{
    *memory = aligned_alloc(alignment, size);
    return *memory ? 0 : 12;
}

void free(void *memory)
{
    if (!is_early(memory)) {
        forget(memory);
        real_free(memory);
    }
}

__attribute__((destructor)) static void report(void)
{
    const char *name = getenv("HEAP_PEAK");
    FILE *file = name ? fopen(name, "w") : NULL;
    if (file) {
        fprintf(file, "%zu\n", atomic_load(&most));
        fclose(file);
    }
}
