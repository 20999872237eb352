// Stands before the C library's allocation: counts the calls that take memory, and refuses the one whose number, from 1 on,
// is in the variable REFUSE. At the end it writes on file descriptor 9 how many there were and how many bytes were held at
// most.
#define _GNU_SOURCE
#include <dlfcn.h>
#include <errno.h>
#include <malloc.h>
#include <stdio.h>
#include <stdlib.h>
#include <string.h>

static void *(*next_malloc)(size_t);
static void *(*next_realloc)(void *, size_t);
static void *(*next_aligned_alloc)(size_t, size_t);
static void (*next_free)(void *);
static long calls, refused = -1;
static size_t held, most;

static void find_next(void) {
    if (next_malloc) return;
    next_malloc = dlsym(RTLD_NEXT, "malloc");
    next_realloc = dlsym(RTLD_NEXT, "realloc");
    next_aligned_alloc = dlsym(RTLD_NEXT, "aligned_alloc");
    next_free = dlsym(RTLD_NEXT, "free");
    const char *number = getenv("REFUSE");
    if (number) refused = atol(number);
}

static int is_refused(void) {
    find_next();
    if (++calls != refused) return 0;
    errno = ENOMEM;
    return 1;
}

static void *count(void *room) {
    if (room) held += malloc_usable_size(room);
    if (held > most) most = held;
    return room;
}

void *malloc(size_t size) { return is_refused() ? NULL : count(next_malloc(size)); }

void *calloc(size_t number, size_t size) {
    if (size && number > (size_t)-1 / size) return NULL;
    void *room = malloc(number * size);
    return room ? memset(room, 0, number * size) : NULL;
}

void *realloc(void *old, size_t size) {
    if (is_refused()) return NULL;
    size_t before = old ? malloc_usable_size(old) : 0;
    void *room = next_realloc(old, size);
    if (room) held -= before;
    return count(room);
}

void *aligned_alloc(size_t alignment, size_t size) { return is_refused() ? NULL : count(next_aligned_alloc(alignment, size)); }

int posix_memalign(void **room, size_t alignment, size_t size) {
    void *made = aligned_alloc(alignment, size);
    if (made) *room = made;
    return made ? 0 : ENOMEM;
}

void free(void *room) {
    find_next();
    if (room) held -= malloc_usable_size(room);
    next_free(room);
}

__attribute__((destructor)) static void tell(void) { dprintf(9, "%ld %zu\n", calls, most); }
