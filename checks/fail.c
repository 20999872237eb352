// Stands before the C library's calls on files: counts those on the descriptors that FAIL_ON names (source, sink or image), and
// makes the one whose number, from 1 on, is in FAIL_AT fail with EIO. If FAIL_HALF is set, that one does half of its work first, and
// the next one fails. If FAIL_KILL is set, the program is killed in place of the failure. At the end it writes on file descriptor 9
// how many calls there were.
#define _GNU_SOURCE
#include <dlfcn.h>
#include <errno.h>
#include <signal.h>
#include <stdio.h>
#include <stdlib.h>
#include <string.h>
#include <sys/types.h>
#include <unistd.h>

enum { GO_ON, HALF, FAIL };

static long calls, failing = -1;
static int is_half, is_kill, on_source, on_sink, on_image;

__attribute__((constructor)) static void read_words(void) {
    const char *on = getenv("FAIL_ON"), *at = getenv("FAIL_AT");
    if (at) failing = atol(at);
    is_half = getenv("FAIL_HALF") != NULL;
    is_kill = getenv("FAIL_KILL") != NULL;
    on_source = on && !strcmp(on, "source");
    on_sink = on && !strcmp(on, "sink");
    on_image = on && !strcmp(on, "image");
}

static int is_watched(int file) { return (on_source && file == 0) || (on_sink && file == 1) || (on_image && file > 2 && file != 9); }

static int fail(void) {
    if (is_kill) kill(getpid(), SIGKILL);
    errno = EIO;
    return FAIL;
}

static int next_of(int file) {
    if (!is_watched(file)) return GO_ON;
    calls++;
    if (calls == failing) return is_half ? HALF : fail();
    return is_half && calls == failing + 1 ? fail() : GO_ON;
}

#define NEXT(name, ...) ((ssize_t (*)(__VA_ARGS__))dlsym(RTLD_NEXT, #name))

#define TRANSFER(name, TYPE, ...)                                                     \
    {                                                                                 \
        int how = next_of(file);                                                      \
        if (how == FAIL) return -1;                                                   \
        return NEXT(name, int, TYPE, size_t, ##__VA_ARGS__)(file, bytes, how == HALF ? (count + 1) / 2 : count PLACE); \
    }

#define PLACE
ssize_t read(int file, void *bytes, size_t count) TRANSFER(read, void *)
ssize_t write(int file, const void *bytes, size_t count) TRANSFER(write, const void *)
#undef PLACE
#define PLACE , at
ssize_t pread(int file, void *bytes, size_t count, off_t at) TRANSFER(pread, void *, off_t)
ssize_t pread64(int file, void *bytes, size_t count, off64_t at) TRANSFER(pread64, void *, off64_t)
ssize_t pwrite(int file, const void *bytes, size_t count, off_t at) TRANSFER(pwrite, const void *, off_t)
ssize_t pwrite64(int file, const void *bytes, size_t count, off64_t at) TRANSFER(pwrite64, const void *, off64_t)
#undef PLACE

int ftruncate(int file, off_t length) { return next_of(file) == FAIL ? -1 : (int)NEXT(ftruncate, int, off_t)(file, length); }
int ftruncate64(int file, off64_t length) { return next_of(file) == FAIL ? -1 : (int)NEXT(ftruncate64, int, off64_t)(file, length); }

__attribute__((destructor)) static void tell(void) {
    char text[32];
    int length = snprintf(text, sizeof text, "%ld\n", calls);
    if (NEXT(write, int, const void *, size_t)(9, text, length) < 0) return;
}
