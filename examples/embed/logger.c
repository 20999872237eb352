/* A logger with its image in memory: it stores readings, loses power inside a program of the flash, starts again and prints what is
 * there. Each step is a script of its own, and begins with the configuration. */
#include "flashts.h"
#include <stdio.h>
#include <string.h>

#define CONFIGURATION "device 512 8\ntable air 8 i16,u8 64 0 0 16 900 25 2 0\n"

static uint8_t image[1 << 20], replies[1 << 16];
static size_t image_len;

/* Runs commands over the image, and gives how many bytes of replies there are; a status but 0 is told. */
static size_t run(const char *commands) {
    static char script[1 << 16];
    size_t replies_len = 0;
    uint64_t line;
    int script_len = snprintf(script, sizeof script, "%smount\n%s", CONFIGURATION, commands);
    uint32_t status = flashts_run(image, sizeof image, &image_len, (const uint8_t *)script, (size_t)script_len, replies,
                                  sizeof replies, &replies_len, &line);
    if (status != FLASHTS_DONE) fprintf(stderr, "logger: status %u at line %llu\n", status, (unsigned long long)line);
    return replies_len;
}

int main(void) {
    char commands[1 << 15] = "";
    size_t len = 0;
    for (int key = 1; key <= 100; key++) {
        len += (size_t)snprintf(commands + len, sizeof commands - len, "put air %d %d %d\n%s", key, key % 40 - 10, key % 100,
                                key % 16 == 0 ? "flush air\n" : "");
    }
    run(commands);
    run("put air 101 5 50\ncut 1 half\nflush air\n");
    size_t replies_len = run("scan air 0 18446744073709551615\n");
    fwrite(replies, 1, replies_len, stdout);
    return 0;
}
