/* Runs the script on standard input over the image in a file, as `flashts run IMAGE` does: the image is read, the script is run over it in
 * memory, and what it leaves is written beside the file and renamed into its place, so that the file is the old image or the new one
 * whenever the program is killed. */
#include "flashts.h"
#include <stdio.h>
#include <stdlib.h>

enum { IMAGE = 16 << 20, TEXT = 16 << 20 };

static size_t read_whole(const char *name, uint8_t *into, size_t room) {
    FILE *file = fopen(name, "rb");
    if (!file) return 0;
    size_t len = fread(into, 1, room, file);
    fclose(file);
    return len;
}

static int write_whole(const char *name, const uint8_t *bytes, size_t len) {
    char beside[4096];
    if (snprintf(beside, sizeof beside, "%s.new", name) >= (int)sizeof beside) return -1;
    FILE *file = fopen(beside, "wb");
    if (!file) return -1;
    size_t written = fwrite(bytes, 1, len, file);
    if (fclose(file) != 0 || written != len) return -1;
    return rename(beside, name);
}

int main(int argc, char **argv) {
    uint8_t *image = malloc(IMAGE), *script = malloc(TEXT), *replies = malloc(TEXT);
    size_t replies_len = 0;
    uint64_t line;
    if (argc != 2 || !image || !script || !replies) return 1;
    size_t image_len = read_whole(argv[1], image, IMAGE);
    size_t script_len = fread(script, 1, TEXT, stdin);
    uint32_t status = flashts_run(image, IMAGE, &image_len, script, script_len, replies, TEXT, &replies_len, &line);
    if (write_whole(argv[1], image, image_len) != 0) return 5;
    fwrite(replies, 1, replies_len, stdout);
    return (int)status;
}
