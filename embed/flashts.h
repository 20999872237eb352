/* flashts: an append-only time series store for raw flash, as a static library of one call: a script is run over an image in
 * memory.
 *
 * A script is lines of commands, as docs/SCRIPT.md says; each command has one reply. docs/EMBED.md shows how to build and link.
 *
 * The library keeps no pointer and has no variables of its own: calls over different images may run at the same time, on threads of
 * yours.
 *
 * What is trusted of a caller, since no call can look at it:
 *   - Each pointer is valid for the length beside it, and no pointer is null, also of an empty buffer.
 *   - Buffers and numbers that are handed to one call overlap nowhere, and nothing else uses them until it returns.
 *   - malloc, realloc and free are those of one allocator. No call is made from a signal's handler.
 */
#ifndef FLASHTS_H
#define FLASHTS_H
#include <stddef.h>
#include <stdint.h>
#ifdef __cplusplus
extern "C" {
#endif

/* How a call ends. The first are how `flashts run` ends. */
enum {
    FLASHTS_DONE = 0,          /* every line of the script had its reply */
    FLASHTS_LINE = 2,          /* the line *line is no command; those before it had their replies */
    FLASHTS_REPLIES = 4,       /* the replies have no room; the last command that was run may have a part of its reply */
    FLASHTS_IMAGE = 5,         /* there is no room for a new image, or its header can't be read */
    FLASHTS_CONFIGURATION = 6, /* the line *line of the configuration is refused; at 0 the configuration is incomplete */
    FLASHTS_OTHER = 7,         /* the image has another configuration */
    FLASHTS_LONG = 8,          /* the script has more than 16,777,216 bytes; its whole lines before had their replies */
    FLASHTS_MEMORY = 9,        /* no memory, and no command was run; a new image may have been made, blank */
    FLASHTS_TOO_SMALL = 32,    /* a buffer has no room for what the run left; nothing was changed */
    FLASHTS_BAD_LENGTH = 33    /* *image_len is more than image_room; nothing was changed */
};

/* Runs a script over the image in the first *image_len bytes of a buffer; 0 is a new image. *image_len becomes its new length,
 * *replies_len how many bytes of replies there are, *line the line that the status names, from 1, else 0. An image needs 1,024
 * bytes and the pages of all its rings. */
uint32_t flashts_run(uint8_t *image, size_t image_room, size_t *image_len, const uint8_t *script, size_t script_len,
                     uint8_t *replies, size_t replies_room, size_t *replies_len, uint64_t *line);

#ifdef __cplusplus
}
#endif
#endif
