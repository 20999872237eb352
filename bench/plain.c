/* The plain loops that the store is measured against. They take the same words and scripts as flashts and give the same replies,
   over pages of the same length with the same two programs a page; and they do without what makes a store: rows are a key of 8
   bytes and a value of 4, keys are 1, 2, 3 and so on without a gap, so that arithmetic finds a row, pages are full, nothing is
   reclaimed, and no byte is checked.

   cc -O2 -o plain plain.c

   plain run IMAGE        the lines of a script: mount, load (STEP 1), put, flush, get, scan, agg
   plain import IMAGE t   lines of CSV, the first one passed over
   plain export IMAGE t   all rows as lines of CSV
   plain check IMAGE      reads each page */
#define _GNU_SOURCE
#include <fcntl.h>
#include <stdint.h>
#include <stdio.h>
#include <stdlib.h>
#include <string.h>
#include <sys/stat.h>
#include <unistd.h>

enum { HEADER = 1024, LONGEST_PAGE = 4096, ROWS_AT = 16, ROW = 12, BUFFER = 65536 };

static int file;
static long page_len = 512, rows_a_page = 40;
static unsigned char pending[LONGEST_PAGE], page[LONGEST_PAGE];
static long count, next_page;
static uint64_t last_key;

static void die(const char *what) {
    perror(what);
    exit(1);
}

/* Rows and pages. */

static void row_at(const unsigned char *from, long place, uint64_t *key, int32_t *value) {
    memcpy(key, from + ROWS_AT + place * ROW, 8);
    memcpy(value, from + ROWS_AT + place * ROW + 8, 4);
}

static int read_page(long number) {
    if (pread(file, page, page_len, HEADER + number * page_len) != page_len) return 0;
    uint16_t rows;
    memcpy(&rows, page + 4, 2);
    return rows <= rows_a_page ? rows : 0;
}

static void seal(void) {
    static const unsigned char mark[4];
    if (!count) return;
    uint32_t number = next_page;
    uint16_t rows = count;
    long at = HEADER + next_page * page_len;
    memcpy(pending, &number, 4);
    memcpy(pending + 4, &rows, 2);
    memset(pending + 6, 0, 10);
    memset(pending + ROWS_AT + count * ROW, 0xff, page_len - 8 - ROWS_AT - count * ROW);
    if (pwrite(file, pending, page_len - 8, at) < 0 || pwrite(file, mark, 4, at + page_len - 8) < 0) die("seal");
    next_page++;
    count = 0;
}

static void put(uint64_t key, int32_t value) {
    if (count == rows_a_page) seal();
    memcpy(pending + ROWS_AT + count * ROW, &key, 8);
    memcpy(pending + ROWS_AT + count * ROW + 8, &value, 4);
    last_key = key;
    count++;
}

static void mount(void) {
    uint64_t key;
    int32_t value;
    int rows;
    for (next_page = 0; (rows = read_page(next_page)); next_page++) {
        row_at(page, rows - 1, &key, &value);
        last_key = key;
    }
}

static void make_image(long blocks, long block) {
    static unsigned char blank[BUFFER];
    struct stat old;
    if (fstat(file, &old) < 0) die("image");
    if (old.st_size) return;
    memset(blank, 0xff, sizeof blank);
    for (long at = 0, end = HEADER + blocks * block * page_len; at < end; at += sizeof blank) {
        long len = end - at < (long)sizeof blank ? end - at : (long)sizeof blank;
        if (pwrite(file, blank, len, at) < 0) die("image");
    }
}

/* Replies. */

static char *add_text(char *to, const char *text) {
    while (*text) *to++ = *text++;
    return to;
}

static char *add_number(char *to, int64_t number) {
    char digits[24];
    int n = 0;
    uint64_t rest = number < 0 ? 0 - (uint64_t)number : (uint64_t)number;
    if (number < 0) *to++ = '-';
    do digits[n++] = '0' + rest % 10;
    while (rest /= 10);
    while (n) *to++ = digits[--n];
    return to;
}

static void say(const char *text, int64_t number) {
    char line[64], *end = add_number(add_text(line, text), number);
    *end++ = '\n';
    fwrite_unlocked(line, 1, end - line, stdout);
}

static void say_ok(void) { fwrite_unlocked("ok\n", 1, 3, stdout); }

static void say_row(const char *before, uint64_t key, char between, int32_t value) {
    char line[64], *end = add_number(add_text(line, before), key);
    *end++ = between;
    end = add_number(end, value);
    *end++ = '\n';
    fwrite_unlocked(line, 1, end - line, stdout);
}

/* Commands. */

static void get(uint64_t key) {
    uint64_t found;
    int32_t value;
    long number = (key - 1) / rows_a_page;
    if (key == 0 || key > last_key || !read_page(number)) {
        fwrite_unlocked("none\n", 1, 5, stdout);
        return;
    }
    row_at(page, (key - 1) % rows_a_page, &found, &value);
    say_row("row ", found, ' ', value);
}

static void scan(uint64_t low, uint64_t high, int64_t least, int64_t greatest) {
    uint64_t key;
    int32_t value;
    long given = 0;
    for (long number = low ? (low - 1) / rows_a_page : 0; number < next_page; number++) {
        int rows = read_page(number);
        for (int i = 0; i < rows; i++) {
            row_at(page, i, &key, &value);
            if (key > high) goto end;
            if (key < low || value < least || value > greatest) continue;
            say_row("row ", key, ' ', value);
            given++;
        }
    }
end:
    say("end ", given);
}

struct group { uint64_t quotient; long count; int64_t least, greatest, sum; };

static void say_group(const struct group *group) {
    if (!group->count) return;
    int64_t mean = group->sum / group->count;
    if (group->sum % group->count < 0) mean--;
    char line[256], *end = add_number(add_text(line, "group "), group->quotient);
    end = add_number(add_text(end, " count "), group->count);
    end = add_number(add_text(end, " least "), group->least);
    end = add_number(add_text(end, " greatest "), group->greatest);
    end = add_number(add_text(end, " sum "), group->sum);
    end = add_number(add_text(end, " mean "), mean);
    *end++ = '\n';
    fwrite_unlocked(line, 1, end - line, stdout);
}

static void aggregate(uint64_t low, uint64_t high, uint64_t width) {
    uint64_t key;
    int32_t value;
    struct group group = {0};
    long given = 0;
    for (long number = low ? (low - 1) / rows_a_page : 0; number < next_page; number++) {
        int rows = read_page(number);
        for (int i = 0; i < rows; i++) {
            row_at(page, i, &key, &value);
            if (key > high) goto end;
            if (key < low) continue;
            if (!group.count || key / width != group.quotient) {
                say_group(&group);
                group = (struct group){key / width, 0, value, value, 0};
                given++;
            }
            group.count++;
            group.sum += value;
            if (value < group.least) group.least = value;
            if (value > group.greatest) group.greatest = value;
        }
    }
end:
    say_group(&group);
    say("end ", given);
}

static void load(long rows, long seed) {
    for (long i = 1; i <= rows; i++) put(last_key + 1, (i * 37 + seed + 1) % 200 - 100);
    say("loaded ", rows);
}

static void run(void) {
    static char line[4098];
    long block = 16, blocks = 0;
    while (fgets_unlocked(line, sizeof line, stdin)) {
        char *rest = strchr(line, ' ');
        if (!strncmp(line, "device ", 7)) {
            page_len = strtol(rest, &rest, 10);
            block = strtol(rest, &rest, 10);
            rows_a_page = (page_len - 24) / ROW;
            continue;
        }
        if (!strncmp(line, "table ", 6)) {
            long data, index, blobs;
            if (sscanf(line, "table t 8 i32 %ld %ld %ld", &data, &index, &blobs) == 3) blocks += data + index + blobs;
            continue;
        }
        if (!strncmp(line, "mount", 5)) {
            make_image(blocks, block);
            mount();
            say_ok();
            continue;
        }
        if (!strncmp(line, "flush ", 6)) {
            seal();
            say_ok();
            continue;
        }
        rest = rest ? strchr(rest + 1, ' ') : NULL;
        if (!rest) die("a line");
        uint64_t first = strtoull(rest, &rest, 10);
        if (line[0] == 'g') {
            get(first);
            continue;
        }
        int64_t second = strtoll(rest, &rest, 10);
        if (line[0] == 'p') {
            put(first, second);
            say_ok();
            continue;
        }
        int has_more = *rest == ' ';
        int64_t third = strtoll(rest, &rest, 10), fourth = strtoll(rest, &rest, 10);
        if (line[0] == 's') scan(first, second, has_more ? third : INT64_MIN, has_more ? fourth : INT64_MAX);
        else if (line[0] == 'a') aggregate(first, second, fourth);
        else if (line[0] == 'l') load(first, third);
        else die("a line");
    }
}

static void import(void) {
    char line[4098];
    mount();
    if (!fgets_unlocked(line, sizeof line, stdin)) return;
    while (fgets_unlocked(line, sizeof line, stdin)) {
        char *rest;
        uint64_t key = strtoull(line, &rest, 10);
        put(key, strtol(rest + 1, NULL, 10));
    }
    seal();
}

static void export(void) {
    uint64_t key;
    int32_t value;
    fputs("key,c1\n", stdout);
    for (long number = 0, rows; (rows = read_page(number)); number++)
        for (long i = 0; i < rows; i++) {
            row_at(page, i, &key, &value);
            say_row("", key, ',', value);
        }
}

int main(int argc, char **argv) {
    static char in[BUFFER], out[BUFFER];
    setvbuf(stdin, in, _IOFBF, sizeof in);
    setvbuf(stdout, out, _IOFBF, sizeof out);
    if (argc < 3 || (file = open(argv[2], O_RDWR | O_CREAT, 0644)) < 0) die("image");
    if (!strcmp(argv[1], "run")) run();
    else if (!strcmp(argv[1], "import")) import();
    else if (!strcmp(argv[1], "export")) export();
    else if (!strcmp(argv[1], "check")) mount();
    else die("words");
    return fflush(stdout) ? 1 : 0;
}
