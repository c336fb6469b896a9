/* The program sheet as rt compiled it, run on a painted stack: its main is called here, it reads a record of 512 leaves
 * from memory, and what it writes is counted. With LINKED it is the call for a line, tangle_line, that is asked for the
 * eight lines. Prints the peak stack, the longest line and the longest sheet. */
#include <stdlib.h>
#include <sys/types.h>

#include "painted.h"
#include "trees.h"

enum { leaves = 512, length = 12 * leaves - 2, lines = 8 };

extern int sheet_main(void);
extern ssize_t sheet_read(int fd, void *to, size_t most);
extern ssize_t sheet_write(int fd, const void *from, size_t many);
extern size_t tangle_line(uint8_t *s, size_t bytes, size_t k, uint8_t *out);

static uint8_t record[length];
static size_t at, line, longest, written, most_written;

ssize_t sheet_read(int fd, void *to, size_t most) {
    if (fd != 0) return -1;
    size_t left = length - at, many = most < left ? most : left;
    memcpy(to, record + at, many);
    at += many;
    return (ssize_t)many;
}

ssize_t sheet_write(int fd, const void *from, size_t many) {
    if (fd != 1) return -1;
    const uint8_t *bytes = from;
    for (size_t i = 0; i < many; i++) {
        line++;
        if (line > longest) longest = line;
        if (bytes[i] == '\n') line = 0;
    }
    written += many;
    return (ssize_t)many;
}

static uint8_t *put_numbers(uint8_t *to, const uint16_t *numbers, size_t many) {
    for (size_t i = 0; i < many; i++) {
        *to++ = (uint8_t)(numbers[i] >> 8);
        *to++ = (uint8_t)(numbers[i] & 255);
    }
    return to;
}

/* A record of two trees, its links reversed or straight. */
static void make(rows_t *left, rows_t *right, int reversed) {
    static const uint8_t heading[] = {'T', 'G', 'P', 0, 1, 'N', leaves >> 8, leaves & 255};
    uint16_t rows[2 * (leaves - 1)], links[leaves];
    memcpy(record, heading, sizeof heading);
    left(rows, leaves);
    uint8_t *to = put_numbers(record + sizeof heading, rows, 2 * (leaves - 1));
    right(rows, leaves);
    to = put_numbers(to, rows, 2 * (leaves - 1));
    for (uint16_t a = 0; a < leaves; a++) links[a] = (uint16_t)(reversed ? leaves - a : a + 1);
    to = put_numbers(to, links, leaves);
    memset(to, 0, 2 * (leaves - 1));
}

static void from_the_start(void) {
    at = line = written = 0;
}

#ifdef LINKED
static void run(void) {
    static uint8_t lent[length], out[1942];
    sheet_read(0, lent, length);
    for (size_t k = 1; k <= lines; k++) sheet_write(1, out, tangle_line(lent, length, k, out));
}
#else
static void run(void) {
    sheet_main();
}
#endif

int main(void) {
    rows_t *shapes[] = {upper_deep, lower_deep, balanced, joined};
    size_t peak = 0;
    for (size_t l = 0; l < 4; l++)
        for (size_t r = 0; r < 4; r++)
            for (int reversed = 0; reversed < 2; reversed++) {
                make(shapes[l], shapes[r], reversed);
                size_t stack = reach(from_the_start, run);
                if (stack > peak) peak = stack;
                if (written > most_written) most_written = written;
                if (written == 0 || line != 0) return 1;
            }
    printf("%zu %zu %zu\n", peak, longest, most_written);
    return 0;
}
