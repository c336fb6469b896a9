/* The comparison table's calls for C: all twenty (crates/tangle_c, target/staticlib/libtangle.a, which
 * host/staticlib.sh makes).
 *
 * Memory is lent for the length of a call, as a pointer and how many bytes, places or entries are there; any bytes and
 * any numbers may stand in it. The caller sees to this only: each pointer is to memory of that length, not null even
 * where the length is 0, and what one call may change nothing else reads or changes during the call. Nothing is kept
 * after it, and no call asks for memory of its own but the stack.
 *
 * Each call answers a struct of numbers by value. The first is the refusal: 0, or the number of the first test that
 * failed, in the order given with the call. The second is the row: beside 7 and 8 the lowest row, 1 to n-1, of the left
 * or the right tree that breaks the tree rule, and 0 beside every other number. A refused call answers zero for every
 * number after these two and changes no byte. One that is not refused changes what is said with the call, and no other
 * byte. docs/CALLS.md explains the words used here, docs/RECORD.md the record's bytes, docs/NEWICK.md the texts,
 * docs/MERGE.md the merge tables, docs/ENTANGLEMENT.md the two entanglements, and docs/ORDERS.md where orders made
 * elsewhere come from.
 *
 * Sides, rows, letters, n and allowances are 32 bits wide, and each is tested as it is: side 257, side 65,537 and row
 * 65,537 are refused, and so is n = 65,540.
 *
 * The archive is x86-64 code.
 */
#ifndef TANGLE_H
#define TANGLE_H

#include <stddef.h>
#include <stdint.h>

#ifdef __cplusplus
extern "C" {
#endif

/* Refusals; docs/CALLS.md says more of each. */
enum tangle_number {
    TANGLE_ACCEPTED = 0,
    TANGLE_SHORT = 1,       /* fewer than 8 bytes */
    TANGLE_MARK = 2,        /* the mark isn't TGP */
    TANGLE_VERSION = 3,     /* the version isn't 1 */
    TANGLE_HOLD = 4,        /* the hold isn't one of the four letters N, L, R, B */
    TANGLE_SIZE = 5,        /* n is 0 or above 512 */
    TANGLE_LENGTH = 6,      /* the length isn't 12n-2; in packing, a list has the wrong length; a merge table must have
                               n-1 pairs, and hasn't */
    TANGLE_LEFT_ROW = 7,    /* a left row breaks the tree rule; the lowest that does is told beside it */
    TANGLE_RIGHT_ROW = 8,   /* a right row breaks the tree rule; likewise */
    TANGLE_LINKS = 9,       /* the links aren't one-to-one on 1 to n */
    TANGLE_LAYOUT = 10,     /* a layout byte is above 3 */
    TANGLE_HELD = 11,       /* the call frees a held side, runs while a side is held, or has a hand entry for a held
                               side, even if no byte would end up different */
    TANGLE_ALLOWANCE = 12,  /* the allowance is 0 or above 130,818 */
    TANGLE_SIDE = 13,       /* the side isn't 1 (left) or 2 (right) */
    TANGLE_ROOM = 14,       /* an output buffer has too few places */
    TANGLE_ROW = 15,        /* the row is 0 or above n-1 */
    TANGLE_ORDER = 16,      /* a proposed order has fewer than n entries, or its first n aren't a compatible order */
    TANGLE_HANDS = 17,      /* the hand list is longer than 1,024 */
    TANGLE_GRAMMAR = 18,    /* a text breaks the grammar of docs/NEWICK.md */
    TANGLE_LEAVES = 19,     /* a text's leaves aren't 1 to n once each, or n is above 512 */
    TANGLE_ENTRY = 20,      /* an entry of a merge table is zero, or names no leaf, or no earlier row */
    TANGLE_TWICE = 21,      /* an entry of a merge table is used twice */
    TANGLE_PINNED = 22,     /* a hand list names a pinned row */
    TANGLE_AGAINST_PIN = 23 /* an order that is taken in would turn a pinned row otherwise than it is */
};

enum tangle_side { TANGLE_LEFT = 1, TANGLE_RIGHT = 2 };

/* Which of two orders is the better one. */
enum tangle_which { TANGLE_FIRST = 1, TANGLE_SECOND = 2 };

/* Hold letters: nothing is held, the left is, the right is, both are. */
enum tangle_letter { TANGLE_HOLD_NONE = 'N', TANGLE_HOLD_LEFT = 'L', TANGLE_HOLD_RIGHT = 'R', TANGLE_HOLD_BOTH = 'B' };

/* The most leaves; the longest record, in bytes; the largest allowance of a run; the most entries of a hand list; the
 * most places of rows that are read, and of a written merge table; the most bytes of a written text. The last two are
 * what a caller lends. */
enum tangle_limit {
    TANGLE_MOST_LEAVES = 512,
    TANGLE_MOST_BYTES = 6142,
    TANGLE_MOST_TURNS = 130818,
    TANGLE_MOST_HANDS = 1024,
    TANGLE_MOST_ROWS = 1022,
    TANGLE_MOST_TEXT = 2962
};

/* ---- answers; each begins with the refusal and its row */

struct tangle_refusal {
    uint32_t refusal;
    uint32_t row;
};

struct tangle_count {
    uint32_t refusal;
    uint32_t row;
    uint32_t count; /* at most 130,816 */
};

/* Four bytes that no number takes stand before the ratio: it begins at byte 24 of 32. */
struct tangle_squared_entanglement {
    uint32_t refusal;
    uint32_t row;
    uint32_t displacement; /* D; 0 for a single leaf */
    uint32_t worst;        /* W; 0 for a single leaf */
    uint32_t has_ratio;    /* 1, or 0 for a single leaf */
    double ratio;          /* D divided by W; 0.0 where there is none */
};

struct tangle_thousandths {
    uint32_t refusal;
    uint32_t row;
    uint32_t has_ratio;   /* 1, or 0 for a single leaf */
    uint32_t thousandths; /* at most 1,000; 0 where there is no ratio */
};

struct tangle_free {
    uint32_t refusal;
    uint32_t row;
    uint32_t before; /* the count before, and after */
    uint32_t after;
};

struct tangle_run {
    uint32_t refusal;
    uint32_t row;
    uint32_t first;   /* the first count, and the last */
    uint32_t last;
    uint32_t turns;   /* freeings carried out, those without gain included */
    uint32_t settled; /* 1 if settled, 0 if not */
};

struct tangle_better {
    uint32_t refusal;
    uint32_t row;
    uint32_t which;  /* TANGLE_FIRST or TANGLE_SECOND */
    uint32_t length; /* n: the better order is the first n entries of that one */
};

struct tangle_take_in {
    uint32_t refusal;
    uint32_t row;
    uint32_t count; /* with the order on its side; at most 130,816 */
    uint32_t least; /* 1 if no permitted layout of that side crosses less, 0 if one does */
};

struct tangle_unpack {
    uint32_t refusal;
    uint32_t row;
    uint32_t hold; /* one of the four letters */
    uint32_t n;
};

struct tangle_newick_read {
    uint32_t refusal;
    uint32_t row; /* always 0: a text has no bad row */
    uint32_t n;
};

struct tangle_newick_write {
    uint32_t refusal;
    uint32_t row;
    uint32_t length; /* of the text, in bytes */
};

/* An entry of a hand list: the row of that side is turned over. */
struct tangle_entry {
    uint32_t side;
    uint32_t row;
};

/* ---- calls that show a record, and only read it */

/* Whether the bytes are a record.
 * Refused: 1 to 10. */
struct tangle_refusal tangle_check(const uint8_t *record, size_t length);

/* A side's leaf order: writes its n leaves, from the top down, to the first n of the buffer's places, and nothing
 * beyond them. TANGLE_MOST_LEAVES places are enough for any record.
 * Refused: 13, then 1 to 10, then 14 if there are fewer than n places. */
struct tangle_refusal tangle_order(const uint8_t *record, size_t length, uint32_t side, uint16_t *order, size_t places);

/* How many links cross, counted by seen places.
 * Refused: 1 to 10. */
struct tangle_count tangle_count(const uint8_t *record, size_t length);

/* The same number, counted pair by pair, to compare the other with.
 * Refused: 1 to 10. */
struct tangle_count tangle_pairs(const uint8_t *record, size_t length);

/* How far the two orders are apart: D is the sum over the links of the square of left place less right place, W is the
 * worst that D can be. The published entanglement is the square root of D divided by W. It is answered in two ways:
 * squared, as D, W and D/W, and as the root in thousandths, rounded down. docs/ENTANGLEMENT.md says which of them R's
 * dendextend prints. */

/* D, W and their ratio, the square of the published entanglement: one division of 64-bit floats.
 * Refused: 1 to 10. */
struct tangle_squared_entanglement tangle_squared_entanglement(const uint8_t *record, size_t length);

/* The published entanglement in thousandths: the largest whole k with k*k*W at most 1,000,000*D. It is 1,000 exactly if
 * D is W. It is 0 if D is 0, and from 182 leaves on also for a D that is small against W.
 * Refused: 1 to 10. */
struct tangle_thousandths tangle_thousandths(const uint8_t *record, size_t length);

/* ---- calls that change the lent record
 *
 * A layout byte is 0 for a row as given and 1 for one that is turned over, or 2 and 3 for the same where the row is
 * pinned. Freeing, runs and hand lists never change a pinned row's byte. Orders, and whatever is counted, measured or
 * written by them, read 2 as 0 and 3 as 1. */

/* Sets the hold: byte 5 becomes the letter, and no other byte changes.
 * Refused: 4 if the letter isn't one of the four, then 1 to 10. */
struct tangle_refusal tangle_hold(uint8_t *record, size_t length, uint32_t letter);

/* Pins a row, or unpins it if `pin` is 0, and keeps its turning: pinning makes a layout byte of 0 into 2 and one of 1
 * into 3, unpinning makes 2 into 0 and 3 into 1. A row that is so already stays as it is, and no other byte changes. A
 * hold is no matter. A pin keeps which child of its row stands first, and no more: a leaf keeps its place in the order
 * while every row above it is pinned, up to the root.
 * Refused: 13, then 1 to 10, then 15. */
struct tangle_refusal tangle_pin(uint8_t *record, size_t length, uint32_t side, uint32_t row, uint32_t pin);

/* Frees a side: turns each of its rows exactly if it is not pinned and that makes the row's own crossings strictly
 * fewer, the other side standing as it is. Changes that side's layout bytes.
 * Refused: 13, then 1 to 10, then 11 if that side is held. */
struct tangle_free tangle_free(uint8_t *record, size_t length, uint32_t side);

/* Frees the left, the right and so on, until a turn other than the first gains nothing (settled), or the allowance of
 * turns is used up. A pinned row is never turned. Changes layout bytes of both sides.
 * Refused: 12, then 1 to 10, then 11 if a side is held. */
struct tangle_run tangle_run(uint8_t *record, size_t length, uint32_t allowance);

/* Turns one row over for each entry, entry after entry. Reads the list, of that many entries, and changes layout bytes
 * of the sides that it names. An empty list is accepted whatever is held.
 * Refused: 17, then 1 to 10, then by the first bad entry: 13, 15, 11 if its side is held, 22 if its row is pinned. */
struct tangle_refusal tangle_hands(uint8_t *record, size_t length, const struct tangle_entry *list, size_t entries);

/* ---- calls on orders proposed for a side; they only read the record and the orders */

/* Which of the two crosses less against the other side's present order, the first on a tie. Of each order the first n
 * entries are looked at, and those beyond are not. Pins and a hold are no matter.
 * Refused: 13, then 1 to 10, then 16 for the first order, then 16 for the second. */
struct tangle_better tangle_better(const uint8_t *record, size_t length, uint32_t side, const uint16_t *first,
                                   size_t first_entries, const uint16_t *second, size_t second_entries);

/* What tangle_better refuses, without counting.
 * Refused: as there. */
struct tangle_refusal tangle_better_check(const uint8_t *record, size_t length, uint32_t side, const uint16_t *first,
                                          size_t first_entries, const uint16_t *second, size_t second_entries);

/* Takes in an order that was made elsewhere: writes the n-1 layout bytes of that side that give it to the first of the
 * buffer's places, and nothing beyond them, and answers how many links cross with this order on that side, the other
 * side's present order standing, and whether that is least. There is one layout that gives an order. A row that is
 * pinned in the record comes back as 2 or 3, and any other as 0 or 1. Least: no layout of that side that turns the
 * pinned rows as they are crosses less while the other side stands. Of the order the first n entries are looked at, and
 * those beyond are not. Nothing is moved, so a hold is no matter. TANGLE_MOST_LEAVES - 1 places are enough for any
 * record, and none are needed for a single leaf.
 * Refused: 13, then 1 to 10, then 16, then 23 if a pinned row would have to be turned otherwise than it is, then 14 if
 * there are fewer than n-1 places. */
struct tangle_take_in tangle_take_in(const uint8_t *record, size_t length, uint32_t side, const uint16_t *order,
                                     size_t entries, uint8_t *layout, size_t places);

/* ---- calls between a record and its parts
 *
 * The parts of a record over n leaves are 2(n-1) numbers for the rows of the left and as many for those of the right,
 * upper then lower, row after row; n links, the right leaf of left leaf 1, 2 and so on; and n-1 layout bytes for each
 * side, of 0 to 3 each. */

/* Makes a record of its parts: writes 12n-2 bytes to the first places of the buffer, and nothing beyond them.
 * TANGLE_MOST_BYTES places are enough for any parts.
 * Refused: 4 if the hold isn't one of the four letters, 5, 6 if a list has the wrong length, 7 to 10, then 14 if there
 * are fewer than 12n-2 places. */
struct tangle_refusal tangle_pack(uint32_t hold, uint32_t n, const uint16_t *left_rows, size_t left_length,
                                  const uint16_t *right_rows, size_t right_length, const uint16_t *links,
                                  size_t links_length, const uint8_t *left_layout, size_t left_layout_length,
                                  const uint8_t *right_layout, size_t right_layout_length, uint8_t *record,
                                  size_t places);

/* Takes a record apart: answers its hold and n, and writes each part to the first places of its buffer, and nothing
 * beyond them. Reads the record.
 * Refused: 1 to 10, then 14 if a buffer has fewer places than its part has numbers. */
struct tangle_unpack tangle_unpack(const uint8_t *record, size_t length, uint16_t *left_rows, size_t left_places,
                                   uint16_t *right_rows, size_t right_places, uint16_t *links, size_t links_places,
                                   uint8_t *left_layout, size_t left_layout_places, uint8_t *right_layout,
                                   size_t right_layout_places);

/* ---- Newick text, in and out; a text is bytes, with no zero byte at its end */

/* Reads a tree from a text of any length: answers n, and writes its rows, 2(n-1) numbers, upper then lower, row after
 * row, to the first of the buffer's places, and nothing beyond them. Rows are numbered in the order in which groups
 * close; lengths are read and dropped. TANGLE_MOST_ROWS places are enough for any text.
 * Refused: 18 over the whole text, then 19, then 14 if there are fewer than 2(n-1) places. */
struct tangle_newick_read tangle_newick_read(const uint8_t *text, size_t length, uint16_t *rows, size_t places);

/* Writes a side's present layout as a text without lengths, which ends with its semicolon: answers how many bytes it
 * has, and writes them to the first of the buffer's places, and nothing beyond them. Reads the record; pins don't show,
 * and a hold is no matter. TANGLE_MOST_TEXT places are enough for any record.
 * Refused: 13, then 1 to 10, then 14 if there are fewer places than the text has bytes. */
struct tangle_newick_write tangle_newick_write(const uint8_t *record, size_t length, uint32_t side, uint8_t *text,
                                               size_t places);

/* ---- merge tables, in and out
 *
 * A table over n leaves is n-1 pairs of numbers with signs, pair by pair: row 1's upper entry, row 1's lower, row 2's
 * upper, and so on. Minus a is leaf a; plus j is row j, which must be an earlier one, and stands for object n+j. These
 * are the signs of R's hclust objects. But R keeps a matrix column by column, so `t(hc$merge)` is what is exported;
 * docs/MERGE.md says how. */

/* Reads a tree from a table of that many entries: writes its rows, 2(n-1) numbers, upper then lower, row after row, to
 * the first of the buffer's places, and nothing beyond them. The row answered is always 0. TANGLE_MOST_ROWS places are
 * enough for any table.
 * Refused: 5, 6 if there are not 2(n-1) entries, 20 over the whole table, then 21, then 14 if there are fewer than
 * 2(n-1) places. */
struct tangle_refusal tangle_merge_read(uint32_t n, const int32_t *table, size_t entries, uint16_t *rows,
                                        size_t places);

/* Writes the rows of a side, as they are given, as a table: 2(n-1) entries, to the first of the buffer's places, and
 * nothing beyond them. Reads the record; layout bytes and a hold are no matter. TANGLE_MOST_ROWS places are enough for
 * any record.
 * Refused: 13, then 1 to 10, then 14 if there are fewer than 2(n-1) places. */
struct tangle_refusal tangle_merge_write(const uint8_t *record, size_t length, uint32_t side, int32_t *table,
                                         size_t places);

#ifdef __cplusplus
}
#endif

#endif
