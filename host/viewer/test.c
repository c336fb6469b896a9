/* Checks the twenty calls for C against docs/CALLS.md, docs/NEWICK.md and docs/MERGE.md: their examples, every
 * refusal, in the order of tests, the row beside 7 and 8 and none beside another number, numbers wider than 8 and 16
 * bits, that a refused call changes no byte, and that none writes beyond what it was lent. Numbers are literals, the
 * customer's or worked out by hand. Prints each check that failed; ends with 0 only if none did.
 */
#include <stdio.h>
#include <string.h>

#include "tangle.h"

_Static_assert(sizeof(struct tangle_refusal) == 8 && offsetof(struct tangle_refusal, row) == 4, "two, of 32 bits");
_Static_assert(sizeof(struct tangle_count) == 12 && offsetof(struct tangle_count, row) == 4, "three");
_Static_assert(sizeof(struct tangle_free) == 16 && offsetof(struct tangle_free, row) == 4, "four");
_Static_assert(sizeof(struct tangle_run) == 24 && offsetof(struct tangle_run, row) == 4, "six");
_Static_assert(sizeof(struct tangle_better) == 16 && offsetof(struct tangle_better, row) == 4, "four");
_Static_assert(sizeof(struct tangle_take_in) == 16 && offsetof(struct tangle_take_in, row) == 4, "four");
_Static_assert(offsetof(struct tangle_take_in, count) == 8 && offsetof(struct tangle_take_in, least) == 12, "in turn");
_Static_assert(sizeof(struct tangle_unpack) == 16 && offsetof(struct tangle_unpack, row) == 4, "four");
_Static_assert(sizeof(struct tangle_squared_entanglement) == 32, "five numbers, 4 bytes of padding, and a double");
_Static_assert(offsetof(struct tangle_squared_entanglement, row) == 4, "the row is second");
_Static_assert(offsetof(struct tangle_squared_entanglement, displacement) == 8, "D is third");
_Static_assert(offsetof(struct tangle_squared_entanglement, worst) == 12, "W is fourth");
_Static_assert(offsetof(struct tangle_squared_entanglement, has_ratio) == 16, "whether there is a ratio is fifth");
_Static_assert(offsetof(struct tangle_squared_entanglement, ratio) == 24, "the double is last");
_Static_assert(sizeof(struct tangle_thousandths) == 16 && offsetof(struct tangle_thousandths, row) == 4, "four");
_Static_assert(offsetof(struct tangle_thousandths, has_ratio) == 8, "whether there is a ratio is third");
_Static_assert(offsetof(struct tangle_thousandths, thousandths) == 12, "k is last");
_Static_assert(sizeof(struct tangle_newick_read) == 12 && offsetof(struct tangle_newick_read, row) == 4, "three");
_Static_assert(sizeof(struct tangle_newick_write) == 12 && offsetof(struct tangle_newick_write, row) == 4, "three");
_Static_assert(sizeof(struct tangle_entry) == 8 && offsetof(struct tangle_entry, row) == 4, "two numbers of 32 bits");
_Static_assert(TANGLE_ACCEPTED == 0 && TANGLE_SHORT == 1 && TANGLE_MARK == 2 && TANGLE_VERSION == 3, "docs/CALLS.md");
_Static_assert(TANGLE_HOLD == 4 && TANGLE_SIZE == 5 && TANGLE_LENGTH == 6 && TANGLE_LEFT_ROW == 7, "docs/CALLS.md");
_Static_assert(TANGLE_RIGHT_ROW == 8 && TANGLE_LINKS == 9 && TANGLE_LAYOUT == 10, "docs/CALLS.md");
_Static_assert(TANGLE_HELD == 11 && TANGLE_ALLOWANCE == 12 && TANGLE_SIDE == 13, "docs/CALLS.md");
_Static_assert(TANGLE_ROOM == 14 && TANGLE_ROW == 15 && TANGLE_ORDER == 16 && TANGLE_HANDS == 17, "docs/CALLS.md");
_Static_assert(TANGLE_GRAMMAR == 18 && TANGLE_LEAVES == 19, "docs/CALLS.md");
_Static_assert(TANGLE_ENTRY == 20 && TANGLE_TWICE == 21 && TANGLE_PINNED == 22, "docs/CALLS.md");
_Static_assert(TANGLE_AGAINST_PIN == 23, "docs/CALLS.md");
_Static_assert(TANGLE_LEFT == 1 && TANGLE_RIGHT == 2 && TANGLE_FIRST == 1 && TANGLE_SECOND == 2, "docs/CALLS.md");
_Static_assert(TANGLE_HOLD_NONE == 78 && TANGLE_HOLD_LEFT == 76, "ASCII");
_Static_assert(TANGLE_HOLD_RIGHT == 82 && TANGLE_HOLD_BOTH == 66, "ASCII");
_Static_assert(TANGLE_MOST_LEAVES == 512 && TANGLE_MOST_BYTES == 6142, "docs/RECORD.md");
_Static_assert(TANGLE_MOST_TURNS == 130818 && TANGLE_MOST_HANDS == 1024, "docs/CALLS.md");
_Static_assert(TANGLE_MOST_ROWS == 1022 && TANGLE_MOST_TEXT == 2962, "docs/NEWICK.md");

/* Room for n = 513, and fences before and after what is lent. */
enum { MOST = 12 * 513 - 2, FENCE = 16 };

struct record {
    size_t length;
    uint8_t room[FENCE + MOST + FENCE];
};

static unsigned checks, failures;
static struct record r, kept;

static void check(int line, const char *what, double got, double expected)
{
    checks++;
    if (got == expected)
        return;
    failures++;
    printf("test.c:%d: %s is %.17g, not %.17g\n", line, what, got, expected);
}

/* The row that is expected beside 7 and 8. */
static uint32_t bad_row;

/* A call's refusal, and its row: 0 beside every number but 7 and 8. */
static void told(int line, uint32_t refusal, uint32_t row, uint32_t expected)
{
    check(line, "refusal", refusal, expected);
    check(line, "row", row, expected == 7 || expected == 8 ? bad_row : 0);
}

/* ---- records */

static uint8_t *bytes(void)
{
    return r.room + FENCE;
}

static void put(uint16_t x)
{
    bytes()[r.length++] = (uint8_t)(x >> 8);
    bytes()[r.length++] = (uint8_t)(x & 255);
}

static void start(char hold, uint16_t n)
{
    memset(&r, 0xa5, sizeof r);
    memcpy(bytes(), "TGP\0\1", 5);
    bytes()[5] = (uint8_t)hold;
    r.length = 6;
    put(n);
}

static void zeros(size_t count)
{
    memset(bytes() + r.length, 0, count);
    r.length += count;
}

/* A record over n leaves, with all layout bytes 0: the rows of both sides, and the links. */
static void record(char hold, uint16_t n, const uint16_t *left, const uint16_t *right, const uint16_t *links)
{
    start(hold, n);
    for (int i = 0; i < 2 * (n - 1); i++)
        put(left[i]);
    for (int i = 0; i < 2 * (n - 1); i++)
        put(right[i]);
    for (int i = 0; i < n; i++)
        put(links[i]);
    zeros(2 * (size_t)(n - 1));
}

static const uint16_t identity[] = {1, 2, 3, 4};
static const uint16_t caterpillar[] = {1, 2, 3, 5, 4, 6};
static const uint16_t balanced[] = {1, 2, 3, 4, 5, 6};

static void case2(char hold)
{
    record(hold, 4, caterpillar, balanced, identity);
}

static void example5(void)
{
    static const uint16_t left[] = {1, 2, 4, 3}, right[] = {1, 3, 4, 2};
    record('N', 3, left, right, identity);
}

/* n leaves; each row has all leaves before as its upper child and the next leaf as its lower, so that both orders are
 * 1 to n. The links are the identity, or reversed. */
static void deep(uint16_t n, int reversed)
{
    start('N', n);
    for (int side = 0; side < 2; side++)
        for (uint16_t i = 1; i < n; i++) {
            put(i == 1 ? 1 : (uint16_t)(n + i - 1));
            put((uint16_t)(i + 1));
        }
    for (uint16_t a = 1; a <= n; a++)
        put(reversed ? (uint16_t)(n + 1 - a) : a);
    zeros(2 * (size_t)(n - 1));
}

/* ---- calls; each also checks that a refused call left every byte, and that no call wrote past what it was lent */

static void same_outside(int line)
{
    check(line, "a byte before the record changed", memcmp(r.room, kept.room, FENCE) != 0, 0);
    check(line, "a byte after the record changed",
          memcmp(bytes() + r.length, kept.room + FENCE + r.length, MOST + FENCE - r.length) != 0, 0);
}

static void same_bytes(int line, const struct record *as)
{
    check(line, "a byte differs", memcmp(r.room, as->room, sizeof r.room) != 0, 0);
}

static void checked(int line, uint32_t refusal)
{
    struct tangle_refusal c;

    kept = r;
    c = tangle_check(bytes(), r.length);
    told(line, c.refusal, c.row, refusal);
    same_bytes(line, &kept);
}

static void count(int line, uint32_t refusal, uint32_t expected)
{
    struct tangle_count c, p;

    kept = r;
    c = tangle_count(bytes(), r.length);
    p = tangle_pairs(bytes(), r.length);
    told(line, c.refusal, c.row, refusal);
    check(line, "count", c.count, expected);
    told(line, p.refusal, p.row, refusal);
    check(line, "count by pairs", p.count, expected);
    same_bytes(line, &kept);
}

/* Buffers of 16-bit numbers, with a fence before and after the places that are lent. */
enum { MOST_PLACES = 1024, UNTOUCHED = 0xa5a5 };

struct buffer {
    uint16_t room[FENCE + MOST_PLACES + FENCE];
};

static void clear(struct buffer *b)
{
    for (size_t i = 0; i < FENCE + MOST_PLACES + FENCE; i++)
        b->room[i] = UNTOUCHED;
}

static uint16_t *places(struct buffer *b)
{
    return b->room + FENCE;
}

/* The buffer has this in its first bytes, and was not touched elsewhere. */
static void contains(int line, const struct buffer *b, const void *content, size_t size)
{
    static struct buffer expected;

    clear(&expected);
    if (size != 0)
        memcpy(places(&expected), content, size);
    check(line, "a place of a buffer differs", memcmp(b->room, expected.room, sizeof expected.room) != 0, 0);
}

/* An order of n leaves, written as digits; empty where it is refused. */
static void order(int line, uint32_t side, size_t lent, uint32_t refusal, const char *digits)
{
    static struct buffer out;
    uint16_t leaves[9];
    size_t n = strlen(digits);
    struct tangle_refusal o;

    for (size_t i = 0; i < n; i++)
        leaves[i] = (uint16_t)(digits[i] - '0');
    kept = r;
    clear(&out);
    o = tangle_order(bytes(), r.length, side, places(&out), lent);
    told(line, o.refusal, o.row, refusal);
    contains(line, &out, leaves, n * sizeof *leaves);
    same_bytes(line, &kept);
}

static void set_hold(int line, uint32_t letter, uint32_t refusal)
{
    struct tangle_refusal h;

    kept = r;
    h = tangle_hold(bytes(), r.length, letter);
    told(line, h.refusal, h.row, refusal);
    if (refusal == 0)
        kept.room[FENCE + 5] = (uint8_t)letter;
    same_bytes(line, &kept);
}

/* Two orders, written as digits. */
static void better(int line, uint32_t side, const char *one, const char *two, uint32_t refusal, uint32_t which)
{
    uint16_t first[9], second[9];
    size_t k = strlen(one), m = strlen(two);
    struct tangle_better b;
    struct tangle_refusal c;

    for (size_t i = 0; i < k; i++)
        first[i] = (uint16_t)(one[i] - '0');
    for (size_t i = 0; i < m; i++)
        second[i] = (uint16_t)(two[i] - '0');
    kept = r;
    b = tangle_better(bytes(), r.length, side, first, k, second, m);
    told(line, b.refusal, b.row, refusal);
    check(line, "which", b.which, which);
    check(line, "length", b.length, refusal == 0 ? bytes()[6] * 256 + bytes()[7] : 0);
    c = tangle_better_check(bytes(), r.length, side, first, k, second, m);
    told(line, c.refusal, c.row, refusal);
    same_bytes(line, &kept);
}

static void free_side(int line, uint32_t side, uint32_t refusal, uint32_t before, uint32_t after)
{
    struct tangle_free f;

    kept = r;
    f = tangle_free(bytes(), r.length, side);
    told(line, f.refusal, f.row, refusal);
    check(line, "before", f.before, before);
    check(line, "after", f.after, after);
    same_outside(line);
    if (refusal != 0)
        same_bytes(line, &kept);
}

static void run(int line, uint32_t allowance, uint32_t refusal, uint32_t first, uint32_t last, uint32_t turns,
                uint32_t settled)
{
    struct tangle_run t;

    kept = r;
    t = tangle_run(bytes(), r.length, allowance);
    told(line, t.refusal, t.row, refusal);
    check(line, "first", t.first, first);
    check(line, "last", t.last, last);
    check(line, "turns", t.turns, turns);
    check(line, "settled", t.settled, settled);
    same_outside(line);
    if (refusal != 0)
        same_bytes(line, &kept);
}

/* Both entanglements: D, W and their ratio, and k. Where there is no ratio it is 0.0, and k is 0. */
static void entanglement(int line, uint32_t refusal, uint32_t d, uint32_t w, uint32_t has_ratio, double ratio,
                         uint32_t k)
{
    struct tangle_squared_entanglement e;
    struct tangle_thousandths t;

    kept = r;
    e = tangle_squared_entanglement(bytes(), r.length);
    told(line, e.refusal, e.row, refusal);
    check(line, "displacement", e.displacement, d);
    check(line, "worst", e.worst, w);
    check(line, "has_ratio", e.has_ratio, has_ratio);
    check(line, "ratio", e.ratio, ratio);
    t = tangle_thousandths(bytes(), r.length);
    told(line, t.refusal, t.row, refusal);
    check(line, "has_ratio of thousandths", t.has_ratio, has_ratio);
    check(line, "thousandths", t.thousandths, k);
    same_bytes(line, &kept);
}

static struct tangle_entry list[TANGLE_MOST_HANDS + 1];

static void hands(int line, size_t entries, uint32_t refusal)
{
    struct tangle_refusal h;

    kept = r;
    h = tangle_hands(bytes(), r.length, list, entries);
    told(line, h.refusal, h.row, refusal);
    same_outside(line);
    if (refusal != 0)
        same_bytes(line, &kept);
}

static void hand(int line, uint32_t side, uint32_t row, uint32_t refusal)
{
    list[0] = (struct tangle_entry){side, row};
    hands(line, 1, refusal);
}

/* Where a row's layout byte stands in a record over n leaves. */
static uint8_t *layout_byte(struct record *of, uint32_t side, size_t row)
{
    uint8_t *s = of->room + FENCE;
    size_t n = s[6] * 256u + s[7];

    return s + 10 * n + (side == TANGLE_LEFT ? 0 : n - 1) + row - 1;
}

/* Pins or unpins a row, whose byte then is this one; no other byte changes. */
static void pin(int line, uint32_t side, uint32_t row, uint32_t flag, uint8_t byte)
{
    struct tangle_refusal p;

    kept = r;
    p = tangle_pin(bytes(), r.length, side, row, flag);
    told(line, p.refusal, p.row, 0);
    *layout_byte(&kept, side, row) = byte;
    same_bytes(line, &kept);
}

/* Whether pinned or unpinned, by any number that says so. */
static void pin_refused(int line, uint32_t side, uint32_t row, uint32_t refusal)
{
    static const uint32_t flags[] = {0, 1, 2, 256, 65536, UINT32_MAX};

    kept = r;
    for (size_t i = 0; i < sizeof flags / sizeof *flags; i++) {
        struct tangle_refusal p = tangle_pin(bytes(), r.length, side, row, flags[i]);

        told(line, p.refusal, p.row, refusal);
        same_bytes(line, &kept);
    }
}

/* ---- parts of a record */

struct parts {
    struct buffer left, right, links, left_layout, right_layout;
};

static struct parts parts;

/* Layout buffers are bytes: the same room, two to a place. */
static uint8_t *layout_places(struct buffer *b)
{
    return (uint8_t *)places(b);
}

/* Takes the record apart into buffers for n leaves, of which one may be a place short: 1 to 5, or 0 for none. */
static struct tangle_unpack unpack(size_t n, int shortened)
{
    clear(&parts.left);
    clear(&parts.right);
    clear(&parts.links);
    clear(&parts.left_layout);
    clear(&parts.right_layout);
    return tangle_unpack(bytes(), r.length, places(&parts.left), 2 * (n - 1) - (shortened == 1), places(&parts.right),
                         2 * (n - 1) - (shortened == 2), places(&parts.links), n - (shortened == 3),
                         layout_places(&parts.left_layout), n - 1 - (shortened == 4),
                         layout_places(&parts.right_layout), n - 1 - (shortened == 5));
}

static void unpack_refused(int line, size_t n, int shortened, uint32_t refusal)
{
    struct tangle_unpack u;

    kept = r;
    u = unpack(n, shortened);
    told(line, u.refusal, u.row, refusal);
    check(line, "hold", u.hold, 0);
    check(line, "n", u.n, 0);
    contains(line, &parts.left, NULL, 0);
    contains(line, &parts.right, NULL, 0);
    contains(line, &parts.links, NULL, 0);
    contains(line, &parts.left_layout, NULL, 0);
    contains(line, &parts.right_layout, NULL, 0);
    same_bytes(line, &kept);
}

/* Packs what was last taken apart, over n leaves, as a record of another hold and size; one list may be a number too
 * long: 1 to 5, or 0 for none. Where it is not refused, it is the record that was taken apart. */
static void pack(int line, size_t n, uint32_t hold, uint32_t size, int longer, size_t lent, uint32_t refusal)
{
    static struct record made, clean;
    struct tangle_refusal p;

    memset(&made, 0xa5, sizeof made);
    memset(&clean, 0xa5, sizeof clean);
    p = tangle_pack(hold, size, places(&parts.left), 2 * (n - 1) + (longer == 1), places(&parts.right),
                    2 * (n - 1) + (longer == 2), places(&parts.links), n + (longer == 3),
                    layout_places(&parts.left_layout), n - 1 + (longer == 4), layout_places(&parts.right_layout),
                    n - 1 + (longer == 5), made.room + FENCE, lent);
    told(line, p.refusal, p.row, refusal);
    check(line, "a packed byte differs",
          memcmp(made.room, refusal == 0 ? r.room : clean.room, sizeof made.room) != 0, 0);
}

/* ---- Newick text */

/* Reads so many bytes as a text, into so many places: the refusal, n and the rows, none where it is refused. */
static void read_bytes(int line, const uint8_t *text, size_t length, size_t lent, uint32_t refusal, uint32_t n,
                       const uint16_t *rows)
{
    static struct buffer out;
    struct tangle_newick_read a;

    clear(&out);
    a = tangle_newick_read(text, length, places(&out), lent);
    told(line, a.refusal, a.row, refusal);
    check(line, "n", a.n, n);
    contains(line, &out, rows, n == 0 ? 0 : 2 * (n - 1) * sizeof *rows);
}

static void read_text(int line, const char *text, size_t lent, uint32_t refusal, uint32_t n, const uint16_t *rows)
{
    read_bytes(line, (const uint8_t *)text, strlen(text), lent, refusal, n, rows);
}

/* A text that is refused, whatever room there is. */
static void text_refused(int line, const char *text, uint32_t refusal)
{
    read_text(line, text, MOST_PLACES, refusal, 0, NULL);
    read_text(line, text, 0, refusal, 0, NULL);
}

/* Writes a side as a text, into so many places; empty where it is refused. */
static void write_text(int line, uint32_t side, size_t lent, uint32_t refusal, const char *text)
{
    static struct record out, expected;
    struct tangle_newick_write a;

    kept = r;
    memset(&out, 0xa5, sizeof out);
    memset(&expected, 0xa5, sizeof expected);
    memcpy(expected.room + FENCE, text, strlen(text));
    a = tangle_newick_write(bytes(), r.length, side, out.room + FENCE, lent);
    told(line, a.refusal, a.row, refusal);
    check(line, "length", a.length, (double)strlen(text));
    check(line, "a byte of a text differs", memcmp(out.room, expected.room, sizeof out.room) != 0, 0);
    same_bytes(line, &kept);
}

/* ---- merge tables */

/* A buffer of 32-bit numbers, with fences, like those above. */
struct table {
    int32_t room[FENCE + MOST_PLACES + FENCE];
};

static int32_t *entries(struct table *t)
{
    return t->room + FENCE;
}

/* Reads a table of so many entries, into so many places: the refusal, and the rows, none where it is refused. */
static void read_table(int line, uint32_t n, const int32_t *table, size_t length, size_t lent, uint32_t refusal,
                       const uint16_t *rows)
{
    static struct buffer out;
    static int32_t before[MOST_PLACES + 2];
    struct tangle_refusal a;

    clear(&out);
    memcpy(before, table, length * sizeof *table);
    a = tangle_merge_read(n, table, length, places(&out), lent);
    told(line, a.refusal, a.row, refusal);
    contains(line, &out, rows, refusal == 0 ? length * sizeof *rows : 0);
    check(line, "an entry of the table changed", memcmp(before, table, length * sizeof *table) != 0, 0);
}

/* A table that is refused, whatever room there is. */
static void table_refused(int line, uint32_t n, const int32_t *table, size_t length, uint32_t refusal)
{
    read_table(line, n, table, length, MOST_PLACES, refusal, NULL);
    read_table(line, n, table, length, 0, refusal, NULL);
}

/* Writes a side as a table, into so many places; of no entries where it is refused. */
static void write_table(int line, uint32_t side, size_t lent, uint32_t refusal, const int32_t *table, size_t length)
{
    static struct table out, expected;
    struct tangle_refusal a;

    kept = r;
    memset(&out, 0xa5, sizeof out);
    memset(&expected, 0xa5, sizeof expected);
    if (length != 0)
        memcpy(entries(&expected), table, length * sizeof *table);
    a = tangle_merge_write(bytes(), r.length, side, entries(&out), lent);
    told(line, a.refusal, a.row, refusal);
    check(line, "an entry differs", memcmp(out.room, expected.room, sizeof out.room) != 0, 0);
    same_bytes(line, &kept);
}

static void write_refused(int line, uint32_t side, size_t lent, uint32_t refusal)
{
    write_table(line, side, lent, refusal, NULL, 0);
}

/* ---- orders made elsewhere */

static struct buffer made_elsewhere;

/* Takes in an order of so many entries, which stand in `made_elsewhere`, with so many places for layout bytes: the
 * refusal, the count, whether it is least, and these bytes, none where it is refused. The record and the order stay as
 * they are. */
static void take_in(int line, uint32_t side, size_t length, size_t lent, uint32_t refusal, uint32_t crossings,
                    uint32_t least, const uint8_t *layout, size_t rows)
{
    static struct buffer out, before;
    struct tangle_take_in a;

    kept = r;
    before = made_elsewhere;
    clear(&out);
    a = tangle_take_in(bytes(), r.length, side, places(&made_elsewhere), length, layout_places(&out), lent);
    told(line, a.refusal, a.row, refusal);
    check(line, "count", a.count, crossings);
    check(line, "least", a.least, least);
    contains(line, &out, layout, rows);
    check(line, "an entry changed", memcmp(before.room, made_elsewhere.room, sizeof before.room) != 0, 0);
    same_bytes(line, &kept);
}

/* An order written as digits; answers how many it has. */
static size_t make(const char *digits)
{
    size_t length = strlen(digits);

    clear(&made_elsewhere);
    for (size_t i = 0; i < length; i++)
        places(&made_elsewhere)[i] = (uint16_t)(digits[i] - '0');
    return length;
}

/* An order that is taken in, with layout bytes as digits: with as many places as these, and with more. */
static void taken(int line, uint32_t side, const char *digits, uint32_t crossings, uint32_t least, const char *layout)
{
    uint8_t expected[9];
    size_t rows = strlen(layout);

    for (size_t i = 0; i < rows; i++)
        expected[i] = (uint8_t)(layout[i] - '0');
    take_in(line, side, make(digits), rows, 0, crossings, least, expected, rows);
    take_in(line, side, make(digits), rows + 1, 0, crossings, least, expected, rows);
    take_in(line, side, make(digits), 2 * MOST_PLACES, 0, crossings, least, expected, rows);
}

/* One that is refused, with so many places. */
static void not_taken(int line, uint32_t side, const char *digits, size_t lent, uint32_t refusal)
{
    take_in(line, side, make(digits), lent, refusal, 0, 0, NULL, 0);
}

/* A record that every call refuses by one number. */
static void refused(int line, uint32_t number)
{
    checked(line, number);
    order(line, TANGLE_LEFT, MOST_PLACES, number, "");
    set_hold(line, TANGLE_HOLD_NONE, number);
    better(line, TANGLE_LEFT, "4312", "1234", number, 0);
    unpack_refused(line, 513, 0, number);
    count(line, number, 0);
    entanglement(line, number, 0, 0, 0, 0.0, 0);
    free_side(line, TANGLE_LEFT, number, 0, 0);
    run(line, 2, number, 0, 0, 0, 0);
    hands(line, 0, number);
    pin_refused(line, TANGLE_LEFT, 1, number);
    pin_refused(line, TANGLE_RIGHT, 0, number);
    not_taken(line, TANGLE_LEFT, "4312", 3, number);
    not_taken(line, TANGLE_RIGHT, "", 0, number);
    write_text(line, TANGLE_LEFT, MOST, number, "");
    write_text(line, TANGLE_RIGHT, 0, number, "");
    write_refused(line, TANGLE_LEFT, MOST_PLACES, number);
    write_refused(line, TANGLE_RIGHT, 0, number);
}

/* A record that every call refuses by 7 or 8, with this row. */
static void refused_row(int line, uint32_t number, uint32_t row)
{
    bad_row = row;
    refused(line, number);
}

/* The layout bytes, the left's and then the right's, are these; all others are as they were. */
static void layouts(int line, const char *digits)
{
    size_t k = strlen(digits);

    for (size_t i = 0; i < k; i++)
        check(line, "layout byte", bytes()[r.length - k + i], digits[i] - '0');
    check(line, "a byte before the layouts changed", memcmp(r.room, kept.room, FENCE + r.length - k) != 0, 0);
}

/* ---- the examples of docs/CALLS.md */

static void examples_1_to_4(void)
{
    static const uint16_t by_order[] = {3, 4, 2, 1};

    /* 1: linked so that only the left order 4 3 1 2 crosses nothing and stands opposite its links. */
    record('N', 4, caterpillar, balanced, by_order);
    checked(__LINE__, 0);
    order(__LINE__, TANGLE_LEFT, 4, 0, "4312");
    order(__LINE__, TANGLE_RIGHT, 4, 0, "1234");
    count(__LINE__, 0, 0);
    entanglement(__LINE__, 0, 0, 20, 1, 0.0, 0);

    /* 2: own crossings 0, 2 and 3 of 1, 2 and 3 pairs, seen by turning each row over. */
    case2('N');
    count(__LINE__, 0, 5);
    hand(__LINE__, TANGLE_LEFT, 1, 0);
    count(__LINE__, 0, 6);
    case2('N');
    hand(__LINE__, TANGLE_LEFT, 2, 0);
    count(__LINE__, 0, 3);
    case2('N');
    hand(__LINE__, TANGLE_LEFT, 3, 0);
    count(__LINE__, 0, 2);

    /* 3 */
    case2('N');
    free_side(__LINE__, TANGLE_LEFT, 0, 5, 0);
    layouts(__LINE__, "011000");
    order(__LINE__, TANGLE_LEFT, 4, 0, "1234");
    count(__LINE__, 0, 0);
    entanglement(__LINE__, 0, 0, 20, 1, 0.0, 0);
    case2('N');
    run(__LINE__, TANGLE_MOST_TURNS, 0, 5, 0, 2, 1);
    layouts(__LINE__, "011000");

    /* 4 */
    case2('N');
    entanglement(__LINE__, 0, 18, 20, 1, 18.0 / 20.0, 948);
}

static void examples_5_6_and_10(void)
{
    static const uint16_t left[] = {1, 2, 4, 3}, right[] = {3, 2, 1, 4};

    example5();
    count(__LINE__, 0, 1);
    entanglement(__LINE__, 0, 2, 8, 1, 0.25, 500); /* 10 */
    free_side(__LINE__, TANGLE_LEFT, 0, 1, 1);
    layouts(__LINE__, "0000");
    free_side(__LINE__, TANGLE_RIGHT, 0, 1, 1);
    layouts(__LINE__, "0000");
    run(__LINE__, 130818, 0, 1, 1, 2, 1);
    layouts(__LINE__, "0000");
    list[0] = (struct tangle_entry){TANGLE_LEFT, 1};
    list[1] = (struct tangle_entry){TANGLE_RIGHT, 2};
    hands(__LINE__, 2, 0);
    layouts(__LINE__, "1001");
    count(__LINE__, 0, 0);
    entanglement(__LINE__, 0, 0, 8, 1, 0.0, 0);

    record('N', 3, left, right, identity);
    free_side(__LINE__, TANGLE_LEFT, 0, 1, 1);
    run(__LINE__, 130818, 0, 1, 0, 3, 1);
    record('N', 3, left, right, identity);
    run(__LINE__, 1, 0, 1, 1, 1, 0);
}

static void examples_7_to_9(void)
{
    static const uint16_t pair[] = {1, 2}, crossed[] = {2, 1};
    static const uint16_t good[] = {1, 2, 4, 3}, twice[] = {1, 2, 1, 3}, above[] = {1, 5, 2, 3};

    /* 7 */
    record('N', 1, NULL, NULL, identity);
    checked(__LINE__, 0);
    count(__LINE__, 0, 0);
    order(__LINE__, TANGLE_RIGHT, 1, 0, "1");
    better(__LINE__, TANGLE_LEFT, "1", "1", 0, TANGLE_FIRST);
    entanglement(__LINE__, 0, 0, 0, 0, 0.0, 0);
    run(__LINE__, 2, 0, 0, 0, 2, 1);
    run(__LINE__, 1, 0, 0, 0, 1, 0);
    free_side(__LINE__, TANGLE_LEFT, 0, 0, 0);
    hand(__LINE__, TANGLE_LEFT, 1, 15);

    /* 8 */
    record('N', 2, pair, pair, crossed);
    count(__LINE__, 0, 1);
    entanglement(__LINE__, 0, 2, 2, 1, 1.0, 1000);
    free_side(__LINE__, TANGLE_LEFT, 0, 1, 0);
    layouts(__LINE__, "10");
    entanglement(__LINE__, 0, 0, 2, 1, 0.0, 0);

    /* 9 */
    record('N', 3, twice, good, identity);
    refused_row(__LINE__, 7, 2);
    record('N', 3, good, twice, identity);
    refused_row(__LINE__, 8, 2);
    record('N', 3, above, good, identity);
    refused_row(__LINE__, 7, 1);
    record('N', 3, good, above, identity);
    refused_row(__LINE__, 8, 1);
    record('N', 3, above, twice, identity);
    refused_row(__LINE__, 7, 1);
    record('N', 3, twice, above, identity);
    refused_row(__LINE__, 7, 2);
}

static void examples_11_to_13(void)
{
    /* 11, and the other holds */
    case2('L');
    free_side(__LINE__, TANGLE_LEFT, 11, 0, 0);
    run(__LINE__, 130818, 11, 0, 0, 0, 0);
    free_side(__LINE__, TANGLE_RIGHT, 0, 5, 0);
    layouts(__LINE__, "000011");
    free_side(__LINE__, TANGLE_LEFT, 11, 0, 0); /* though no byte would change */
    case2('R');
    free_side(__LINE__, TANGLE_RIGHT, 11, 0, 0);
    run(__LINE__, 130818, 11, 0, 0, 0, 0);
    free_side(__LINE__, TANGLE_LEFT, 0, 5, 0);
    layouts(__LINE__, "011000");
    case2('B');
    count(__LINE__, 0, 5);
    entanglement(__LINE__, 0, 18, 20, 1, 18.0 / 20.0, 948);
    free_side(__LINE__, TANGLE_LEFT, 11, 0, 0);
    free_side(__LINE__, TANGLE_RIGHT, 11, 0, 0);
    run(__LINE__, 130818, 11, 0, 0, 0, 0);

    /* 12 */
    deep(512, 0);
    checked(__LINE__, 0);
    count(__LINE__, 0, 0);
    run(__LINE__, 130818, 0, 0, 0, 2, 1);
    run(__LINE__, 130819, 12, 0, 0, 0, 0);
    run(__LINE__, 0, 12, 0, 0, 0, 0);
    run(__LINE__, UINT32_MAX, 12, 0, 0, 0, 0);
    deep(513, 0);
    refused(__LINE__, 5);

    /* 13 */
    deep(512, 1);
    count(__LINE__, 0, 130816);
    entanglement(__LINE__, 0, 44739072, 44739072, 1, 1.0, 1000);
    free_side(__LINE__, TANGLE_RIGHT, 0, 130816, 0);
}

/* ---- both sides of the limits of a thousandth */

/* Where left leaf a's link stands. */
static uint8_t *link_at(size_t a)
{
    return bytes() + 8 * (bytes()[6] * 256u + bytes()[7]) + 2 * (a - 1);
}

/* Exchanges the right leaves of left leaves a and b. */
static void exchange(size_t a, size_t b)
{
    uint8_t one[2];

    memcpy(one, link_at(a), 2);
    memcpy(link_at(a), link_at(b), 2);
    memcpy(link_at(b), one, 2);
}

/* Reverses the links of leaves side by side, in groups from leaf 1 on, each as large as d allows: m leaves make up
 * m(m*m-1)/3 of it. That is added to D where the links were the identity, and taken from D where they were reversed. */
static void displace(uint32_t d)
{
    for (size_t from = 1; d != 0;) {
        uint32_t m = 2;

        while ((m + 1) * ((m + 1) * (m + 1) - 1) / 3 <= d)
            m++;
        for (size_t a = from, b = from + m - 1; a < b; a++, b--)
            exchange(a, b);
        from += m;
        d -= m * (m * m - 1) / 3;
    }
}

/* Leaves, D, W and k. At an exact square, 1,000,000*D = k*k*W, k is reached, and with D two lower it is not: over 8
 * leaves for 500, over 24 for 100, over 49 for 50 and 950, over 63 for 125, over 449 for 25 and 925, over 512 for 125,
 * 500 and 875. For 449 and 925, 1,000 times the root of D/W in floats is below 925. Over 24 leaves 1,000,000*D goes
 * beyond 32 bits. 15 leaves are the fewest with a 999, and 182 the fewest with a 0 where D is not 0. */
static const struct {
    uint16_t n;
    uint32_t d, w, k;
} limits[] = {
    {2, 0, 2, 0},
    {2, 2, 2, 1000},
    {3, 0, 8, 0},
    {3, 2, 8, 500},
    {3, 6, 8, 866},
    {3, 8, 8, 1000},
    {4, 2, 20, 316},
    {4, 4, 20, 447},
    {4, 18, 20, 948},
    {4, 20, 20, 1000},
    {5, 8, 40, 447},
    {5, 10, 40, 500},
    {5, 36, 40, 948},
    {5, 38, 40, 974},
    {8, 40, 168, 487},
    {8, 42, 168, 500},
    {14, 908, 910, 998},
    {14, 910, 910, 1000},
    {15, 1118, 1120, 999},
    {15, 1120, 1120, 1000},
    {24, 44, 4600, 97},
    {24, 46, 4600, 100},
    {24, 4294, 4600, 966},
    {24, 4296, 4600, 966},
    {24, 4600, 4600, 1000},
    {49, 96, 39200, 49},
    {49, 98, 39200, 50},
    {49, 35376, 39200, 949},
    {49, 35378, 39200, 950},
    {63, 1300, 83328, 124},
    {63, 1302, 83328, 125},
    {114, 2, 493810, 2},
    {115, 2, 506920, 1},
    {181, 2, 1976520, 1},
    {182, 2, 2009462, 0},
    {182, 4, 2009462, 1},
    {449, 25816600, 30172800, 924},
    {449, 25816602, 30172800, 925},
    {449, 18856, 30172800, 24},
    {449, 18858, 30172800, 25},
    {511, 44477438, 44477440, 999},
    {511, 44477440, 44477440, 1000},
    {512, 0, 44739072, 0},
    {512, 2, 44739072, 0},
    {512, 44, 44739072, 0},
    {512, 46, 44739072, 1},
    {512, 178, 44739072, 1},
    {512, 180, 44739072, 2},
    {512, 699046, 44739072, 124},
    {512, 699048, 44739072, 125},
    {512, 11184766, 44739072, 499},
    {512, 11184768, 44739072, 500},
    {512, 34253350, 44739072, 874},
    {512, 34253352, 44739072, 875},
    {512, 44649638, 44739072, 998},
    {512, 44649640, 44739072, 999},
    {512, 44739070, 44739072, 999},
    {512, 44739072, 44739072, 1000},
};

static void limits_of_thousandths(void)
{
    for (size_t i = 0; i < sizeof limits / sizeof *limits; i++) {
        int reversed = limits[i].d > limits[i].w / 2;

        deep(limits[i].n, reversed);
        displace(reversed ? limits[i].w - limits[i].d : limits[i].d);
        entanglement(__LINE__, 0, limits[i].d, limits[i].w, 1, (double)limits[i].d / limits[i].w, limits[i].k);
    }
}

/* ---- refusals */

static void records_refused(void)
{
    static const uint16_t twice[] = {1, 2, 2, 4}, above[] = {1, 2, 3, 5};

    for (size_t k = 0; k < 8; k++) {
        case2('N');
        r.length = k;
        refused(__LINE__, 1);
    }
    memset(&r, 0, sizeof r);
    r.length = 46;
    refused(__LINE__, 2);
    case2('N');
    bytes()[2] = 'p';
    refused(__LINE__, 2);
    case2('N');
    bytes()[3] = 1;
    refused(__LINE__, 3);
    case2('N');
    bytes()[4] = 2;
    refused(__LINE__, 3);
    case2('n');
    refused(__LINE__, 4);
    case2('N');
    bytes()[7] = 0;
    refused(__LINE__, 5);
    case2('N');
    r.length--;
    refused(__LINE__, 6);
    case2('N');
    r.length++;
    refused(__LINE__, 6);
    record('N', 4, caterpillar, balanced, twice);
    refused(__LINE__, 9);
    record('N', 4, caterpillar, balanced, above);
    refused(__LINE__, 9);
    case2('N');
    bytes()[40] = 4;
    refused(__LINE__, 10);
    case2('B');
    bytes()[45] = 255;
    refused(__LINE__, 10);
}

/* Changes the upper child of a row of the record. */
static void set_upper(uint32_t side, size_t row, uint16_t upper)
{
    size_t n = bytes()[6] * 256u + bytes()[7], at = side == TANGLE_LEFT ? 4 * row + 4 : 4 * n + 4 * row;

    bytes()[at] = (uint8_t)(upper >> 8);
    bytes()[at + 1] = (uint8_t)(upper & 255);
}

/* The lowest bad row is told, of the left if both sides have one, and before the faults that are tested later. */
static void rows_refused(void)
{
    /* in each row of case 2's left: 0, the object that the row makes, its lower child, a number far above */
    static const uint16_t no_upper[3][4] = {{0, 5, 2, 65535}, {0, 6, 5, 257}, {0, 7, 6, 1025}};
    /* the first and the last of 511 rows; row 0 is none */
    static const struct {
        size_t left, right;
        uint32_t number, row;
    } ends[] = {{1, 0, 7, 1},     {511, 0, 7, 511}, {0, 1, 8, 1},
                {0, 511, 8, 511}, {511, 1, 7, 511}, {1, 511, 7, 1}};

    for (size_t row = 1; row <= 3; row++)
        for (size_t i = 0; i < 4; i++) {
            case2('N');
            set_upper(TANGLE_LEFT, row, no_upper[row - 1][i]);
            refused_row(__LINE__, 7, (uint32_t)row);
        }
    case2('N');
    set_upper(TANGLE_LEFT, 1, 4); /* used again by row 3, which is the bad one */
    refused_row(__LINE__, 7, 3);
    set_upper(TANGLE_LEFT, 2, 0);
    refused_row(__LINE__, 7, 2);
    set_upper(TANGLE_RIGHT, 1, 0);
    refused_row(__LINE__, 7, 2);
    case2('B');
    set_upper(TANGLE_RIGHT, 3, 1);
    bytes()[32] = 9; /* a link */
    bytes()[45] = 4; /* a layout byte */
    refused_row(__LINE__, 8, 3);
    set_upper(TANGLE_RIGHT, 2, 6);
    refused_row(__LINE__, 8, 2);

    for (size_t i = 0; i < sizeof ends / sizeof *ends; i++) {
        deep(512, 0);
        if (ends[i].left != 0)
            set_upper(TANGLE_LEFT, ends[i].left, 2);
        if (ends[i].right != 0)
            set_upper(TANGLE_RIGHT, ends[i].right, 2);
        refused_row(__LINE__, ends[i].number, ends[i].row);
    }
    set_upper(TANGLE_LEFT, 511, 2); /* beside row 1 */
    refused_row(__LINE__, 7, 1);
}

/* Leaf a's link. */
static void set_link(size_t a, uint16_t link)
{
    link_at(a)[0] = (uint8_t)(link >> 8);
    link_at(a)[1] = (uint8_t)(link & 255);
}

/* Each link in turn is 0, n + 1, 65,535 and, where there is one, the next link or the one before. The numbers of leaves
 * stand about 64 and its multiples, since what was seen of the links is kept in words of 64. */
static void links_refused(void)
{
    static const uint16_t leaves[] = {1, 2, 63, 64, 65, 128, 448, 449, 512};

    for (size_t i = 0; i < sizeof leaves / sizeof *leaves; i++)
        for (int reversed = 0; reversed < 2; reversed++) {
            uint16_t n = leaves[i];

            deep(n, reversed);
            for (uint16_t a = 1; a <= n; a++) {
                uint16_t link = reversed ? (uint16_t)(n + 1 - a) : a;
                const uint16_t wrong[] = {0, (uint16_t)(n + 1), 65535, (uint16_t)(link < n ? link + 1 : link - 1)};

                for (size_t k = 0; k < 4; k++) {
                    set_link(a, wrong[k]);
                    checked(__LINE__, 9);
                }
                set_link(a, link);
            }
            checked(__LINE__, 0);
        }
}

/* A length and a number of entries whose low 16 bits would be accepted. */
static void longer_than_16_bits(void)
{
    static uint8_t s[65536 + 46];
    static struct tangle_entry many[65536];
    static uint16_t rows[65536 + 1];
    static int32_t table[65536 + 6];
    uint16_t four[] = {4, 3, 1, 2};
    uint8_t text[14] = {0};
    struct tangle_take_in t;
    int changed = 0;

    case2('N');
    memcpy(s, bytes(), r.length);
    check(__LINE__, "check's refusal", tangle_check(s, sizeof s).refusal, 6);
    check(__LINE__, "an order's refusal", tangle_order(s, sizeof s, TANGLE_LEFT, four, 4).refusal, 6);
    check(__LINE__, "a hold's refusal", tangle_hold(s, sizeof s, TANGLE_HOLD_LEFT).refusal, 6);
    check(__LINE__, "a pin's refusal", tangle_pin(s, sizeof s, TANGLE_LEFT, 1, 1).refusal, 6);
    check(__LINE__, "better's refusal", tangle_better(s, sizeof s, TANGLE_LEFT, four, 4, four, 4).refusal, 6);
    check(__LINE__, "its check's", tangle_better_check(s, sizeof s, TANGLE_LEFT, four, 4, four, 4).refusal, 6);
    check(__LINE__, "taking in's", tangle_take_in(s, sizeof s, TANGLE_LEFT, four, 4, text, 14).refusal, 6);
    check(__LINE__, "count's refusal", tangle_count(s, sizeof s).refusal, 6);
    check(__LINE__, "pairs' refusal", tangle_pairs(s, sizeof s).refusal, 6);
    check(__LINE__, "freeing's refusal", tangle_free(s, sizeof s, TANGLE_LEFT).refusal, 6);
    check(__LINE__, "a run's refusal", tangle_run(s, sizeof s, 2).refusal, 6);
    check(__LINE__, "squared entanglement's refusal", tangle_squared_entanglement(s, sizeof s).refusal, 6);
    check(__LINE__, "thousandths' refusal", tangle_thousandths(s, sizeof s).refusal, 6);
    check(__LINE__, "a hand list's refusal", tangle_hands(s, sizeof s, many, 0).refusal, 6);
    check(__LINE__, "a hand list's refusal", tangle_hands(s, 46, many, 65536).refusal, 17);
    check(__LINE__, "writing's refusal", tangle_newick_write(s, sizeof s, TANGLE_LEFT, text, 14).refusal, 6);
    check(__LINE__, "a table's refusal", tangle_merge_write(s, sizeof s, TANGLE_LEFT, table, 6).refusal, 6);
    check(__LINE__, "a byte of the record changed", memcmp(s, bytes(), r.length) != 0, 0);
    check(__LINE__, "the buffer changed", four[0] == 4 && four[1] == 3 && four[2] == 1 && four[3] == 2, 1);
    for (size_t i = r.length; i < sizeof s; i++)
        changed |= s[i];
    check(__LINE__, "a byte after it changed", changed, 0);

    /* a text and room for one, the same way */
    check(__LINE__, "length", tangle_newick_write(bytes(), r.length, TANGLE_LEFT, s, 65536 + 1).length, 14);
    check(__LINE__, "the text differs", memcmp(s, "(4,(3,(1,2)));", 14) != 0, 0);
    check(__LINE__, "n", tangle_newick_read(s, 14, rows, 65536 + 1).n, 4);
    check(__LINE__, "the rows differ", memcmp(rows, caterpillar, sizeof caterpillar) != 0 || rows[6] != 0, 0);
    check(__LINE__, "reading's refusal", tangle_newick_read(s, 65536 + 14, rows, 6).refusal, 18);

    /* and a table */
    check(__LINE__, "refusal", tangle_merge_write(bytes(), r.length, TANGLE_RIGHT, table, 65536 + 1).refusal, 0);
    check(__LINE__, "refusal", tangle_merge_read(4, table, 6, rows, 65536 + 1).refusal, 0);
    check(__LINE__, "the rows differ", memcmp(rows, balanced, sizeof balanced) != 0 || rows[6] != 0, 0);
    check(__LINE__, "a table's refusal", tangle_merge_read(4, table, 65536 + 6, rows, 6).refusal, 6);

    /* and an order with layout bytes */
    memcpy(rows, identity, sizeof identity);
    t = tangle_take_in(bytes(), r.length, TANGLE_LEFT, rows, 65536 + 1, s, 65536 + 1);
    check(__LINE__, "refusal", t.refusal, 0);
    check(__LINE__, "count", t.count, 0);
    check(__LINE__, "least", t.least, 1);
    check(__LINE__, "the bytes differ", memcmp(s, "\0\1\1(3,(1", 8) != 0, 0); /* beyond them the text */
}

static void arguments_refused(void)
{
    case2('B');
    free_side(__LINE__, 0, 13, 0, 0);
    free_side(__LINE__, 3, 13, 0, 0);
    free_side(__LINE__, 65535, 13, 0, 0);
    hand(__LINE__, 0, 0, 13); /* 13 before 15 before 11 */
    hand(__LINE__, 3, 1, 13);
    hand(__LINE__, 65537, 1, 13); /* no number is cut down to a right one */
    hand(__LINE__, 65538, 65537, 13);
    hand(__LINE__, TANGLE_LEFT, 0, 15);
    hand(__LINE__, TANGLE_RIGHT, 4, 15);
    hand(__LINE__, TANGLE_LEFT, 65537, 15);
    hand(__LINE__, TANGLE_LEFT, UINT32_MAX, 15);
    hand(__LINE__, TANGLE_LEFT, 1, 11);
    hand(__LINE__, TANGLE_RIGHT, 3, 11);
    hands(__LINE__, 0, 0);

    /* 12 and 13 come before the record, an entry's numbers after it */
    r.length = 7;
    free_side(__LINE__, 3, 13, 0, 0);
    run(__LINE__, 0, 12, 0, 0, 0, 0);
    hand(__LINE__, 3, 0, 1);
    case2('L');
    bytes()[45] = 7;
    free_side(__LINE__, TANGLE_LEFT, 10, 0, 0);
    run(__LINE__, 1, 10, 0, 0, 0, 0);
    hand(__LINE__, TANGLE_LEFT, 1, 10);
}

static void hand_lists(void)
{
    /* the first bad entry decides, and refuses the good ones before it */
    case2('R');
    list[0] = (struct tangle_entry){TANGLE_LEFT, 1};
    list[1] = (struct tangle_entry){TANGLE_RIGHT, 1};
    list[2] = (struct tangle_entry){7, 1};
    hands(__LINE__, 3, 11);
    hands(__LINE__, 1, 0);
    layouts(__LINE__, "100000");
    hands(__LINE__, 1, 0);
    layouts(__LINE__, "000000");

    /* 1,024 entries: row 1 over and over, and once row 3 of the right */
    for (int i = 0; i <= TANGLE_MOST_HANDS; i++)
        list[i] = (struct tangle_entry){TANGLE_LEFT, 1};
    list[1023] = (struct tangle_entry){TANGLE_RIGHT, 3};
    case2('N');
    hands(__LINE__, 1024, 0);
    layouts(__LINE__, "100001");
    case2('N');
    hands(__LINE__, 1025, 17);
    r.length = 0;
    hands(__LINE__, 1025, 17);
}

/* ---- orders, holds, better of two */

static void orders(void)
{
    case2('B');
    order(__LINE__, TANGLE_LEFT, 3, 14, "");
    order(__LINE__, TANGLE_RIGHT, 0, 14, "");
    order(__LINE__, TANGLE_LEFT, 4, 0, "4312");
    order(__LINE__, TANGLE_LEFT, MOST_PLACES, 0, "4312");
    order(__LINE__, 0, 4, 13, "");
    order(__LINE__, 3, 4, 13, "");
    r.length = 7; /* 13 comes before the record, 14 after it */
    order(__LINE__, 3, 0, 13, "");
    order(__LINE__, TANGLE_LEFT, 0, 1, "");
}

static void holds_set(void)
{
    case2('N');
    set_hold(__LINE__, TANGLE_HOLD_LEFT, 0);
    free_side(__LINE__, TANGLE_LEFT, 11, 0, 0);
    set_hold(__LINE__, TANGLE_HOLD_BOTH, 0);
    free_side(__LINE__, TANGLE_RIGHT, 11, 0, 0);
    set_hold(__LINE__, TANGLE_HOLD_RIGHT, 0);
    set_hold(__LINE__, TANGLE_HOLD_NONE, 0);
    free_side(__LINE__, TANGLE_LEFT, 0, 5, 0);
    set_hold(__LINE__, 0, 4);
    set_hold(__LINE__, 'n', 4);
    set_hold(__LINE__, 255, 4);
    r.length = 7; /* the letter comes before the record */
    set_hold(__LINE__, 'n', 4);
    set_hold(__LINE__, TANGLE_HOLD_NONE, 1);
}

static void better_of_two(void)
{
    case2('B'); /* a hold is no matter */
    better(__LINE__, TANGLE_LEFT, "4312", "1234", 0, TANGLE_SECOND); /* 5 crossings and 0 */
    better(__LINE__, TANGLE_LEFT, "1234", "4312", 0, TANGLE_FIRST);
    better(__LINE__, TANGLE_LEFT, "4123", "3214", 0, TANGLE_FIRST); /* 3 and 3 */
    better(__LINE__, TANGLE_LEFT, "3214", "4123", 0, TANGLE_FIRST);
    better(__LINE__, TANGLE_RIGHT, "1234", "4312", 0, TANGLE_SECOND);
    better(__LINE__, TANGLE_LEFT, "43129", "123400", 0, TANGLE_SECOND); /* entries beyond n */
    better(__LINE__, TANGLE_LEFT, "1324", "1234", 16, 0); /* 1 and 2 are apart */
    better(__LINE__, TANGLE_LEFT, "1234", "1324", 16, 0);
    better(__LINE__, TANGLE_LEFT, "123", "1234", 16, 0);
    better(__LINE__, TANGLE_LEFT, "1234", "", 16, 0);
    better(__LINE__, TANGLE_LEFT, "1134", "1234", 16, 0);
    better(__LINE__, TANGLE_LEFT, "0000", "1234", 16, 0);
    better(__LINE__, 0, "1324", "", 13, 0);
    better(__LINE__, 3, "1234", "1234", 13, 0);
    bytes()[45] = 4; /* 13, then the record, then 16 */
    better(__LINE__, 3, "1324", "", 13, 0);
    better(__LINE__, TANGLE_LEFT, "1324", "", 10, 0);
}

/* ---- pinned rows */

/* Case 2 with these layout bytes, the left's and then the right's. */
static void laid(char hold, const char *digits)
{
    case2(hold);
    for (size_t i = 0; i < 6; i++)
        bytes()[40 + i] = (uint8_t)(digits[i] - '0');
}

/* Each of the four bytes in each row, pinned and unpinned, whatever is held; a number other than 0 pins. */
static void pins_set(void)
{
    static const char holds[] = {'N', 'L', 'R', 'B'};
    static const uint32_t pins[] = {1, 2, 3, 256, 65536, 0x80000000, UINT32_MAX};
    static const uint8_t pinned[] = {2, 3, 2, 3}, unpinned[] = {0, 1, 0, 1};

    for (size_t i = 0; i < sizeof holds; i++)
        for (uint8_t byte = 0; byte < 4; byte++)
            for (uint32_t side = TANGLE_LEFT; side <= TANGLE_RIGHT; side++)
                for (uint32_t row = 1; row <= 3; row++) {
                    laid(holds[i], "012310");
                    *layout_byte(&r, side, row) = byte;
                    pin(__LINE__, side, row, 0, unpinned[byte]);
                    pin(__LINE__, side, row, 0, unpinned[byte]);
                    for (size_t k = 0; k < sizeof pins / sizeof *pins; k++) {
                        *layout_byte(&r, side, row) = byte;
                        pin(__LINE__, side, row, pins[k], pinned[byte]);
                        pin(__LINE__, side, row, pins[k], pinned[byte]);
                    }
                    checked(__LINE__, 0);
                }
    deep(512, 1);
    pin(__LINE__, TANGLE_LEFT, 1, 1, 2);
    pin(__LINE__, TANGLE_LEFT, 511, 1, 2);
    pin(__LINE__, TANGLE_RIGHT, 1, 1, 2);
    pin(__LINE__, TANGLE_RIGHT, 511, 1, 2);
    pin(__LINE__, TANGLE_LEFT, 511, 0, 0);
    count(__LINE__, 0, 130816);
}

/* The side, then the record, then the row; never 11, never 22. */
static void pins_refused(void)
{
    static const uint32_t no_row[] = {0, 4, 5, 255, 256, 257, 65535, 65536, 65537, 0x80000001, UINT32_MAX};
    static const uint32_t no_side[] = {0, 3, 256, 257, 258, 65535, 65537, 65538, 0x80000002, UINT32_MAX};
    static const uint16_t pair[] = {1, 2};

    laid('B', "012301");
    for (size_t i = 0; i < sizeof no_row / sizeof *no_row; i++) {
        pin_refused(__LINE__, TANGLE_LEFT, no_row[i], 15);
        pin_refused(__LINE__, TANGLE_RIGHT, no_row[i], 15);
    }
    for (size_t i = 0; i < sizeof no_side / sizeof *no_side; i++) {
        pin_refused(__LINE__, no_side[i], 1, 13);
        pin_refused(__LINE__, no_side[i], 0, 13);
        pin_refused(__LINE__, no_side[i], UINT32_MAX, 13);
    }
    bytes()[45] = 4;
    pin_refused(__LINE__, 3, 0, 13);
    pin_refused(__LINE__, TANGLE_LEFT, 0, 10);
    pin_refused(__LINE__, TANGLE_RIGHT, 3, 10);
    set_upper(TANGLE_RIGHT, 2, 0);
    bad_row = 2;
    pin_refused(__LINE__, 0, 1, 13);
    pin_refused(__LINE__, TANGLE_LEFT, 4, 8);
    set_upper(TANGLE_LEFT, 3, 0);
    bad_row = 3;
    pin_refused(__LINE__, TANGLE_RIGHT, 1, 7);
    r.length = 7;
    pin_refused(__LINE__, TANGLE_RIGHT, 65537, 1);
    record('N', 1, NULL, NULL, identity); /* no row at all */
    pin_refused(__LINE__, TANGLE_LEFT, 0, 15);
    pin_refused(__LINE__, TANGLE_RIGHT, 1, 15);
    pin_refused(__LINE__, TANGLE_LEFT, 2, 15);
    record('N', 2, pair, pair, identity);
    pin_refused(__LINE__, TANGLE_RIGHT, 2, 15);
    pin(__LINE__, TANGLE_RIGHT, 1, 1, 2);
    deep(512, 0);
    pin_refused(__LINE__, TANGLE_LEFT, 512, 15);
    pin_refused(__LINE__, TANGLE_RIGHT, 0, 15);
}

/* 3 is a layout byte and 4 is none, in the first and the last row of either side. */
static void bytes_of_a_layout(void)
{
    static const uint8_t above[] = {4, 5, 6, 7, 8, 127, 128, 130, 254};

    for (uint32_t side = TANGLE_LEFT; side <= TANGLE_RIGHT; side++)
        for (size_t row = 1; row <= 3; row += 2) {
            case2('N');
            *layout_byte(&r, side, row) = 2;
            checked(__LINE__, 0);
            count(__LINE__, 0, 5);
            for (size_t i = 0; i < sizeof above; i++) {
                *layout_byte(&r, side, row) = above[i];
                refused(__LINE__, 10);
                *layout_byte(&r, side, row) = 3;
                checked(__LINE__, 0);
                unpack(4, 0);
                pack(__LINE__, 4, 'N', 4, 0, 46, 0);
                layout_places(side == TANGLE_LEFT ? &parts.left_layout : &parts.right_layout)[row - 1] = above[i];
                pack(__LINE__, 4, 'N', 4, 0, 46, 10);
                pack(__LINE__, 4, 'N', 4, 0, 0, 10); /* before the room */
            }
            deep(512, 0);
            *layout_byte(&r, side, row == 1 ? 1 : 511) = 3;
            checked(__LINE__, 0);
            *layout_byte(&r, side, row == 1 ? 1 : 511) = 4;
            checked(__LINE__, 10);
        }
}

/* Two is read as 0 and three as 1, whatever reads it; a text and a table show no pins, and parts do. */
static void pins_shown(void)
{
    static const uint8_t left_layout[] = {2, 3, 3}, right_layout[] = {0, 2, 1};
    struct tangle_unpack u;

    laid('B', "233021");
    order(__LINE__, TANGLE_LEFT, 4, 0, "1234");
    order(__LINE__, TANGLE_RIGHT, 4, 0, "3412");
    count(__LINE__, 0, 4);
    entanglement(__LINE__, 0, 16, 20, 1, 16.0 / 20.0, 894);
    write_text(__LINE__, TANGLE_LEFT, 14, 0, "(((1,2),3),4);");
    write_text(__LINE__, TANGLE_RIGHT, 14, 0, "((3,4),(1,2));");
    better(__LINE__, TANGLE_LEFT, "1234", "4312", 0, TANGLE_SECOND); /* 4 crossings and 1 */
    better(__LINE__, TANGLE_LEFT, "2134", "1234", 0, TANGLE_SECOND);
    kept = r;
    u = unpack(4, 0);
    told(__LINE__, u.refusal, u.row, 0);
    contains(__LINE__, &parts.left_layout, left_layout, sizeof left_layout);
    contains(__LINE__, &parts.right_layout, right_layout, sizeof right_layout);
    same_bytes(__LINE__, &kept);
    pack(__LINE__, 4, 'B', 4, 0, 46, 0);
    set_hold(__LINE__, TANGLE_HOLD_NONE, 0);
    layouts(__LINE__, "233021");
}

/* 22 comes after 11 in an entry, and an entry before those after it; pins are those of the record lent. */
static void pins_by_hand(void)
{
    laid('N', "021302");
    hand(__LINE__, TANGLE_LEFT, 2, 22);
    hand(__LINE__, TANGLE_RIGHT, 1, 22);
    hand(__LINE__, TANGLE_RIGHT, 3, 22);
    hand(__LINE__, 65537, 2, 13);
    hand(__LINE__, TANGLE_LEFT, 65538, 15);
    hand(__LINE__, TANGLE_LEFT, 1, 0);
    layouts(__LINE__, "121302");
    hand(__LINE__, TANGLE_LEFT, 3, 0);
    layouts(__LINE__, "120302");
    hand(__LINE__, TANGLE_RIGHT, 2, 0);
    layouts(__LINE__, "120312");
    hands(__LINE__, 0, 0);

    list[0] = (struct tangle_entry){TANGLE_LEFT, 1};
    list[1] = (struct tangle_entry){TANGLE_LEFT, 2};
    list[2] = (struct tangle_entry){0, 0};
    hands(__LINE__, 3, 22);
    hands(__LINE__, 2, 22);
    list[2] = (struct tangle_entry){TANGLE_LEFT, 2}; /* the same row twice is no better */
    hands(__LINE__, 3, 22);
    list[1] = (struct tangle_entry){TANGLE_RIGHT, 4};
    hands(__LINE__, 3, 15);
    list[1] = (struct tangle_entry){3, 1};
    hands(__LINE__, 3, 13);
    list[1] = (struct tangle_entry){TANGLE_RIGHT, 2};
    hands(__LINE__, 3, 22);
    hands(__LINE__, 2, 0);
    layouts(__LINE__, "020302");

    laid('L', "021302");
    hand(__LINE__, TANGLE_LEFT, 2, 11);
    hand(__LINE__, TANGLE_RIGHT, 1, 22);
    list[1] = (struct tangle_entry){TANGLE_LEFT, 2};
    hands(__LINE__, 2, 22);
    list[0] = (struct tangle_entry){TANGLE_RIGHT, 2};
    hands(__LINE__, 2, 11);
    hands(__LINE__, 1, 0);
    laid('B', "222222");
    hand(__LINE__, TANGLE_RIGHT, 1, 11);
    hands(__LINE__, 0, 0);

    for (int i = 0; i <= TANGLE_MOST_HANDS; i++)
        list[i] = (struct tangle_entry){TANGLE_LEFT, 1};
    list[1023] = (struct tangle_entry){TANGLE_RIGHT, 1};
    laid('N', "021302");
    hands(__LINE__, 1025, 17);
    hands(__LINE__, 1024, 22);
    hands(__LINE__, 1023, 0);
    layouts(__LINE__, "121302");
}

/* Freeing and runs: what is least among the choices that agree with the pinned rows. */
static void pins_freed(void)
{
    static const uint16_t left[] = {1, 2, 4, 3}, right[] = {3, 2, 1, 4};
    static struct record all;

    laid('N', "002000"); /* example 3 with its left root pinned: 3 of its 5 crossings are the root's own */
    free_side(__LINE__, TANGLE_LEFT, 0, 5, 3);
    layouts(__LINE__, "012000");
    order(__LINE__, TANGLE_LEFT, 4, 0, "4123");
    free_side(__LINE__, TANGLE_LEFT, 0, 3, 3);
    layouts(__LINE__, "012000");
    laid('N', "002000");
    run(__LINE__, TANGLE_MOST_TURNS, 0, 5, 2, 3, 1);
    layouts(__LINE__, "012010");
    laid('N', "003000"); /* and turned over */
    free_side(__LINE__, TANGLE_LEFT, 0, 2, 0);
    layouts(__LINE__, "013000");
    laid('N', "222000");
    free_side(__LINE__, TANGLE_LEFT, 0, 5, 5);
    layouts(__LINE__, "222000");
    free_side(__LINE__, TANGLE_RIGHT, 0, 5, 0);
    layouts(__LINE__, "222011");
    laid('R', "020000");
    free_side(__LINE__, TANGLE_RIGHT, 11, 0, 0);
    run(__LINE__, 2, 11, 0, 0, 0, 0);
    free_side(__LINE__, TANGLE_LEFT, 0, 5, 2);
    layouts(__LINE__, "021000");

    record('N', 3, left, right, identity); /* example 6 with right row 1 pinned, and without */
    pin(__LINE__, TANGLE_RIGHT, 1, 1, 2);
    run(__LINE__, TANGLE_MOST_TURNS, 0, 1, 1, 2, 1);
    layouts(__LINE__, "0020");
    run(__LINE__, 1, 0, 1, 1, 1, 0);
    pin(__LINE__, TANGLE_RIGHT, 1, 0, 0);
    run(__LINE__, TANGLE_MOST_TURNS, 0, 1, 0, 3, 1);
    layouts(__LINE__, "0010");

    deep(512, 1); /* row i has i crossings of its own */
    pin(__LINE__, TANGLE_RIGHT, 511, 1, 2);
    free_side(__LINE__, TANGLE_RIGHT, 0, 130816, 511);
    check(__LINE__, "the root's byte", *layout_byte(&r, TANGLE_RIGHT, 511), 2);
    check(__LINE__, "row 510's byte", *layout_byte(&r, TANGLE_RIGHT, 510), 1);
    deep(512, 1);
    pin(__LINE__, TANGLE_RIGHT, 1, 1, 2);
    free_side(__LINE__, TANGLE_RIGHT, 0, 130816, 1);
    deep(512, 1);
    memset(layout_byte(&r, TANGLE_LEFT, 1), 2, 1022);
    all = r;
    free_side(__LINE__, TANGLE_LEFT, 0, 130816, 130816);
    free_side(__LINE__, TANGLE_RIGHT, 0, 130816, 130816);
    run(__LINE__, 1, 0, 130816, 130816, 1, 0);
    run(__LINE__, 2, 0, 130816, 130816, 2, 1);
    run(__LINE__, TANGLE_MOST_TURNS, 0, 130816, 130816, 2, 1);
    same_bytes(__LINE__, &all);
}

/* ---- orders taken in */

/* Every order of case 2's left and some of its right, whatever is held; and the tie of example 5. */
static void orders_taken_in(void)
{
    static const char holds[] = {'N', 'L', 'R', 'B'};

    for (size_t i = 0; i < sizeof holds; i++) {
        case2(holds[i]);
        taken(__LINE__, TANGLE_LEFT, "4312", 5, 0, "000");
        taken(__LINE__, TANGLE_LEFT, "4321", 6, 0, "100");
        taken(__LINE__, TANGLE_LEFT, "4123", 3, 0, "010");
        taken(__LINE__, TANGLE_LEFT, "4213", 4, 0, "110");
        taken(__LINE__, TANGLE_LEFT, "3124", 2, 0, "001");
        taken(__LINE__, TANGLE_LEFT, "3214", 3, 0, "101");
        taken(__LINE__, TANGLE_LEFT, "1234", 0, 1, "011");
        taken(__LINE__, TANGLE_LEFT, "2134", 1, 0, "111");
        taken(__LINE__, TANGLE_RIGHT, "1234", 5, 0, "000");
        taken(__LINE__, TANGLE_RIGHT, "3412", 1, 0, "001");
        taken(__LINE__, TANGLE_RIGHT, "4312", 0, 1, "011");
        taken(__LINE__, TANGLE_LEFT, "12340", 0, 1, "011"); /* entries beyond n */
        taken(__LINE__, TANGLE_RIGHT, "43129431", 0, 1, "011");
    }

    example5();
    taken(__LINE__, TANGLE_LEFT, "123", 1, 1, "00");
    taken(__LINE__, TANGLE_LEFT, "312", 1, 1, "01");
    taken(__LINE__, TANGLE_LEFT, "213", 2, 0, "10");
    taken(__LINE__, TANGLE_LEFT, "321", 2, 0, "11");
    taken(__LINE__, TANGLE_RIGHT, "132", 1, 1, "00");
    taken(__LINE__, TANGLE_RIGHT, "213", 1, 1, "01");
    taken(__LINE__, TANGLE_RIGHT, "312", 2, 0, "10");
    taken(__LINE__, TANGLE_RIGHT, "231", 2, 0, "11");
    hand(__LINE__, TANGLE_RIGHT, 2, 0); /* with another right order standing, another left one is least */
    taken(__LINE__, TANGLE_LEFT, "213", 0, 1, "10");
    taken(__LINE__, TANGLE_LEFT, "123", 1, 0, "00");
}

/* A single leaf, two leaves whose links cross, and 512 of them, whose row i has i crossings of its own. */
static void smallest_and_largest_order(void)
{
    static const uint16_t pair[] = {1, 2}, crossed[] = {2, 1};
    static uint8_t layout[511];

    record('B', 1, NULL, NULL, identity);
    taken(__LINE__, TANGLE_LEFT, "1", 0, 1, "");
    taken(__LINE__, TANGLE_RIGHT, "19", 0, 1, "");
    not_taken(__LINE__, TANGLE_LEFT, "", 0, 16);
    not_taken(__LINE__, TANGLE_RIGHT, "0", 0, 16);
    not_taken(__LINE__, TANGLE_LEFT, "2", 9, 16);
    record('N', 2, pair, pair, crossed);
    taken(__LINE__, TANGLE_LEFT, "12", 1, 0, "0");
    taken(__LINE__, TANGLE_RIGHT, "21", 0, 1, "1");
    not_taken(__LINE__, TANGLE_RIGHT, "21", 0, 14);

    deep(512, 1);
    clear(&made_elsewhere);
    for (uint16_t i = 0; i < 513; i++)
        places(&made_elsewhere)[i] = (uint16_t)(i + 1);
    take_in(__LINE__, TANGLE_LEFT, 512, 511, 0, 130816, 0, layout, 511);
    take_in(__LINE__, TANGLE_RIGHT, 513, 512, 0, 130816, 0, layout, 511);
    take_in(__LINE__, TANGLE_LEFT, 511, 511, 16, 0, 0, NULL, 0);
    take_in(__LINE__, TANGLE_LEFT, 512, 510, 14, 0, 0, NULL, 0);
    for (uint16_t i = 0; i < 512; i++)
        places(&made_elsewhere)[i] = (uint16_t)(512 - i);
    memset(layout, 1, 511);
    take_in(__LINE__, TANGLE_LEFT, 512, 511, 0, 0, 1, layout, 511);
    pin(__LINE__, TANGLE_LEFT, 511, 1, 2); /* the root keeps leaf 512 last */
    take_in(__LINE__, TANGLE_LEFT, 512, 511, 23, 0, 0, NULL, 0);
    take_in(__LINE__, TANGLE_RIGHT, 512, 511, 0, 0, 1, layout, 511);
    for (uint16_t i = 0; i < 512; i++)
        places(&made_elsewhere)[i] = (uint16_t)(i < 511 ? 511 - i : 512);
    layout[510] = 2;
    take_in(__LINE__, TANGLE_LEFT, 512, 511, 0, 511, 1, layout, 511);
    pin(__LINE__, TANGLE_LEFT, 1, 1, 2); /* and leaf 1 before leaf 2 */
    take_in(__LINE__, TANGLE_LEFT, 512, 511, 23, 0, 0, NULL, 0);
    places(&made_elsewhere)[509] = 1;
    places(&made_elsewhere)[510] = 2;
    layout[0] = 2;
    take_in(__LINE__, TANGLE_LEFT, 512, 511, 0, 512, 1, layout, 511);
}

/* Pinned rows come back pinned, and what is least is so among the choices that agree with them. */
static void orders_with_pins(void)
{
    laid('N', "002000"); /* example 3 with its left root pinned, as given and turned over */
    taken(__LINE__, TANGLE_LEFT, "4123", 3, 1, "012");
    taken(__LINE__, TANGLE_LEFT, "4312", 5, 0, "002");
    taken(__LINE__, TANGLE_LEFT, "4213", 4, 0, "112");
    not_taken(__LINE__, TANGLE_LEFT, "1234", 3, 23);
    not_taken(__LINE__, TANGLE_LEFT, "3124", 3, 23);
    taken(__LINE__, TANGLE_RIGHT, "4312", 0, 1, "011");
    laid('L', "003000");
    taken(__LINE__, TANGLE_LEFT, "1234", 0, 1, "013");
    not_taken(__LINE__, TANGLE_LEFT, "4312", 3, 23);
    laid('N', "321000");
    taken(__LINE__, TANGLE_LEFT, "3214", 3, 1, "321");
    taken(__LINE__, TANGLE_LEFT, "4321", 6, 0, "320");
    not_taken(__LINE__, TANGLE_LEFT, "3124", 3, 23);
    not_taken(__LINE__, TANGLE_LEFT, "2134", 3, 23);
    laid('R', "000222"); /* the other side's pins are no matter */
    taken(__LINE__, TANGLE_LEFT, "1234", 0, 1, "011");
    laid('B', "222233"); /* all pinned: one order is left, and is least; one row turned otherwise */
    taken(__LINE__, TANGLE_LEFT, "4312", 0, 1, "222");
    not_taken(__LINE__, TANGLE_LEFT, "4321", 3, 23);
    not_taken(__LINE__, TANGLE_LEFT, "4123", 3, 23);
    not_taken(__LINE__, TANGLE_LEFT, "3124", 3, 23);
    taken(__LINE__, TANGLE_RIGHT, "4312", 0, 1, "233");
    not_taken(__LINE__, TANGLE_RIGHT, "4321", 3, 23);
    not_taken(__LINE__, TANGLE_RIGHT, "3412", 3, 23);
    not_taken(__LINE__, TANGLE_RIGHT, "1243", 3, 23);
}

/* The side, the record, the order, the pins, the room; never 11, never 22. */
static void orders_not_taken_in(void)
{
    static const uint32_t no_side[] = {0, 3, 256, 257, 258, 65535, 65537, 65538, 0x80000002, UINT32_MAX};
    static const uint16_t no_leaf[] = {0, 5, 257, 260, 32769, 65535};
    static const char *const none[] = {"", "4", "431", "1324", "4132", "1243", "4311", "4444", "43121"};

    laid('B', "002000");
    for (size_t i = 0; i + 1 < sizeof none / sizeof *none; i++) {
        not_taken(__LINE__, TANGLE_LEFT, none[i], 3, 16);
        not_taken(__LINE__, TANGLE_LEFT, none[i], 0, 16);
    }
    taken(__LINE__, TANGLE_LEFT, "43121", 5, 0, "002");
    for (size_t i = 0; i < sizeof no_leaf / sizeof *no_leaf; i++)
        for (size_t at = 0; at < 4; at++) {
            make("4312");
            places(&made_elsewhere)[at] = no_leaf[i];
            take_in(__LINE__, TANGLE_LEFT, 4, 3, 16, 0, 0, NULL, 0);
        }
    for (size_t i = 0; i < sizeof no_side / sizeof *no_side; i++) {
        not_taken(__LINE__, no_side[i], "4312", 3, 13);
        not_taken(__LINE__, no_side[i], "", 0, 13);
    }
    not_taken(__LINE__, TANGLE_LEFT, "4312", 2, 14);
    not_taken(__LINE__, TANGLE_RIGHT, "4312", 0, 14);
    not_taken(__LINE__, TANGLE_LEFT, "1234", 2, 23);
    not_taken(__LINE__, TANGLE_LEFT, "1234", 0, 23);
    bytes()[45] = 4;
    not_taken(__LINE__, 3, "1324", 0, 13);
    not_taken(__LINE__, TANGLE_LEFT, "1324", 0, 10);
    not_taken(__LINE__, TANGLE_LEFT, "1234", 2, 10);
    set_upper(TANGLE_RIGHT, 2, 0);
    bad_row = 2;
    not_taken(__LINE__, 0, "", 0, 13);
    not_taken(__LINE__, TANGLE_LEFT, "", 0, 8);
    set_upper(TANGLE_LEFT, 3, 0);
    bad_row = 3;
    not_taken(__LINE__, TANGLE_RIGHT, "4312", 3, 7);
    r.length = 7;
    not_taken(__LINE__, TANGLE_RIGHT, "4312", 3, 1);
    not_taken(__LINE__, 65537, "4312", 3, 13);
}

/* The present order gives the present bytes; the order that freeing leaves is least, before the freeing and after. */
static void orders_left_by_freeing(void)
{
    static const uint16_t leaves[] = {1, 2, 3, 4, 63, 64, 65, 255, 256, 257, 511, 512};
    static uint8_t layout[511];
    static struct record before;

    for (size_t i = 0; i < sizeof leaves / sizeof *leaves; i++)
        for (uint32_t side = TANGLE_LEFT; side <= TANGLE_RIGHT; side++) {
            size_t n = leaves[i];
            uint16_t *order = places(&made_elsewhere);
            struct tangle_free f;
            uint32_t crossings;

            deep(leaves[i], i % 2 == 0);
            for (size_t row = 1; row < n; row++) {
                *layout_byte(&r, TANGLE_LEFT, row) = row % 7 % 4;
                *layout_byte(&r, TANGLE_RIGHT, row) = row % 5 % 4;
            }
            crossings = tangle_count(bytes(), r.length).count;
            before = r;
            clear(&made_elsewhere);
            check(__LINE__, "refusal", tangle_order(bytes(), r.length, side, order, n).refusal, 0);
            f = tangle_free(bytes(), r.length, side);
            check(__LINE__, "refusal", f.refusal, 0);
            check(__LINE__, "before", f.before, crossings);
            memcpy(layout, layout_byte(&before, side, 1), n - 1);
            take_in(__LINE__, side, n, n - 1, 0, crossings, f.after == crossings, layout, n - 1);
            memcpy(layout, layout_byte(&r, side, 1), n - 1);
            check(__LINE__, "refusal", tangle_order(bytes(), r.length, side, order, n).refusal, 0);
            take_in(__LINE__, side, n, n - 1, 0, f.after, 1, layout, n - 1);
            r = before;
            take_in(__LINE__, side, n, n - 1, 0, f.after, 1, layout, n - 1);
        }
}

/* ---- packing and unpacking */

static void parts_of_case2(void)
{
    static const uint8_t left_layout[] = {0, 1, 1}, right_layout[] = {0, 0, 0};
    struct tangle_unpack u;

    case2('N');
    free_side(__LINE__, TANGLE_LEFT, 0, 5, 0);
    set_hold(__LINE__, TANGLE_HOLD_LEFT, 0);
    kept = r;
    u = unpack(4, 0);
    told(__LINE__, u.refusal, u.row, 0);
    check(__LINE__, "hold", u.hold, 'L');
    check(__LINE__, "n", u.n, 4);
    contains(__LINE__, &parts.left, caterpillar, sizeof caterpillar);
    contains(__LINE__, &parts.right, balanced, sizeof balanced);
    contains(__LINE__, &parts.links, identity, sizeof identity);
    contains(__LINE__, &parts.left_layout, left_layout, sizeof left_layout);
    contains(__LINE__, &parts.right_layout, right_layout, sizeof right_layout);
    same_bytes(__LINE__, &kept);
    pack(__LINE__, 4, 'L', 4, 0, 46, 0);
    pack(__LINE__, 4, 'L', 4, 0, MOST, 0);
    pack(__LINE__, 4, 'L', 4, 0, 45, 14);
    pack(__LINE__, 4, 'L', 4, 0, 0, 14);
    pack(__LINE__, 4, 'l', 4, 0, 46, 4);
    pack(__LINE__, 4, 0, 0, 0, 46, 4);
    pack(__LINE__, 4, 'L', 0, 0, 46, 5);
    pack(__LINE__, 4, 'L', 513, 0, MOST, 5);
    pack(__LINE__, 4, 'L', 5, 0, 46, 6);
    for (int list = 1; list <= 5; list++) {
        pack(__LINE__, 4, 'L', 4, list, 0, 6);
        unpack_refused(__LINE__, 4, list, 14);
    }
}

static void parts_refused(void)
{
    case2('N');
    unpack(4, 0);
    places(&parts.left)[0] = 7; /* the lists by their content, one after the other, before the room */
    places(&parts.right)[0] = 7;
    places(&parts.links)[0] = 2;
    layout_places(&parts.left_layout)[2] = 4;
    layout_places(&parts.right_layout)[0] = 255;
    bad_row = 1;
    pack(__LINE__, 4, 'N', 4, 0, 0, 7);
    places(&parts.left)[0] = 1;
    places(&parts.left)[4] = 3; /* row 2 has it too */
    bad_row = 3;
    pack(__LINE__, 4, 'N', 4, 0, 0, 7);
    places(&parts.left)[4] = 4;
    bad_row = 1;
    pack(__LINE__, 4, 'N', 4, 0, 0, 8);
    places(&parts.right)[0] = 1;
    places(&parts.right)[3] = 6; /* what row 2 makes */
    bad_row = 2;
    pack(__LINE__, 4, 'N', 4, 0, 0, 8);
    places(&parts.right)[3] = 4;
    pack(__LINE__, 4, 'N', 4, 0, 0, 9);
    places(&parts.links)[0] = 1;
    pack(__LINE__, 4, 'N', 4, 0, 0, 10);
    layout_places(&parts.left_layout)[2] = 0;
    pack(__LINE__, 4, 'N', 4, 0, 0, 10);
    layout_places(&parts.right_layout)[0] = 0;
    pack(__LINE__, 4, 'N', 4, 0, 0, 14);
    pack(__LINE__, 4, 'N', 4, 0, 46, 0);

    deep(512, 1);
    check(__LINE__, "refusal", unpack(512, 0).refusal, 0);
    pack(__LINE__, 512, 'N', 512, 0, TANGLE_MOST_BYTES, 0);
    pack(__LINE__, 512, 'N', 512, 0, TANGLE_MOST_BYTES - 1, 14);
    bad_row = 511;
    places(&parts.right)[1020] = 2;
    pack(__LINE__, 512, 'N', 512, 0, TANGLE_MOST_BYTES, 8);
    places(&parts.left)[1020] = 2;
    pack(__LINE__, 512, 'N', 512, 0, TANGLE_MOST_BYTES, 7);
    bad_row = 1;
    places(&parts.left)[0] = 2;
    pack(__LINE__, 512, 'N', 512, 0, TANGLE_MOST_BYTES, 7);
    record('R', 1, NULL, NULL, identity);
    check(__LINE__, "refusal", unpack(1, 0).refusal, 0);
    pack(__LINE__, 1, 'R', 1, 0, 10, 0);
}

/* ---- texts read and written */

static void texts_read(void)
{
    static const uint16_t two[] = {1, 2}, turned[] = {2, 1}, pairs[] = {4, 3, 2, 1, 5, 6};
    static const char *const one[] = {"1;", "1;\n", "1:5.;", "1:.5;", "1:007;", "1:0.0;\n",
                                      "1:99999999999999999999999999999999;"};

    for (size_t i = 0; i < sizeof one / sizeof *one; i++) {
        read_text(__LINE__, one[i], 0, 0, 1, NULL);
        read_text(__LINE__, one[i], MOST_PLACES, 0, 1, NULL);
    }
    read_text(__LINE__, "(1,2);", 2, 0, 2, two);
    read_text(__LINE__, "(2:1,1:.0):3.;\n", 2, 0, 2, turned);
    read_text(__LINE__, "(4,(3,(1,2)));", 6, 0, 4, caterpillar);
    read_text(__LINE__, "(4:1,(3:.5,(1:5.,2:007):0):12.50):3;", 7, 0, 4, caterpillar);
    read_text(__LINE__, "((1,2),(3,4));", MOST_PLACES, 0, 4, balanced);
    read_text(__LINE__, "((4,3),(2,1));", 6, 0, 4, pairs); /* rows in the order in which groups close */

    /* the room comes last */
    read_text(__LINE__, "(1,2);", 0, 14, 0, NULL);
    read_text(__LINE__, "(1,2);", 1, 14, 0, NULL);
    read_text(__LINE__, "(4,(3,(1,2)));", 5, 14, 0, NULL);

    /* what stands after the text is not looked at */
    read_bytes(__LINE__, (const uint8_t *)"(1,2);;", 6, 2, 0, 2, two);
    read_bytes(__LINE__, (const uint8_t *)"(1,2);", 5, 2, 18, 0, NULL);
    read_bytes(__LINE__, (const uint8_t *)"1;", 0, 2, 18, 0, NULL);
    read_bytes(__LINE__, (const uint8_t *)"1;", 3, 2, 18, 0, NULL); /* a zero byte is no line feed */
}

static void texts_refused(void)
{
    static const char *const broken[] = {
        "", ";", "1", "0;", "01;", "(0,1);", "(1,02);", "a;", "'1';", "1;;", "1;\n\n", "1;\r\n", "1;\r", "1; ", " 1;",
        "(1, 2);", "(1,2) ;", "(1,2)", "(1,2;", "1,2;", "1,2);", "(1,2));", "((1,2);", "();", "(1);", "(,1);", "(1,);",
        "(1,2,3);", "((1,2),(3,4),5);", "(1,2)3;", "(1,2)95:1;", "(1,2)root;", "[x](1,2);", "1:;", "1:.;", "1:1.2.3;",
        "1:-1;", "1:+1;", "1:1e5;", "1:1:1;", ":1;", "(1:,2);", "(1,2):;", "(1,2):1:2;", "1.5;", "(1;2);", "\xb1;"};
    static const char *const leaves[] = {
        "2;", "10;", "512;", "(1,1);", "(2,2);", "(1,3);", "(2,3);", "((1,2),2);", "(257,2);", "(65537,2);",
        "(1,4294967298);", "(18446744073709551617,2);", "340282366920938463463374607431768211457;",
        "(1,999999999999999999999999999999);"};
    static const char *const both[] = {"2", "2;;", "(1,1;", "(1,1));", "((1,1),2", "(7,(7,7):.);",
                                       "(999999999999999999999999999999,1) ;"};

    for (size_t i = 0; i < sizeof broken / sizeof *broken; i++)
        text_refused(__LINE__, broken[i], 18);
    for (size_t i = 0; i < sizeof leaves / sizeof *leaves; i++)
        text_refused(__LINE__, leaves[i], 19);
    for (size_t i = 0; i < sizeof both / sizeof *both; i++) /* the grammar over the whole text, then the leaves */
        text_refused(__LINE__, both[i], 18);
}

/* A text over n leaves with n-1 groups open at once, the deep one first or second; the leaves are 1 to n, or all 1. */
static const char *deep_text(unsigned n, int second, int ones)
{
    static char text[4096];
    char *end = text;

    for (unsigned i = 1; !second && i < n; i++)
        *end++ = '(';
    for (unsigned a = 1; a <= n; a++) {
        const char *before = second && a < n ? "(" : "", *after = second ? a < n ? "," : "" : a == 1 ? "" : ")";
        end += sprintf(end, "%s%s%u%s", before, !second && a > 1 ? "," : "", ones ? 1 : a, after);
    }
    for (unsigned i = 1; second && i < n; i++)
        *end++ = ')';
    strcpy(end, ";");
    return text;
}

static void deepest_texts(void)
{
    static uint16_t first[1022], second[1022];
    static char open[513];

    for (uint16_t i = 1; i < 512; i++) {
        first[2 * i - 2] = i == 1 ? 1 : (uint16_t)(511 + i);
        first[2 * i - 1] = (uint16_t)(i + 1);
        second[2 * i - 2] = (uint16_t)(512 - i);
        second[2 * i - 1] = i == 1 ? 512 : (uint16_t)(511 + i);
    }
    read_text(__LINE__, deep_text(512, 0, 0), TANGLE_MOST_ROWS, 0, 512, first);
    read_text(__LINE__, deep_text(512, 0, 0), MOST_PLACES, 0, 512, first);
    read_text(__LINE__, deep_text(512, 0, 0), TANGLE_MOST_ROWS - 1, 14, 0, NULL);
    read_text(__LINE__, deep_text(512, 1, 0), TANGLE_MOST_ROWS, 0, 512, second);
    for (int deep = 0; deep <= 1; deep++) { /* 511 groups open, then 512 */
        text_refused(__LINE__, deep_text(512, deep, 1), 19);
        text_refused(__LINE__, deep_text(513, deep, 1), 18);
        text_refused(__LINE__, deep_text(513, deep, 0), 18);
    }
    memset(open, '(', 512);
    text_refused(__LINE__, open, 18);
    text_refused(__LINE__, open + 1, 18);
}

/* Adds the leaves from a to b, halved again and again, to a text; answers its new end. */
static char *add_halves(char *end, unsigned a, unsigned b)
{
    if (a == b)
        return end + sprintf(end, "%u", a);
    *end++ = '(';
    end = add_halves(end, a, (a + b) / 2);
    *end++ = ',';
    end = add_halves(end, (a + b) / 2 + 1, b);
    *end++ = ')';
    return end;
}

/* 512 leaves, and one more, with no more than ten groups open at once. */
static void flat_texts(void)
{
    static char text[4096];
    static uint16_t rows[TANGLE_MOST_ROWS], links[512];
    uint16_t order[512];

    strcpy(add_halves(text, 1, 513), ";");
    text_refused(__LINE__, text, 19);
    text[strlen(text) - 1] = ',';
    text_refused(__LINE__, text, 18);

    strcpy(add_halves(text, 1, 512), ";");
    check(__LINE__, "n", tangle_newick_read((uint8_t *)text, strlen(text), rows, TANGLE_MOST_ROWS).n, 512);
    for (uint16_t i = 0; i < 512; i++)
        links[i] = (uint16_t)(i + 1);
    record('N', 512, rows, rows, links);
    check(__LINE__, "refusal", tangle_order(bytes(), r.length, TANGLE_LEFT, order, 512).refusal, 0);
    check(__LINE__, "the order differs", memcmp(order, links, sizeof links) != 0, 0);
    write_text(__LINE__, TANGLE_RIGHT, TANGLE_MOST_TEXT, 0, text);
}

static void long_texts(void)
{
    static const uint16_t turned[] = {2, 1};
    static uint8_t text[1 << 20];
    size_t last = sizeof text - 1;

    memset(text, '7', sizeof text);
    memcpy(text, "(2:", 3);
    memcpy(text + 300000, ",1:.", 4);
    memcpy(text + 600000, "):", 2);
    text[900000] = '.';
    memcpy(text + last - 1, ";\n", 2);
    read_bytes(__LINE__, text, sizeof text, 2, 0, 2, turned);
    read_bytes(__LINE__, text, sizeof text, 1, 14, 0, NULL);
    read_bytes(__LINE__, text, last, 2, 0, 2, turned);
    read_bytes(__LINE__, text, last - 1, 2, 18, 0, NULL);
    text[1] = '3';
    read_bytes(__LINE__, text, sizeof text, 2, 19, 0, NULL);
    text[1000000] = '.';
    read_bytes(__LINE__, text, sizeof text, 2, 18, 0, NULL);
    memset(text, '(', sizeof text);
    read_bytes(__LINE__, text, sizeof text, 2, 18, 0, NULL);
    memset(text, '1', sizeof text);
    read_bytes(__LINE__, text, sizeof text, 2, 18, 0, NULL);
    text[last] = ';';
    read_bytes(__LINE__, text, sizeof text, 2, 19, 0, NULL);
}

static void texts_written(void)
{
    static const uint16_t pair[] = {2, 1};

    case2('N');
    write_text(__LINE__, TANGLE_LEFT, 14, 0, "(4,(3,(1,2)));");
    write_text(__LINE__, TANGLE_RIGHT, 15, 0, "((1,2),(3,4));");
    write_text(__LINE__, TANGLE_LEFT, MOST, 0, "(4,(3,(1,2)));");
    write_text(__LINE__, TANGLE_LEFT, 13, 14, "");
    write_text(__LINE__, TANGLE_RIGHT, 0, 14, "");
    case2('B'); /* a hold is no matter */
    bytes()[40] = bytes()[42] = bytes()[44] = 1;
    write_text(__LINE__, TANGLE_LEFT, 14, 0, "((3,(2,1)),4);");
    write_text(__LINE__, TANGLE_RIGHT, 14, 0, "((1,2),(4,3));");
    record('L', 1, NULL, NULL, identity);
    write_text(__LINE__, TANGLE_LEFT, 2, 0, "1;");
    write_text(__LINE__, TANGLE_RIGHT, 3, 0, "1;");
    write_text(__LINE__, TANGLE_RIGHT, 1, 14, "");
    record('R', 2, pair, pair, identity);
    write_text(__LINE__, TANGLE_RIGHT, 6, 0, "(2,1);");
    bytes()[r.length - 1] = 1;
    write_text(__LINE__, TANGLE_RIGHT, 6, 0, "(1,2);");

    /* the side, then the record, then the room */
    write_text(__LINE__, 0, 0, 13, "");
    write_text(__LINE__, 3, MOST, 13, "");
    bytes()[r.length - 1] = 4;
    write_text(__LINE__, 3, 0, 13, "");
    write_text(__LINE__, TANGLE_LEFT, 0, 10, "");
    deep(512, 0);
    write_text(__LINE__, TANGLE_LEFT, TANGLE_MOST_TEXT, 0, deep_text(512, 0, 0));
    write_text(__LINE__, TANGLE_RIGHT, MOST, 0, deep_text(512, 0, 0));
    write_text(__LINE__, TANGLE_LEFT, TANGLE_MOST_TEXT - 1, 14, "");
}

/* The places, first to last, that the leaves under each row of the left have in an order of 512: one mark for each row
 * at [first][last]. */
static void mark_rows(uint8_t (*marks)[512], const uint16_t *rows, const uint16_t *leaves)
{
    static uint16_t first[1024], last[1024];

    for (uint16_t i = 0; i < 512; i++)
        first[leaves[i]] = last[leaves[i]] = i;
    for (size_t i = 0; i < 511; i++) {
        uint16_t u = rows[2 * i], l = rows[2 * i + 1];
        first[513 + i] = first[u] < first[l] ? first[u] : first[l];
        last[513 + i] = last[u] > last[l] ? last[u] : last[l];
        marks[first[513 + i]][last[513 + i]]++;
    }
}

/* What was written is read as a tree of the same order and the same sets, and written again as the same text. */
static void there_and_back(void)
{
    static uint8_t text[TANGLE_MOST_TEXT], again[TANGLE_MOST_TEXT], before[512][512], after[512][512];
    static uint16_t rows[TANGLE_MOST_ROWS], leaves[512], same[512];
    struct tangle_newick_read a;

    deep(512, 0);
    for (size_t i = 0; i < 511; i++)
        bytes()[5120 + i] = i % 3 == 1 || i % 7 == 2;
    unpack(512, 0);
    check(__LINE__, "refusal", tangle_order(bytes(), r.length, TANGLE_LEFT, leaves, 512).refusal, 0);
    mark_rows(before, places(&parts.left), leaves);
    check(__LINE__, "length", tangle_newick_write(bytes(), r.length, TANGLE_LEFT, text, sizeof text).length, 2962);
    a = tangle_newick_read(text, sizeof text, rows, TANGLE_MOST_ROWS);
    told(__LINE__, a.refusal, a.row, 0);
    check(__LINE__, "n", a.n, 512);
    record('N', 512, rows, rows, leaves);
    checked(__LINE__, 0);
    check(__LINE__, "refusal", tangle_order(bytes(), r.length, TANGLE_LEFT, same, 512).refusal, 0);
    check(__LINE__, "the order differs", memcmp(leaves, same, sizeof same) != 0, 0);
    mark_rows(after, rows, leaves);
    check(__LINE__, "the sets differ", memcmp(before, after, sizeof after) != 0, 0);
    check(__LINE__, "length", tangle_newick_write(bytes(), r.length, TANGLE_RIGHT, again, sizeof again).length, 2962);
    check(__LINE__, "the text differs", memcmp(text, again, sizeof again) != 0, 0);
}

/* ---- tables read and written */

/* Case 2's rows as tables. */
static const int32_t caterpillar_table[] = {-1, -2, -3, 1, -4, 2}, balanced_table[] = {-1, -2, -3, -4, 1, 2};

static void tables_read(void)
{
    static const int32_t swapped[] = {-4, -3, 1, -1, 2, -2}, pair[] = {-2, -1}, five[] = {-1, -2, -3, -4, -5, 1, 2, 3};
    static const uint16_t swapped_rows[] = {4, 3, 5, 1, 6, 2}, pair_rows[] = {2, 1};
    static const uint16_t five_rows[] = {1, 2, 3, 4, 5, 6, 7, 8};

    read_table(__LINE__, 1, pair, 0, 0, 0, NULL);
    read_table(__LINE__, 1, pair, 0, MOST_PLACES, 0, NULL);
    read_table(__LINE__, 2, pair, 2, 2, 0, pair_rows);
    read_table(__LINE__, 4, caterpillar_table, 6, 6, 0, caterpillar);
    read_table(__LINE__, 4, balanced_table, 6, 7, 0, balanced);
    read_table(__LINE__, 4, swapped, 6, MOST_PLACES, 0, swapped_rows);
    read_table(__LINE__, 5, five, 8, 8, 0, five_rows);

    /* the room comes last */
    read_table(__LINE__, 2, pair, 2, 1, 14, NULL);
    read_table(__LINE__, 2, pair, 2, 0, 14, NULL);
    read_table(__LINE__, 4, balanced_table, 6, 5, 14, NULL);
}

/* Case 2's left table with one entry changed, and another one too unless that is to be 0. */
static void entry_refused(int line, size_t at, int32_t entry, size_t other, int32_t also, uint32_t refusal)
{
    int32_t table[6];

    memcpy(table, caterpillar_table, sizeof table);
    if (also != 0)
        table[other] = also;
    table[at] = entry;
    table_refused(line, 4, table, 6, refusal);
}

/* 5 before 6, and both before the entries. */
static void table_sizes_refused(void)
{
    static const uint32_t no_size[] = {0, 513, 514, 65535, 65536, 65537, 65540, 131076, 0x80000004, UINT32_MAX};
    static const int32_t longer[] = {-1, -2, -3, 1, -4, 2, -5, 3};
    static const int32_t nothing[6] = {0};

    for (size_t i = 0; i < sizeof no_size / sizeof *no_size; i++) {
        table_refused(__LINE__, no_size[i], caterpillar_table, 6, 5);
        table_refused(__LINE__, no_size[i], nothing, 0, 5);
        table_refused(__LINE__, no_size[i], nothing, 3, 5);
    }
    for (size_t length = 0; length <= 8; length++) {
        if (length != 6) {
            table_refused(__LINE__, 4, longer, length, 6);
            table_refused(__LINE__, 512, longer, length, 6);
        }
        if (length != 0)
            table_refused(__LINE__, 1, longer, length, 6);
    }
    table_refused(__LINE__, 3, nothing, 5, 6);
}

static void table_entries_refused(void)
{
    /* 20: in each place zero, the row itself, a later one, no leaf, the ends of 32 bits, a leaf and 256 or 65,536 */
    for (size_t at = 0; at < 6; at++) {
        int32_t row = (int32_t)at / 2 + 1;
        const int32_t bad[] = {0, row, row + 1, 5, 511, -5, -513, INT32_MIN, INT32_MIN + 1, INT32_MAX, -257, -65537,
                               65537};

        for (size_t i = 0; i < sizeof bad / sizeof *bad; i++) {
            entry_refused(__LINE__, at, bad[i], 0, 0, 20);
            entry_refused(__LINE__, at, bad[i], at ^ 1, caterpillar_table[((at | 1) + 1) % 6], 20); /* before 21 */
        }
    }
    entry_refused(__LINE__, 5, 0, 1, -1, 20); /* the last entry, with 21 in row 1 */
    entry_refused(__LINE__, 5, 3, 1, -1, 20);
    entry_refused(__LINE__, 4, INT32_MIN, 1, -1, 20);

    /* 21: in the row itself, in the row before, from end to end, a row's number */
    entry_refused(__LINE__, 1, -1, 0, 0, 21);
    entry_refused(__LINE__, 2, -2, 0, 0, 21);
    entry_refused(__LINE__, 5, -1, 0, 0, 21);
    entry_refused(__LINE__, 5, 1, 0, 0, 21);
    entry_refused(__LINE__, 4, 2, 0, 0, 21);
    entry_refused(__LINE__, 0, -4, 0, 0, 21);
}

/* The rows of deep(512, 0) as a table. */
static int32_t deep_table[TANGLE_MOST_ROWS];

static void make_deep_table(void)
{
    for (int32_t i = 1; i < 512; i++) {
        deep_table[2 * i - 2] = i == 1 ? -1 : i - 1;
        deep_table[2 * i - 1] = -i - 1;
    }
}

static void largest_tables(void)
{
    static int32_t more[TANGLE_MOST_ROWS + 2];
    static uint16_t rows[TANGLE_MOST_ROWS];

    make_deep_table();
    for (uint16_t i = 1; i < 512; i++) {
        rows[2 * i - 2] = i == 1 ? 1 : (uint16_t)(511 + i);
        rows[2 * i - 1] = (uint16_t)(i + 1);
    }
    read_table(__LINE__, 512, deep_table, 1022, TANGLE_MOST_ROWS, 0, rows);
    read_table(__LINE__, 512, deep_table, 1022, MOST_PLACES, 0, rows);
    read_table(__LINE__, 512, deep_table, 1022, TANGLE_MOST_ROWS - 1, 14, NULL);
    table_refused(__LINE__, 511, deep_table, 1022, 6);
    table_refused(__LINE__, 512, deep_table, 1021, 6);
    table_refused(__LINE__, 512, deep_table, 1020, 6);

    memcpy(more, deep_table, sizeof deep_table); /* 513 leaves */
    more[1022] = 511;
    more[1023] = -513;
    table_refused(__LINE__, 513, more, 1024, 5);
    table_refused(__LINE__, 512, more, 1024, 6);
    table_refused(__LINE__, 512, more, 1023, 6);

    more[1021] = -513; /* the last entry, -512, is the last leaf */
    table_refused(__LINE__, 512, more, 1022, 20);
    more[1021] = 511; /* the row itself */
    table_refused(__LINE__, 512, more, 1022, 20);
    more[1021] = -1; /* the first entry again */
    table_refused(__LINE__, 512, more, 1022, 21);
    more[1021] = 509; /* as the row before has it */
    table_refused(__LINE__, 512, more, 1022, 21);
    more[1020] = 0;
    table_refused(__LINE__, 512, more, 1022, 20);
}

static void tables_written(void)
{
    static const uint16_t pair[] = {2, 1};
    static const int32_t pair_table[] = {-2, -1};

    case2('N');
    write_table(__LINE__, TANGLE_LEFT, 6, 0, caterpillar_table, 6);
    write_table(__LINE__, TANGLE_RIGHT, 7, 0, balanced_table, 6);
    write_table(__LINE__, TANGLE_LEFT, MOST_PLACES, 0, caterpillar_table, 6);
    write_refused(__LINE__, TANGLE_LEFT, 5, 14);
    write_refused(__LINE__, TANGLE_RIGHT, 0, 14);
    case2('B'); /* a hold is no matter, nor is a layout */
    memset(bytes() + 40, 1, 6);
    write_table(__LINE__, TANGLE_LEFT, 6, 0, caterpillar_table, 6);
    write_table(__LINE__, TANGLE_RIGHT, 6, 0, balanced_table, 6);
    record('L', 1, NULL, NULL, identity);
    write_table(__LINE__, TANGLE_LEFT, 0, 0, NULL, 0);
    write_table(__LINE__, TANGLE_RIGHT, 3, 0, NULL, 0);
    record('R', 2, pair, pair, identity);
    write_table(__LINE__, TANGLE_RIGHT, 2, 0, pair_table, 2);
    write_refused(__LINE__, TANGLE_RIGHT, 1, 14);

    /* the side, then the record, then the room */
    write_refused(__LINE__, 0, 0, 13);
    write_refused(__LINE__, 3, MOST_PLACES, 13);
    bytes()[r.length - 1] = 4;
    write_refused(__LINE__, 3, 0, 13);
    write_refused(__LINE__, TANGLE_LEFT, 0, 10);
    make_deep_table();
    deep(512, 1);
    write_table(__LINE__, TANGLE_LEFT, TANGLE_MOST_ROWS, 0, deep_table, 1022);
    write_table(__LINE__, TANGLE_RIGHT, MOST_PLACES, 0, deep_table, 1022);
    write_refused(__LINE__, TANGLE_RIGHT, TANGLE_MOST_ROWS - 1, 14);
}

/* Rows to a table and back are the same rows, and a table to rows and back is the same table. */
static void tables_there_and_back(void)
{
    static const uint16_t leaves[] = {1, 2, 3, 4, 63, 64, 65, 255, 256, 257, 511, 512};
    static int32_t table[TANGLE_MOST_ROWS], again[TANGLE_MOST_ROWS];
    static uint16_t rows[TANGLE_MOST_ROWS], links[512];

    for (uint16_t a = 0; a < 512; a++)
        links[a] = (uint16_t)(a + 1);
    for (size_t i = 0; i < sizeof leaves / sizeof *leaves; i++) {
        uint16_t n = leaves[i];
        size_t length = 2 * (size_t)(n - 1);

        deep(n, 0);
        check(__LINE__, "refusal", tangle_merge_write(bytes(), r.length, TANGLE_LEFT, table, length).refusal, 0);
        check(__LINE__, "refusal", tangle_merge_read(n, table, length, rows, length).refusal, 0);
        kept = r;
        record('N', n, rows, rows, links);
        same_bytes(__LINE__, &kept);

        for (size_t k = 0; k < length; k++) /* the same table with its leaves counted from the other end */
            table[k] = table[k] < 0 ? -(n + 1) - table[k] : table[k];
        check(__LINE__, "refusal", tangle_merge_read(n, table, length, rows, length).refusal, 0);
        record('N', n, rows, rows, links);
        checked(__LINE__, 0);
        check(__LINE__, "refusal", tangle_merge_write(bytes(), r.length, TANGLE_RIGHT, again, length).refusal, 0);
        check(__LINE__, "the table differs", memcmp(table, again, length * sizeof *table) != 0, 0);
    }
}

/* ---- numbers whose low 8 or 16 bits would be accepted */

static void wide_numbers(void)
{
    static const uint32_t no_left[] = {257, 65537, 131073, 0x80000001, UINT32_MAX};
    static const uint32_t no_right[] = {258, 65538, 0xffff0002};
    static const uint32_t no_letter[] = {334, 256 + 'L', 65536 + 'N', 0xffffff00 + 'B', UINT32_MAX};
    static const uint32_t no_size[] = {65540, 131076, 0xffff0004, 65537, UINT32_MAX};

    case2('N');
    for (size_t i = 0; i < 5; i++) {
        write_text(__LINE__, no_left[i], MOST, 13, "");
        write_refused(__LINE__, no_left[i], MOST_PLACES, 13);
        order(__LINE__, no_left[i], 4, 13, "");
        free_side(__LINE__, no_left[i], 13, 0, 0);
        better(__LINE__, no_left[i], "4312", "1234", 13, 0);
        not_taken(__LINE__, no_left[i], "4312", 3, 13);
    }
    for (size_t i = 0; i < 3; i++) {
        write_text(__LINE__, no_right[i], MOST, 13, "");
        write_refused(__LINE__, no_right[i], MOST_PLACES, 13);
        order(__LINE__, no_right[i], 4, 13, "");
        free_side(__LINE__, no_right[i], 13, 0, 0);
        better(__LINE__, no_right[i], "4312", "1234", 13, 0);
        not_taken(__LINE__, no_right[i], "1234", 3, 13);
    }
    unpack(4, 0);
    for (size_t i = 0; i < 5; i++) {
        set_hold(__LINE__, no_letter[i], 4);
        pack(__LINE__, 4, no_letter[i], 4, 0, 46, 4);
        pack(__LINE__, 4, no_letter[i], no_size[i], 0, 46, 4);
        pack(__LINE__, 4, 'N', no_size[i], 0, 46, 5);
    }
    run(__LINE__, 65536 + 65536, 12, 0, 0, 0, 0);
    run(__LINE__, 0x80000002, 12, 0, 0, 0, 0);
}

int main(void)
{
    examples_1_to_4();
    examples_5_6_and_10();
    examples_7_to_9();
    examples_11_to_13();
    limits_of_thousandths();
    records_refused();
    rows_refused();
    links_refused();
    longer_than_16_bits();
    arguments_refused();
    hand_lists();
    orders();
    holds_set();
    better_of_two();
    pins_set();
    pins_refused();
    bytes_of_a_layout();
    pins_shown();
    pins_by_hand();
    pins_freed();
    orders_taken_in();
    smallest_and_largest_order();
    orders_with_pins();
    orders_not_taken_in();
    orders_left_by_freeing();
    parts_of_case2();
    parts_refused();
    texts_read();
    texts_refused();
    deepest_texts();
    flat_texts();
    long_texts();
    texts_written();
    there_and_back();
    tables_read();
    table_sizes_refused();
    table_entries_refused();
    largest_tables();
    tables_written();
    tables_there_and_back();
    wide_numbers();
    printf("test: %u checks, %u failed\n", checks, failures);
    return failures == 0 && checks != 0 ? 0 : 1;
}
