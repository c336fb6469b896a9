/* Peak stack of every call (tangle.h) on records, texts and merge tables of 512 leaves, by a painted stack. A line for
 * each call and record: call, left tree, right tree, layout bytes (0, 1, 2 for mixed, or 3 for mixed with pins), bytes.
 * For reading a text or a table, and for taking in orders other than the present one: call, tree, what the text, the
 * table or the order is, a dash, bytes. The bytes include the few that the harness takes to hand the arguments over.
 * Ends with 1 if a call refuses a good record, text, table or order or accepts one that is bad, if an order, a text, a
 * table, the rows of one, layout bytes or a pinned record are not those expected, or if two calls that must agree do
 * not. */
#include <stdio.h>

#include "../viewer/tangle.h"
#include "painted.h"
#include "trees.h"

enum { N = TANGLE_MOST_LEAVES, ROWS = N - 1, BYTES = TANGLE_MOST_BYTES, ENTRIES = TANGLE_MOST_HANDS };
enum { TEXT = TANGLE_MOST_TEXT, LONG_TEXT = 1 << 20 };

/* Layout bytes: all 0, all 1, either of the two at random, or any of the four, where rows 1, 5, 9 and so on of both
 * sides are not pinned. */
enum { AS_GIVEN, TURNED, MIXED, WITH_PINS, UNPINNED = 4 };

static uint8_t made[BYTES], s[BYTES], packed[BYTES], left_layout[ROWS], right_layout[ROWS];
static uint16_t out[N], first[N], second[N], left[2 * ROWS], right[2 * ROWS], links[N];
static struct tangle_entry list[ENTRIES];
static uint8_t taken[ROWS];
static size_t order_entries, layout_places;
static uint8_t written[TEXT];
static char text[LONG_TEXT + 1];
static size_t text_length, text_places;
static uint16_t text_rows[2 * ROWS];
static int32_t table[2 * ROWS], written_table[2 * ROWS];
static size_t table_places;
static uint16_t table_rows[2 * ROWS];

/* What the jobs found: the last refusal's number, and the calls' answers. */
static struct {
    uint32_t refusal;
    struct tangle_count count, pairs;
    struct tangle_squared_entanglement squared;
    struct tangle_thousandths thousandths;
    struct tangle_free freed;
    struct tangle_run ran;
    struct tangle_better better;
    struct tangle_take_in taken;
    struct tangle_unpack unpacked;
    struct tangle_newick_read read;
    struct tangle_newick_write wrote;
} found;

static void no_job(void) {}
static void check(void) { found.refusal = tangle_check(s, BYTES).refusal; }
static void hold(void) { found.refusal = tangle_hold(s, BYTES, TANGLE_HOLD_BOTH).refusal; }
static void order_left(void) { found.refusal = tangle_order(s, BYTES, TANGLE_LEFT, out, N).refusal; }
static void order_right(void) { found.refusal = tangle_order(s, BYTES, TANGLE_RIGHT, out, N).refusal; }
static void hands(void) { found.refusal = tangle_hands(s, BYTES, list, ENTRIES).refusal; }
static void pin_left(void) { found.refusal = tangle_pin(s, BYTES, TANGLE_LEFT, ROWS, 1).refusal; }
static void pin_right(void) { found.refusal = tangle_pin(s, BYTES, TANGLE_RIGHT, ROWS, 1).refusal; }

static void count(void) {
    found.count = tangle_count(s, BYTES);
    found.refusal = found.count.refusal;
}

static void pairs(void) {
    found.pairs = tangle_pairs(s, BYTES);
    found.refusal = found.pairs.refusal;
}

static void squared_entanglement(void) {
    found.squared = tangle_squared_entanglement(s, BYTES);
    found.refusal = found.squared.refusal;
}

static void thousandths(void) {
    found.thousandths = tangle_thousandths(s, BYTES);
    found.refusal = found.thousandths.refusal;
}

static void free_left(void) {
    found.freed = tangle_free(s, BYTES, TANGLE_LEFT);
    found.refusal = found.freed.refusal;
}

static void free_right(void) {
    found.freed = tangle_free(s, BYTES, TANGLE_RIGHT);
    found.refusal = found.freed.refusal;
}

static void take_in_left(void) {
    found.taken = tangle_take_in(s, BYTES, TANGLE_LEFT, first, order_entries, taken, layout_places);
    found.refusal = found.taken.refusal;
}

static void take_in_right(void) {
    found.taken = tangle_take_in(s, BYTES, TANGLE_RIGHT, first, order_entries, taken, layout_places);
    found.refusal = found.taken.refusal;
}

static void run(void) {
    found.ran = tangle_run(s, BYTES, TANGLE_MOST_TURNS);
    found.refusal = found.ran.refusal;
}

static void better_left(void) {
    found.better = tangle_better(s, BYTES, TANGLE_LEFT, first, N, second, N);
    found.refusal = found.better.refusal;
}

static void better_right(void) {
    found.better = tangle_better(s, BYTES, TANGLE_RIGHT, first, N, second, N);
    found.refusal = found.better.refusal;
}

static void better_check_left(void) {
    found.refusal = tangle_better_check(s, BYTES, TANGLE_LEFT, first, N, second, N).refusal;
}

static void better_check_right(void) {
    found.refusal = tangle_better_check(s, BYTES, TANGLE_RIGHT, first, N, second, N).refusal;
}

static void unpack(void) {
    found.unpacked = tangle_unpack(s, BYTES, left, 2 * ROWS, right, 2 * ROWS, links, N, left_layout, ROWS, right_layout,
                                   ROWS);
    found.refusal = found.unpacked.refusal;
}

static void pack(void) {
    found.refusal = tangle_pack(made[5], N, left, 2 * ROWS, right, 2 * ROWS, links, N, left_layout, ROWS, right_layout,
                                ROWS, packed, BYTES).refusal;
}

static void newick_write_left(void) {
    found.wrote = tangle_newick_write(s, BYTES, TANGLE_LEFT, written, TEXT);
    found.refusal = found.wrote.refusal;
}

static void newick_write_right(void) {
    found.wrote = tangle_newick_write(s, BYTES, TANGLE_RIGHT, written, TEXT);
    found.refusal = found.wrote.refusal;
}

static void newick_read(void) {
    found.read = tangle_newick_read((const uint8_t *)text, text_length, text_rows, text_places);
    found.refusal = found.read.refusal;
}

static void merge_write_left(void) {
    found.refusal = tangle_merge_write(s, BYTES, TANGLE_LEFT, written_table, 2 * ROWS).refusal;
}

static void merge_write_right(void) {
    found.refusal = tangle_merge_write(s, BYTES, TANGLE_RIGHT, written_table, 2 * ROWS).refusal;
}

static void merge_read(void) {
    found.refusal = tangle_merge_read(N, table, 2 * ROWS, table_rows, table_places).refusal;
}

/* Every call on a record; those with a side once for each, with two orders of that side at hand. */
static const struct {
    const char *name;
    job_t *job;
    uint32_t side;
} calls[] = {
    {"check", check, 0},
    {"hold", hold, 0},
    {"order", order_left, TANGLE_LEFT},
    {"order", order_right, TANGLE_RIGHT},
    {"count", count, 0},
    {"pairs", pairs, 0},
    {"squared_entanglement", squared_entanglement, 0},
    {"thousandths", thousandths, 0},
    {"free", free_left, TANGLE_LEFT},
    {"free", free_right, TANGLE_RIGHT},
    {"take_in", take_in_left, TANGLE_LEFT},
    {"take_in", take_in_right, TANGLE_RIGHT},
    {"run", run, 0},
    {"hands", hands, 0},
    {"pin", pin_left, TANGLE_LEFT},
    {"pin", pin_right, TANGLE_RIGHT},
    {"better", better_left, TANGLE_LEFT},
    {"better", better_right, TANGLE_RIGHT},
    {"better_check", better_check_left, TANGLE_LEFT},
    {"better_check", better_check_right, TANGLE_RIGHT},
    {"unpack", unpack, 0},
    {"pack", pack, 0},
    {"newick_write", newick_write_left, TANGLE_LEFT},
    {"newick_write", newick_write_right, TANGLE_RIGHT},
    {"merge_write", merge_write_left, TANGLE_LEFT},
    {"merge_write", merge_write_right, TANGLE_RIGHT},
};

static void put(size_t at, uint16_t x) {
    made[at] = (uint8_t)(x >> 8);
    made[at + 1] = (uint8_t)(x & 255);
}

static uint8_t layout_byte(uint8_t layout, size_t row) {
    if (layout < MIXED) return layout;
    return (uint8_t)below(layout == MIXED || row % UNPINNED == 1 ? 2 : 4);
}

/* A record of these trees with shuffled links, no side held, and such layout bytes; and a hand list for it. */
static void make(rows_t *left_rows, rows_t *right_rows, uint8_t layout) {
    static const uint8_t opening[6] = {'T', 'G', 'P', 0, 1, 'N'};
    memcpy(made, opening, sizeof opening);
    put(6, N);
    left_rows(left, N);
    right_rows(right, N);
    for (uint16_t i = 0; i < N; i++) links[i] = (uint16_t)(i + 1);
    for (uint16_t i = N; i > 1; i--) {
        uint16_t k = below(i), x = links[i - 1];
        links[i - 1] = links[k];
        links[k] = x;
    }
    for (size_t i = 0; i < 2 * ROWS; i++) put(8 + 2 * i, left[i]);
    for (size_t i = 0; i < 2 * ROWS; i++) put(8 + 4 * ROWS + 2 * i, right[i]);
    for (size_t i = 0; i < N; i++) put(8 + 8 * ROWS + 2 * i, links[i]);
    for (size_t i = 0; i < 2 * ROWS; i++) made[8 + 8 * ROWS + 2 * N + i] = layout_byte(layout, 1 + i % ROWS);
    uint16_t step = layout == WITH_PINS ? UNPINNED : 1;
    for (uint16_t i = 0; i < ENTRIES; i++)
        list[i] = (struct tangle_entry){(uint16_t)(1 + i % 2), (uint16_t)(1 + i % (ROWS / step) * step)};
}

static void restore(void) { memcpy(s, made, BYTES); }

/* The stack of a call's work, which leaves its answer in `found`. */
static size_t bytes_of(job_t *job) { return reach(restore, job) - reach(restore, no_job); }

/* A side's present order, and the same backwards: two that are compatible. With room for the layout of one. */
static void propose(uint32_t side) {
    restore();
    tangle_order(s, BYTES, side, first, N);
    for (size_t i = 0; i < N; i++) second[i] = first[N - 1 - i];
    order_entries = N;
    layout_places = ROWS;
}

/* Whether the order found is 1 to n, or n to 1 if it falls. */
static int in_order(int falls) {
    int good = 1;
    for (uint16_t i = 0; i < N; i++) good &= out[i] == (falls ? N - i : i + 1);
    return good;
}

/* Whether the text found is the side's, upper and lower exchanged where a row is turned. */
static int in_words(uint32_t side) {
    static char expected[TEXT + 1];
    uint16_t turned[2 * ROWS];
    const uint8_t *layout = made + 10 * N + (side == TANGLE_LEFT ? 0 : ROWS);
    for (size_t i = 0; i < 2 * ROWS; i++) turned[i] = (side == TANGLE_LEFT ? left : right)[i ^ (layout[i / 2] & 1)];
    strcpy(spell(expected, turned, N, 2 * N - 1, 0), ";");
    return found.wrote.length == TEXT && memcmp(written, expected, TEXT) == 0;
}

/* Whether the table found is the side's, whatever is turned. */
static int in_signs(uint32_t side) {
    int32_t expected[2 * ROWS];
    put_signs(expected, side == TANGLE_LEFT ? left : right, N);
    return memcmp(written_table, expected, sizeof expected) == 0;
}

/* Whether the bytes found for the side's present order are those of the record, and its count is the record's. */
static int in_bytes(uint32_t side) {
    const uint8_t *layout = made + 10 * N + (side == TANGLE_LEFT ? 0 : ROWS);
    return memcmp(taken, layout, ROWS) == 0 && found.taken.count == found.count.count;
}

/* Whether the record, with the side's last row pinned, differs from the one made by that alone. */
static int in_place(uint32_t side) {
    uint8_t expected[BYTES];
    size_t last = 10 * N + (side == TANGLE_LEFT ? 1 : 2) * ROWS - 1;
    memcpy(expected, made, BYTES);
    expected[last] = (uint8_t)(expected[last] | 2);
    restore();
    tangle_pin(s, BYTES, side, ROWS, 1);
    return memcmp(s, expected, BYTES) == 0;
}

/* Whether the thousandths found are the root of the ratio found: k fits, and k + 1 does not. */
static int is_root(void) {
    uint64_t k = found.thousandths.thousandths, d = found.squared.displacement, w = found.squared.worst;
    return found.squared.has_ratio == 1 && found.thousandths.has_ratio == 1 && k * k * w <= 1000000 * d &&
           1000000 * d < (k + 1) * (k + 1) * w;
}

static int agree(void) {
    uint32_t crossings = found.count.count;
    return found.pairs.count == crossings && found.freed.before == crossings && found.freed.after <= crossings &&
           found.ran.first == crossings && found.ran.last <= crossings && found.ran.settled == 1 &&
           is_root() && found.better.length == N && found.unpacked.hold == made[5] && found.unpacked.n == N &&
           memcmp(packed, made, BYTES) == 0;
}

/* A tree, and its order with every layout byte 0: 1 if that is 1 to n, -1 if it is n to 1, 0 for another. */
static const struct {
    const char *name;
    rows_t *rows;
    int direction;
} shapes[] = {{"upper-deep", upper_deep, 1}, {"lower-deep", lower_deep, -1}, {"balanced", balanced, 1},
              {"random", joined, 0}};

static int measure(size_t on_left, size_t on_right, uint8_t layout) {
    int good = 1;
    char name[64];
    snprintf(name, sizeof name, "%s %s %u", shapes[on_left].name, shapes[on_right].name, layout);
    make(shapes[on_left].rows, shapes[on_right].rows, layout);
    for (size_t i = 0; i < sizeof calls / sizeof *calls; i++) {
        int direction = shapes[calls[i].side == TANGLE_LEFT ? on_left : on_right].direction;
        if (calls[i].side != 0) propose(calls[i].side);
        found.refusal = 1;
        size_t bytes = bytes_of(calls[i].job);
        printf("%s %s %zu\n", calls[i].name, name, bytes);
        int answered = found.refusal == 0;
        if (strcmp(calls[i].name, "order") == 0 && direction != 0 && layout < MIXED)
            answered &= in_order((direction < 0) != (layout == TURNED));
        if (strcmp(calls[i].name, "take_in") == 0) answered &= in_bytes(calls[i].side);
        if (strcmp(calls[i].name, "pin") == 0) answered &= in_place(calls[i].side);
        if (strcmp(calls[i].name, "newick_write") == 0) answered &= in_words(calls[i].side);
        if (strcmp(calls[i].name, "merge_write") == 0) answered &= in_signs(calls[i].side);
        if (!answered) fprintf(stderr, "%s, %s: refused, or another answer\n", calls[i].name, name);
        good &= answered;
    }
    if (!agree()) fprintf(stderr, "%s: the calls do not agree\n", name);
    return good && agree();
}

/* Each call on a record whose row 511 is bad on one side: its upper entry is 0. Packing's lists have it too. */
static int measure_bad_row(uint32_t side) {
    uint32_t expected = side == TANGLE_LEFT ? TANGLE_LEFT_ROW : TANGLE_RIGHT_ROW;
    int good = 1;
    make(balanced, balanced, AS_GIVEN);
    (side == TANGLE_LEFT ? left : right)[2 * ROWS - 2] = 0;
    put(side == TANGLE_LEFT ? 4 + 4 * ROWS : 4 + 8 * ROWS, 0);
    for (size_t i = 0; i < sizeof calls / sizeof *calls; i++) {
        size_t bytes = bytes_of(calls[i].job);
        printf("%s %s 0 %zu\n", calls[i].name, side == TANGLE_LEFT ? "bad-row balanced" : "balanced bad-row", bytes);
        if (found.refusal != expected) {
            fprintf(stderr, "%s: refusal %u for a bad row\n", calls[i].name, (unsigned)found.refusal);
            good = 0;
        }
    }
    return good;
}

static void free_it(void) {
    restore();
    found.freed = tangle_free(s, BYTES, TANGLE_LEFT);
    tangle_order(s, BYTES, TANGLE_LEFT, first, N);
}

/* The leaf in the middle and the one at a place change places. */
static void exchange(size_t place) {
    uint16_t leaf = first[place];
    first[place] = first[N / 2];
    first[N / 2] = leaf;
}

static void exchange_top(void) { exchange(0); }
static void exchange_bottom(void) { exchange(N - 1); }
static void leaf_twice(void) { first[N - 1] = first[0]; }
static void one_entry_less(void) { order_entries--; }
static void turn_all(void) { memcpy(first, second, sizeof first); }
static void one_place_less(void) { layout_places--; }

/* What an order is: what is done to the present one of the left or to the room for its layout, and the refusal. */
static const struct {
    const char *name;
    job_t *change;
    uint32_t refusal;
} order_kinds[] = {
    {"freed", free_it, 0},
    {"top", exchange_top, TANGLE_ORDER},
    {"bottom", exchange_bottom, TANGLE_ORDER},
    {"twice", leaf_twice, TANGLE_ORDER},
    {"short", one_entry_less, TANGLE_ORDER},
    {"against", turn_all, TANGLE_AGAINST_PIN},
    {"no-room", one_place_less, TANGLE_ROOM},
};

/* Taking in orders of one shape, with pins: the one that freeing leaves, which is least, and bad ones. */
static int measure_orders(size_t shape) {
    int good = 1;
    make(shapes[shape].rows, shapes[shape].rows, WITH_PINS);
    for (size_t i = 0; i < sizeof order_kinds / sizeof *order_kinds; i++) {
        propose(TANGLE_LEFT);
        order_kinds[i].change();
        size_t bytes = bytes_of(take_in_left);
        printf("take_in %s %s - %zu\n", shapes[shape].name, order_kinds[i].name, bytes);
        int answered = found.refusal == order_kinds[i].refusal;
        if (found.refusal == 0) answered &= found.taken.least == 1 && found.taken.count == found.freed.after;
        if (!answered) fprintf(stderr, "take_in, %s %s: another answer\n", shapes[shape].name, order_kinds[i].name);
        good &= answered;
    }
    return good;
}

/* What a text is: how many leaves it has, the digits of its lengths, the places lent, what is done to it at its end or
 * to its first digit, and its refusal. A deep tree over n leaves has n-1 groups open at once. */
static const struct {
    const char *name;
    uint16_t leaves;
    size_t digits, places;
    const char *end;
    char first;
    uint32_t refusal;
} kinds[] = {
    {"read", N, 0, 2 * ROWS, ";", 0, 0},
    {"long", N, 1021, 2 * ROWS, ";", 0, 0},
    {"one-more", N + 1, 0, 2 * ROWS, ";", 0, TANGLE_LEAVES},
    {"no-end", N, 1, 2 * ROWS, "", 0, TANGLE_GRAMMAR},
    {"no-leaf", N, 0, 2 * ROWS, ";", '0', TANGLE_GRAMMAR},
    {"bad-leaf", N, 0, 2 * ROWS, ";", '9', TANGLE_LEAVES},
    {"no-room", N, 0, 2 * ROWS - 1, ";", 0, TANGLE_ROOM},
};

/* Whether the rows found, spelt, are the text without its lengths. */
static int same_tree(const uint16_t *rows) {
    static char expected[TEXT + 1], again[TEXT + 1];
    if (found.read.n != N) return 0;
    spell(expected, rows, N, 2 * N - 1, 0);
    spell(again, text_rows, N, 2 * N - 1, 0);
    return memcmp(expected, again, TEXT - 1) == 0;
}

/* Reading texts of one shape: without lengths, with lengths that make it a megabyte, with a leaf more, and bad ones. */
static int measure_reading(size_t shape) {
    static uint16_t rows[2 * (ROWS + 1)];
    int good = 1;
    for (size_t i = 0; i < sizeof kinds / sizeof *kinds; i++) {
        uint16_t n = kinds[i].leaves;
        int deep = shapes[shape].rows == upper_deep || shapes[shape].rows == lower_deep;
        uint32_t expected = n > N && deep ? TANGLE_GRAMMAR : kinds[i].refusal;
        shapes[shape].rows(rows, n);
        strcpy(spell(text, rows, n, (uint16_t)(2 * n - 1), kinds[i].digits), kinds[i].end);
        if (kinds[i].first != 0) text[strcspn(text, "123456789")] = kinds[i].first;
        text_length = strlen(text);
        text_places = kinds[i].places;
        size_t bytes = bytes_of(newick_read);
        printf("newick_read %s %s - %zu\n", shapes[shape].name, deep && n > N ? "open-512" : kinds[i].name, bytes);
        int answered = found.refusal == expected && (expected != 0 || same_tree(rows));
        if (!answered) fprintf(stderr, "newick_read, %s %s: another answer\n", shapes[shape].name, kinds[i].name);
        good &= answered;
    }
    return good;
}

static void no_leaf(void) { table[0] = -N - 1; }
static void no_row(void) { table[2 * ROWS - 1] = ROWS; } /* the last row's own number */
static void twice(void) { table[2 * ROWS - 1] = table[0]; }
static void no_room(void) { table_places--; }

/* What a table is: what is done to it or to its room, and its refusal. */
static const struct {
    const char *name;
    job_t *change;
    uint32_t refusal;
} table_kinds[] = {
    {"read", no_job, 0},
    {"no-leaf", no_leaf, TANGLE_ENTRY},
    {"no-row", no_row, TANGLE_ENTRY},
    {"twice", twice, TANGLE_TWICE},
    {"no-room", no_room, TANGLE_ROOM},
};

/* Reading merge tables of one shape: a good one, and bad ones. */
static int measure_tables(size_t shape) {
    uint16_t rows[2 * ROWS];
    int good = 1;
    for (size_t i = 0; i < sizeof table_kinds / sizeof *table_kinds; i++) {
        shapes[shape].rows(rows, N);
        put_signs(table, rows, N);
        table_places = 2 * ROWS;
        table_kinds[i].change();
        size_t bytes = bytes_of(merge_read);
        printf("merge_read %s %s - %zu\n", shapes[shape].name, table_kinds[i].name, bytes);
        int answered = found.refusal == table_kinds[i].refusal;
        if (found.refusal == 0) answered &= memcmp(table_rows, rows, sizeof rows) == 0;
        if (!answered) fprintf(stderr, "merge_read, %s %s: another answer\n", shapes[shape].name, table_kinds[i].name);
        good &= answered;
    }
    return good;
}

int main(void) {
    int good = 1;
    for (size_t i = 0; i < 16; i++)
        for (uint8_t layout = AS_GIVEN; layout <= WITH_PINS; layout++) good &= measure(i / 4, i % 4, layout);
    good &= measure_bad_row(TANGLE_LEFT) & measure_bad_row(TANGLE_RIGHT);
    for (size_t i = 0; i < 4; i++) good &= measure_orders(i);
    for (size_t i = 0; i < 3; i++) good &= measure_reading(i); /* all but the random one, whose depth is no limit */
    for (size_t i = 0; i < 4; i++) good &= measure_tables(i);
    return good ? 0 : 1;
}
