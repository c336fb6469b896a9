/* Records of any size, made by a seed: the trees of host/measure/trees.h on either side, three kinds of links and of
 * layouts, all four holds; and the same damaged so that a known refusal is due. Where a part lies is written here
 * again, from docs/RECORD.md. */
#ifndef RECORDS_H
#define RECORDS_H

#include "../measure/trees.h"
#include "../viewer/tangle.h"

enum { MOST_LEAVES = TANGLE_MOST_LEAVES, MOST_BYTES = TANGLE_MOST_BYTES, HOLD_AT = 5, SIZE_AT = 6, ROWS_AT = 8 };
enum { STRAIGHT, REVERSED, SHUFFLED, LINK_KINDS };
enum { AS_GIVEN, TURNED, WITH_PINS, LAYOUT_KINDS };

static rows_t *const shapes[] = {upper_deep, lower_deep, balanced, joined};
static const uint8_t holds[] = {TANGLE_HOLD_NONE, TANGLE_HOLD_LEFT, TANGLE_HOLD_RIGHT, TANGLE_HOLD_BOTH};
enum { SHAPES = sizeof shapes / sizeof *shapes, HOLDS = sizeof holds };

/* What a record is made of: how many leaves, and an index into each of the lists above. */
struct plan {
    uint16_t n;
    size_t left, right;
    int links, layouts;
    size_t hold;
};

/* Any plan for n leaves under a hold. Draws are made one after the other, here and elsewhere, since C does not say
 * which of two in one expression comes first. */
static inline struct plan draw_plan(uint16_t n, size_t hold) {
    struct plan plan = {n, below(SHAPES), 0, 0, 0, hold};
    plan.right = below(SHAPES);
    plan.links = below(LINK_KINDS);
    plan.layouts = below(LAYOUT_KINDS);
    return plan;
}

/* Any row of either side of n leaves, at least 2. */
static inline struct tangle_entry draw_entry(uint16_t n) {
    uint32_t side = 1u + below(2);
    return (struct tangle_entry){side, 1u + below((uint16_t)(n - 1))};
}

static inline size_t bytes_over(uint16_t n) { return 12 * (size_t)n - 2; }

static inline uint16_t leaves_of(const uint8_t *record) {
    return (uint16_t)(record[SIZE_AT] << 8 | record[SIZE_AT + 1]);
}

/* Where a side's layout begins; with side 3, where the record ends. */
static inline size_t layout_from(uint16_t n, uint32_t side) { return 10 * (size_t)n + (side - 1) * ((size_t)n - 1); }

static inline int is_letter(uint32_t letter) {
    return letter == TANGLE_HOLD_NONE || letter == TANGLE_HOLD_LEFT || letter == TANGLE_HOLD_RIGHT ||
           letter == TANGLE_HOLD_BOTH;
}

static inline int is_held(const uint8_t *record, uint32_t side) {
    uint8_t letter = side == TANGLE_LEFT ? TANGLE_HOLD_LEFT : TANGLE_HOLD_RIGHT;
    return record[HOLD_AT] == letter || record[HOLD_AT] == TANGLE_HOLD_BOTH;
}

static inline void put(uint8_t *record, size_t at, uint16_t x) {
    record[at] = (uint8_t)(x >> 8);
    record[at + 1] = (uint8_t)(x & 255);
}

static inline void put_links(uint8_t *record, uint16_t n, int kind) {
    uint16_t links[MOST_LEAVES];
    for (uint16_t a = 0; a < n; a++) links[a] = (uint16_t)(kind == REVERSED ? n - a : a + 1);
    for (uint16_t i = n; kind == SHUFFLED && i > 1; i--) {
        uint16_t k = below(i), x = links[i - 1];
        links[i - 1] = links[k];
        links[k] = x;
    }
    for (size_t a = 0; a < n; a++) put(record, 8 * (size_t)n + 2 * a, links[a]);
}

/* Makes a record, and answers its length. */
static inline size_t make_record(uint8_t *record, const struct plan *plan) {
    uint16_t n = plan->n, rows[2 * MOST_LEAVES];
    memcpy(record, "TGP\0\1", HOLD_AT);
    record[HOLD_AT] = holds[plan->hold];
    put(record, SIZE_AT, n);
    shapes[plan->left](rows, n);
    for (size_t i = 0; i < 2 * ((size_t)n - 1); i++) put(record, ROWS_AT + 2 * i, rows[i]);
    shapes[plan->right](rows, n);
    for (size_t i = 0; i < 2 * ((size_t)n - 1); i++) put(record, 4 * (size_t)n + 4 + 2 * i, rows[i]);
    put_links(record, n, plan->links);
    for (size_t i = layout_from(n, 1); i < bytes_over(n); i++)
        record[i] = plan->layouts == AS_GIVEN ? 0 : (uint8_t)below(plan->layouts == TURNED ? 2 : 4);
    return bytes_over(n);
}

/* Damages a good record so that this refusal, from 1 to 10, is due, and answers its new length. A single leaf has no
 * rows and no layout, and so no 7, 8 and 10. One byte beyond the record is used. */
static inline size_t damage(uint8_t *record, uint32_t refusal) {
    uint16_t n = leaves_of(record), either = below(2);
    size_t length = bytes_over(n), entry = n == 1 ? 0 : below((uint16_t)(2 * n - 2)), leaf = below(n);
    switch (refusal) {
        case TANGLE_SHORT: return below(8);
        case TANGLE_MARK: record[below(3)] ^= 1; break;
        case TANGLE_VERSION: record[3 + either] ^= 2; break;
        case TANGLE_HOLD: record[HOLD_AT] ^= 32; break;
        case TANGLE_SIZE: put(record, SIZE_AT, either ? 0 : MOST_LEAVES + 1); break;
        case TANGLE_LENGTH: record[length] = 0; return either ? length + 1 : length - 1;
        case TANGLE_LEFT_ROW: put(record, ROWS_AT + 2 * entry, 0); break;
        case TANGLE_RIGHT_ROW: put(record, 4 * (size_t)n + 4 + 2 * entry, 0); break;
        case TANGLE_LINKS: put(record, 8 * (size_t)n + 2 * leaf, (uint16_t)(either ? 0 : n + 1)); break;
        case TANGLE_LAYOUT: record[layout_from(n, TANGLE_LEFT) + entry] = (uint8_t)(4 + below(252)); break;
    }
    return length;
}

#endif
