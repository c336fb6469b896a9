/* Arguments for any call, good and bad, by a seed: records of any shape and size, damaged in many ways; numbers in and
 * out of range; lists, texts and tables that fit the record, nearly fit it or don't; buffers with too little, exactly
 * enough and more room. */
#ifndef INPUTS_H
#define INPUTS_H

#include "exports.h"

/* What the arguments are made from: a good record, and the one that is lent, which may be the same one damaged. */
struct source {
    uint16_t n;
    int damaged, accepted;
    size_t length;
    uint8_t good[MOST_BYTES + 1], record[ROOM];
};

static int one_in(uint16_t times) { return below(times) == 0; }

static uint32_t any_number(void) {
    uint32_t high = below(65535);
    return high << 16 ^ below(65535);
}

/* `count` bytes of anything. */
static void scribble(uint8_t *bytes, size_t count) {
    for (size_t i = 0; i < count; i++) bytes[i] = (uint8_t)below(256);
}

/* Damages the record of a source in one of many ways, and answers its new length. */
static size_t damage_any(struct source *s) {
    uint8_t *record = s->record;
    size_t length = bytes_over(s->n), at = below((uint16_t)length);
    switch (below(8)) {
        case 0: return damage(record, s->n == 1 ? 1u + below(6) : 1u + below(10));
        case 1: return damage(record, s->n == 1 ? TANGLE_LINKS : 7u + below(4));
        case 2: return at;
        case 3: scribble(record + length, 64); return length + 1 + below(64);
        case 4: scribble(record, 2 * length); return 2 * at;
        case 5: scribble(record + ROWS_AT, length - ROWS_AT); return length;
        case 6: put(record, at / 2 * 2, below((uint16_t)(2 * s->n))); return length;
        default:
            for (uint16_t i = below(4); i < 4; i++) {
                scribble(record + at, 1);
                at = below((uint16_t)length);
            }
            return length;
    }
}

/* The next source: mostly of a few leaves. */
static void draw_source(struct source *s) {
    s->n = (uint16_t)(1 + below(one_in(16) ? MOST_LEAVES : 12));
    struct plan plan = draw_plan(s->n, one_in(2) ? 0 : below(HOLDS));
    s->length = make_record(s->good, &plan);
    memcpy(s->record, s->good, s->length);
    s->damaged = !one_in(8);
    if (s->damaged) s->length = damage_any(s);
    s->accepted = tangle_check(s->record, s->length).refusal == 0;
}

static void draw_numbers(struct arguments *a, const struct source *s) {
    static const uint32_t wrong[] = {0, 3, 257, 258, 65537, 65538, 4294967295};
    a->side = one_in(16) ? wrong[below(7)] : 1u + below(2);
    a->row = one_in(8) ? wrong[below(7)] : 1u + below(s->n);
    a->pin = one_in(8) ? any_number() : below(2);
    a->letter = one_in(8) ? any_number() : one_in(8) ? below(512) : holds[below(HOLDS)];
    a->allowance = one_in(8) ? (one_in(2) ? 0 : TANGLE_MOST_TURNS + 1) : one_in(4) ? TANGLE_MOST_TURNS : 1u + below(4);
    a->n = one_in(8) ? any_number() : one_in(8) ? below(600) : s->n;
}

/* Room for an answer: exactly enough for so many bytes, or a place too few, or none, or more. */
static void lend_room(struct arguments *a, int buffer, size_t bytes, size_t size) {
    size_t enough = bytes / size;
    a->count[buffer] = one_in(8) ? enough - (enough > 0) : one_in(16) ? 0 : one_in(2) ? enough : enough + below(40);
    memset(a->bytes[buffer], (int)below(256), a->count[buffer] * size);
}

/* Changes some of a list's entries, or how many there are, one time in four. */
static void spoil_list(struct arguments *a, int buffer, size_t size) {
    size_t count = a->count[buffer], at = count == 0 ? 0 : below((uint16_t)count);
    uint8_t *bytes = a->bytes[buffer];
    if (!one_in(4)) return;
    switch (below(6)) {
        case 0: a->count[buffer] = count - (count > 0); return;
        case 1:
            scribble(bytes + count * size, 40 * size);
            a->count[buffer] = count + 1 + below(39);
            return;
        case 2: a->count[buffer] = at; return;
        case 3: scribble(bytes, count * size); return;
        case 4:
            if (at > 0) memcpy(bytes, bytes + at * size, size);
            return;
        default:
            if (count > 0) memset(bytes + at * size, below(2) ? 0 : 255, size);
    }
}

/* An order for a side: one that some layout of it gives, if there is one. */
static void lend_order(struct arguments *a, int buffer, const struct source *s) {
    uint8_t turned[MOST_BYTES + 1];
    size_t from = one_in(2) ? layout_from(s->n, TANGLE_LEFT) : bytes_over(s->n);
    memcpy(turned, s->good, bytes_over(s->n));
    for (size_t i = from; i < bytes_over(s->n); i++) turned[i] = (uint8_t)below(2);
    tangle_order(turned, bytes_over(s->n), a->side == TANGLE_RIGHT ? a->side : TANGLE_LEFT, (void *)a->bytes[buffer],
                 MOST_LEAVES);
    a->count[buffer] = s->n;
    spoil_list(a, buffer, 2);
}

/* A hand list: mostly of rows that may be turned over. */
static void lend_hands(struct arguments *a, const struct source *s) {
    struct tangle_entry *list = (void *)a->bytes[LIST];
    size_t most = one_in(64) ? TANGLE_MOST_HANDS + below(2) : below(6);
    a->count[LIST] = 0;
    for (size_t tries = 0; s->n > 1 && tries < 4 * most && a->count[LIST] < most; tries++) {
        struct tangle_entry entry = draw_entry(s->n);
        if (one_in(256) || may_turn(s->good, entry.side, entry.row)) list[a->count[LIST]++] = entry;
    }
    if (a->count[LIST] == 0 || !one_in(4)) return;
    struct tangle_entry *bad = list + below((uint16_t)a->count[LIST]);
    bad->side = one_in(2) ? a->side : below(4);
    bad->row = one_in(2) ? a->row : any_number();
}

/* The parts of the good record, mostly as they are. */
static void lend_parts(struct arguments *a, const struct source *s) {
    size_t n = s->n;
    tangle_unpack(s->good, bytes_over(s->n), (void *)a->bytes[LIST], 2 * n, (void *)a->bytes[SECOND], 2 * n,
                  (void *)a->bytes[THIRD], n, a->bytes[FOURTH], n, a->bytes[FIFTH], n);
    a->count[LIST] = a->count[SECOND] = 2 * n - 2;
    a->count[THIRD] = n;
    a->count[FOURTH] = a->count[FIFTH] = n - 1;
    int from = one_in(2) ? LIST : BUFFERS;
    for (int buffer = from; buffer < BUFFERS; buffer++) spoil_list(a, buffer, buffer < FOURTH ? 2 : 1);
    lend_room(a, RECORD, bytes_over(s->n), 1);
}

/* The left tree of the good record as a text or as a table, mostly as it is. */
static void lend_tree(struct arguments *a, const struct source *s, int as_text) {
    uint16_t rows[2 * MOST_LEAVES];
    char *text = (void *)a->bytes[LIST];
    for (size_t i = 0; i < 2 * ((size_t)s->n - 1); i++)
        rows[i] = (uint16_t)(s->good[ROWS_AT + 2 * i] << 8 | s->good[ROWS_AT + 2 * i + 1]);
    if (as_text) {
        char *end = spell(text, rows, s->n, (uint16_t)(2 * s->n - 1), below(3));
        *end++ = ';';
        a->count[LIST] = (size_t)(end - text);
        spoil_list(a, LIST, 1);
        char *letter = text + below((uint16_t)(end - text));
        if (one_in(8)) *letter = "(),;:0123456789.e-"[below(18)];
    } else {
        put_signs((void *)a->bytes[LIST], rows, s->n);
        a->count[LIST] = 2 * ((size_t)s->n - 1);
        spoil_list(a, LIST, 4);
    }
    lend_room(a, SECOND, 4 * (size_t)s->n - 4, 2);
}

/* Arguments for a call. */
static void draw_arguments(struct arguments *a, const struct export *export, const struct source *s) {
    export_t *make = export->make;
    draw_numbers(a, s);
    a->count[RECORD] = s->length;
    memcpy(a->bytes[RECORD], s->record, s->length);
    if (make == call_hands) lend_hands(a, s);
    if (make == call_better || make == call_better_check || make == call_take_in) lend_order(a, LIST, s);
    if (make == call_better || make == call_better_check) lend_order(a, SECOND, s);
    if (make == call_pack) lend_parts(a, s);
    if (make == call_newick_read || make == call_merge_read) lend_tree(a, s, make == call_newick_read);
    if (make == call_newick_write) lend_room(a, LIST, 6 * (size_t)s->n, 1);
    for (int buffer = LIST;
         make != call_pack && make != call_newick_read && make != call_merge_read && buffer < BUFFERS; buffer++)
        if (export->times[buffer] > 0)
            lend_room(a, buffer, export->times[buffer] * s->n - export->less[buffer], export->size[buffer]);
}

#endif
