/* All twenty calls for C in one form: numbers and up to six lent buffers in, the answer's numbers out. Each says which
 * buffers it is lent and how much of each it may write where it is accepted. A later call joins by a function and a
 * line in `exports`. */
#ifndef EXPORTS_H
#define EXPORTS_H

#include "jobs.h"

/* The buffers, by their places among a call's arguments; a call that takes no record begins at LIST. */
enum { RECORD, LIST, SECOND, THIRD, FOURTH, FIFTH, BUFFERS };
enum { ROOM = 1 << 14, OTHERS = 4 };

/* A call's arguments: numbers, and for each buffer how many entries it has and what is in it. */
struct arguments {
    uint32_t side, row, pin, letter, allowance, n;
    size_t count[BUFFERS];
    _Alignas(8) uint8_t bytes[BUFFERS][ROOM];
};

struct answer {
    uint32_t refusal, row, others[OTHERS];
    double ratio;
};

/* Makes a call with its buffers at these places. */
typedef void export_t(struct answer *answer, const struct arguments *a, uint8_t *const *at);

static void tell_refusal(struct answer *answer, struct tangle_refusal r) {
    answer->refusal = r.refusal;
    answer->row = r.row;
}

static void call_check(struct answer *answer, const struct arguments *a, uint8_t *const *at) {
    tell_refusal(answer, tangle_check(at[RECORD], a->count[RECORD]));
}

static void call_order(struct answer *answer, const struct arguments *a, uint8_t *const *at) {
    tell_refusal(answer, tangle_order(at[RECORD], a->count[RECORD], a->side, (void *)at[LIST], a->count[LIST]));
}

static void call_count(struct answer *answer, const struct arguments *a, uint8_t *const *at) {
    struct tangle_count r = tangle_count(at[RECORD], a->count[RECORD]);
    *answer = (struct answer){r.refusal, r.row, {r.count}, 0};
}

static void call_pairs(struct answer *answer, const struct arguments *a, uint8_t *const *at) {
    struct tangle_count r = tangle_pairs(at[RECORD], a->count[RECORD]);
    *answer = (struct answer){r.refusal, r.row, {r.count}, 0};
}

static void call_squared(struct answer *answer, const struct arguments *a, uint8_t *const *at) {
    struct tangle_squared_entanglement r;
    squared_into(&r, at[RECORD], a->count[RECORD]);
    *answer = (struct answer){r.refusal, r.row, {r.displacement, r.worst, r.has_ratio}, r.ratio};
}

static void call_thousandths(struct answer *answer, const struct arguments *a, uint8_t *const *at) {
    struct tangle_thousandths r = tangle_thousandths(at[RECORD], a->count[RECORD]);
    *answer = (struct answer){r.refusal, r.row, {r.has_ratio, r.thousandths}, 0};
}

static void call_hold(struct answer *answer, const struct arguments *a, uint8_t *const *at) {
    tell_refusal(answer, tangle_hold(at[RECORD], a->count[RECORD], a->letter));
}

static void call_pin(struct answer *answer, const struct arguments *a, uint8_t *const *at) {
    tell_refusal(answer, tangle_pin(at[RECORD], a->count[RECORD], a->side, a->row, a->pin));
}

static void call_free(struct answer *answer, const struct arguments *a, uint8_t *const *at) {
    struct tangle_free r = tangle_free(at[RECORD], a->count[RECORD], a->side);
    *answer = (struct answer){r.refusal, r.row, {r.before, r.after}, 0};
}

static void call_run(struct answer *answer, const struct arguments *a, uint8_t *const *at) {
    struct tangle_run r;
    run_into(&r, at[RECORD], a->count[RECORD], a->allowance);
    *answer = (struct answer){r.refusal, r.row, {r.first, r.last, r.turns, r.settled}, 0};
}

static void call_hands(struct answer *answer, const struct arguments *a, uint8_t *const *at) {
    tell_refusal(answer, tangle_hands(at[RECORD], a->count[RECORD], (void *)at[LIST], a->count[LIST]));
}

static void call_better(struct answer *answer, const struct arguments *a, uint8_t *const *at) {
    struct tangle_better r = tangle_better(at[RECORD], a->count[RECORD], a->side, (void *)at[LIST], a->count[LIST],
                                           (void *)at[SECOND], a->count[SECOND]);
    *answer = (struct answer){r.refusal, r.row, {r.which, r.length}, 0};
}

static void call_better_check(struct answer *answer, const struct arguments *a, uint8_t *const *at) {
    tell_refusal(answer, tangle_better_check(at[RECORD], a->count[RECORD], a->side, (void *)at[LIST], a->count[LIST],
                                             (void *)at[SECOND], a->count[SECOND]));
}

static void call_take_in(struct answer *answer, const struct arguments *a, uint8_t *const *at) {
    struct tangle_take_in r = tangle_take_in(at[RECORD], a->count[RECORD], a->side, (void *)at[LIST], a->count[LIST],
                                             at[SECOND], a->count[SECOND]);
    *answer = (struct answer){r.refusal, r.row, {r.count, r.least}, 0};
}

static void call_pack(struct answer *answer, const struct arguments *a, uint8_t *const *at) {
    tell_refusal(answer, tangle_pack(a->letter, a->n, (void *)at[LIST], a->count[LIST], (void *)at[SECOND],
                                     a->count[SECOND], (void *)at[THIRD], a->count[THIRD], at[FOURTH], a->count[FOURTH],
                                     at[FIFTH], a->count[FIFTH], at[RECORD], a->count[RECORD]));
}

static void call_unpack(struct answer *answer, const struct arguments *a, uint8_t *const *at) {
    struct tangle_unpack r = tangle_unpack(at[RECORD], a->count[RECORD], (void *)at[LIST], a->count[LIST],
                                           (void *)at[SECOND], a->count[SECOND], (void *)at[THIRD], a->count[THIRD],
                                           at[FOURTH], a->count[FOURTH], at[FIFTH], a->count[FIFTH]);
    *answer = (struct answer){r.refusal, r.row, {r.hold, r.n}, 0};
}

static void call_newick_read(struct answer *answer, const struct arguments *a, uint8_t *const *at) {
    struct tangle_newick_read r = tangle_newick_read(at[LIST], a->count[LIST], (void *)at[SECOND], a->count[SECOND]);
    *answer = (struct answer){r.refusal, r.row, {r.n}, 0};
}

static void call_newick_write(struct answer *answer, const struct arguments *a, uint8_t *const *at) {
    struct tangle_newick_write r = tangle_newick_write(at[RECORD], a->count[RECORD], a->side, at[LIST], a->count[LIST]);
    *answer = (struct answer){r.refusal, r.row, {r.length}, 0};
}

static void call_merge_read(struct answer *answer, const struct arguments *a, uint8_t *const *at) {
    tell_refusal(answer,
                 tangle_merge_read(a->n, (void *)at[LIST], a->count[LIST], (void *)at[SECOND], a->count[SECOND]));
}

static void call_merge_write(struct answer *answer, const struct arguments *a, uint8_t *const *at) {
    tell_refusal(answer, tangle_merge_write(at[RECORD], a->count[RECORD], a->side, (void *)at[LIST], a->count[LIST]));
}

/* What a call is lent and what it may write. An entry's size is 0 where a buffer is not lent. An accepted call may
 * write the first `times` n less `less` bytes of a buffer, and change the record as the call of jobs.h may that
 * `changes` is. How much of a text is written only its answer says. */
struct export {
    const char *name;
    export_t *make;
    size_t size[BUFFERS], times[BUFFERS], less[BUFFERS];
    const struct call *changes;
};

static const struct export exports[] = {
    {"check", call_check, {1}, {0}, {0}, NULL},
    {"order", call_order, {1, 2}, {0, 2}, {0}, NULL},
    {"count", call_count, {1}, {0}, {0}, NULL},
    {"pairs", call_pairs, {1}, {0}, {0}, NULL},
    {"squared_entanglement", call_squared, {1}, {0}, {0}, NULL},
    {"thousandths", call_thousandths, {1}, {0}, {0}, NULL},
    {"hold", call_hold, {1}, {0}, {0}, calls + HOLD},
    {"pin", call_pin, {1}, {0}, {0}, calls + PIN},
    {"free", call_free, {1}, {0}, {0}, calls + FREE},
    {"run", call_run, {1}, {0}, {0}, calls + RUN},
    {"hands", call_hands, {1, 8}, {0}, {0}, calls + HANDS},
    {"better", call_better, {1, 2, 2}, {0}, {0}, NULL},
    {"better_check", call_better_check, {1, 2, 2}, {0}, {0}, NULL},
    {"take_in", call_take_in, {1, 2, 1}, {0, 0, 1}, {0, 0, 1}, NULL},
    {"pack", call_pack, {1, 2, 2, 2, 1, 1}, {12}, {2}, NULL},
    {"unpack", call_unpack, {1, 2, 2, 2, 1, 1}, {0, 4, 4, 2, 1, 1}, {0, 4, 4, 0, 1, 1}, NULL},
    {"newick_read", call_newick_read, {0, 1, 2}, {0, 0, 4}, {0, 0, 4}, NULL},
    {"newick_write", call_newick_write, {1, 1}, {0}, {0}, NULL},
    {"merge_read", call_merge_read, {0, 4, 2}, {0, 0, 4}, {0, 0, 4}, NULL},
    {"merge_write", call_merge_write, {1, 4}, {0, 8}, {0, 8}, NULL},
};
enum { EXPORTS = sizeof exports / sizeof *exports };

#endif
