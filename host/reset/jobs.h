/* The calls that change a record, in one form: a job is a call with its arguments. Each says how it is made, and which
 * bytes of a record it may change, worked out from the arguments and the record as it was and not by the calls. A later
 * call that changes a record joins here, by a function for each of the two and a line in `calls`. */
#ifndef JOBS_H
#define JOBS_H

#include "into.h"
#include "records.h"

struct job {
    const struct call *call;
    uint32_t side, row, pin, letter, allowance;
    size_t length, entries;
    struct tangle_entry list[TANGLE_MOST_HANDS + 1];
};

typedef uint32_t make_t(uint8_t *record, const struct job *job);
typedef void may_t(uint8_t *may, const uint8_t *record, const struct job *job);

/* What else is true of a call. AGAIN: made again on what a reset left, it leaves what it would have left. LISTS: it
 * turns rows over one after the other, as its list has them. PINS: it pins and unpins, and turns nothing over. */
enum { AGAIN = 1, LISTS = 2, PINS = 4 };

struct call {
    const char *name;
    make_t *make; /* answers the refusal */
    may_t *may;   /* puts 1 for each byte that may change where the call is accepted */
    int rules;
};

static uint32_t make_free(uint8_t *record, const struct job *job) {
    return tangle_free(record, job->length, job->side).refusal;
}

static uint32_t make_run(uint8_t *record, const struct job *job) {
    struct tangle_run answer;
    run_into(&answer, record, job->length, job->allowance);
    return answer.refusal;
}

static uint32_t make_hands(uint8_t *record, const struct job *job) {
    return tangle_hands(record, job->length, job->list, job->entries).refusal;
}

static uint32_t make_hold(uint8_t *record, const struct job *job) {
    return tangle_hold(record, job->length, job->letter).refusal;
}

static uint32_t make_pin(uint8_t *record, const struct job *job) {
    return tangle_pin(record, job->length, job->side, job->row, job->pin).refusal;
}

/* Whether a row may be turned over: its side isn't held, and it isn't pinned. */
static int may_turn(const uint8_t *record, uint32_t side, uint32_t row) {
    return !is_held(record, side) && record[layout_from(leaves_of(record), side) + row - 1] < 2;
}

static void may_side(uint8_t *may, const uint8_t *record, uint32_t side) {
    uint16_t n = leaves_of(record);
    for (uint32_t row = 1; row < n; row++) may[layout_from(n, side) + row - 1] = (uint8_t)may_turn(record, side, row);
}

static void may_free(uint8_t *may, const uint8_t *record, const struct job *job) { may_side(may, record, job->side); }

static void may_run(uint8_t *may, const uint8_t *record, const struct job *job) {
    (void)job;
    may_side(may, record, TANGLE_LEFT);
    may_side(may, record, TANGLE_RIGHT);
}

static void may_hands(uint8_t *may, const uint8_t *record, const struct job *job) {
    for (size_t i = 0; i < job->entries; i++) {
        uint32_t side = job->list[i].side, row = job->list[i].row;
        may[layout_from(leaves_of(record), side) + row - 1] = (uint8_t)may_turn(record, side, row);
    }
}

static void may_hold(uint8_t *may, const uint8_t *record, const struct job *job) {
    (void)record, (void)job;
    may[HOLD_AT] = 1;
}

static void may_pin(uint8_t *may, const uint8_t *record, const struct job *job) {
    may[layout_from(leaves_of(record), job->side) + job->row - 1] = 1;
}

enum { FREE, RUN, HANDS, HOLD, PIN, CALLS };

static const struct call calls[CALLS] = {
    {"free", make_free, may_free, AGAIN},     {"run", make_run, may_run, 0},
    {"hands", make_hands, may_hands, LISTS},  {"hold", make_hold, may_hold, AGAIN},
    {"pin", make_pin, may_pin, AGAIN | PINS},
};

#endif
