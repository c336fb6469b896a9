/* What a reset may leave of a record in the middle of a call. `fault_in` looks at the record as it is at an instant,
 * beside the one before the call and the one that the call leaves, and answers the first thing that is wrong;
 * `mixed_fault` does so where the call's stores may have reached memory in any order. Both judge by docs/CALLS.md and
 * docs/RECORD.md; the calls themselves are asked only whether the record is accepted, and whether the same call again
 * mends it. */
#ifndef STATES_H
#define STATES_H

#include "jobs.h"

/* A job on a record: the record before, the one that the call leaves, the refusal, the bytes that may change. */
struct watched {
    const struct job *job;
    uint8_t before[MOST_BYTES + 1], after[MOST_BYTES + 1], may[MOST_BYTES + 1];
    uint32_t refusal;
    uint8_t handed[MOST_BYTES + 1]; /* of a hand list: the record with the first entries carried out */
    size_t entries;                 /* how many these are */
};

/* What is wrong, and at which byte; `what` is null where nothing is. */
struct fault {
    const char *what;
    size_t byte;
};

static void watch(struct watched *w, const struct job *job, const uint8_t *record) {
    w->job = job;
    memcpy(w->before, record, job->length);
    memcpy(w->after, record, job->length);
    memcpy(w->handed, record, job->length);
    w->entries = 0;
    w->refusal = job->call->make(w->after, job);
    memset(w->may, 0, sizeof w->may);
    if (w->refusal == TANGLE_ACCEPTED) job->call->may(w->may, w->before, job);
}

/* What a byte that may not change is. */
static const char *part_of(const struct watched *w, size_t byte) {
    uint16_t n = leaves_of(w->before);
    if (w->refusal != TANGLE_ACCEPTED) return "a byte, though the call is refused,";
    if (byte == HOLD_AT) return "the hold";
    if (byte < ROWS_AT) return "a byte of the heading";
    if (byte < 8 * (size_t)n) return "a byte of a row";
    if (byte < layout_from(n, TANGLE_LEFT)) return "a byte of a link";
    if (is_held(w->before, byte < layout_from(n, TANGLE_RIGHT) ? TANGLE_LEFT : TANGLE_RIGHT))
        return "a layout byte of a held side";
    return w->before[byte] < 2 ? "a layout byte that isn't the call's" : "a pinned row's layout byte";
}

/* What is wrong with one byte's value, or null. A layout byte stays one; pins stay, but where a call pins, and there
 * the turning stays. */
static const char *value_fault(const struct watched *w, size_t byte, uint8_t x) {
    uint8_t was = w->before[byte];
    int pins = w->job->call->rules & PINS, lists = w->job->call->rules & LISTS;
    if (x == was) return NULL;
    if (w->refusal == 0 && byte >= layout_from(leaves_of(w->before), TANGLE_LEFT) && x > 3)
        return "a layout byte above 3";
    if (!w->may[byte]) return part_of(w, byte);
    if (byte == HOLD_AT) return x == w->job->letter && is_letter(x) ? NULL : "a hold neither old nor new";
    if ((x ^ was) != (pins ? 2 : 1)) return pins ? "a row turned in pinning" : "a pin made or lost";
    return !lists && x != w->after[byte] ? "a byte neither as it was nor as the call leaves it" : NULL;
}

/* A hand list turns one row over at a time: the record is as some first entries leave it. */
static int is_handed(struct watched *w, const uint8_t *now) {
    const struct job *job = w->job;
    while (memcmp(w->handed, now, job->length) != 0) {
        if (w->entries == job->entries) return 0;
        const struct tangle_entry *entry = job->list + w->entries++;
        w->handed[layout_from(leaves_of(now), entry->side) + entry->row - 1] ^= 1;
    }
    return 1;
}

/* Whether the same call, made on what a reset left, leaves what it would have left without the reset. */
static int is_mended(const struct watched *w, const uint8_t *now) {
    uint8_t copy[MOST_BYTES + 1];
    memcpy(copy, now, w->job->length);
    return w->job->call->make(copy, w->job) == w->refusal && memcmp(copy, w->after, w->job->length) == 0;
}

/* What is wrong with a record in which some bytes are as before the call and some as it leaves them. */
static struct fault mixed_fault(const struct watched *w, const uint8_t *now) {
    const struct job *job = w->job;
    for (size_t i = 0; i < job->length; i++) {
        const char *what = value_fault(w, i, now[i]);
        if (what != NULL) return (struct fault){what, i};
    }
    if (w->refusal != TANGLE_ACCEPTED) return (struct fault){NULL, 0};
    if (tangle_check(now, job->length).refusal != 0) return (struct fault){"a record that is not accepted", 0};
    if (job->call->rules & AGAIN && !is_mended(w, now))
        return (struct fault){"the same call again leaves something else", 0};
    return (struct fault){NULL, 0};
}

/* What is wrong with the record at an instant. It is looked at in a copy: it is shared with the stepped process. */
static struct fault fault_in(struct watched *w, const uint8_t *now) {
    struct fault fault = mixed_fault(w, now);
    if (fault.what == NULL && w->refusal == 0 && w->job->call->rules & LISTS && !is_handed(w, now))
        fault.what = "no first part of the hand list";
    return fault;
}

#endif
