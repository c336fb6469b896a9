/* Wrong versions of the calls, to show that stepping finds them: each ends as the right one does, and is wrong for an
 * instant only, but for two that end so and are still no good to whoever makes the call again or is refused. */
#ifndef WRONG_STEPPED_H
#define WRONG_STEPPED_H

#include "stepping.h"

enum { WRONG_LEAVES = 4, PINNED_ROW = 2 };

/* A byte takes another value and then its own again; volatile, so that the compiler keeps both stores. */
static void through(uint8_t *record, size_t at, uint8_t x) {
    volatile uint8_t *byte = record + at;
    uint8_t was = *byte;
    *byte = x;
    *byte = was;
}

/* A layout byte of these records. */
static size_t row_at(uint32_t side, uint32_t row) { return layout_from(WRONG_LEAVES, side) + row - 1; }

static uint32_t through_seven(uint8_t *record, const struct job *job) {
    uint32_t refusal = make_free(record, job);
    through(record, row_at(TANGLE_LEFT, 1), 7);
    return refusal;
}

static uint32_t there_and_back(uint8_t *record, const struct job *job) {
    uint32_t refusal = make_free(record, job);
    through(record, row_at(TANGLE_LEFT, 1), 1 - record[row_at(TANGLE_LEFT, 1)]);
    return refusal;
}

static uint32_t moves_other(uint8_t *record, const struct job *job) {
    through(record, row_at(TANGLE_RIGHT, 3), 1);
    return make_free(record, job);
}

static uint32_t moves_pinned(uint8_t *record, const struct job *job) {
    through(record, row_at(TANGLE_LEFT, PINNED_ROW), 3);
    return make_free(record, job);
}

static uint32_t pins_and_unpins(uint8_t *record, const struct job *job) {
    through(record, row_at(TANGLE_LEFT, 1), 2);
    return make_run(record, job);
}

static uint32_t loses_hold(uint8_t *record, const struct job *job) {
    through(record, HOLD_AT, TANGLE_HOLD_NONE);
    return make_free(record, job);
}

static uint32_t breaks_size(uint8_t *record, const struct job *job) {
    through(record, SIZE_AT, 2);
    return make_run(record, job);
}

static uint32_t breaks_row(uint8_t *record, const struct job *job) {
    through(record, ROWS_AT + 1, 2);
    return make_pin(record, job);
}

static uint32_t breaks_link(uint8_t *record, const struct job *job) {
    through(record, 8 * WRONG_LEAVES + 1, 2);
    return make_hands(record, job);
}

static uint32_t no_letter_between(uint8_t *record, const struct job *job) {
    uint32_t refusal = make_hold(record, job);
    through(record, HOLD_AT, 0);
    return refusal;
}

static uint32_t turns_in_pinning(uint8_t *record, const struct job *job) {
    uint32_t refusal = make_pin(record, job);
    through(record, row_at(job->side, job->row), 3);
    return refusal;
}

static uint32_t pins_or_unpins(uint8_t *record, const struct job *job) {
    record[row_at(job->side, job->row)] ^= 2;
    return 0;
}

static uint32_t last_entry_first(uint8_t *record, const struct job *job) {
    static struct job backwards;
    backwards = *job;
    for (size_t i = 0; i < job->entries; i++) backwards.list[i] = job->list[job->entries - 1 - i];
    return make_hands(record, &backwards);
}

static uint32_t stores_its_own(uint8_t *record, const struct job *job) {
    volatile uint8_t *byte = record + row_at(TANGLE_LEFT, 1);
    *byte = *byte;
    return make_run(record, job);
}

/* What is wrong, under which hold, and what is found. A refused free is one of the held left. */
static const struct {
    struct call call;
    uint8_t hold;
    const char *found;
} wrong[] = {
    {{"free through 7", through_seven, may_free, AGAIN}, 'N', "a layout byte above 3"},
    {{"free there and back", there_and_back, may_free, AGAIN},
     'N',
     "a byte neither as it was nor as the call leaves it"},
    {{"free moves the other side", moves_other, may_free, AGAIN}, 'N', "a layout byte that isn't the call's"},
    {{"free moves a held side", moves_other, may_free, AGAIN}, 'R', "a layout byte of a held side"},
    {{"free moves a pinned row", moves_pinned, may_free, AGAIN}, 'N', "a pinned row's layout byte"},
    {{"free loses the hold", loses_hold, may_free, AGAIN}, 'R', "the hold"},
    {{"free moves, and is refused", moves_other, may_free, AGAIN}, 'L', "a byte, though the call is refused,"},
    {{"run pins and unpins", pins_and_unpins, may_run, 0}, 'N', "a pin made or lost"},
    {{"run breaks the size", breaks_size, may_run, 0}, 'N', "a byte of the heading"},
    {{"run stores, and is refused", stores_its_own, may_run, 0}, 'B', "a store, though it is refused"},
    {{"hands breaks a link", breaks_link, may_hands, LISTS}, 'N', "a byte of a link"},
    {{"hands begins at the end", last_entry_first, may_hands, LISTS}, 'N', "no first part of the hand list"},
    {{"hold is no letter between", no_letter_between, may_hold, AGAIN}, 'N', "a hold neither old nor new"},
    {{"pin breaks a row", breaks_row, may_pin, AGAIN | PINS}, 'N', "a byte of a row"},
    {{"pin turns a row over", turns_in_pinning, may_pin, AGAIN | PINS}, 'N', "a row turned in pinning"},
    {{"pin unpins if made again", pins_or_unpins, may_pin, AGAIN | PINS},
     'N',
     "the same call again leaves something else"},
};

/* Steps every wrong version both ways, and answers how many were not found, or found for something else. A store of
 * what is there already shows only where pages are read-only. */
static int step_wrong_versions(void) {
    static struct watched w;
    static const struct plan plan = {WRONG_LEAVES, 2, 2, STRAIGHT, AS_GIVEN, 0};
    int missed = 0, versions = sizeof wrong / sizeof *wrong;
    uint8_t made[MOST_BYTES + 1];
    stage->job =
        (struct job){NULL, TANGLE_LEFT, 1, 1, TANGLE_HOLD_BOTH, 9, make_record(made, &plan), 2, {{1, 1}, {1, 3}}};
    made[row_at(TANGLE_LEFT, PINNED_ROW)] = 2;
    for (int i = 0; i < 2 * versions; i++) {
        int way = i < versions ? STORES : WHOLE;
        const char *found = wrong[i % versions].found;
        stage->job.call = &wrong[i % versions].call;
        made[HOLD_AT] = wrong[i % versions].hold;
        struct seen seen = step(&w, made, way, AS_HERE);
        if (way == WHOLE && wrong[i % versions].call.make == stores_its_own) continue;
        if (seen.fault.what != NULL && strcmp(seen.fault.what, found) == 0) continue;
        printf("not found: %s\n", stage->job.call->name);
        missed++;
    }
    printf("%d wrong versions of the calls, stepped both ways: %d not found\n", versions, missed);
    return missed;
}

#endif
