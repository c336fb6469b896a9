/* stepped [short | LEAVES]: a reset at any instant. The calls that change a record are stepped instruction by
 * instruction (stepping.h), and the record is looked at whenever a byte of it has changed (states.h): accepted and
 * refused calls, on records of many shapes and sizes, under all four holds, and wrong versions of the calls, which must
 * be found. In short, for changed copies of the calls, only a few records; by hand, records over so many leaves, each
 * call from its first instruction on. Prints how many states were looked at; ends with 1 if one is wrong, or a wrong
 * version is not found. */
#define _GNU_SOURCE
#include "stepping.h"
#include "wrong_stepped.h"

/* A call's arguments for a record, one variant after the other; 0 is answered where there are no more. */
static int free_job(struct job *job, const uint8_t *made, int variant) {
    (void)made;
    job->side = variant == 0 ? TANGLE_LEFT : TANGLE_RIGHT;
    return variant < 2;
}

static int run_job(struct job *job, const uint8_t *made, int variant) {
    (void)made;
    job->allowance = variant == 0 ? TANGLE_MOST_TURNS : 1u + below(3);
    return variant < 2;
}

/* A list of rows that may be turned over, some of them several times, of up to `most` entries. */
static void fill_list(struct job *job, const uint8_t *made, size_t most) {
    uint16_t n = leaves_of(made);
    job->entries = 0;
    for (size_t tries = 0; n > 1 && tries < 8 * most && job->entries < most; tries++) {
        struct tangle_entry entry = draw_entry(n);
        if (may_turn(made, entry.side, entry.row)) job->list[job->entries++] = entry;
    }
}

/* One entry, and several; the longest list that there may be only under one hold, since it takes long. */
static int hands_job(struct job *job, const uint8_t *made, int variant) {
    int longest = leaves_of(made) == MOST_LEAVES && made[HOLD_AT] == TANGLE_HOLD_NONE;
    fill_list(job, made, variant == 0 ? 1 : longest ? TANGLE_MOST_HANDS : leaves_of(made) < 64 ? 8 : 100);
    return variant < 2;
}

static int hold_job(struct job *job, const uint8_t *made, int variant) {
    (void)made;
    job->letter = variant < HOLDS ? holds[variant] : 0;
    return variant < HOLDS;
}

static int pin_job(struct job *job, const uint8_t *made, int variant) {
    uint16_t n = leaves_of(made);
    job->side = 1u + (unsigned)variant % 2;
    job->row = n == 1 ? 1 : 1u + below((uint16_t)(n - 1));
    job->pin = variant < 2;
    return variant < 4;
}

static int (*const jobs_for[CALLS])(struct job *job, const uint8_t *made, int variant) = {free_job, run_job, hands_job,
                                                                                          hold_job, pin_job};

/* The refusal that is due on a good record. */
static uint32_t expected(const struct job *job, const uint8_t *made) {
    int left = is_held(made, TANGLE_LEFT), right = is_held(made, TANGLE_RIGHT);
    if (job->call == calls + FREE && (job->side == TANGLE_LEFT ? left : right)) return TANGLE_HELD;
    if (job->call == calls + RUN && (left || right)) return TANGLE_HELD;
    return job->call == calls + PIN && leaves_of(made) == 1 ? TANGLE_ROW : 0;
}

enum { MIXTURES = 4 };

static struct watched watched;
static struct tally { unsigned long calls, refused, steps, states, mixtures; } tallies[CALLS][2];
static int failures;

static void tell(const char *name, const struct plan *plan, const struct seen *seen) {
    printf("%s over %u leaves, hold %c, state %lu: byte %zu: %s\n", name, (unsigned)plan->n, holds[plan->hold],
           seen->at, seen->fault.byte, seen->fault.what);
}

/* Any of the bytes that a call has changed as they were, and the others as it leaves them: what is there after a reset
 * where stores reach memory in another order, or wide ones in part. Answers how many such records were looked at. */
static unsigned long look_at_mixtures(struct fault *fault) {
    uint8_t mixed[MOST_BYTES + 1];
    size_t length = watched.job->length;
    if (memcmp(watched.before, watched.after, length) == 0) return 0;
    for (int i = 0; i < MIXTURES; i++) {
        for (size_t k = 0; k < length; k++) mixed[k] = (below(2) ? watched.before : watched.after)[k];
        if (fault->what == NULL) *fault = mixed_fault(&watched, mixed);
    }
    return MIXTURES;
}

/* Steps the job on stage and counts what was seen. */
static void stepped_job(const struct plan *plan, const uint8_t *made, int way, uint32_t refusal) {
    const struct call *call = stage->job.call;
    struct tally *tally = &tallies[call - calls][way];
    stage->at = below(64);
    struct seen seen = step(&watched, made, way, (int)(tally->calls % COPIES));
    if (seen.fault.what == NULL && watched.refusal != refusal) seen.fault.what = "another refusal than the one due";
    tally->mixtures += look_at_mixtures(&seen.fault);
    if (seen.fault.what != NULL) tell(call->name, plan, &seen);
    failures += seen.fault.what != NULL;
    tally->calls++;
    tally->refused += refusal != 0;
    tally->steps += seen.steps;
    tally->states += seen.states;
}

/* Every call on one record. */
static void step_record(const struct plan *plan, int way) {
    uint8_t made[MOST_BYTES + 1];
    struct job *job = &stage->job;
    for (int call = 0; call < CALLS; call++) {
        job->length = make_record(made, plan);
        job->call = calls + call;
        for (int variant = 0; jobs_for[call](job, made, variant); variant++)
            stepped_job(plan, made, way, expected(job, made));
    }
}

/* Records over n leaves, so many for each hold. */
static void step_size(uint16_t n, size_t records, int way) {
    for (size_t i = 0; i < records * HOLDS; i++) {
        struct plan plan = draw_plan(n, i % HOLDS);
        step_record(&plan, way);
    }
}

/* Calls that are refused for their arguments: the call, an argument that is changed, and the refusal. */
static void step_bad_arguments(const struct plan *plan, int way) {
    uint8_t made[MOST_BYTES + 1];
    struct job *job = &stage->job;
    uint32_t n = plan->n;
    const struct {
        int call;
        uint32_t side, row, other, refusal; /* `other` is a letter, an allowance, or how many entries a list has */
    } bad[] = {{FREE, 0, 0, 0, 13},  {FREE, 65537, 0, 0, 13}, {RUN, 0, 0, 0, 12},     {RUN, 0, 0, 130819, 12},
               {HOLD, 0, 0, 'X', 4}, {HOLD, 0, 0, 334, 4},    {PIN, 3, 1, 1, 13},     {PIN, 1, 0, 1, 15},
               {PIN, 2, n, 1, 15},   {HANDS, 3, 1, 9, 13},    {HANDS, 1, 0, 9, 15},   {HANDS, 2, n, 9, 15},
               {HANDS, 1, 1, 9, 22}, {HANDS, 2, 1, 9, 11},    {HANDS, 1, 2, 1025, 17}};
    make_record(made, plan);
    made[HOLD_AT] = TANGLE_HOLD_RIGHT;
    made[layout_from(plan->n, TANGLE_LEFT)] = 3;
    made[layout_from(plan->n, TANGLE_LEFT) + 1] = 0;
    job->length = bytes_over(plan->n);
    for (size_t i = 0; i < sizeof bad / sizeof *bad; i++) {
        job->call = calls + bad[i].call;
        job->side = bad[i].side;
        job->row = bad[i].row;
        job->letter = job->allowance = bad[i].other;
        job->entries = bad[i].call == HANDS ? bad[i].other : 0;
        for (size_t k = 0; k < job->entries; k++) job->list[k] = (struct tangle_entry){TANGLE_LEFT, 2};
        if (job->entries > 0) job->list[job->entries - 1] = (struct tangle_entry){bad[i].side, bad[i].row};
        stepped_job(plan, made, way, bad[i].refusal);
    }
}

/* Every call on records that are refused, 1 to 10. */
static void step_bad_records(const struct plan *plan, int way) {
    uint8_t good[MOST_BYTES + 1], bad[MOST_BYTES + 1];
    struct job *job = &stage->job;
    for (int call = 0; call < CALLS; call++)
        for (uint32_t refusal = TANGLE_SHORT; refusal <= TANGLE_LAYOUT; refusal++) {
            make_record(good, plan);
            job->call = calls + call;
            if (!jobs_for[call](job, good, 0)) continue;
            memcpy(bad, good, sizeof bad);
            job->length = damage(bad, refusal);
            stepped_job(plan, bad, way, refusal);
        }
}

static void print_tallies(void) {
    static const char *const ways[] = {"whole", "stores"};
    unsigned long states = 0, mixtures = 0;
    printf("%-6s %-7s %7s %8s %13s %8s\n", "call", "stepped", "calls", "refused", "instructions", "states");
    for (int call = 0; call < CALLS; call++)
        for (int way = WHOLE; way <= STORES; way++) {
            const struct tally *tally = &tallies[call][way];
            if (tally->calls == 0) continue;
            printf("%-6s %-7s %7lu %8lu %13lu %8lu\n", calls[call].name, ways[way], tally->calls, tally->refused,
                   tally->steps, tally->states);
            states += tally->states;
            mixtures += tally->mixtures;
        }
    printf("a reset at any instant: %lu states looked at, and %lu mixtures of old and new bytes; %d calls wrong\n",
           states, mixtures, failures);
}

/* All sizes, and what is refused. */
static void step_all(void) {
    static const struct {
        uint16_t n;
        size_t whole, stores; /* records for each hold */
    } sizes[] = {{1, 1, 2}, {2, 1, 4},  {3, 1, 4},  {4, 1, 4},   {5, 1, 4},
                 {8, 1, 4}, {16, 1, 4}, {64, 0, 4}, {511, 0, 2}, {512, 0, 3}};
    for (size_t i = 0; i < sizeof sizes / sizeof *sizes; i++) {
        step_size(sizes[i].n, sizes[i].whole, WHOLE);
        step_size(sizes[i].n, sizes[i].stores, STORES);
    }
    for (int way = WHOLE; way <= STORES; way++) {
        struct plan plan = {way == WHOLE ? 4 : 512, 3, 3, SHUFFLED, TURNED, 0};
        step_bad_arguments(&plan, way);
        step_bad_records(&plan, way);
    }
}

int main(int count, char **words) {
    long leaves = count > 1 ? strtol(words[1], NULL, 10) : 0;
    start_stepping();
    if (count == 1) step_all();
    else if (leaves > 0 && leaves <= MOST_LEAVES) step_size((uint16_t)leaves, 1, WHOLE);
    else step_size(16, 3, STORES);
    print_tallies();
    if (count == 1) failures += step_wrong_versions();
    end_stepping();
    return failures != 0;
}
