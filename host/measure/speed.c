/* speed CALL FILE: nanoseconds per call of check, count, free (the left), take_in (the order that freeing leaves the
 * left) and run (the whole allowance) on the record in FILE, as `peer speed CALL` measures its own: each call tests the
 * whole record; free and run restore the record's bytes from a copy before each call; the median of nine batches of at
 * least 50 ms. Prints the call's numbers on one line, as desk writes them, and the nanoseconds on the next. */
#include <stdio.h>
#include <stdlib.h>
#include <string.h>

#include "../viewer/tangle.h"
#include "timing.h"

enum { BATCHES = 9, BATCH = 50000000 };

/* The answer of a run is too large for registers: x86-64's convention hands its place over as a first argument, and it
 * is written so here. */
struct tangle_run *run_into(struct tangle_run *answer, uint8_t *record, size_t length, uint32_t allowance)
    __asm__("tangle_run");

static uint8_t record[TANGLE_MOST_BYTES + 1], lent[TANGLE_MOST_BYTES];
static size_t bytes;
static struct tangle_refusal checked;
static struct tangle_count counted;
static struct tangle_free freed;
static struct tangle_take_in taken;
static struct tangle_run ran;
static uint16_t order[TANGLE_MOST_LEAVES];
static uint8_t layout[TANGLE_MOST_LEAVES - 1];

static void check(void) { checked = tangle_check(record, bytes); }

static void count(void) { counted = tangle_count(record, bytes); }

static void free_left(void) {
    memcpy(lent, record, bytes);
    freed = tangle_free(lent, bytes, TANGLE_LEFT);
}

static void take_in(void) {
    taken = tangle_take_in(record, bytes, TANGLE_LEFT, order, TANGLE_MOST_LEAVES, layout, TANGLE_MOST_LEAVES - 1);
}

static void run(void) {
    memcpy(lent, record, bytes);
    run_into(&ran, lent, bytes, TANGLE_MOST_TURNS);
}

static double median(call_t *call) {
    long calls = 1;
    while (nanoseconds(call, calls) < BATCH) calls *= 2;
    double batches[BATCHES];
    for (int i = 0; i < BATCHES; i++) batches[i] = nanoseconds(call, calls) / (double)calls;
    qsort(batches, BATCHES, sizeof *batches, less);
    return batches[BATCHES / 2];
}

static call_t *named(const char *name) {
    if (strcmp(name, "check") == 0) return check;
    if (strcmp(name, "count") == 0) return count;
    if (strcmp(name, "free") == 0) return free_left;
    if (strcmp(name, "take_in") == 0) return take_in;
    if (strcmp(name, "run") == 0) return run;
    return NULL;
}

static void print_answer(call_t *call) {
    if (call == check) printf("%u\n", checked.refusal);
    if (call == count) printf("%u %u\n", counted.refusal, counted.count);
    if (call == free_left) printf("%u %u %u\n", freed.refusal, freed.before, freed.after);
    if (call == take_in) printf("%u %u %u\n", taken.refusal, taken.count, taken.least);
    if (call == run) printf("%u %u %u %u %u\n", ran.refusal, ran.first, ran.last, ran.turns, ran.settled);
}

int main(int argc, char **argv) {
    call_t *call = argc == 3 ? named(argv[1]) : NULL;
    FILE *file = call != NULL ? fopen(argv[2], "rb") : NULL;
    if (file == NULL) {
        fprintf(stderr, "usage: speed check|count|free|take_in|run FILE\n");
        return 1;
    }
    bytes = fread(record, 1, sizeof record, file);
    fclose(file);
    if (bytes > TANGLE_MOST_BYTES || tangle_check(record, bytes).refusal != 0) {
        fprintf(stderr, "the record is refused\n");
        return 1;
    }
    free_left();
    tangle_order(lent, bytes, TANGLE_LEFT, order, TANGLE_MOST_LEAVES);
    call();
    print_answer(call);
    printf("%.0f\n", median(call));
    return 0;
}
