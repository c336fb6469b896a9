/* beside FILE..: check, count, free (the left) and run (the whole allowance) as an earlier commit had them, whose
 * functions are before_tangle_.., beside those of today, on the record in each FILE. The two are called by turns, a
 * batch of calls each, so that what slows the machine slows both. Prints for each call and record its name, the file's,
 * and the nanoseconds per call before and now: of all turns the tenth part was quicker. Other work only adds to the
 * time, and a lucky turn or two don't count. Ends with 1 if an answer or what is left of a record differs.
 */
#include <stdio.h>
#include <stdlib.h>
#include <string.h>

#include "../viewer/tangle.h"
#include "timing.h"

enum { TURNS = 200, BATCH = 250000 };

/* The answer of a run is too large for registers: see speed.c. */
struct tangle_run *run_now(struct tangle_run *answer, uint8_t *record, size_t length, uint32_t allowance)
    __asm__("tangle_run");
struct tangle_run *run_before(struct tangle_run *answer, uint8_t *record, size_t length, uint32_t allowance)
    __asm__("before_tangle_run");
struct tangle_refusal before_tangle_check(const uint8_t *record, size_t length);
struct tangle_count before_tangle_count(const uint8_t *record, size_t length);
struct tangle_free before_tangle_free(uint8_t *record, size_t length, uint32_t side);

static uint8_t record[TANGLE_MOST_BYTES + 1], lent[TANGLE_MOST_BYTES];
static size_t bytes;
static union {
    struct tangle_refusal check;
    struct tangle_count count;
    struct tangle_free free;
    struct tangle_run run;
} answer;

static void lend(void) { memcpy(lent, record, bytes); }

static void check_before(void) { answer.check = before_tangle_check(record, bytes); }
static void check_now(void) { answer.check = tangle_check(record, bytes); }
static void count_before(void) { answer.count = before_tangle_count(record, bytes); }
static void count_now(void) { answer.count = tangle_count(record, bytes); }
static void free_before(void) { lend(), answer.free = before_tangle_free(lent, bytes, TANGLE_LEFT); }
static void free_now(void) { lend(), answer.free = tangle_free(lent, bytes, TANGLE_LEFT); }
static void runs_before(void) { lend(), run_before(&answer.run, lent, bytes, TANGLE_MOST_TURNS); }
static void runs_now(void) { lend(), run_now(&answer.run, lent, bytes, TANGLE_MOST_TURNS); }

static const struct {
    const char *name;
    call_t *before, *now;
} calls[] = {{"check", check_before, check_now},
             {"count", count_before, count_now},
             {"free", free_before, free_now},
             {"run", runs_before, runs_now}};

static double tenth(double *turns) {
    qsort(turns, TURNS, sizeof *turns, less);
    return turns[TURNS / 10];
}

/* Whether both answer the same, and leave the same record. */
static int same(call_t *before, call_t *now) {
    uint8_t left[sizeof answer], left_record[sizeof lent];
    memset(&answer, 0, sizeof answer);
    lend();
    before();
    memcpy(left, &answer, sizeof answer);
    memcpy(left_record, lent, sizeof lent);
    memset(&answer, 0, sizeof answer);
    lend();
    now();
    return memcmp(left, &answer, sizeof answer) == 0 && memcmp(left_record, lent, sizeof lent) == 0;
}

static int compare(const char *file, size_t call) {
    call_t *before = calls[call].before, *now = calls[call].now;
    double took_before[TURNS], took_now[TURNS];
    long times = 1;
    if (!same(before, now)) {
        printf("%s %s: the answers differ\n", calls[call].name, file);
        return 1;
    }
    while (nanoseconds(before, times) < BATCH) times *= 2;
    for (int turn = 0; turn < TURNS; turn++) {
        took_before[turn] = nanoseconds(before, times) / (double)times;
        took_now[turn] = nanoseconds(now, times) / (double)times;
    }
    printf("%s %s %.0f %.0f\n", calls[call].name, file, tenth(took_before), tenth(took_now));
    return 0;
}

int main(int argc, char **argv) {
    int differ = 0;
    for (size_t call = 0; call < sizeof calls / sizeof *calls; call++)
        for (int i = 1; i < argc; i++) {
            FILE *file = fopen(argv[i], "rb");
            if (file == NULL) {
                fprintf(stderr, "beside: %s can't be read\n", argv[i]);
                return 1;
            }
            bytes = fread(record, 1, sizeof record, file);
            fclose(file);
            if (bytes > TANGLE_MOST_BYTES || tangle_check(record, bytes).refusal != 0) {
                fprintf(stderr, "beside: the record in %s is refused\n", argv[i]);
                return 1;
            }
            differ |= compare(argv[i], call);
        }
    return differ;
}
