/* Wrong versions of the calls, to show that the fences find them: each reads or writes a little too much, or changes or
 * tells something where it is refused. */
#ifndef WRONG_FENCED_H
#define WRONG_FENCED_H

#include <sys/wait.h>

#include "fences.h"
#include "inputs.h"

enum { WRONG_RECORDS = 1000 };

/* Reads a byte, whatever the compiler thinks of it. */
static void read_at(const uint8_t *byte) { (void)*(const volatile uint8_t *)byte; }

static void reads_after(struct answer *answer, const struct arguments *a, uint8_t *const *at) {
    read_at(at[RECORD] + a->count[RECORD]);
    call_check(answer, a, at);
}

static void reads_before(struct answer *answer, const struct arguments *a, uint8_t *const *at) {
    read_at(at[RECORD] - 1);
    call_check(answer, a, at);
}

static void reads_an_entry_more(struct answer *answer, const struct arguments *a, uint8_t *const *at) {
    read_at(at[LIST] + sizeof(struct tangle_entry) * a->count[LIST]);
    call_hands(answer, a, at);
}

static void reads_before_the_list(struct answer *answer, const struct arguments *a, uint8_t *const *at) {
    read_at(at[LIST] - 1);
    call_take_in(answer, a, at);
}

static void writes_a_place_more(struct answer *answer, const struct arguments *a, uint8_t *const *at) {
    call_order(answer, a, at);
    size_t n = leaves_of(at[RECORD]);
    if (answer->refusal == 0 && n < a->count[LIST]) at[LIST][2 * n] ^= 1;
}

static void changes_and_refuses(struct answer *answer, const struct arguments *a, uint8_t *const *at) {
    call_hold(answer, a, at);
    if (answer->refusal != 0 && a->count[RECORD] > HOLD_AT) at[RECORD][HOLD_AT] ^= 1;
}

static void writes_and_refuses(struct answer *answer, const struct arguments *a, uint8_t *const *at) {
    call_merge_read(answer, a, at);
    if (answer->refusal != 0 && a->count[SECOND] > 0) at[SECOND][0] ^= 1;
}

static void changes_another_row(struct answer *answer, const struct arguments *a, uint8_t *const *at) {
    call_pin(answer, a, at);
    if (answer->refusal == 0) at[RECORD][layout_from(leaves_of(at[RECORD]), a->side) + leaves_of(at[RECORD]) - 2] ^= 1;
}

static void changes_the_record(struct answer *answer, const struct arguments *a, uint8_t *const *at) {
    call_count(answer, a, at);
    if (answer->refusal == 0) at[RECORD][a->count[RECORD] - 1] ^= 1;
}

static void counts_and_refuses(struct answer *answer, const struct arguments *a, uint8_t *const *at) {
    call_free(answer, a, at);
    if (answer->refusal != 0) answer->others[1] = 1;
}

/* The wrong version, and the call whose place it takes. */
static const struct {
    export_t *make, *as;
} wrong[] = {
    {reads_after, call_check},
    {reads_before, call_check},
    {reads_an_entry_more, call_hands},
    {reads_before_the_list, call_take_in},
    {writes_a_place_more, call_order},
    {changes_and_refuses, call_hold},
    {writes_and_refuses, call_merge_read},
    {changes_another_row, call_pin},
    {changes_the_record, call_count},
    {counts_and_refuses, call_free},
};

/* Whether a version is found, in a process of its own; what it prints is dropped. */
static int is_found(export_t *make, const struct export *as) {
    static struct source source;
    static struct arguments arguments;
    int status;
    pid_t child = fork();
    if (child == 0) {
        if (freopen("/dev/null", "w", stderr) == NULL) _exit(2);
        for (int i = 0; i < WRONG_RECORDS; i++) {
            draw_source(&source);
            draw_arguments(&arguments, as, &source);
            for (int edge = RIGHT_AFTER; edge < EDGES; edge++) make_at(as, make, &arguments, edge);
        }
        _exit(0);
    }
    return child > 0 && waitpid(child, &status, 0) == child && WIFEXITED(status) && WEXITSTATUS(status) == 1;
}

/* Makes every wrong version, and answers how many were not found. The right ones must not be found. */
static int make_wrong_versions(void) {
    int missed = 0, versions = sizeof wrong / sizeof *wrong;
    for (int i = 0; i < versions; i++)
        for (int k = 0; k < EXPORTS; k++)
            if (exports[k].make == wrong[i].as)
                missed += !is_found(wrong[i].make, exports + k) + is_found(exports[k].make, exports + k);
    printf("%d wrong versions of the calls beside fences: %d not found\n", versions, missed);
    fflush(stdout);
    return missed;
}

#endif
