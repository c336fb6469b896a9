/* Lent buffers beside memory that can't be touched, and what a call may have done to them when it has ended. It judges
 * by docs/CALLS.md: a refused call leaves every byte and answers zero for every other number, an accepted one writes
 * the parts that are said with it and no more. */
#ifndef FENCES_H
#define FENCES_H

#include <signal.h>
#include <stdio.h>
#include <stdlib.h>
#include <sys/mman.h>
#include <unistd.h>

#include "exports.h"

enum { MARGIN = 64, PAINT = 0xa5, NUMBERS = TANGLE_AGAINST_PIN + 1 };
enum { RIGHT_AFTER, RIGHT_BEFORE, EDGES };

/* Where memory begins and ends that is between two pages that can't be touched, for each buffer. */
static uint8_t *begins[BUFFERS], *ends[BUFFERS];

/* What is being made, for whoever wants to see it again. */
static unsigned long seed = 1, records;
static const char *making;

static void on_fault(int number) {
    (void)number;
    fprintf(stderr, "seed %lu, record %lu: %s touched memory that it was not lent\n", seed, records, making);
    _exit(1);
}

static void fence(void) {
    size_t page = (size_t)sysconf(_SC_PAGESIZE), room = (ROOM + page - 1) / page * page;
    for (int i = 0; i < BUFFERS; i++) {
        begins[i] = mmap(NULL, room + 2 * page, PROT_NONE, MAP_PRIVATE | MAP_ANONYMOUS, -1, 0);
        if (begins[i] == MAP_FAILED || mprotect(begins[i] + page, room, PROT_READ | PROT_WRITE) != 0) {
            perror("mmap");
            exit(1);
        }
        begins[i] += page;
        ends[i] = begins[i] + room;
    }
    signal(SIGSEGV, on_fault);
    signal(SIGBUS, on_fault);
}

/* Puts the arguments' buffers at one edge each, and paint at their other ends. */
static void lend(uint8_t **at, const struct export *export, const struct arguments *a, int edge) {
    for (int i = 0; i < BUFFERS; i++) {
        size_t bytes = a->count[i] * export->size[i];
        at[i] = edge == RIGHT_AFTER ? begins[i] : ends[i] - bytes;
        memcpy(at[i], a->bytes[i], bytes);
        memset(edge == RIGHT_AFTER ? at[i] + bytes : at[i] - MARGIN, PAINT, MARGIN);
    }
}

static int is_painted(const uint8_t *margin) {
    for (size_t i = 0; i < MARGIN; i++)
        if (margin[i] != PAINT) return 0;
    return 1;
}

/* Whether an accepted call changed no more of the record than it may, and left a record. */
static int changed_rightly(const struct export *export, const struct arguments *a, const uint8_t *now) {
    static struct job job;
    uint8_t may[MOST_BYTES] = {0};
    job.side = a->side;
    job.row = a->row;
    job.entries = export->size[LIST] == sizeof *job.list ? a->count[LIST] : 0;
    memcpy(job.list, a->bytes[LIST], job.entries * sizeof *job.list);
    export->changes->may(may, a->bytes[RECORD], &job);
    for (size_t i = 0; i < a->count[RECORD]; i++)
        if (now[i] != a->bytes[RECORD][i] && !may[i]) return 0;
    return tangle_check(now, a->count[RECORD]).refusal == 0;
}

/* How many of a buffer's first bytes an accepted call may write. */
static size_t may_write(const struct export *export, const struct arguments *a, const struct answer *r, int buffer) {
    size_t n = export->make == call_newick_read                               ? r->others[0]
               : export->make == call_pack || export->make == call_merge_read ? a->n
                                                                              : leaves_of(a->bytes[RECORD]);
    if (export->make == call_newick_write && buffer == LIST) return r->others[0];
    return export->times[buffer] == 0 ? 0 : export->times[buffer] * n - export->less[buffer];
}

/* What is wrong with an answer's numbers, or null. */
static const char *number_fault(const struct answer *r) {
    if (r->refusal >= NUMBERS) return "no such refusal";
    if ((r->row != 0) != (r->refusal == TANGLE_LEFT_ROW || r->refusal == TANGLE_RIGHT_ROW))
        return "a row too many or few";
    for (int i = 0; r->refusal != 0 && i < OTHERS; i++)
        if (r->others[i] != 0 || r->ratio != 0.0) return "a number beside a refusal";
    return NULL;
}

/* What is wrong after a call, or null. */
static const char *fault_of(const struct export *export, const struct arguments *a, const struct answer *r,
                            uint8_t *const *at, int edge) {
    const char *fault = number_fault(r);
    for (int i = 0; i < BUFFERS && fault == NULL; i++) {
        size_t bytes = a->count[i] * export->size[i], from = r->refusal == 0 ? may_write(export, a, r, i) : 0;
        if (!is_painted(edge == RIGHT_AFTER ? at[i] + bytes : at[i] - MARGIN)) fault = "a byte beside a buffer changed";
        else if (from > bytes) fault = "more written than there is room for";
        else if (i == RECORD && export->changes != NULL && r->refusal == 0)
            fault = changed_rightly(export, a, at[i]) ? NULL : "a byte of the record changed that may not";
        else if (memcmp(at[i] + from, a->bytes[i] + from, bytes - from) != 0)
            fault = r->refusal == 0 ? "a byte changed beyond the part" : "a byte changed though the call was refused";
    }
    return fault;
}

/* Makes a call, or a wrong version of it, with its buffers at one edge. Answers the refusal; ends the program with 1 if
 * anything is wrong. */
static uint32_t make_at(const struct export *export, export_t *make, const struct arguments *a, int edge) {
    uint8_t *at[BUFFERS];
    struct answer answer = {0};
    lend(at, export, a, edge);
    making = export->name;
    make(&answer, a, at);
    const char *fault = fault_of(export, a, &answer, at, edge);
    if (fault == NULL) return answer.refusal;
    fprintf(stderr, "seed %lu, record %lu: %s, refusal %u: %s\n", seed, records, making, (unsigned)answer.refusal,
            fault);
    _exit(1);
}

#endif
