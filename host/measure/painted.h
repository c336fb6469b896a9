/* A painted stack: a job runs on a stack of its own that is filled with one byte, and the deepest byte that changed is
 * how far it reached. */
#ifndef PAINTED_H
#define PAINTED_H

#include <stddef.h>
#include <stdint.h>
#include <string.h>
#include <ucontext.h>

typedef void job_t(void);

static uint8_t painted[1 << 18];
static ucontext_t here, there;

/* The deepest byte that one job touched, counted from the top of a stack painted with `paint`. */
static size_t touched(job_t *job, uint8_t paint) {
    memset(painted, paint, sizeof painted);
    getcontext(&there);
    there.uc_stack.ss_sp = painted;
    there.uc_stack.ss_size = sizeof painted;
    there.uc_link = &here;
    makecontext(&there, job, 0);
    swapcontext(&here, &there);
    size_t low = 0;
    while (low < sizeof painted && painted[low] == paint) low++;
    return sizeof painted - low;
}

/* The same under two paints, since a job may write the paint itself. `before` makes what the job works on. */
static size_t reach(job_t *before, job_t *job) {
    before();
    size_t a = touched(job, 0xa5);
    before();
    size_t b = touched(job, 0x5a);
    return a > b ? a : b;
}

#endif
