/* A call stepped from outside. A second process makes the call on a record that both processes share; this one stops it
 * after every instruction and looks whether a byte has changed. Either from the call's first instruction on (WHOLE), or
 * from the first store into the record on (STORES): until then the record's pages are read-only for that process, so
 * that no byte can have changed. No register is read, so that it is the same on every machine. */
#ifndef STEPPING_H
#define STEPPING_H

#include <sched.h>
#include <signal.h>
#include <stdio.h>
#include <stdlib.h>
#include <sys/mman.h>
#include <sys/ptrace.h>
#include <sys/wait.h>
#include <ucontext.h>
#include <unistd.h>

#include "states.h"

enum { WHOLE, STORES };

/* How bytes are copied for the calls: as C's memcpy does it here, or one by one, the first or the last one first. */
enum { AS_HERE, UPWARDS, DOWNWARDS, COPIES };

/* What both processes see: the job, where its record stands, how it is made, whether it is being made, and what it
 * answered. */
struct stage {
    struct job job;
    volatile size_t at;
    volatile int way, copies, inside;
    volatile uint32_t refusal;
};

enum { PAINT = 0xa5, ROOM = 1 << 14 };

static struct stage *stage;
static uint8_t *pages; /* the record's own, which both processes see */
static size_t pages_length;
static pid_t stepped;

static uint8_t *lent(void) { return pages + stage->at; }

/* What the calls' module has in place of memcpy. */
void *reset_memcpy(void *to, const void *from, size_t count) {
    volatile uint8_t *out = to;
    const uint8_t *in = from;
    if (stage->copies == AS_HERE) return memcpy(to, from, count);
    if (stage->copies == UPWARDS)
        for (size_t i = 0; i < count; i++) out[i] = in[i];
    else
        for (size_t i = count; i > 0; i--) out[i - 1] = in[i - 1];
    return to;
}

static void give_up(const char *why) {
    perror(why);
    exit(1);
}

/* The first store into the record: its pages may be written from here on. Any other bad access ends the process. */
static void on_store(int number, siginfo_t *info, void *context) {
    const uint8_t *at = info->si_addr;
    (void)number, (void)context;
    if (at < pages || at >= pages + pages_length || mprotect(pages, pages_length, PROT_READ | PROT_WRITE) != 0)
        _exit(3);
}

/* The process that is stepped: makes one job after the other, and stops before each. */
static void make_jobs(void) {
    struct sigaction action = {.sa_sigaction = on_store, .sa_flags = SA_SIGINFO};
    if (sigaction(SIGSEGV, &action, NULL) != 0 || ptrace(PTRACE_TRACEME, 0, NULL, NULL) != 0) _exit(4);
    for (;;) {
        kill(getpid(), SIGSTOP);
        if (mprotect(pages, pages_length, stage->way == STORES ? PROT_READ : PROT_READ | PROT_WRITE) != 0) _exit(5);
        stage->inside = 1;
        stage->refusal = stage->job.call->make(lent(), &stage->job);
        stage->inside = 0;
    }
}

/* Its stack stands at the same place in every run of the program, so that every run steps the same instructions. */
static void make_jobs_apart(void) {
    static _Alignas(4096) uint8_t stack[1 << 17];
    static ucontext_t apart;
    getcontext(&apart);
    apart.uc_stack.ss_sp = stack;
    apart.uc_stack.ss_size = sizeof stack;
    makecontext(&apart, make_jobs, 0);
    setcontext(&apart);
}

/* Lets it go on, by one instruction or until it stops, and answers the signal that it stopped with. */
static int go_on(int request, int number) {
    int status;
    if (ptrace(request, stepped, NULL, (void *)(intptr_t)number) != 0) give_up("ptrace");
    if (waitpid(stepped, &status, 0) != stepped) give_up("waitpid");
    if (WIFSTOPPED(status)) return WSTOPSIG(status);
    fprintf(stderr, "%s: the process that is stepped ended, %#x\n", stage->job.call->name, (unsigned)status);
    exit(1);
}

/* Both processes on one processor: it is quicker where each step changes from one to the other. */
static void start_stepping(void) {
    cpu_set_t one;
    size_t page = (size_t)sysconf(_SC_PAGESIZE);
    int status, kind = MAP_SHARED | MAP_ANONYMOUS;
    CPU_ZERO(&one);
    CPU_SET((size_t)sched_getcpu(), &one);
    sched_setaffinity(0, sizeof one, &one);
    pages_length = (ROOM + page - 1) / page * page;
    stage = mmap(NULL, sizeof *stage, PROT_READ | PROT_WRITE, kind, -1, 0);
    pages = mmap(NULL, pages_length, PROT_READ | PROT_WRITE, kind, -1, 0);
    if (stage == MAP_FAILED || pages == MAP_FAILED) give_up("mmap");
    stepped = fork();
    if (stepped < 0) give_up("fork");
    if (stepped == 0) make_jobs_apart();
    if (waitpid(stepped, &status, 0) != stepped || !WIFSTOPPED(status)) give_up("waitpid");
    if (ptrace(PTRACE_SETOPTIONS, stepped, NULL, (void *)PTRACE_O_EXITKILL) != 0) give_up("ptrace");
}

static void end_stepping(void) {
    kill(stepped, SIGKILL);
    waitpid(stepped, NULL, 0);
}

/* What was seen of one call. */
struct seen {
    unsigned long steps, states; /* instructions stepped; instants at which the record had changed */
    int stored;                  /* whether the call stored into the record; of the way STORES only */
    struct fault fault;          /* the first, and the state it was found in */
    unsigned long at;
};

/* Looks at the record if a byte has changed since it was last looked at. */
static void look(struct seen *seen, struct watched *w, uint8_t *last) {
    if (memcmp(last, lent(), w->job->length) == 0) return;
    memcpy(last, lent(), w->job->length);
    seen->states++;
    if (seen->fault.what == NULL) {
        seen->fault = fault_in(w, last);
        seen->at = seen->states;
    }
}

/* Steps from here to the end of the call, the number of a signal first. */
static void step_to_end(struct seen *seen, struct watched *w, int number) {
    uint8_t last[MOST_BYTES + 1];
    int entered = stage->inside;
    memcpy(last, w->before, w->job->length);
    while (!entered || stage->inside) {
        if (go_on(PTRACE_SINGLESTEP, number) != SIGTRAP) give_up("a signal in a step");
        number = 0;
        entered |= stage->inside;
        seen->steps += (unsigned long)stage->inside;
        look(seen, w, last);
    }
}

/* What is wrong when the call has ended: it answered or left something else than unstepped, wrote beside the record, or
 * was refused and stored into the record all the same. */
static struct fault fault_after(const struct watched *w, int stored) {
    size_t end = stage->at + w->job->length;
    if (w->refusal != 0 && stored) return (struct fault){"a store, though it is refused", 0};
    if (memcmp(lent(), w->after, w->job->length) != 0) return (struct fault){"another record when it is stepped", 0};
    if (stage->refusal != w->refusal) return (struct fault){"another answer when it is stepped", 0};
    for (size_t i = 0; i < pages_length; i++)
        if ((i < stage->at || i >= end) && pages[i] != PAINT) return (struct fault){"a byte beside the record", i};
    return (struct fault){NULL, 0};
}

/* Makes the job on stage, on this record, and looks at every state on the way. */
static struct seen step(struct watched *w, const uint8_t *made, int way, int copies) {
    struct seen seen = {0};
    memset(pages, PAINT, pages_length);
    memcpy(lent(), made, stage->job.length);
    stage->copies = copies;
    stage->way = way;
    watch(w, &stage->job, made);
    int number = way == WHOLE ? 0 : go_on(PTRACE_CONT, 0);
    seen.stored = number == SIGSEGV;
    if (way == STORES && number != SIGSEGV && number != SIGSTOP) give_up("a signal in a call");
    if (number != SIGSTOP) {
        step_to_end(&seen, w, number);
        if (go_on(PTRACE_CONT, 0) != SIGSTOP) give_up("a signal after a call");
    }
    if (seen.fault.what == NULL) seen.fault = fault_after(w, seen.stored);
    return seen;
}

#endif
