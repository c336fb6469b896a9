/* fenced [SEED]: all twenty calls, every lent buffer once right after and once right before memory that can't be
 * touched, on damaged records by the seed, on good ones, and on lists, texts, tables and numbers of all kinds. Prints
 * how many calls of each were made; ends with 1 if one touches what it was not lent or is wrong otherwise (fences.h),
 * if a refusal was never reached, or if a wrong call is not found. */
#define _GNU_SOURCE
#include "wrong_fenced.h"

enum { DAMAGED = 120000 };

static unsigned long damaged, still_accepted, numbers[NUMBERS];
static struct { unsigned long made, refused; } tallies[EXPORTS];

/* Every call on the next record, with arguments of its own, at both edges. */
static void next_record(void) {
    static struct source source;
    static struct arguments arguments;
    draw_source(&source);
    records++;
    damaged += (unsigned long)source.damaged;
    still_accepted += (unsigned long)(source.damaged && source.accepted);
    for (int i = 0; i < EXPORTS; i++) {
        draw_arguments(&arguments, exports + i, &source);
        for (int edge = RIGHT_AFTER; edge < EDGES; edge++) {
            uint32_t refusal = make_at(exports + i, exports[i].make, &arguments, edge);
            tallies[i].made++;
            tallies[i].refused += refusal != 0;
            numbers[refusal]++;
        }
    }
}

/* Prints what was made, and answers how many refusals were never reached, and calls never accepted or never refused. */
static int print_tallies(void) {
    unsigned long made = 0, refused = 0;
    int missing = 0;
    printf("%-20s %8s %8s\n", "call", "made", "refused");
    for (int i = 0; i < EXPORTS; i++) {
        printf("%-20s %8lu %8lu\n", exports[i].name, tallies[i].made, tallies[i].refused);
        made += tallies[i].made;
        refused += tallies[i].refused;
        missing += tallies[i].refused == 0 || tallies[i].refused == tallies[i].made;
    }
    for (int i = 1; i < NUMBERS; i++) {
        printf("%s %d:%lu", i == 1 ? "refusals" : i == NUMBERS / 2 ? "\n        " : "", i, numbers[i]);
        missing += numbers[i] == 0;
    }
    printf("\nbeside memory that can't be touched, seed %lu: %lu records, %lu damaged (%lu of these still records)\n",
           seed, records, damaged, still_accepted);
    printf("%lu calls, %lu refused, none wrong; %d numbers or calls not reached\n", made, refused, missing);
    return missing;
}

int main(int count, char **words) {
    if (count > 1) seed = strtoul(words[1], NULL, 10);
    drawn = (uint32_t)(seed * 2654435761u) | 1;
    fence();
    int missed = make_wrong_versions();
    while (damaged < DAMAGED) next_record();
    return missed + print_tallies() != 0;
}
