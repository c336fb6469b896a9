/* A viewer of one record, over the calls for C (tangle.h).
 *
 *     viewer [SIDE:ROW ..] < RECORD
 *
 * Prints its crossings, its two leaf orders and its entanglement; what freeing the left, freeing the right and a run
 * with the largest allowance come to, each from the record as read; and, where entries of a hand list are given, the
 * crossings once their rows are turned over. A refusal is printed in the place of its numbers, with its words. Ends
 * with 0, with 1 if a call was refused, and with 2 if a word is no entry.
 */
#include <errno.h>
#include <stdio.h>
#include <stdlib.h>

#include "tangle.h"

/* Room for one byte more than the longest record has, so that longer input is refused for its length. */
struct record {
    size_t length;
    uint8_t bytes[TANGLE_MOST_BYTES + 1];
};

/* The words of a refusal; of 7 and 8 those after the row. */
static const char *words(uint32_t refusal)
{
    switch (refusal) {
    case TANGLE_SHORT: return "fewer than 8 bytes";
    case TANGLE_MARK: return "mark isn't TGP";
    case TANGLE_VERSION: return "version isn't 1";
    case TANGLE_HOLD: return "hold isn't one of the four letters";
    case TANGLE_SIZE: return "n is 0 or above 512";
    case TANGLE_LENGTH: return "length isn't 12n-2";
    case TANGLE_LEFT_ROW:
    case TANGLE_RIGHT_ROW: return "breaks the tree rule";
    case TANGLE_LINKS: return "links aren't one-to-one on 1 to n";
    case TANGLE_LAYOUT: return "a layout byte is above 3";
    case TANGLE_HELD:
        return "the call frees a held side, runs while a side is held, or has a hand entry for a held side";
    case TANGLE_ALLOWANCE: return "allowance 0 or above 130,818";
    case TANGLE_SIDE: return "side isn't 1 (left) or 2 (right)";
    case TANGLE_ROOM: return "an output buffer has too few places";
    case TANGLE_ROW: return "row 0 or above n-1";
    case TANGLE_ORDER: return "an order has fewer than n entries, or its first n aren't a compatible order";
    case TANGLE_HANDS: return "a hand list is longer than 1,024";
    case TANGLE_GRAMMAR: return "a text breaks the grammar";
    case TANGLE_LEAVES: return "a text's leaves aren't 1 to n once each, or n is above 512";
    case TANGLE_ENTRY: return "an entry of a merge table is zero, or names no leaf, or no earlier row";
    case TANGLE_TWICE: return "an entry of a merge table is used twice";
    case TANGLE_PINNED: return "a hand list names a pinned row";
    case TANGLE_AGAINST_PIN: return "an order goes against a pinned row";
    default: return "a refusal without words";
    }
}

/* Whether there is a refusal; if so, ends the line with it. */
static int refused(uint32_t refusal, uint32_t row)
{
    if (refusal == TANGLE_ACCEPTED)
        return 0;
    printf("REFUSED %u, ", (unsigned)refusal);
    if (row != 0)
        printf("%s row %u ", refusal == TANGLE_LEFT_ROW ? "left" : "right", (unsigned)row);
    printf("%s\n", words(refusal));
    return 1;
}

/* The order's length is n, as the record's bytes 6 and 7 have it. */
static int show_order(const struct record *r, uint32_t side, const char *name)
{
    uint16_t order[TANGLE_MOST_LEAVES];
    struct tangle_refusal o = tangle_order(r->bytes, r->length, side, order, TANGLE_MOST_LEAVES);

    printf("%s order: ", name);
    if (refused(o.refusal, o.row))
        return 1;
    for (int i = 0; i < r->bytes[6] * 256 + r->bytes[7]; i++)
        printf(i == 0 ? "%u" : " %u", (unsigned)order[i]);
    printf("\n");
    return 0;
}

static int show_crossings(const struct record *r)
{
    struct tangle_count c = tangle_count(r->bytes, r->length);

    printf("crossings: ");
    if (refused(c.refusal, c.row))
        return 1;
    printf("%u\n", (unsigned)c.count);
    return 0;
}

/* Both entanglements: the published one, in thousandths, and its square. */
static int show_entanglement(const struct record *r)
{
    struct tangle_thousandths t = tangle_thousandths(r->bytes, r->length);
    struct tangle_squared_entanglement e = tangle_squared_entanglement(r->bytes, r->length);

    printf("entanglement: ");
    if (refused(t.refusal, t.row) || refused(e.refusal, e.row))
        return 1;
    if (t.has_ratio && e.has_ratio)
        printf("%u thousandths; squared %u of %u, ratio %.6f\n", (unsigned)t.thousandths, (unsigned)e.displacement,
               (unsigned)e.worst, e.ratio);
    else
        printf("no ratio\n");
    return 0;
}

/* Takes the record by value: freeing changes the copy. */
static int show_free(struct record r, uint32_t side, const char *name)
{
    struct tangle_free f = tangle_free(r.bytes, r.length, side);

    printf("%s freed: ", name);
    if (refused(f.refusal, f.row))
        return 1;
    printf("%u to %u\n", (unsigned)f.before, (unsigned)f.after);
    return 0;
}

static int show_run(struct record r)
{
    struct tangle_run t = tangle_run(r.bytes, r.length, TANGLE_MOST_TURNS);

    printf("run: ");
    if (refused(t.refusal, t.row))
        return 1;
    printf("refusal %u, first %u, last %u, turns %u, settled %u\n", (unsigned)t.refusal, (unsigned)t.first,
           (unsigned)t.last, (unsigned)t.turns, (unsigned)t.settled);
    return 0;
}

static int show_hands(struct record r, const struct tangle_entry *list, size_t entries)
{
    struct tangle_refusal h = tangle_hands(r.bytes, r.length, list, entries);
    struct tangle_count c;

    printf("by hand: ");
    if (refused(h.refusal, h.row))
        return 1;
    c = tangle_count(r.bytes, r.length);
    if (refused(c.refusal, c.row))
        return 1;
    printf("%u crossings\n", (unsigned)c.count);
    return 0;
}

/* Reads a number of 32 bits, digits only, up to a character; NULL where there is none. */
static const char *number(const char *at, char end, uint32_t *x)
{
    char *stop;
    unsigned long v;

    if (*at < '0' || '9' < *at)
        return NULL;
    errno = 0;
    v = strtoul(at, &stop, 10);
    if (errno != 0 || UINT32_MAX < v || *stop != end)
        return NULL;
    *x = (uint32_t)v;
    return stop;
}

static int entry(const char *word, struct tangle_entry *e)
{
    const char *colon = number(word, ':', &e->side);

    return colon != NULL && number(colon + 1, '\0', &e->row) != NULL;
}

int main(int argc, char **argv)
{
    static struct record r;
    struct tangle_entry *list = calloc((size_t)argc, sizeof *list);
    int bad;

    if (list == NULL)
        return 2;
    for (int i = 1; i < argc; i++)
        if (!entry(argv[i], &list[i - 1])) {
            fprintf(stderr, "%s is no SIDE:ROW\n", argv[i]);
            free(list);
            return 2;
        }
    r.length = fread(r.bytes, 1, sizeof r.bytes, stdin);

    bad = show_crossings(&r);
    if (!bad) {
        bad |= show_order(&r, TANGLE_LEFT, "left");
        bad |= show_order(&r, TANGLE_RIGHT, "right");
        bad |= show_entanglement(&r);
        bad |= show_free(r, TANGLE_LEFT, "left");
        bad |= show_free(r, TANGLE_RIGHT, "right");
        bad |= show_run(r);
        if (1 < argc)
            bad |= show_hands(r, list, (size_t)argc - 1);
    }
    free(list);
    return bad;
}
