/* Rows of trees over n leaves: row i, from 1 on, is rows[2i-2] over rows[2i-1] and makes object n + i. And a tree as a
 * Newick text, and as a merge table. */
#ifndef TREES_H
#define TREES_H

#include <stddef.h>
#include <stdint.h>
#include <stdio.h>
#include <string.h>

typedef void rows_t(uint16_t *rows, uint16_t n);

/* Where `below` stands; a program that takes a seed sets it, to anything but 0. */
static uint32_t drawn = 2463534242;

/* A number below `most`, the same ones in every run of the program. */
static inline uint16_t below(uint16_t most) {
    drawn ^= drawn << 13;
    drawn ^= drawn >> 17;
    drawn ^= drawn << 5;
    return (uint16_t)(drawn % most);
}

/* Upper deep: (1,2), (n+1,3), (n+2,4), .. with the order 1 to n. */
static void upper_deep(uint16_t *rows, uint16_t n) {
    for (uint16_t i = 1; i < n; i++) {
        rows[2 * i - 2] = (uint16_t)(i == 1 ? 1 : n + i - 1);
        rows[2 * i - 1] = (uint16_t)(i + 1);
    }
}

/* Lower deep: (2,1), (3,n+1), (4,n+2), .. with the order n to 1. */
static void lower_deep(uint16_t *rows, uint16_t n) {
    for (uint16_t i = 1; i < n; i++) {
        rows[2 * i - 2] = (uint16_t)(i + 1);
        rows[2 * i - 1] = (uint16_t)(i == 1 ? 1 : n + i - 1);
    }
}

/* Balanced, where n is a power of 2: (1,2), (3,4), .. with the order 1 to n. */
static void balanced(uint16_t *rows, uint16_t n) {
    for (uint16_t i = 1; i < n; i++) {
        rows[2 * i - 2] = (uint16_t)(2 * i - 1);
        rows[2 * i - 1] = (uint16_t)(2 * i);
    }
}

/* Any two objects that are not under a row yet, again and again. */
static inline void joined(uint16_t *rows, uint16_t n) {
    uint16_t pool[512];
    for (uint16_t i = 0; i < n; i++) pool[i] = (uint16_t)(i + 1);
    for (uint16_t i = 1; i < n; i++) {
        for (int entry = 2; entry >= 1; entry--) {
            uint16_t most = (uint16_t)(n - i + entry - 1), k = below(most);
            rows[2 * i - entry] = pool[k];
            pool[k] = pool[most - 1];
        }
        pool[n - i - 1] = (uint16_t)(n + i);
    }
}

/* Adds an object of a tree to a text, with a length of so many digits after every subtree, or without lengths if these
 * are 0; answers the text's new end. */
static inline char *spell(char *end, const uint16_t *rows, uint16_t n, uint16_t object, size_t digits) {
    if (object <= n) {
        end += sprintf(end, "%u", (unsigned)object);
    } else {
        *end++ = '(';
        end = spell(end, rows, n, rows[2 * (object - n) - 2], digits);
        *end++ = ',';
        end = spell(end, rows, n, rows[2 * (object - n) - 1], digits);
        *end++ = ')';
    }
    if (digits == 0) return end;
    *end++ = ':';
    memset(end, '7', digits);
    return end + digits;
}

/* A tree as a merge table: minus a leaf, plus a row. */
static inline void put_signs(int32_t *table, const uint16_t *rows, uint16_t n) {
    for (size_t i = 0; i < 2 * ((size_t)n - 1); i++) table[i] = rows[i] <= n ? -(int32_t)rows[i] : rows[i] - n;
}

#endif
