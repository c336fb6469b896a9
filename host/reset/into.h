/* The two calls whose answers are too large for registers. x86-64's convention hands the answer's place over as a first
 * argument. */
#ifndef INTO_H
#define INTO_H

#include "../viewer/tangle.h"

struct tangle_run *run_into(struct tangle_run *answer, uint8_t *record, size_t length,
                            uint32_t allowance) __asm__("tangle_run");
struct tangle_squared_entanglement *squared_into(struct tangle_squared_entanglement *answer, const uint8_t *record,
                                                 size_t length) __asm__("tangle_squared_entanglement");

#endif
