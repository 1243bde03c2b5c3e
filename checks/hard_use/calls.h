/*
 * The nine exported functions, each call counted, with the number that it gives.
 */
#ifndef CALLS_H
#define CALLS_H

#include "usm.h"

enum call {
    KEY_TABLE,
    UNMASK_VIDEO,
    MASK_VIDEO,
    UNMASK_AUDIO,
    MASK_AUDIO,
    TABLE,
    CELL,
    EXTRACT,
    LIST,
    CALLS
};

/* The calls of each function, and how often it gave each number. */
struct tally {
    uint64_t calls[CALLS];
    uint64_t answers[CALLS][256];
};

extern const char *const CALL_NAMES[CALLS];
extern struct tally tally;

/* The call that was made last. */
extern volatile enum call last_call;

/* Notes a call that is about to be made. */
static inline void calling(enum call call)
{
    last_call = call;
    tally.calls[call]++;
}

/* Notes the number that a call gave. */
static inline uint8_t answered(uint8_t number)
{
    tally.answers[last_call][number]++;
    return number;
}

#endif
