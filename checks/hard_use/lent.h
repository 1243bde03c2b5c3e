/*
 * Slices lent to calls, in memory between two pages that may not be touched. A slice ends at the one
 * behind it or begins at the one before it, so a call that reaches too far on that side ends by
 * SIGSEGV. On the other side lie bytes that are looked at afterwards.
 */
#ifndef LENT_H
#define LENT_H

#include "chance.h"

#include <stddef.h>
#include <stdint.h>
#include <time.h>

/* On which side a slice has the page that may not be touched. */
enum edge { ENDS, BEGINS };

/* The bytes on the other side that are looked at. */
#define MARGIN 64

/* Memory between two such pages. What is lent of read-only memory can't be written through `lent`;
 * `own` shows the same bytes and can. Of other memory both are one. */
struct memory {
    uint8_t *lent, *own;
    size_t room;
};

void make_memory(struct memory *memory, size_t room, int read_only);

/* Zeros that end at a page that may not be touched. They take memory only where they are written. */
uint8_t *make_zeros(size_t bytes);

/* Makes such memory read-only, from its first byte on. */
void forbid_writing(uint8_t *bytes, size_t len);

/* Puts bytes into read-only memory and lends them. */
const uint8_t *lend_bytes(struct memory *memory, enum edge edge, const uint8_t *bytes, size_t len);

/* A slice that a call may write, and what stood in it and beside it before. */
struct output {
    uint8_t *at;
    size_t len;
    const uint8_t *whole, *old;
    size_t whole_len;
};

/* Lends a slice of some random bytes. */
struct output lend_output(struct memory *memory, enum edge edge, size_t len, struct chance *chance);

/* Whether the slice from a byte on, and what lies beside it, is as it was. */
int stays_from(const struct output *output, size_t from);

/* How a call ends in a process of its own: 0, or the signal that ends it. */
int signal_of(void (*call)(size_t which), size_t which);

double seconds_by(clockid_t clock);

#endif
