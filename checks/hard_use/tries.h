/*
 * Calls on random input, and what is expected of them.
 */
#ifndef TRIES_H
#define TRIES_H

#include "lent.h"

#include <stdint.h>

/* Makes the memory that is lent. */
void make_all_memory(void);

/* One case: a film, a table, and payloads. Ends the program with status 1 where something is not as
 * expected. */
void try_case(uint64_t seed, uint64_t number, enum edge edge);

/* Writes what went wrong to stderr, then which case is being tried, and its bytes in hex. A signal's
 * handler may call it. */
void print_case(const char *what);

#endif
