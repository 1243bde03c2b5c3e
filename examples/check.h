/*
 * A check of a program that tries what usm.h says: a fact that does not hold ends the program with
 * status 1, and its line is printed.
 */
#ifndef CHECK_H
#define CHECK_H

#include <stdio.h>
#include <stdlib.h>

#define CHECK(fact) check((fact), #fact, __LINE__)

static inline void check(int holds, const char *fact, int line)
{
    if (holds)
        return;
    printf("line %d fails: %s\n", line, fact);
    exit(1);
}

#endif
