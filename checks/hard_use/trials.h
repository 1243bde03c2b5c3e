/*
 * Trials of a call on random films: each case by a seed and a number, and what ends a program
 * where one is not as expected.
 */
#ifndef TRIALS_H
#define TRIALS_H

#include "lent.h"
#include "make.h"

/* The case that is tried: the program, its seed, the case's number and the film that is made for it. Where `tell` is
 * set, it prints what else the case has. */
struct trial {
    const char *program;
    uint64_t seed, number;
    struct made made;
    void (*tell)(void);
};

extern struct trial trial;

/* Begins the trials of a program whose words are SECONDS and SEED, and gives the seconds. Other words end it. */
double begin_trials(const char *program, int count, char **words);

/* Ends the program where something does not hold, and says what, in which case, and the film. */
void expect(int holds, const char *what);

/* From here on a signal is not as expected either. */
void expect_no_signal(void);

/* Tries cases with slices at both edges, one after the other, for some seconds in all, and prints how many. They are
 * numbered from 0 on. Where 256 of them take over a minute, SIGALRM comes. */
void try_cases(double seconds, void (*try_case)(enum edge edge));

/* Prints how often each number was the answer of a call. */
void print_answers(const char *call, const uint64_t answers[256]);

#endif
