#define _GNU_SOURCE
#include "trials.h"

#include <inttypes.h>
#include <signal.h>
#include <stdio.h>
#include <stdlib.h>
#include <unistd.h>

#define CASES_AT_A_TIME 256

struct trial trial;

double begin_trials(const char *program, int count, char **words)
{
    double seconds = count == 3 ? strtod(words[1], NULL) : 0;

    if (seconds <= 0) {
        fprintf(stderr, "usage: %s SECONDS SEED\n", program);
        exit(2);
    }
    trial.program = program;
    trial.seed = strtoull(words[2], NULL, 10);
    return seconds;
}

void expect(int holds, const char *what)
{
    size_t i;

    if (holds)
        return;
    fflush(stdout);
    fprintf(stderr, "%s: not as expected: %s, seed %" PRIu64 ", case %" PRIu64 "\n", trial.program, what, trial.seed,
            trial.number);
    if (trial.tell != NULL)
        trial.tell();
    for (i = 0; i < trial.made.len; i++)
        fprintf(stderr, "%02x", trial.made.bytes[i]);
    fprintf(stderr, "\n");
    exit(1);
}

static void give_up(int signal_number)
{
    (void)signal_number;
    expect(0, "a signal: a page was touched that may not be, or a call does not end");
}

void expect_no_signal(void)
{
    signal(SIGSEGV, give_up);
    signal(SIGALRM, give_up);
}

static void try_edge(double seconds, enum edge edge, void (*try_case)(enum edge edge))
{
    double began = seconds_by(CLOCK_MONOTONIC);

    for (trial.number = 0; seconds_by(CLOCK_MONOTONIC) - began < seconds;) {
        alarm(60);
        do
            try_case(edge);
        while (++trial.number % CASES_AT_A_TIME != 0);
    }
    alarm(0);
    printf("%s: slices %s at a page that may not be touched, %" PRIu64 " cases\n", trial.program,
           edge == ENDS ? "end" : "begin", trial.number);
}

void try_cases(double seconds, void (*try_case)(enum edge edge))
{
    try_edge(seconds / 2, ENDS, try_case);
    try_edge(seconds / 2, BEGINS, try_case);
}

void print_answers(const char *call, const uint64_t answers[256])
{
    int i;

    printf("%s, answers by number:", call);
    for (i = 0; i < 256; i++)
        if (answers[i] != 0)
            printf("  %d: %" PRIu64, i, answers[i]);
}
