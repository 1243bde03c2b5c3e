/*
 * Calls every exported function of both libraries on random input, whole and damaged, with every
 * lent slice at a page that may not be touched. See README.md.
 *
 *     hard_use SECONDS SEED        both passes, half of the time each
 *     hard_use case SEED NUMBER    one case again, in both passes
 */
#define _GNU_SOURCE
#include "calls.h"
#include "catches.h"
#include "tries.h"

#include <errno.h>
#include <inttypes.h>
#include <signal.h>
#include <stdio.h>
#include <stdlib.h>
#include <string.h>
#include <time.h>
#include <unistd.h>

/* So many cases are tried at a time, in some milliseconds; then the time is looked at. Where they take
 * longer than this together, a call does not end. */
#define CASES_AT_A_TIME 256
#define SECONDS_AT_MOST 60
#define SECONDS_BETWEEN_LINES 30

/* The signals that end a run, and what is said of them. */
static const struct {
    int number;
    const char *what;
} SIGNALS[] = {
    {SIGSEGV, "SIGSEGV: a page was touched that may not be"},
    {SIGBUS, "SIGBUS"},
    {SIGILL, "SIGILL"},
    {SIGFPE, "SIGFPE"},
    {SIGALRM, "a call does not end"},
};

#define SIGNAL_COUNT (sizeof SIGNALS / sizeof SIGNALS[0])

static void give_up(int number)
{
    size_t i;

    for (i = 0; i < SIGNAL_COUNT; i++)
        if (SIGNALS[i].number == number)
            print_case(SIGNALS[i].what);
    _exit(1);
}

static double seconds_now(void)
{
    struct timespec now;

    clock_gettime(CLOCK_MONOTONIC, &now);
    return (double)now.tv_sec + (double)now.tv_nsec / 1e9;
}

/* Tries cases for some seconds. */
static void run_pass(double seconds, uint64_t seed, enum edge edge)
{
    double began = seconds_now(), printed = began, now = began;
    uint64_t number = 0;
    int i;

    printf("slices %s at a page that may not be touched\n", edge == ENDS ? "end" : "begin");
    while (now - began < seconds) {
        alarm(SECONDS_AT_MOST);
        for (i = 0; i < CASES_AT_A_TIME; i++)
            try_case(seed, number++, edge);
        now = seconds_now();
        if (now - printed < SECONDS_BETWEEN_LINES)
            continue;
        printed = now;
        printf("  %.0f s, %" PRIu64 " cases\n", now - began, number);
    }
    alarm(0);
    printf("  %" PRIu64 " cases\n", number);
}

static void print_tally(void)
{
    uint64_t calls = 0;
    int call, number;

    printf("calls, and answers by number\n");
    for (call = 0; call < CALLS; call++) {
        printf("%-17s %12" PRIu64, CALL_NAMES[call], tally.calls[call]);
        for (number = 0; number < 256; number++)
            if (tally.answers[call][number] != 0)
                printf("  %d: %" PRIu64, number, tally.answers[call][number]);
        printf("\n");
        calls += tally.calls[call];
    }
    printf("%" PRIu64 " calls, all as expected\n", calls);
}

static void catch_signals(void)
{
    size_t i;

    for (i = 0; i < SIGNAL_COUNT; i++)
        signal(SIGNALS[i].number, give_up);
}

/* One case again, in both passes. */
static void try_again(uint64_t seed, uint64_t number)
{
    make_all_memory();
    catch_signals();
    alarm(SECONDS_AT_MOST);
    try_case(seed, number, ENDS);
    try_case(seed, number, BEGINS);
    printf("as expected\n");
}

static void give_usage(void)
{
    fprintf(stderr, "usage: hard_use SECONDS SEED\n       hard_use case SEED NUMBER\n");
    exit(2);
}

/* The number that a whole word is. */
static uint64_t number_of(const char *word)
{
    uint64_t number;
    char *end;

    errno = 0;
    number = strtoull(word, &end, 10);
    if (word[0] < '0' || word[0] > '9' || *end != '\0' || errno != 0)
        give_usage();
    return number;
}

/* The seconds that a whole word is, more than none. */
static double seconds_of(const char *word)
{
    char *end;
    double seconds = strtod(word, &end);

    if (word[0] < '0' || word[0] > '9' || *end != '\0' || seconds <= 0)
        give_usage();
    return seconds;
}

int main(int argc, char **argv)
{
    double seconds;
    uint64_t seed;

    setvbuf(stdout, NULL, _IOLBF, 0);
    if (argc == 4 && strcmp(argv[1], "case") == 0) {
        try_again(number_of(argv[2]), number_of(argv[3]));
        return 0;
    }
    if (argc != 3)
        give_usage();
    seconds = seconds_of(argv[1]);
    seed = number_of(argv[2]);

    if (!show_catches())
        return 1;
    make_all_memory();
    catch_signals();
    printf("seed %" PRIu64 "\n", seed);
    run_pass(seconds / 2, seed, ENDS);
    run_pass(seconds / 2, seed, BEGINS);
    print_tally();
    return 0;
}
