/*
 * The functions of libplayer.a beside those of an earlier one, whose names begin with before_: first the
 * same answers, then the time of both under one clock and in turns. checks/compare/before builds it.
 */
#define _POSIX_C_SOURCE 200809L
#include "../hard_use/chance.h"
#include "usm.h"

#include <stdio.h>
#include <stdlib.h>
#include <string.h>
#include <time.h>

typedef void mask(uint64_t key, uint8_t *payload, size_t len);

mask before_unmask_video, before_mask_video, before_unmask_audio, before_mask_audio;

static const struct {
    const char *name;
    mask *now, *before;
} MASKS[] = {
    {"unmask_video", usm_unmask_video, before_unmask_video},
    {"mask_video", usm_mask_video, before_mask_video},
    {"unmask_audio", usm_unmask_audio, before_unmask_audio},
    {"mask_audio", usm_mask_audio, before_mask_audio},
};

/* How many calls make a sample of a size, and the ratio that is not to be exceeded. */
static const struct {
    size_t bytes;
    int calls;
    double goal;
} SIZES[] = {
    {576, 4000, 1.2},
    {4096, 1500, 1.2},
    {65536, 100, 1.1},
};

#define COUNT(list) (sizeof list / sizeof list[0])
#define SAMPLES 151
#define CHECKED 1400
#define LONGEST 65536

static const uint64_t KEYS[] = {0, UINT64_MAX, 0x00123456789ABCDE};

static uint8_t payload[LONGEST], other[CHECKED];

/* The same bytes each time. */
static void fill(uint8_t *bytes, size_t len)
{
    struct chance chance = {1};

    fill_by_chance(&chance, bytes, len);
}

/* Every length up to 1,400 with each key. */
static int answers_agree(void)
{
    size_t m, k, len;

    for (m = 0; m < COUNT(MASKS); m++)
        for (k = 0; k < COUNT(KEYS); k++)
            for (len = 0; len <= CHECKED; len++) {
                fill(payload, CHECKED);
                fill(other, CHECKED);
                MASKS[m].now(KEYS[k], payload, len);
                MASKS[m].before(KEYS[k], other, len);
                if (memcmp(payload, other, CHECKED) != 0) {
                    printf("DISAGREEMENT: %s, length %zu\n", MASKS[m].name, len);
                    return 0;
                }
            }
    return 1;
}

static double nanoseconds(void)
{
    struct timespec now;

    clock_gettime(CLOCK_MONOTONIC, &now);
    return (double)now.tv_sec * 1e9 + (double)now.tv_nsec;
}

/* The time of one call, after a first one that is not counted. */
static double sample(mask *function, size_t bytes, int calls)
{
    double began;
    int i;

    function(KEYS[2], payload, bytes);
    began = nanoseconds();
    for (i = 0; i < calls; i++)
        function(KEYS[2], payload, bytes);
    return (nanoseconds() - began) / calls;
}

static int rising(const void *a, const void *b)
{
    double x = *(const double *)a, y = *(const double *)b;

    return (x > y) - (x < y);
}

static double median(double *samples)
{
    qsort(samples, SAMPLES, sizeof *samples, rising);
    return samples[SAMPLES / 2];
}

/* Times one function at one size, the two in turns and each as often first; whether the goal is met. */
static int timed(size_t m, size_t s)
{
    static double now[SAMPLES], before[SAMPLES];
    double ours, theirs;
    int i;

    for (i = 0; i < SAMPLES; i++) {
        if (i % 2 == 0)
            now[i] = sample(MASKS[m].now, SIZES[s].bytes, SIZES[s].calls);
        before[i] = sample(MASKS[m].before, SIZES[s].bytes, SIZES[s].calls);
        if (i % 2 != 0)
            now[i] = sample(MASKS[m].now, SIZES[s].bytes, SIZES[s].calls);
    }
    ours = median(now);
    theirs = median(before);
    printf("%s %zu %.2f %.0f %.0f\n", MASKS[m].name, SIZES[s].bytes, ours / theirs, ours, theirs);
    return ours / theirs <= SIZES[s].goal;
}

int main(void)
{
    size_t m, s;
    int missed = 0;

    if (!answers_agree())
        return 1;
    printf("same answers: 4 functions, every length from 0 to %d, %zu keys\n", CHECKED, COUNT(KEYS));
    fill(payload, LONGEST);
    printf("NAME BYTES NOW/BEFORE NOW BEFORE (nanoseconds for one call)\n");
    for (m = 0; m < COUNT(MASKS); m++)
        for (s = 0; s < COUNT(SIZES); s++)
            missed += !timed(m, s);
    printf("%d goals missed: at most 1.2 at 576 bytes and 4 KiB, 1.1 at 64 KiB\n", missed);
    return 0;
}
