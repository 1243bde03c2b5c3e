#include "fuzz.h"

#include <stdio.h>
#include <stdlib.h>
#include <string.h>

#define NUMBERS 32
#define FIELDS 8
#define MAGNITUDES 65

/* libFuzzer takes what stands in this section for coverage: the libraries themselves have none. */
__attribute__((section("__libfuzzer_extra_counters"))) static uint8_t noted[NUMBERS * FIELDS * MAGNITUDES];

static struct memory lent[3], rooms[3];

int LLVMFuzzerInitialize(int *count, char ***words);

int LLVMFuzzerInitialize(int *count, char ***words)
{
    size_t i;

    (void)count;
    (void)words;
    for (i = 0; i < 3; i++) {
        make_memory(&lent[i], MOST_WRITTEN, 1);
        make_memory(&rooms[i], MOST_WRITTEN + 2 * MARGIN, 0);
    }
    return 0;
}

static uint64_t little(const uint8_t *at, size_t width)
{
    uint64_t number = 0;

    memcpy(&number, at, width);
    return number;
}

struct options read_options(const uint8_t *input, size_t len)
{
    static uint8_t head[OPTIONS_BYTES];
    struct options options;
    size_t own = len < OPTIONS_BYTES ? len : OPTIONS_BYTES;

    memset(head, 0, sizeof head);
    if (own > 0)
        memcpy(head, input, own);
    memcpy(&options.reading, head, 4);
    options.key.given = head[4];
    options.key.number = little(head + 5, 8);
    options.other = little(head + 13, 8);
    options.rooms[0] = head[21];
    options.rooms[1] = head[22];
    options.edge = head[23] & 1 ? BEGINS : ENDS;
    options.choice = head[24];
    options.body.at = input + own;
    options.body.len = len - own;
    if (options.body.len > MOST_FILM)
        options.body.len = MOST_FILM;
    return options;
}

size_t room_by(uint8_t choice, size_t needed)
{
    switch (choice) {
    case 0:
        return needed;
    case 1:
        return needed == 0 ? 0 : needed - 1;
    case 2:
        return needed + 1;
    case 3:
        return 0;
    default:
        return choice % 65;
    }
}

struct bytes lend(size_t memory, const struct options *options, struct bytes bytes)
{
    struct bytes slice = {lend_bytes(&lent[memory], options->edge, bytes.at, bytes.len), bytes.len};

    return slice;
}

struct output lend_room(size_t memory, const struct options *options, size_t len)
{
    struct chance chance = chance_of(options->choice, len);

    return lend_output(&rooms[memory], options->edge, len, &chance);
}

uint8_t *start_of(const struct output *output, const struct options *options)
{
    return output->len == 0 && options->choice % 2 == 1 ? NULL : output->at;
}

void expect(int holds, const char *what)
{
    if (holds)
        return;
    fprintf(stderr, "DIFFERENCE: %s\n", what);
    abort();
}

void expect_output(const struct output *output, const uint8_t *bytes, size_t size, const char *what)
{
    expect(size <= output->len && memcmp(output->at, bytes, size) == 0, what);
    expect(stays_from(output, size), what);
}

void note(uint8_t number, size_t field, uint64_t value)
{
    size_t magnitude = 0;

    for (; value > 0; value >>= 1)
        magnitude++;
    noted[((size_t)number % NUMBERS * FIELDS + field % FIELDS) * MAGNITUDES + magnitude] = 1;
}

int LLVMFuzzerTestOneInput(const uint8_t *input, size_t len);

int LLVMFuzzerTestOneInput(const uint8_t *input, size_t len)
{
    struct options options = read_options(input, len);

    fuzz(&options);
    return 0;
}
