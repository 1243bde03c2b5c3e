/*
 * Hard use of usm_salvage: on random films, whole and damaged, lent read-only at a page that may
 * not be touched; then on the longest films. See README.md.
 *
 *     salvages SECONDS SEED
 *
 * What is expected follows from usm_extract on the film and on its cuts: a cut is accepted where that
 * gives 0, or 12 for outputs without bytes.
 */
#define _GNU_SOURCE
#include "../../examples/films.h"
#include "trials.h"
#include "usm.h"

#include <inttypes.h>
#include <signal.h>
#include <stdio.h>

#define LONGEST ((size_t)USM_CONTAINER_BYTES)

/* Where a cut of F is that lacks the last of the 45 bytes that its end chunk needs. */
#define F_CUT (F_END + 44)

static const struct usm_key NO_KEY = {0, 0};
static struct memory memory;

/* What extraction says of a film, with output sizes set aside: the number is 0 where it is accepted. */
static struct usm_film_reply asked(const uint8_t *film, size_t len)
{
    struct usm_film_reply reply = usm_extract(film, len, USM_READ_WITH_AUDIO, NO_KEY, NULL, 0, NULL, 0, NULL, 0);

    if (reply.number == USM_SHORT_OUTPUT)
        reply.number = 0;
    return reply;
}

static int is_accepted(const uint8_t *film, size_t len)
{
    return asked(film, len).number == 0;
}

static size_t be32(const uint8_t *at)
{
    return (size_t)at[0] << 24 | (size_t)at[1] << 16 | (size_t)at[2] << 8 | at[3];
}

/* Every chunk start past the one that was kept is tried: none is accepted. */
static void try_longer(const uint8_t *film, size_t kept, size_t refused_at)
{
    size_t p;

    for (p = kept; p < refused_at;) {
        p += 8 + be32(film + p + 4);
        expect(p <= refused_at, "a chunk start past the refused one");
        expect(!is_accepted(film, p), "a longer cut is accepted");
    }
}

static uint64_t answers[256], causes[256], shorter;

static void try_film(const uint8_t *film, size_t len)
{
    struct usm_film_reply whole = asked(film, len);
    struct usm_salvage_reply reply = usm_salvage(film, len);

    answers[reply.number]++;
    if (reply.number != 0) {
        expect(reply.kept == 0 && reply.dropped == 0 && reply.cause == 0, "a refusal with something beside it");
        if (reply.number == USM_NO_BEGINNING)
            expect(reply.refused_at == 0 && (whole.number == USM_RAN_OUT || whole.number == USM_TOO_SMALL),
                   "21 of a film that no chunk refuses");
        else
            expect(reply.number == whole.number && reply.refused_at == whole.refused_at &&
                       reply.unknown_type == whole.unknown_type,
                   "another refusal than extraction's");
        return;
    }
    causes[reply.cause]++;
    expect(reply.refused_at == 0 && reply.unknown_type == 0, "something beside an answer");
    expect(reply.cause == whole.number, "another cause than extraction's refusal");
    expect(reply.kept <= len && reply.kept + reply.dropped == len, "kept and dropped are not the film");
    expect(is_accepted(film, reply.kept), "what is kept is not accepted");
    if (reply.cause == 0) {
        expect(reply.dropped == 0, "bytes of an accepted film are dropped");
        return;
    }
    expect(reply.kept <= whole.refused_at, "more is kept than up to the refused chunk");
    shorter += reply.kept < whole.refused_at;
    try_longer(film, reply.kept, whole.refused_at);
}

/* A case: a film, and three of its beginnings. */
static void try_case(enum edge edge)
{
    struct chance chance = chance_of(trial.seed, trial.number);
    int i;

    make_any_film(&trial.made, &chance);
    try_film(lend_bytes(&memory, edge, trial.made.bytes, trial.made.len), trial.made.len);
    for (i = 0; i < 3; i++) {
        trial.made.len = below(&chance, trial.made.len + 1);
        try_film(lend_bytes(&memory, edge, trial.made.bytes, trial.made.len), trial.made.len);
    }
}

/* A call on F, cut where its last byte decides, that is given a length of so many bytes more. */
static void salvage_f(size_t more)
{
    uint8_t f[F_BYTES];

    make_f(f);
    usm_salvage(lend_bytes(&memory, ENDS, f, F_CUT), F_CUT + more);
}

/* A call with a length of one byte more than there is ends by SIGSEGV; one with the right length does not. */
static void show_catch(void)
{
    expect(signal_of(salvage_f, 0) == 0 && signal_of(salvage_f, 1) == SIGSEGV,
           "a call that reaches too far is not caught");
}

/* F's header, then chunks of a block size up to the end of the longest film; the last one is refused. It
 * ends at a page that may not be touched, and takes no memory but for the chunks' sizes. */
static void try_longest(size_t block_size, size_t expected)
{
    uint8_t *whole = make_zeros(LONGEST);
    struct usm_salvage_reply reply;
    double began;
    size_t at;

    make_f(whole);
    memset(whole + F_VIDEO, 0, F_BYTES - F_VIDEO);
    for (at = F_VIDEO; block_size != 0 && at + 8 <= LONGEST; at += 8 + block_size)
        put32(whole + at + 4, block_size);
    forbid_writing(whole, LONGEST);
    began = seconds_by(CLOCK_PROCESS_CPUTIME_ID);
    reply = usm_salvage(whole, LONGEST);
    printf("salvages: 1 GiB, %zu chunks %zu bytes apart: kept %zu, cause %d, %.2f s of the processor\n",
           (LONGEST - F_VIDEO) / (8 + block_size), 8 + block_size, reply.kept, reply.cause,
           seconds_by(CLOCK_PROCESS_CPUTIME_ID) - began);
    expect(reply.number == 0 && reply.cause == USM_RAN_OUT && reply.kept == expected &&
               reply.kept + reply.dropped == LONGEST,
           "another answer on the longest film");
    reply = usm_salvage(whole, LONGEST + 1);
    expect(reply.number == USM_TOO_LONG && reply.refused_at == 0 && reply.kept == 0,
           "another answer on a film of a byte more");
}

int main(int count, char **words)
{
    double seconds = begin_trials("salvages", count, words);
    int i;

    make_memory(&memory, MADE_BYTES, 1);
    expect(sizeof(struct usm_salvage_reply) == 32, "a reply of another size than usm.h says");
    show_catch();
    expect_no_signal();
    try_cases(seconds, try_case);
    print_answers("usm_salvage", answers);
    printf("; causes:");
    for (i = 0; i < 256; i++)
        if (causes[i] != 0)
            printf("  %d: %" PRIu64, i, causes[i]);
    printf("; cut before the refused chunk: %" PRIu64 "\n", shorter);
    try_longest(0, F_VIDEO);
    try_longest(40, F_VIDEO + (LONGEST - F_VIDEO) / 48 * 48);
    printf("salvages: all as expected\n");
    return 0;
}
