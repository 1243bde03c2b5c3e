/*
 * Hard use of usm_statement and usm_statement_by: on random films, whole and damaged, for 0 to 18 tenants, with
 * lists of every length up to one more than is needed, all at pages that may not be touched; then on the longest films,
 * timed beside usm_list. See README.md.
 *
 *     statements SECONDS SEED
 *
 * What is expected of a film follows from usm_extract: its refusals, and the streams under every tenant's key, compared.
 * Of the bits and the size of a film the same lines are expected, and of any bits and size those of the keys that agree.
 */
#define _GNU_SOURCE
#include "../../examples/films.h"
#include "../../examples/replies.h"
#include "trials.h"
#include "usm.h"

#include <inttypes.h>
#include <signal.h>
#include <stdio.h>

#define LONGEST ((size_t)USM_CONTAINER_BYTES)

/* The most tenants that have a statement, and the most that are tried. */
#define MOST 16
#define TRIED 18

/* The bytes of F up to the last of the 45 that its end chunk needs. */
#define F_DECIDED (F_END + 45)

static struct memory film_memory, tenant_memory, line_memory;
static struct usm_tenant tenants[TRIED];
static size_t tenant_count;

static void tell_tenants(void)
{
    size_t i;

    for (i = 0; i < tenant_count; i++)
        fprintf(stderr, "%" PRIu64 ":%016" PRIX64 " ", tenants[i].number, tenants[i].key);
}

static const struct usm_tenant *lend_tenants(enum edge edge, const struct usm_tenant *list, size_t count)
{
    return (const struct usm_tenant *)(const void *)lend_bytes(&tenant_memory, edge, (const uint8_t *)list,
                                                                count * sizeof *list);
}

static struct output lend_lines(enum edge edge, size_t room, struct chance *chance)
{
    return lend_output(&line_memory, edge, room * sizeof(struct usm_share), chance);
}

static struct usm_share *lines_of(const struct output *output)
{
    return (struct usm_share *)(void *)output->at;
}

/* ---- what is tried */

static void make_tenants(struct chance *chance)
{
    uint64_t key = any(chance);
    size_t i;

    tenant_count = below(chance, TRIED + 1);
    for (i = 0; i < tenant_count; i++) {
        tenants[i].number = once_in(chance, 3) ? below(chance, 1000) : any(chance);
        tenants[i].key = key_near(chance, key);
    }
    if (tenant_count > 1 && once_in(chance, 8))
        tenants[below(chance, tenant_count)].number = tenants[below(chance, tenant_count)].number;
}

/* ---- what is expected */

/* What the tenants bear, line by line. */
static struct usm_share expected[MOST];
static uint64_t answers[2][256], statements, several, shared, remainders;

static int is_bad(void)
{
    size_t i, j;

    for (i = 0; i < tenant_count; i++)
        for (j = 0; j < i; j++)
            if (tenants[i].number == tenants[j].number)
                return 1;
    return tenant_count == 0 || tenant_count > MOST;
}

/* Whether two tenants have one copy. */
static uint8_t alike[MOST][MOST];

/* Tenants whose streams are the same, under every key, byte by byte. */
static void compare_copies(const uint8_t *film, size_t len, size_t video_size, size_t audio_size)
{
    static uint8_t copies[MOST][MADE_BYTES];
    size_t size = video_size + audio_size, i, j;

    expect(size <= sizeof copies[0], "streams that are longer than the film");
    for (i = 0; i < tenant_count; i++)
        usm_extract(film, len, USM_READ_WITH_AUDIO, usm_with_key(tenants[i].key), NULL, 0, copies[i], video_size,
                    copies[i] + video_size, audio_size);
    for (i = 0; i < tenant_count; i++)
        for (j = 0; j < tenant_count; j++)
            alike[i][j] = memcmp(copies[i], copies[j], size) == 0;
}

/* Tenants whose keys agree in some bits. */
static void compare_keys(uint64_t bits)
{
    size_t i, j;

    for (i = 0; i < tenant_count; i++)
        for (j = 0; j < tenant_count; j++)
            alike[i][j] = ((tenants[i].key ^ tenants[j].key) & bits) == 0;
}

/* Every tenant's line, where those that are alike share so many bytes. */
static void expect_lines(size_t size)
{
    size_t i, j, groups = 0;

    for (i = 0; i < tenant_count; i++) {
        size_t line = 0, members = 0, before = 0;
        uint64_t group = tenants[i].number;

        for (j = 0; j < tenant_count; j++) {
            int lower = tenants[j].number < tenants[i].number;

            line += lower;
            if (!alike[i][j])
                continue;
            members++;
            before += lower;
            group = tenants[j].number < group ? tenants[j].number : group;
            shared += tenants[i].key != tenants[j].key;
        }
        expected[line].tenant = tenants[i].number;
        expected[line].group = group;
        expected[line].share = size / members + (before < size % members);
        groups += before == 0;
        remainders += size % members != 0;
    }
    statements++;
    several += groups > 1;
}

/* How tenants are stated: of a film, or of bits and a size. */
struct question {
    int by_bits;
    const uint8_t *film;
    size_t len;
    uint64_t bits;
    size_t size;
};

static struct usm_list_reply ask(const struct question *question, const struct usm_tenant *given, struct usm_share *lines,
                                 size_t room)
{
    if (question->by_bits)
        return usm_statement_by(question->bits, question->size, given, tenant_count, lines, room);
    return usm_statement(question->film, question->len, given, tenant_count, lines, room);
}

/* Asks with lists of every length. `enough` is the reply where the list is long enough. */
static void try_lists(enum edge edge, const struct question *question, const struct usm_tenant *given,
                      struct usm_list_reply enough, struct chance *chance)
{
    size_t room;

    for (room = 0; room <= tenant_count + 1; room++) {
        struct output lines = lend_lines(edge, room, chance);
        int is_short = enough.number == USM_ACCEPTED && room < tenant_count;
        int is_filled = enough.number == USM_ACCEPTED && !is_short;
        struct usm_list_reply reply =
            ask(question, given, room == 0 && once_in(chance, 2) ? NULL : lines_of(&lines), room);

        answers[question->by_bits][reply.number]++;
        expect(same_list(reply, is_short ? list_reply(USM_SHORT_LIST, 0, tenant_count, 0) : enough), "another reply");
        if (is_filled)
            expect(memcmp(lines.at, expected, tenant_count * sizeof *expected) == 0, "other lines");
        expect(stays_from(&lines, is_filled ? tenant_count * sizeof *expected : 0), "lines changed that are to stay");
    }
}

static struct usm_list_reply reply_on_tenants(void)
{
    return is_bad() ? list_reply(USM_BAD_TENANTS, 0, 0, 0) : list_reply(USM_ACCEPTED, 0, tenant_count, 0);
}

/* A film: stated itself, and by the bits that it shows and the size of a copy. */
static void try_film(enum edge edge, const uint8_t *film, size_t len, const struct usm_tenant *given,
                     struct chance *chance)
{
    struct usm_film_reply read =
        usm_extract(film, len, USM_READ_WITH_AUDIO, USM_NO_KEY, NULL, 0, NULL, 0, NULL, 0);
    struct question question = {0, film, len, usm_key_bits(film, len, USM_READ_WITH_AUDIO).bits,
                                read.video_size + read.audio_size};
    int is_refused = read.number != USM_ACCEPTED && read.number != USM_SHORT_OUTPUT;

    if (is_refused && !is_bad()) {
        try_lists(edge, &question, given, list_reply(read.number, read.refused_at, 0, read.unknown_type), chance);
        return;
    }
    if (!is_bad()) {
        compare_copies(film, len, read.video_size, read.audio_size);
        expect_lines(question.size);
    }
    try_lists(edge, &question, given, reply_on_tenants(), chance);
    question.by_bits = 1;
    try_lists(edge, &question, given, reply_on_tenants(), chance);
}

/* A size of a copy: any, few bytes, or near the largest. */
static size_t size_by_chance(struct chance *chance)
{
    switch (below(chance, 3)) {
    case 0:
        return below(chance, 100);
    case 1:
        return SIZE_MAX - below(chance, 100);
    default:
        return (size_t)any(chance);
    }
}

/* Bits and a size that no film need have. */
static void try_bits(enum edge edge, const struct usm_tenant *given, struct chance *chance)
{
    struct question question = {1, NULL, 0, any(chance) & any(chance) & any(chance), size_by_chance(chance)};

    if (!is_bad()) {
        compare_keys(question.bits);
        expect_lines(question.size);
    }
    try_lists(edge, &question, given, reply_on_tenants(), chance);
}

/* A case: a film, tenants, and lists of every length. */
static void try_case(enum edge edge)
{
    struct chance chance = chance_of(trial.seed, trial.number);
    const struct usm_tenant *given;
    const uint8_t *film;

    if (once_in(&chance, 2))
        make_any_film(&trial.made, &chance);
    else
        make_clips(&trial.made, &chance);
    make_tenants(&chance);
    film = lend_bytes(&film_memory, edge, trial.made.bytes, trial.made.len);
    given = lend_tenants(edge, tenants, tenant_count);
    if (tenant_count == 0 && once_in(&chance, 2))
        given = NULL;
    try_film(edge, film, trial.made.len, given, &chance);
    try_bits(edge, given, &chance);
}

/* ---- what is caught */

static const struct usm_tenant THREE[3] = {{3, 1}, {1, 2}, {2, 3}};

/* Three tenants, and lines for them; of one there is one less than a call is given as a count: 2 a tenant, 3 a line. */
static const struct usm_tenant *lend_three(size_t lacks)
{
    return lend_tenants(ENDS, THREE, 3 - (lacks == 2));
}

static struct usm_share *lend_three_lines(size_t lacks)
{
    struct chance chance = chance_of(1, 1);
    struct output lent = lend_lines(ENDS, 3 - (lacks == 3), &chance);

    return lines_of(&lent);
}

/* F, cut where its last byte decides. That byte is not there where 1 lacks. */
static void state_f(size_t lacks)
{
    uint8_t f[F_BYTES];

    make_f(f);
    usm_statement(lend_bytes(&film_memory, ENDS, f, F_DECIDED - (lacks == 1)), F_DECIDED, lend_three(lacks), 3,
                  lend_three_lines(lacks), 3);
}

static void state_bits(size_t lacks)
{
    usm_statement_by(1, 100, lend_three(lacks), 3, lend_three_lines(lacks), 3);
}

/* A call with a length or a count one larger than what there is ends by SIGSEGV; with the right one it ends well. */
static void show_catches(void)
{
    size_t lacks;

    for (lacks = 0; lacks < 4; lacks++) {
        expect(signal_of(state_f, lacks) == (lacks == 0 ? 0 : SIGSEGV), "a call that reaches too far is not caught");
        expect(signal_of(state_bits, lacks) == (lacks < 2 ? 0 : SIGSEGV), "a call that reaches too far is not caught");
    }
    printf("statements: with a length or a count one too large, a call ends by SIGSEGV\n");
}

/* ---- the longest films */

/* Times usm_list into a list that is lent and warm, and usm_statement for 16 tenants, in turns: the best of some. */
static void time_longest(size_t apart, int runs)
{
    uint8_t *film = make_longest(apart);
    size_t count = usm_list(film, LONGEST, USM_READ_WITH_AUDIO, NULL, 0).count, i;
    struct usm_chunk *list = (struct usm_chunk *)(void *)make_zeros(count * sizeof *list);
    struct usm_share lines[MOST];
    uint64_t size = 0, sum = 0;
    double listing = 1e9, stating = 1e9;

    tenant_count = MOST;
    for (i = 0; i < MOST; i++) {
        tenants[i].number = 1000 - i;
        tenants[i].key = 0x0123456789ABCDEF + i;
    }
    usm_list(film, LONGEST, USM_READ_WITH_AUDIO, list, count);
    for (; runs > 0; runs--) {
        double began = seconds_by(CLOCK_PROCESS_CPUTIME_ID), between, ended;

        expect(same_list(usm_list(film, LONGEST, USM_READ_WITH_AUDIO, list, count), list_reply(0, 0, count, 0)),
               "another listing of the longest film");
        between = seconds_by(CLOCK_PROCESS_CPUTIME_ID);
        expect(same_list(usm_statement(film, LONGEST, tenants, MOST, lines, MOST), list_reply(0, 0, MOST, 0)),
               "another statement of the longest film");
        ended = seconds_by(CLOCK_PROCESS_CPUTIME_ID);
        listing = between - began < listing ? between - began : listing;
        stating = ended - between < stating ? ended - between : stating;
    }
    for (i = 0; i < count; i++)
        size += list[i].length;
    for (i = 0; i < MOST; i++)
        sum += lines[i].share;
    expect(sum == (apart < 0x240 ? 1 : MOST) * size, "other shares of the longest film");
    expect(same_list(usm_statement(film, LONGEST + 1, tenants, 0, lines, MOST), list_reply(USM_TOO_LONG, 0, 0, 0)),
           "another answer on a film of a byte more");
    printf("statements: 1 GiB, %zu chunks %zu bytes apart: usm_list %.2f ms, usm_statement with 16 tenants %.2f ms of "
           "the processor, %.2f of it\n",
           count, apart, listing * 1e3, stating * 1e3, stating / listing);
}

int main(int count, char **words)
{
    double seconds = begin_trials("statements", count, words);

    trial.tell = tell_tenants;
    make_memory(&film_memory, MADE_BYTES, 1);
    make_memory(&tenant_memory, TRIED * sizeof *tenants, 1);
    make_memory(&line_memory, (TRIED + 1) * sizeof *expected, 0);
    expect(sizeof(struct usm_tenant) == 16 && sizeof(struct usm_share) == 24, "records of other sizes than usm.h says");
    show_catches();
    expect_no_signal();
    try_cases(seconds, try_case);
    print_answers("usm_statement", answers[0]);
    printf("\n");
    print_answers("usm_statement_by", answers[1]);
    printf("; %" PRIu64 " statements, %" PRIu64 " with several groups; %" PRIu64 " pairs of two keys with one copy; "
           "%" PRIu64 " lines of groups with a remainder\n",
           statements, several, shared / 2, remainders);
    time_longest(65536 + 32, 101);
    time_longest(48, 9);
    printf("statements: all as expected\n");
    return 0;
}
