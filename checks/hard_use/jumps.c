/*
 * usm_index, usm_seek and usm_profile, whole and by steps, on random films, in slices at the edge of pages that may not be touched,
 * beside the plainest model: one chunk after the other, one entry after the other. Then jumps among up to a million
 * entries, timed. The status is 1 where an answer or a byte beside a slice is not as expected. See README.md.
 *
 *     jumps [CASES [SEED]]
 */
#define _GNU_SOURCE
#include "chance.h"
#include "lent.h"
#include "usm.h"

#include <stdio.h>
#include <stdlib.h>
#include <string.h>
#include <time.h>

#define MOST_BYTES 4096
#define MOST_ENTRIES 64
#define MILLION 1000000

/* The bytes that suffice for a step. */
#define OPENING 45

/* The bytes of each payload where jumps are timed, and how many jumps at a time. */
#define EACH ((uint64_t)1000)
#define BATCHES 1001
#define JUMPS 2000

struct film {
    uint8_t bytes[MOST_BYTES];
    size_t len, start;
    int audio;
};

static size_t wrong;

static void expect(int as_expected, const char *what, unsigned long number)
{
    if (!as_expected && wrong++ < 20)
        printf("case %lu: %s\n", number, what);
}

static uint32_t number_at(const uint8_t *bytes, size_t at, size_t count)
{
    uint32_t number = 0;

    while (count-- > 0)
        number = number << 8 | bytes[at++];
    return number;
}

/* A block or a chunk: letters, sizes, and what it holds, up to a multiple of 0x20. */
static void put(struct film *film, const char *letters, const void *inside, size_t len, unsigned header,
                unsigned footer, size_t size)
{
    uint8_t *at = film->bytes + film->len;

    memset(at, 0, size + 8);
    memcpy(at, letters, 4);
    at[6] = (uint8_t)(size >> 8);
    at[7] = (uint8_t)size;
    at[9] = (uint8_t)header;
    at[11] = (uint8_t)footer;
    memcpy(at + 0x20, inside, len);
    film->len += size + 8;
}

static void put_header(struct film *film)
{
    static const char table[8] = {'@', 'U', 'T', 'F', 0, 0, 0, 24};
    static const char *const inside[] = {table, "#HEADER END", table, "#METADATA END"};
    size_t i;

    film->len = 0;
    put(film, "CRID", table, 8, 0, 0, 56);
    for (i = 0; i < 4; i++) {
        size_t len = inside[i] == table ? 8 : strlen(inside[i]);

        put(film, "@SFV", inside[i], len, 0, 0, 56);
        if (film->audio)
            put(film, "@SFA", inside[i], len, 0, 0, 56);
    }
    film->start = film->len;
}

static void make_film(struct film *film, struct chance *chance)
{
    static const char *const letters[] = {"@SFV", "@SFV", "@SFV", "@SFA", "@SFA", "@ABC"};
    size_t chunks = below(chance, 9);

    film->audio = once_in(chance, 2);
    put_header(film);
    while (chunks-- > 0) {
        const char *which = letters[below(chance, 6)];
        unsigned header = once_in(chance, 30) ? (unsigned)below(chance, 64) : 0x18;

        if (once_in(chance, 4))
            put(film, which, "#CONTENTS END", 13, header, 32, 56);
        else {
            size_t payload = once_in(chance, 3) ? 0 : below(chance, 33);

            put(film, which, "payload", 7, header, (unsigned)(32 - payload), once_in(chance, 30) ? 57 : 56);
        }
    }
    if (once_in(chance, 2))
        put(film, "@SFV", "#CONTENTS END", 13, 0x18, 0, 56);
    if (film->audio && once_in(chance, 2))
        put(film, "@SFA", "#CONTENTS END", 13, 0x18, 0, 56);
    if (once_in(chance, 8))
        film->len -= below(chance, film->len - film->start + 1);
}

/* The entries of a film's video chunks, by its listing. */
static size_t entries_of(const struct film *film, struct usm_index_entry *entries)
{
    struct usm_chunk chunks[MOST_ENTRIES];
    size_t count = usm_list(film->bytes, film->len, USM_READ_VIDEO_ONLY, chunks, MOST_ENTRIES).count, i, made = 0;
    uint64_t place = 0;

    for (i = 0; i < count; i++)
        if (chunks[i].kind == USM_CHUNK_VIDEO) {
            entries[made].place = place;
            entries[made].chunk = chunks[i].start;
            entries[made].length = chunks[i].length;
            place += chunks[i].length;
            made++;
        }
    return made;
}

/* The rule that the chunks of a film break first, as rule, place and stream. */
static struct usm_profile_reply profile_of(const struct film *film, struct usm_list_reply listed)
{
    struct usm_profile_reply reply = {0};
    int closed[2] = {0, !film->audio};
    int ends[2] = {0, 0};
    size_t at;

    reply.refused_at = listed.refused_at;
    reply.number = listed.number;
    if (listed.number != 0)
        return reply;
    for (at = film->start; film->len > at && film->len - at >= 4; at += 8 + number_at(film->bytes, at + 4, 4)) {
        const uint8_t *bytes = film->bytes + at;
        int stream = memcmp(bytes, "@SFV", 4) == 0 ? 0 : memcmp(bytes, "@SFA", 4) == 0 ? 1 : 2;

        reply.place = at;
        if (number_at(bytes, 8, 2) != 0x18)
            return reply.rule = 1, reply;
        if ((number_at(bytes, 4, 4) + 8) % 0x20 != 0)
            return reply.rule = 2, reply;
        if (stream < 2 && ends[stream])
            return reply.rule = 3, reply.stream = (uint8_t)stream, reply;
        if (stream == 2)
            return reply.rule = 4, reply;
        if (memcmp(bytes + 0x20, "#CONTENTS END", 13) == 0 && !(stream == 1 && !film->audio))
            ends[stream] = closed[stream] = 1;
    }
    reply.place = 0;
    if (!closed[0] || !closed[1]) {
        reply.place = film->len;
        reply.rule = 3;
        reply.stream = closed[0];
    }
    return reply;
}

/* The profile of a film that is accepted with audio, gathered by steps. Each window has the fewest bytes that suffice. */
static struct usm_profile_reply profile_by_steps(struct memory *lent, enum edge edge, const struct film *film)
{
    struct usm_open_reply opened = usm_open(film->bytes, film->len, film->len, USM_READ_WITH_AUDIO);
    struct usm_film_audio audio = usm_audio_of(opened.film);
    struct usm_profiling known = usm_profile_begin(audio);
    size_t place = opened.chunks;

    for (;;) {
        size_t left = place < film->len ? film->len - place : 0, len = left < OPENING ? left : OPENING;
        const uint8_t *window = lend_bytes(lent, edge, film->bytes + film->len - left, len);
        struct usm_step_reply step = usm_step(window, len, place, film->len, USM_READ_WITH_AUDIO, audio);

        if (step.number != USM_ACCEPTED || step.found != USM_STEP_CHUNK)
            return usm_profile_end(film->len, known);
        known = usm_profile_step(window, len, place, known);
        place = step.next;
    }
}

static int same_profile(struct usm_profile_reply a, struct usm_profile_reply b)
{
    return a.refused_at == b.refused_at && a.place == b.place && a.number == b.number &&
           a.unknown_type == b.unknown_type && a.rule == b.rule && a.stream == b.stream;
}

/* A window shorter than a chunk's opening is read as if zeros followed it. */
static void try_short_window(struct memory *lent, enum edge edge, const struct film *film, struct chance *chance,
                             unsigned long number)
{
    uint8_t filled[OPENING] = {0};
    size_t len = below(chance, OPENING), from = below(chance, film->len - OPENING);
    struct usm_profiling known = {(size_t)any(chance), (uint8_t)below(chance, 5), (uint8_t)below(chance, 2),
                                  (uint8_t)below(chance, 4), (uint8_t)below(chance, 4)};
    struct usm_profiling one, other;

    memcpy(filled, film->bytes + from, len);
    one = usm_profile_step(lend_bytes(lent, edge, film->bytes + from, len), len, from, known);
    other = usm_profile_step(filled, OPENING, from, known);
    expect(one.place == other.place && one.rule == other.rule && one.stream == other.stream &&
               one.video == other.video && one.audio == other.audio,
           "usm_profile_step, a short window", number);
}

/* One entry after the other: the one whose payload has the byte. */
static struct usm_seek_reply sought(const struct usm_index_entry *index, size_t count, uint64_t byte)
{
    struct usm_seek_reply reply = {0};
    size_t i;

    for (i = 0; i < count; i++)
        if (index[i].place <= byte && byte - index[i].place < index[i].length) {
            reply.chunk = index[i].chunk;
            reply.offset = byte - index[i].place;
            reply.found = 1;
        }
    return reply;
}

static int same_jump(struct usm_seek_reply a, struct usm_seek_reply b)
{
    return a.chunk == b.chunk && a.offset == b.offset && a.found == b.found;
}

static void try_film(struct memory *given, struct memory *lent, enum edge edge, struct chance *chance,
                     unsigned long number)
{
    struct film film;
    struct usm_index_entry entries[MOST_ENTRIES];
    const struct usm_index_entry *index;
    struct usm_list_reply silent, heard, reply;
    struct usm_profile_reply judged, rule;
    struct output list;
    const uint8_t *bytes;
    size_t count, room, i;

    make_film(&film, chance);
    bytes = lend_bytes(given, edge, film.bytes, film.len);
    silent = usm_list(film.bytes, film.len, USM_READ_VIDEO_ONLY, NULL, 0);
    heard = usm_list(film.bytes, film.len, USM_READ_WITH_AUDIO, NULL, 0);
    if (silent.number == USM_SHORT_LIST)
        silent.number = 0;
    if (heard.number == USM_SHORT_LIST)
        heard.number = 0;

    judged = usm_profile(bytes, film.len);
    rule = profile_of(&film, heard);
    rule.unknown_type = heard.unknown_type;
    expect(same_profile(judged, rule), "usm_profile", number);
    if (heard.number == 0)
        expect(same_profile(profile_by_steps(lent, edge, &film), judged), "usm_profile_end", number);
    try_short_window(lent, edge, &film, chance, number);

    count = silent.number == 0 ? entries_of(&film, entries) : 0;
    room = below(chance, count + 3);
    list = lend_output(lent, edge, room * sizeof *entries, chance);
    reply = usm_index(bytes, film.len, (struct usm_index_entry *)(void *)list.at, room);
    if (silent.number != 0) {
        expect(reply.number == silent.number && reply.refused_at == silent.refused_at && reply.count == 0,
               "usm_index, refused", number);
        expect(stays_from(&list, 0), "usm_index, a refusal changes the list", number);
        return;
    }
    expect(reply.count == count && reply.refused_at == 0 && reply.number == (room < count ? USM_SHORT_LIST : 0),
           "usm_index", number);
    if (room < count) {
        expect(stays_from(&list, 0), "usm_index, 13 changes the list", number);
        return;
    }
    expect(memcmp(list.at, entries, count * sizeof *entries) == 0, "usm_index, the entries", number);
    expect(stays_from(&list, count * sizeof *entries), "usm_index, entries past the count", number);

    list = lend_output(lent, edge, count * sizeof *entries, chance);
    memcpy(list.at, entries, count * sizeof *entries);
    index = (const struct usm_index_entry *)(void *)list.at;
    for (i = 0; i < 80; i++)
        expect(same_jump(usm_seek(index, count, i), sought(entries, count, i)), "usm_seek", number);
}

/* Random entries: an answer is one of them, that begins at or before the byte and reaches past it. */
static void try_chance(struct memory *lent, enum edge edge, struct chance *chance, unsigned long number)
{
    size_t count = below(chance, 40), i;
    struct output list = lend_output(lent, edge, count * sizeof(struct usm_index_entry), chance);
    struct usm_index_entry *index = (struct usm_index_entry *)(void *)list.at;
    uint64_t byte = any(chance);
    struct usm_seek_reply reply = usm_seek(index, count, byte);

    for (i = 0; i < count && reply.found; i++)
        if (index[i].chunk == reply.chunk && index[i].place <= byte && byte - index[i].place == reply.offset &&
            reply.offset < index[i].length)
            break;
    expect(reply.found ? i < count : reply.chunk == 0 && reply.offset == 0, "usm_seek, random entries", number);
}

static double seconds(void)
{
    struct timespec now;

    clock_gettime(CLOCK_MONOTONIC, &now);
    return (double)now.tv_sec + (double)now.tv_nsec / 1e9;
}

static int by_size(const void *a, const void *b)
{
    double x = *(const double *)a, y = *(const double *)b;

    return (x > y) - (x < y);
}

/* Jumps to bytes at random among so many entries, by the clock on the wall. */
static void time_jumps(const struct usm_index_entry *index, size_t count)
{
    struct chance chance = chance_of(1, count);
    double took[BATCHES];
    size_t batch, i;

    for (batch = 0; batch < BATCHES; batch++) {
        double start = seconds();

        for (i = 0; i < JUMPS; i++)
            expect(usm_seek(index, count, any(&chance) % (count * EACH)).found, "usm_seek, a byte that is there", i);
        took[batch] = (seconds() - start) / JUMPS * 1e9;
    }
    qsort(took, BATCHES, sizeof *took, by_size);
    printf("jumps: entries %zu, ns a jump: the median %.0f, the best %.0f, of %d times %d jumps\n", count,
           took[BATCHES / 2], took[0], BATCHES, JUMPS);
}

static void time_all_jumps(void)
{
    struct usm_index_entry *index = (struct usm_index_entry *)malloc(MILLION * sizeof *index);
    size_t i;

    if (index == NULL)
        exit(2);
    for (i = 0; i < MILLION; i++) {
        index[i].place = i * EACH;
        index[i].chunk = i * (EACH + 56);
        index[i].length = EACH;
    }
    for (i = 1; i <= MILLION; i *= 10)
        time_jumps(index, i);
    free(index);
}

int main(int argc, char **argv)
{
    unsigned long cases = argc > 1 ? strtoul(argv[1], NULL, 10) : 200000, i;
    uint64_t seed = argc > 2 ? strtoull(argv[2], NULL, 10) : 1;
    struct memory given, lent;

    make_memory(&given, MOST_BYTES, 1);
    make_memory(&lent, 64 * sizeof(struct usm_index_entry), 0);
    for (i = 0; i < cases; i++) {
        struct chance chance = chance_of(seed, i);

        try_film(&given, &lent, i % 2 ? ENDS : BEGINS, &chance, i);
        try_chance(&lent, i % 2 ? ENDS : BEGINS, &chance, i);
    }
    printf("jumps and profiles: %lu films, %lu wrong\n", cases, (unsigned long)wrong);
    time_all_jumps();
    return wrong != 0;
}
