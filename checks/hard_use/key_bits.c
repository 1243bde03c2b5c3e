/*
 * Hard use of usm_key_bits, usm_apart and usm_why: random films, whole and damaged, lent read-only at a page that
 * may not be touched; payloads of every length at which one shows more of a key; then the longest films, timed beside
 * usm_list. See README.md.
 *
 *     key_bits SECONDS SEED
 *
 * What is expected follows from usm_extract: its refusals, and both streams under two keys, compared byte by byte; and
 * from usm_list: the chunk that holds a byte of a stream.
 */
#define _GNU_SOURCE
#include "../../examples/films.h"
#include "../../examples/replies.h"
#include "trials.h"
#include "usm.h"

#include <inttypes.h>
#include <signal.h>
#include <stdio.h>
#include <sys/mman.h>

#define LONGEST ((size_t)USM_CONTAINER_BYTES)

/* The bits of a key that any film shows. */
#define ALL_BITS (~(uint64_t)IDLE_BITS)

/* How many pairs of keys are tried of a film, beside one for each bit. */
#define PAIRS 12

/* The bytes of F up to the last of the 45 that its end chunk needs. */
#define F_DECIDED (F_END + 45)

/* The most chunks that a film of these has: they are 8 bytes apart at least. */
#define CHUNKS (MADE_BYTES / 8)

static struct memory memory;
static uint64_t answers[256], apart_answers[256], films, showing, pairs, agreeing, partings[3], reasons[4];

/* The film that is tried, as it is lent and read, with its chunks and the bits that it shows. */
static struct {
    const uint8_t *bytes;
    size_t len;
    struct usm_reading reading;
    struct usm_chunk chunks[CHUNKS];
    size_t count;
    uint64_t bits;
} film;

/* Both streams of a film, one after the other. */
struct copy {
    uint8_t bytes[MADE_BYTES];
    size_t video_size, audio_size;
};

static struct usm_film_reply extract(struct copy *copy, uint64_t key)
{
    return usm_extract(film.bytes, film.len, film.reading, usm_with_key(key), NULL, 0, copy->bytes, copy->video_size,
                       copy->bytes + copy->video_size, copy->audio_size);
}

/* The streams of the film under another key. */
static const struct copy *second_copy(const struct copy *first, uint64_t key)
{
    static struct copy second;

    second.video_size = first->video_size;
    second.audio_size = first->audio_size;
    expect(extract(&second, key).number == USM_ACCEPTED, "a key that changes an answer");
    return &second;
}

/* The first byte at which two copies differ, the video before the audio, or the size of both. */
static size_t first_difference(const struct copy *first, const struct copy *second)
{
    size_t size = first->video_size + first->audio_size, i;

    for (i = 0; i < size && first->bytes[i] == second->bytes[i]; i++)
        ;
    return i;
}

/* Where a byte of a stream stands: the chunk by the listing, and the offset in its payload. */
static void put_place(struct usm_apart_reply *reply, uint8_t kind, size_t byte)
{
    size_t before = 0, i;

    for (i = 0; i < film.count; i++) {
        if (film.chunks[i].kind != kind)
            continue;
        if (byte < before + film.chunks[i].length)
            break;
        before += film.chunks[i].length;
    }
    expect(i < film.count, "a stream that is longer than its chunks");
    reply->byte = byte;
    reply->chunk = film.chunks[i].start;
    reply->offset = byte - before;
}

/* The reply on two copies that first differ there. */
static struct usm_apart_reply apart_at(const struct copy *first, size_t at)
{
    struct usm_apart_reply reply;

    memset(&reply, 0, sizeof reply);
    if (at == first->video_size + first->audio_size)
        return reply;
    reply.stream = at < first->video_size ? USM_VIDEO_STREAM : USM_AUDIO_STREAM;
    if (at < first->video_size)
        put_place(&reply, USM_CHUNK_VIDEO, at);
    else
        put_place(&reply, USM_CHUNK_AUDIO, at - first->video_size);
    return reply;
}

static struct usm_apart_reply apart(uint64_t key, uint64_t other)
{
    struct usm_apart_reply reply = usm_apart(film.bytes, film.len, film.reading, key, other);

    apart_answers[reply.number]++;
    return reply;
}

/* Why two keys that agree give one copy. */
static uint8_t expected_reason(uint64_t key, uint64_t other)
{
    if (key == other)
        return USM_ONE_KEY;
    return ((key ^ other) & ALL_BITS) == 0 ? USM_NEVER_COUNT : USM_NOT_SHOWN;
}

static void try_pair(const struct copy *first, uint64_t key, uint64_t other)
{
    int agree = (key & film.bits) == (other & film.bits);
    size_t at = first_difference(first, second_copy(first, other));
    int is_one_copy = at == first->video_size + first->audio_size;
    struct usm_apart_reply expected = apart_at(first, at);
    uint8_t reason = usm_why(film.bits, key, other);

    expect(is_one_copy == agree, agree ? "two copies of keys that agree" : "one copy of keys that do not agree");
    expect(same_apart(apart(key, other), expected), "keys that part elsewhere than their streams");
    expect(same_apart(apart(other, key), expected), "keys that part elsewhere the other way round");
    expect(reason == (is_one_copy ? expected_reason(key, other) : USM_DIFFERENT), "another reason than the streams");
    pairs++;
    agreeing += agree;
    partings[expected.stream]++;
    reasons[reason]++;
}

/* A film that is accepted: each bit by itself, keys that agree in all that it shows, and keys near each other. */
static void try_pairs(struct copy *first, struct chance *chance)
{
    uint64_t key = any(chance), bits = film.bits;
    int i;

    film.count = usm_list(film.bytes, film.len, film.reading, film.chunks, CHUNKS).count;
    expect(extract(first, key).number == USM_ACCEPTED, "sizes that are too short");
    for (i = 0; i < 64; i++)
        try_pair(first, key, key ^ (uint64_t)1 << i);
    try_pair(first, key, key & bits);
    for (i = 0; i < PAIRS; i++) {
        try_pair(first, key, (key & bits) | (any(chance) & ~bits));
        try_pair(first, key, key_near(chance, key));
    }
}

/* A film that is refused has no byte at which two keys part. */
static void try_refusal(struct usm_film_reply read, struct chance *chance)
{
    struct usm_apart_reply refused;

    memset(&refused, 0, sizeof refused);
    refused.number = read.number;
    refused.refused_at = read.refused_at;
    refused.unknown_type = read.unknown_type;
    expect(same_apart(apart(any(chance), any(chance)), refused), "another refusal of two keys than extraction's");
}

/* Asks for the bits of a film, and for what extraction says of it. */
static void try_film(enum edge edge, struct usm_reading reading, struct chance *chance)
{
    static struct copy first;
    size_t len = trial.made.len;
    const uint8_t *lent = lend_bytes(&memory, edge, trial.made.bytes, len);
    struct usm_key_bits_reply reply;
    struct usm_film_reply read;

    film.bytes = len == 0 && once_in(chance, 2) ? NULL : lent;
    film.len = len;
    film.reading = reading;
    reply = usm_key_bits(film.bytes, len, reading);
    read = usm_extract(film.bytes, len, reading, USM_NO_KEY, NULL, 0, NULL, 0, NULL, 0);
    answers[reply.number]++;
    if (read.number != USM_ACCEPTED && read.number != USM_SHORT_OUTPUT) {
        expect(reply.number == read.number && reply.refused_at == read.refused_at &&
                   reply.unknown_type == read.unknown_type && reply.bits == 0,
               "another refusal than extraction's");
        try_refusal(read, chance);
        return;
    }
    expect(reply.number == USM_ACCEPTED && reply.refused_at == 0 && reply.unknown_type == 0, "a refusal");
    expect((reply.bits & IDLE_BITS) == 0, "bits that never count");
    films++;
    showing += reply.bits != 0;
    first.video_size = read.video_size;
    first.audio_size = read.audio_size;
    film.bits = reply.bits;
    try_pairs(&first, chance);
}

/* A case: a film, and one of its beginnings. */
static void try_case(enum edge edge)
{
    struct chance chance = chance_of(trial.seed, trial.number);
    struct usm_reading reading = reading_by_chance(&chance);

    if (once_in(&chance, 2))
        make_any_film(&trial.made, &chance);
    else
        make_clips(&trial.made, &chance);
    try_film(edge, reading, &chance);
    trial.made.len = below(&chance, trial.made.len + 1);
    try_film(edge, reading, &chance);
}

/* ---- payloads of every length */

/* What an ADX payload of data type 0 shows from a length on, beside what shorter ones show; by usm.h. */
static const struct {
    size_t from;
    uint64_t bits;
} SHOWN[] = {
    {0x141, 0x00000000000000FF}, {0x143, 0x0000000000FF0000}, {0x145, 0x0000000F00000000}, {0x147, 0x00FF000000000000},
    {0x149, 0x000000000000FF00}, {0x14F, 0x00000000FF000000}, {0x159, 0x0000FF0000000000},
};

static uint64_t shown_by_audio(size_t len)
{
    uint64_t bits = 0;
    size_t i;

    for (i = 0; i < sizeof SHOWN / sizeof SHOWN[0]; i++)
        if (SHOWN[i].from <= len)
            bits |= SHOWN[i].bits;
    return bits;
}

/* What a payload of any mask and length shows. */
static uint64_t shown_by(uint8_t mask, size_t len)
{
    if (mask == USM_MASK_VIDEO)
        return len < 0x240 ? 0 : ALL_BITS;
    return mask == USM_MASK_AUDIO ? shown_by_audio(len) : 0;
}

/* Every mask, with every length up to 0x400 and some that are far longer. */
static void try_payload_bits(void)
{
    static const size_t LONG[] = {0x10000, (size_t)1 << 31, (size_t)1 << 32, ((size_t)1 << 32) + 0x141, SIZE_MAX - 1, SIZE_MAX};
    size_t len, i;
    int mask;

    for (mask = 0; mask < 256; mask++) {
        for (len = 0; len < 0x400; len++)
            expect(usm_payload_bits((uint8_t)mask, len) == shown_by((uint8_t)mask, len), "other bits of a payload");
        for (i = 0; i < sizeof LONG / sizeof LONG[0]; i++)
            expect(usm_payload_bits((uint8_t)mask, LONG[i]) == shown_by((uint8_t)mask, LONG[i]), "other bits of a payload");
    }
}

/* A film of one payload shows what usm.h says of it, and that is what its streams show. */
static void try_payload(enum edge edge, int video, size_t len, struct chance *chance)
{
    uint64_t expected = shown_by(video ? USM_MASK_VIDEO : USM_MASK_AUDIO, len);
    static uint8_t payload[0x400];
    struct usm_packing packing;
    struct usm_size_reply written;

    memset(&packing, 0, sizeof packing);
    packing.has_audio = packing.has_audio_codec = 1;
    packing.audio_codec = 2;
    fill_by_chance(chance, payload, len);
    written = usm_write(NULL, 0, payload, video ? len : 0, payload, video ? 0 : len, packing, trial.made.bytes, MADE_BYTES);
    expect(written.number == USM_ACCEPTED, "a film that is not written");
    trial.made.len = written.size;
    expect(usm_key_bits(lend_bytes(&memory, edge, trial.made.bytes, trial.made.len), trial.made.len, USM_READ_WITH_AUDIO)
                   .bits == expected,
           "other bits than usm.h says");
    try_film(edge, USM_READ_WITH_AUDIO, chance);
}

static void try_payloads(enum edge edge)
{
    struct chance chance = chance_of(trial.seed, 1);
    size_t len;

    for (len = 0; len <= 0x180; len++)
        try_payload(edge, 0, len, &chance);
    for (len = 0x220; len <= 0x260; len++) {
        try_payload(edge, 0, len, &chance);
        try_payload(edge, 1, len, &chance);
    }
    for (len = 0; len < 0x220; len += 17)
        try_payload(edge, 1, len, &chance);
}

/* ---- what is caught, and the longest films */

/* F, cut where its last byte decides; that byte is not there where the call is given a length of one more. */
static const uint8_t *lend_f(size_t lacks)
{
    uint8_t f[F_BYTES];

    make_f(f);
    return lend_bytes(&memory, ENDS, f, F_DECIDED - lacks);
}

static void ask_bits(size_t lacks)
{
    usm_key_bits(lend_f(lacks), F_DECIDED, USM_READ_WITH_AUDIO);
}

static void ask_apart(size_t lacks)
{
    usm_apart(lend_f(lacks), F_DECIDED, USM_READ_WITH_AUDIO, 1, 2);
}

static void show_catches(void)
{
    expect(signal_of(ask_bits, 0) == 0 && signal_of(ask_bits, 1) == SIGSEGV, "a call that reaches too far is not caught");
    expect(signal_of(ask_apart, 0) == 0 && signal_of(ask_apart, 1) == SIGSEGV, "a call that reaches too far is not caught");
    printf("key_bits: with a length one byte too large, each call ends by SIGSEGV\n");
}

/* The longest film with chunks so many bytes apart, timed beside a listing that counts. Two keys that part in the first
 * payload, where the film shows bits, and nowhere else. */
static void time_longest(size_t apart, uint64_t bits)
{
    uint8_t *longest = make_longest(apart);
    double began = seconds_by(CLOCK_PROCESS_CPUTIME_ID), listed, shown;
    struct usm_key_bits_reply reply;
    struct usm_apart_reply parted;

    expect(usm_list(longest, LONGEST, USM_READ_WITH_AUDIO, NULL, 0).number == USM_SHORT_LIST, "the longest film is refused");
    listed = seconds_by(CLOCK_PROCESS_CPUTIME_ID);
    reply = usm_key_bits(longest, LONGEST, USM_READ_WITH_AUDIO);
    shown = seconds_by(CLOCK_PROCESS_CPUTIME_ID);
    parted = usm_apart(longest, LONGEST, USM_READ_WITH_AUDIO, 0, ALL_BITS);
    printf("key_bits: 1 GiB, chunks %zu bytes apart: usm_list without a list %.2f ms, usm_key_bits %.2f ms, usm_apart "
           "%.2f ms of the processor\n",
           apart, (listed - began) * 1e3, (shown - listed) * 1e3, (seconds_by(CLOCK_PROCESS_CPUTIME_ID) - shown) * 1e3);
    expect(reply.number == USM_ACCEPTED && reply.bits == bits, "other bits of the longest film");
    expect(parted.number == USM_ACCEPTED && parted.stream == (bits == 0 ? USM_SAME_STREAMS : USM_VIDEO_STREAM),
           "another parting in the longest film");
    reply = usm_key_bits(longest, LONGEST + 1, USM_READ_WITH_AUDIO);
    expect(reply.number == USM_TOO_LONG && reply.refused_at == 0 && reply.bits == 0, "a film of a byte more");
    parted = usm_apart(longest, LONGEST + 1, USM_READ_WITH_AUDIO, 0, ALL_BITS);
    expect(parted.number == USM_TOO_LONG && parted.refused_at == 0 && parted.stream == 0, "a film of a byte more");
    munmap(longest, LONGEST);
}

int main(int count, char **words)
{
    double seconds = begin_trials("key_bits", count, words);

    make_memory(&memory, MADE_BYTES, 1);
    expect(sizeof(struct usm_key_bits_reply) == 24 && sizeof(struct usm_apart_reply) == 40,
           "a reply of another size than usm.h says");
    show_catches();
    expect_no_signal();
    try_payload_bits();
    try_payloads(ENDS);
    try_payloads(BEGINS);
    try_cases(seconds, try_case);
    print_answers("usm_key_bits", answers);
    printf("; %" PRIu64 " films, %" PRIu64 " show bits; %" PRIu64 " pairs of keys, %" PRIu64 " agree\n", films, showing,
           pairs, agreeing);
    print_answers("usm_apart", apart_answers);
    printf("; of the pairs %" PRIu64 " part in the video, %" PRIu64 " in the audio\n", partings[USM_VIDEO_STREAM],
           partings[USM_AUDIO_STREAM]);
    printf("usm_why, of the pairs: %" PRIu64 " differ, %" PRIu64 " are one key, %" PRIu64 " never count, %" PRIu64
           " are not shown\n",
           reasons[USM_DIFFERENT], reasons[USM_ONE_KEY], reasons[USM_NEVER_COUNT], reasons[USM_NOT_SHOWN]);
    time_longest(65536 + 32, ALL_BITS);
    time_longest(0x100, 0);
    printf("key_bits: all as expected\n");
    return 0;
}
