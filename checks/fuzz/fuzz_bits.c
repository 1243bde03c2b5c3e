/* usm_key_bits, usm_apart and usm_why beside both streams under pairs of keys. */
#include "fuzz.h"

#include <string.h>

/* In a film of at most so many bytes every bit of a key is turned. */
#define SMALL 2048

/* The bits that count: a film shows some of these, and no others. */
#define COUNTING 0x00FFFF0FFFFFFFFFull

static struct model_film read;
static uint8_t video[2][MOST_FILM], audio[2][MOST_FILM];

static void unpack(struct bytes film, uint64_t key, size_t which)
{
    model_streams(film, &read, usm_with_key(key), video[which], audio[which]);
}

static size_t first_difference(const uint8_t *a, const uint8_t *b, size_t len)
{
    size_t byte = 0;

    while (byte < len && a[byte] == b[byte])
        byte++;
    return byte;
}

/* Puts the chunk and the offset of a byte of a stream into a reply. */
static void locate(struct usm_apart_reply *reply, uint8_t kind)
{
    size_t i, passed = 0;

    for (i = 0; i < read.count; i++) {
        struct usm_chunk chunk = read.chunk[i].as_listed;

        if (chunk.kind != kind)
            continue;
        if (reply->byte - passed < chunk.length) {
            reply->chunk = chunk.start;
            reply->offset = reply->byte - passed;
            return;
        }
        passed += chunk.length;
    }
}

/* Where the streams part that were unpacked. */
static struct usm_apart_reply apart(void)
{
    struct usm_apart_reply reply;

    memset(&reply, 0, sizeof reply);
    reply.byte = first_difference(video[0], video[1], read.video_size);
    if (reply.byte < read.video_size) {
        reply.stream = USM_VIDEO_STREAM;
        locate(&reply, USM_CHUNK_VIDEO);
        return reply;
    }
    reply.byte = first_difference(audio[0], audio[1], read.audio_size);
    if (reply.byte < read.audio_size) {
        reply.stream = USM_AUDIO_STREAM;
        locate(&reply, USM_CHUNK_AUDIO);
        return reply;
    }
    reply.byte = 0;
    return reply;
}

static uint8_t why(uint64_t first, uint64_t second, uint64_t bits)
{
    if (first == second)
        return USM_ONE_KEY;
    if (((first ^ second) & COUNTING) == 0)
        return USM_NEVER_COUNT;
    return ((first ^ second) & bits) == 0 ? USM_NOT_SHOWN : USM_DIFFERENT;
}

/* The streams under another key, beside those under the first. */
static void try_pair(const struct options *options, struct bytes film, uint64_t second, uint64_t bits)
{
    uint64_t first = options->key.number;
    struct usm_apart_reply reply = usm_apart(film.at, film.len, options->reading, first, second), expected;

    unpack(film, second, 1);
    expected = apart();
    note(reply.stream, 2, reply.byte);
    expect((expected.stream == USM_SAME_STREAMS) == (((first ^ second) & bits) == 0),
           "the streams do not show the bits that usm_key_bits gives");
    expect(reply.number == 0 && reply.refused_at == 0 && reply.unknown_type == 0, "usm_apart: a refusal");
    expect(reply.stream == expected.stream && reply.byte == expected.byte && reply.chunk == expected.chunk &&
               reply.offset == expected.offset,
           "usm_apart: another byte");
    expect(usm_why(bits, first, second) == why(first, second, bits), "usm_why: another reason");
}

/* What is refused is refused for two keys as well. */
static void expect_refused(const struct options *options, struct bytes film)
{
    struct usm_apart_reply reply = usm_apart(film.at, film.len, options->reading, options->key.number, options->other);

    expect(reply.number == read.refused.number && reply.unknown_type == read.refused.type &&
               reply.refused_at == read.refused.place,
           "usm_apart: another refusal");
    expect(reply.stream == 0 && reply.byte == 0 && reply.chunk == 0 && reply.offset == 0,
           "usm_apart: more beside a refusal");
}

static uint64_t bits_by_payloads(void)
{
    uint64_t bits = 0, own;
    size_t i;

    for (i = 0; i < read.count; i++) {
        own = model_payload_bits(read.chunk[i].mask, read.chunk[i].as_listed.length);
        bits = bits < own ? own : bits;
    }
    return bits;
}

void fuzz(const struct options *options)
{
    struct bytes film = lend(0, options, options->body);
    struct usm_key_bits_reply reply = usm_key_bits(film.at, film.len, options->reading);
    uint64_t key = options->key.number;
    size_t bit;

    model_read(film, options->reading, &read);
    note(reply.number, 0, reply.bits);
    note(reply.number, 1, reply.refused_at);
    expect(reply.number == read.refused.number && reply.unknown_type == read.refused.type &&
               reply.refused_at == read.refused.place,
           "usm_key_bits: another refusal");
    expect(reply.bits == (read.refused.number ? 0 : bits_by_payloads()), "usm_key_bits: other bits");
    expect(usm_why(options->other & COUNTING, key, ~options->other) ==
               why(key, ~options->other, options->other & COUNTING),
           "usm_why: another reason");
    if (read.refused.number != 0) {
        expect_refused(options, film);
        return;
    }
    unpack(film, key, 0);
    try_pair(options, film, key, reply.bits);
    try_pair(options, film, options->other, reply.bits);
    try_pair(options, film, (key & reply.bits) | (options->other & ~reply.bits), reply.bits);
    for (bit = 0; bit < 64; bit++)
        if (film.len <= SMALL || bit == options->choice % 64)
            try_pair(options, film, key ^ (uint64_t)1 << bit, reply.bits);
}
