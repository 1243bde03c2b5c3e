/* usm_key_table, the four masks, usm_clear, usm_clear_piece, usm_payload_bits and usm_payload_apart, beside rules K, M, D
 * and F5. */
#include "fuzz.h"

#include <string.h>

static void (*const CALLS[])(uint64_t, uint8_t *, size_t) = {usm_unmask_video, usm_mask_video, usm_unmask_audio,
                                                             usm_mask_audio};
static void (*const MODELS[])(uint64_t, uint8_t *, size_t) = {model_unmask_video, model_mask_video, model_mask_audio,
                                                              model_mask_audio};

static uint8_t expected[MOST_FILM];

static void try_key_table(const struct options *options)
{
    struct output table = lend_room(0, options, room_by(options->rooms[0], USM_KEY_TABLE_BYTES));
    size_t given = usm_key_table(options->key.number, start_of(&table, options), table.len);
    struct model_keys keys;

    model_keys(options->key.number, &keys);
    memcpy(expected, keys.t, 32);
    memcpy(expected + 32, keys.v, 32);
    memcpy(expected + 64, keys.a, 32);
    expect(given == (table.len < USM_KEY_TABLE_BYTES ? 0 : USM_KEY_TABLE_BYTES), "usm_key_table: another size");
    expect_output(&table, expected, given, "usm_key_table: other bytes");
}

static struct output lend_payload(const struct options *options)
{
    struct output payload = lend_room(0, options, options->body.len);

    if (payload.len > 0)
        memcpy(payload.at, options->body.at, payload.len);
    memcpy(expected, options->body.at, payload.len);
    return payload;
}

static void expect_payload(const struct output *payload, const char *what)
{
    expect(memcmp(payload->at, expected, payload->len) == 0, what);
    expect(stays_from(payload, payload->len), what);
}

static void try_masks(const struct options *options)
{
    size_t i;

    for (i = 0; i < 4; i++) {
        struct output payload = lend_payload(options);

        CALLS[i](options->key.number, start_of(&payload, options), payload.len);
        MODELS[i](options->key.number, expected, payload.len);
        expect_payload(&payload, "a mask: other bytes");
        CALLS[i ^ 1](options->key.number, start_of(&payload, options), payload.len);
        expect(payload.len == 0 || memcmp(payload.at, options->body.at, payload.len) == 0, "a mask is not undone");
    }
}

/* Rule F3. */
static void clear(uint64_t key, uint8_t mask, uint8_t *payload, size_t len)
{
    if (mask == USM_MASK_VIDEO)
        model_unmask_video(key, payload, len);
    if (mask == USM_MASK_AUDIO)
        model_mask_audio(key, payload, len);
}

static void try_clear(const struct options *options)
{
    struct output payload = lend_payload(options);

    usm_clear(options->key.number, options->choice, start_of(&payload, options), payload.len);
    clear(options->key.number, options->choice, expected, payload.len);
    expect_payload(&payload, "usm_clear: other bytes");
}

/* Rule F5: where a payload can be cut. */
static int is_edge(size_t place)
{
    return place >= 0x240 && place % 0x20 == 0;
}

/* The body as two pieces, cut where the other key says: each is what the whole payload has there, or is refused and
 * stays. */
static void try_pieces(const struct options *options)
{
    struct output payload = lend_payload(options);
    size_t len = payload.len, cut = (size_t)options->other % (len + 1), row = cut < 0x20 ? 0 : cut - 0x20;
    int is_cut = is_edge(cut) || cut == len;
    uint8_t first, second;

    first = usm_clear_piece(options->key.number, options->choice, len, 0, NULL, 0, start_of(&payload, options), cut);
    expect(first == is_cut, "usm_clear_piece: a first piece is refused, or what is none is taken for one");
    if (!first) {
        expect_payload(&payload, "usm_clear_piece: bytes that are no piece are changed");
        return;
    }
    second = cut < len && usm_clear_piece(options->key.number, options->choice, len, cut, payload.at + row, cut - row,
                                          payload.at + cut, len - cut);
    expect(cut == len || second, "usm_clear_piece: the rest is refused");
    clear(options->key.number, options->choice, expected, len);
    expect_payload(&payload, "usm_clear_piece: other bytes");
}

static void try_bits(const struct options *options)
{
    uint64_t by_length = usm_payload_bits(options->choice, options->body.len);
    uint64_t by_number = usm_payload_bits(options->choice, (size_t)options->other);

    note(0, 0, by_number);
    note(1, 0, options->body.len);
    expect(by_length == model_payload_bits(options->choice, options->body.len), "usm_payload_bits: other bits");
    expect(by_number == model_payload_bits(options->choice, (size_t)options->other), "usm_payload_bits: other bits");
}

/* The first byte that differs where the payload is unmasked under both keys. */
static void try_apart(const struct options *options)
{
    static uint8_t other[MOST_FILM];
    size_t len = options->body.len, byte = 0;
    size_t apart = usm_payload_apart(options->choice, len, options->key.number, options->other);

    memcpy(expected, options->body.at, len);
    memcpy(other, options->body.at, len);
    clear(options->key.number, options->choice, expected, len);
    clear(options->other, options->choice, other, len);
    while (byte < len && expected[byte] == other[byte])
        byte++;
    note(2, 1, apart);
    expect(apart == byte, "usm_payload_apart: another byte");
}

void fuzz(const struct options *options)
{
    try_key_table(options);
    try_masks(options);
    try_clear(options);
    try_pieces(options);
    try_bits(options);
    try_apart(options);
}
