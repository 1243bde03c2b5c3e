/*
 * What usm.h says about films and their chunks, tried on example F of docs/RULES.md and on the song, with
 * outputs and lists of every length that matters: ends with status 0 and the line "checks passed", or
 * with 1 and the line of the check that failed.
 */
#include "check.h"
#include "films.h"
#include "replies.h"
#include "usm.h"

#include <stddef.h>
#include <stdio.h>
#include <string.h>

#define KEY 0x0123456789ABCDEF

/* The value of every byte of a buffer before a call. */
#define OLD 0xA5

/* More than each call is given, so that bytes past a slice are checked too. */
#define SPARE_CHUNKS (SONG_CHUNKS + 2)

/* All that one call can write. */
struct lent {
    uint8_t video[SONG_BYTES], audio[SONG_BYTES];
    struct usm_chunk list[SPARE_CHUNKS];
};

static struct lent lent;
static struct song song;
static uint8_t f[F_BYTES + 64];

/* Whether all bytes from a place on are as they were. */
static int is_old(const void *lent_bytes, size_t from, size_t whole)
{
    const uint8_t *bytes = (const uint8_t *)lent_bytes;
    size_t i;

    for (i = from; i < whole; i++)
        if (bytes[i] != OLD)
            return 0;
    return 1;
}

static void make_old(void)
{
    memset(&lent, OLD, sizeof lent);
}

static struct usm_film_reply extract(const uint8_t *film, size_t len, struct usm_reading reading,
                                     struct usm_key key, size_t video_len, size_t audio_len)
{
    make_old();
    return usm_extract(film, len, reading, key, (const uint8_t *)"own", 3, lent.video, video_len, lent.audio,
                       audio_len);
}

static struct usm_list_reply list(const uint8_t *film, size_t len, struct usm_reading reading, size_t room)
{
    make_old();
    return usm_list(film, len, reading, lent.list, room);
}

/* Whether no buffer was written to. */
static int all_is_old(void)
{
    return is_old(&lent, 0, sizeof lent);
}

static int is_chunk(size_t at, size_t start, uint8_t kind, uint8_t data_type, size_t length)
{
    const struct usm_chunk *chunk = &lent.list[at];

    return chunk->start == start && chunk->kind == kind && chunk->data_type == data_type && chunk->length == length;
}

/* Whether the list is as it was from a record on. */
static int list_is_old(size_t from)
{
    return is_old(lent.list, from * sizeof lent.list[0], sizeof lent.list);
}

/* The structs have the sizes and offsets that usm.h states; checks/abi compares them with the library. */
static void try_layout(void)
{
    CHECK(sizeof(struct usm_reading) == 4);
    CHECK(offsetof(struct usm_reading, tables) == 3);
    CHECK(sizeof(struct usm_key) == 16);
    CHECK(offsetof(struct usm_key, given) == 8);
    CHECK(sizeof(struct usm_table_reply) == 32);
    CHECK(offsetof(struct usm_table_reply, unknown_type) == 25);
    CHECK(sizeof(struct usm_cell_reply) == 32);
    CHECK(offsetof(struct usm_cell_reply, kind) == 26);
    CHECK(sizeof(struct usm_film_reply) == 56);
    CHECK(offsetof(struct usm_film_reply, video_codec) == 40);
    CHECK(offsetof(struct usm_film_reply, number) == 48);
    CHECK(offsetof(struct usm_film_reply, audio_kind) == 55);
    CHECK(sizeof(struct usm_list_reply) == 24);
    CHECK(offsetof(struct usm_list_reply, unknown_type) == 17);
    CHECK(sizeof(struct usm_chunk) == 24);
    CHECK(offsetof(struct usm_chunk, start) == 0);
    CHECK(offsetof(struct usm_chunk, kind) == 8);
    CHECK(offsetof(struct usm_chunk, data_type) == 9);
    CHECK(offsetof(struct usm_chunk, channel) == 10);
    CHECK(offsetof(struct usm_chunk, offset) == 12);
    CHECK(offsetof(struct usm_chunk, length) == 16);
    CHECK(sizeof(struct usm_open_reply) == 72);
    CHECK(offsetof(struct usm_open_reply, film) == 0);
    CHECK(offsetof(struct usm_open_reply, chunks) == 56);
    CHECK(offsetof(struct usm_open_reply, more) == 64);
    CHECK(sizeof(struct usm_film_audio) == 8);
    CHECK(offsetof(struct usm_film_audio, codec) == 0);
    CHECK(offsetof(struct usm_film_audio, present) == 4);
    CHECK(offsetof(struct usm_film_audio, has_codec) == 5);
    CHECK(sizeof(struct usm_step_reply) == 40);
    CHECK(offsetof(struct usm_step_reply, refused_at) == 0);
    CHECK(offsetof(struct usm_step_reply, next) == 8);
    CHECK(offsetof(struct usm_step_reply, payload) == 16);
    CHECK(offsetof(struct usm_step_reply, length) == 24);
    CHECK(offsetof(struct usm_step_reply, number) == 32);
    CHECK(offsetof(struct usm_step_reply, unknown_type) == 33);
    CHECK(offsetof(struct usm_step_reply, found) == 34);
    CHECK(offsetof(struct usm_step_reply, kind) == 35);
    CHECK(offsetof(struct usm_step_reply, data_type) == 36);
    CHECK(offsetof(struct usm_step_reply, channel) == 37);
    CHECK(offsetof(struct usm_step_reply, mask) == 38);
    CHECK(sizeof(struct usm_key_bits_reply) == 24);
    CHECK(offsetof(struct usm_key_bits_reply, bits) == 8);
    CHECK(offsetof(struct usm_key_bits_reply, number) == 16);
    CHECK(offsetof(struct usm_key_bits_reply, unknown_type) == 17);
}

/* F's video stream is 32 zeros, it has no audio, and its name is the fallback. */
static void try_outputs_on_f(void)
{
    static const uint8_t ZEROS[32] = {0};
    struct usm_film_reply accepted = refused_film(USM_ACCEPTED, 0, 32, 0, 0);
    size_t video_len, audio_len;

    accepted.name_source = USM_NAME_IN_FALLBACK;
    accepted.name_length = 3;
    for (audio_len = 0; audio_len <= 1; audio_len++) {
        for (video_len = 0; video_len <= 31; video_len++) {
            CHECK(same_film(extract(f, F_BYTES, USM_READ_WITH_AUDIO, USM_NO_KEY, video_len, audio_len),
                            refused_film(USM_SHORT_OUTPUT, 0, 32, 0, 0)));
            CHECK(all_is_old());
        }
        for (video_len = 32; video_len <= 33; video_len++) {
            CHECK(same_film(extract(f, F_BYTES, USM_READ_WITH_AUDIO, USM_NO_KEY, video_len, audio_len), accepted));
            CHECK(memcmp(lent.video, ZEROS, 32) == 0 && is_old(lent.video, 32, sizeof lent.video));
            CHECK(is_old(lent.audio, 0, sizeof lent.audio));
        }
    }
    CHECK(same_film(extract(f, F_BYTES, USM_READ_VIDEO_ONLY, usm_with_key(KEY), F_BYTES, F_BYTES), accepted));
}

/* F's two chunks. */
static void try_lists_on_f(void)
{
    size_t room;

    for (room = 0; room <= 1; room++) {
        CHECK(same_list(list(f, F_BYTES, USM_READ_WITH_AUDIO, room), list_reply(USM_SHORT_LIST, 0, 2, 0)));
        CHECK(all_is_old());
    }
    for (room = 2; room <= 3; room++) {
        CHECK(same_list(list(f, F_BYTES, USM_READ_WITH_AUDIO, room), list_reply(USM_ACCEPTED, 0, 2, 0)));
        CHECK(is_chunk(0, F_VIDEO, USM_CHUNK_VIDEO, 0, 32));
        CHECK(is_chunk(1, F_END, USM_CHUNK_END, 0, 0));
        CHECK(list_is_old(2));
    }
}

/* NULL is allowed where the length is 0. */
static void try_null(void)
{
    CHECK(same_film(usm_extract(NULL, 0, USM_READ_WITH_AUDIO, USM_NO_KEY, NULL, 0, NULL, 0, NULL, 0),
                    refused_film(USM_RAN_OUT, 0, 0, 0, 0)));
    CHECK(same_film(usm_extract(f, F_BYTES, USM_READ_WITH_AUDIO, USM_NO_KEY, NULL, 0, NULL, 0, NULL, 0),
                    refused_film(USM_SHORT_OUTPUT, 0, 32, 0, 0)));
    CHECK(same_list(usm_list(NULL, 0, USM_READ_WITH_AUDIO, NULL, 0), list_reply(USM_RAN_OUT, 0, 0, 0)));
    CHECK(same_list(usm_list(f, F_BYTES, USM_READ_WITH_AUDIO, NULL, 0), list_reply(USM_SHORT_LIST, 0, 2, 0)));
}

/* F cut to a length, or followed by zeros: both functions answer the same, whatever the buffers. */
static void try_length(size_t len, uint8_t number, size_t place, size_t count)
{
    size_t room;

    for (room = 0; room <= 64; room += 64) {
        struct usm_film_reply reply = extract(f, len, USM_READ_WITH_AUDIO, USM_NO_KEY, room, room);

        CHECK(reply.number == (number == USM_ACCEPTED && count != 0 && room == 0 ? USM_SHORT_OUTPUT : number));
        CHECK(number == USM_ACCEPTED || (same_film(reply, refused_film(number, place, 0, 0, 0)) && all_is_old()));
    }
    CHECK(same_list(list(f, len, USM_READ_WITH_AUDIO, count), list_reply(number, place, count, 0)));
    CHECK(number == USM_ACCEPTED || all_is_old());
}

/* The cuts and paddings of F in docs/RULES.md, and bytes that are no film. */
static void try_lengths_of_f(void)
{
    try_length(451, USM_ACCEPTED, 0, 2);
    try_length(452, USM_RAN_OUT, 448, 0);
    try_length(492, USM_RAN_OUT, 448, 0);
    try_length(493, USM_RAN_OUT, 456, 0);
    try_length(429, USM_ACCEPTED, 0, 2);
    try_length(428, USM_RAN_OUT, 384, 0);
    try_length(319, USM_ACCEPTED, 0, 0);
    try_length(301, USM_ACCEPTED, 0, 0);
    try_length(300, USM_RAN_OUT, 256, 0);
    try_length(3, USM_RAN_OUT, 0, 0);
    f[0] = 'c';
    try_length(F_BYTES, USM_NO_FILM, 0, 0);
    f[0] = 'C';
}

/* The column type that is unknown is in both replies. */
static void try_unknown_type(void)
{
    uint8_t film[128] = {0};
    struct usm_film_reply refused = refused_film(USM_UNKNOWN_TYPE, 0, 0, 0, 7);
    struct usm_list_reply listed = list_reply(USM_UNKNOWN_TYPE, 0, 0, 7);

    memcpy(film, f, 64);
    put32(film + 32 + 4, 32);  /* the table of F's first block has 8 bytes more */
    put32(film + 32 + 12, 29); /* strings start in its sixth byte, which is zero */
    put16(film + 32 + 24, 1);  /* one column */
    film[64] = 0x37;           /* a constant of type 7 */
    CHECK(same_film(extract(film, sizeof film, USM_READ_WITH_AUDIO, USM_NO_KEY, 0, 0), refused));
    CHECK(same_list(list(film, sizeof film, USM_READ_WITH_AUDIO, 0), listed));
}

/* Every number but 0 takes audio and gives a key; the other fields change nothing. */
static void try_every_number(void)
{
    const uint8_t *film = song.stored.bytes;
    size_t len = song.stored.len;
    struct usm_reading reading = {255, 1, 2, 3}, without = {0, 255, 255, 255};
    struct usm_key key = {KEY, 255}, none = {KEY, 0};

    CHECK(same_film(extract(film, len, reading, key, len, len),
                    extract(film, len, USM_READ_WITH_AUDIO, usm_with_key(KEY), len, len)));
    extract(film, len, reading, key, len, len);
    CHECK(memcmp(lent.video, song.video, song.video_len) == 0);
    extract(film, len, without, none, len, len);
    CHECK(memcmp(lent.video, song.video, song.video_len) != 0);
    CHECK(is_old(lent.audio, 0, sizeof lent.audio));
}

/* The song: both outputs exact, one short, one long. */
static void try_outputs_on_the_song(void)
{
    const uint8_t *film = song.stored.bytes;
    size_t len = song.stored.len, video_len = song.video_len, audio_len = song.audio_len, more;
    struct usm_film_reply refused = refused_film(USM_SHORT_OUTPUT, 0, video_len, audio_len, 0);
    struct usm_key key = usm_with_key(KEY);

    CHECK(same_film(extract(film, len, USM_READ_WITH_AUDIO, key, 0, 0), refused));
    CHECK(all_is_old());
    CHECK(same_film(extract(film, len, USM_READ_WITH_AUDIO, key, video_len - 1, audio_len + 1), refused));
    CHECK(all_is_old());
    CHECK(same_film(extract(film, len, USM_READ_WITH_AUDIO, key, video_len + 1, audio_len - 1), refused));
    CHECK(all_is_old());

    for (more = 0; more <= 1; more++) {
        CHECK(extract(film, len, USM_READ_WITH_AUDIO, key, video_len + more, audio_len + more).number == USM_ACCEPTED);
        CHECK(memcmp(lent.video, song.video, video_len) == 0 && is_old(lent.video, video_len, sizeof lent.video));
        CHECK(memcmp(lent.audio, song.audio, audio_len) == 0 && is_old(lent.audio, audio_len, sizeof lent.audio));
    }
}

/* What the song holds, with and without audio and key. */
static void try_replies_on_the_song(void)
{
    const uint8_t *film = song.stored.bytes;
    size_t len = song.stored.len;
    struct usm_film_reply reply = extract(film, len, USM_READ_WITH_AUDIO, usm_with_key(KEY), len, len);
    struct usm_film_reply expected = {0, reply.name_start, strlen(SONG_NAME), song.video_len, song.audio_len, 1, 2,
                                      USM_ACCEPTED, 0, USM_NAME_IN_CONTAINER, 1, 1, 1, USM_VIDEO_M2V, USM_AUDIO_ADX};

    CHECK(same_film(reply, expected));
    CHECK(memcmp(film + reply.name_start, SONG_NAME, strlen(SONG_NAME)) == 0);

    CHECK(same_film(extract(film, len, USM_READ_WITH_AUDIO, USM_NO_KEY, len, len), expected));
    CHECK(memcmp(lent.video, film + 704 + 32, 0x260) == 0);
    CHECK(memcmp(lent.video, song.video, song.video_len) != 0);

    expected.audio_size = 0;
    CHECK(same_film(extract(film, len, USM_READ_VIDEO_ONLY, usm_with_key(KEY), song.video_len, 0), expected));
    CHECK(memcmp(lent.video, song.video, song.video_len) == 0);
    CHECK(is_old(lent.audio, 0, sizeof lent.audio));
}

/* The song's chunks, with audio and without: then its length is 0, and its kind is the same. */
static void try_lists_on_the_song(void)
{
    const uint8_t *film = song.stored.bytes;
    size_t len = song.stored.len;
    int audio;

    for (audio = 0; audio <= 1; audio++) {
        struct usm_reading reading = audio ? USM_READ_WITH_AUDIO : USM_READ_VIDEO_ONLY;

        CHECK(same_list(list(film, len, reading, SONG_CHUNKS - 1), list_reply(USM_SHORT_LIST, 0, SONG_CHUNKS, 0)));
        CHECK(all_is_old());
        CHECK(same_list(list(film, len, reading, SONG_CHUNKS + 1), list_reply(USM_ACCEPTED, 0, SONG_CHUNKS, 0)));
        CHECK(is_chunk(0, 704, USM_CHUNK_VIDEO, 0, 0x260));
        CHECK(is_chunk(1, 1344, USM_CHUNK_AUDIO, 0, audio ? 0x190 : 0));
        CHECK(is_chunk(2, 1792, USM_CHUNK_VIDEO, 0, 0x100));
        CHECK(is_chunk(3, 2080, USM_CHUNK_AUDIO, 1, audio ? 0x150 : 0));
        CHECK(is_chunk(4, 2464, USM_CHUNK_VIDEO, 0, 0x24D));
        CHECK(is_chunk(5, 3104, USM_CHUNK_OTHER, 0, 0));
        CHECK(is_chunk(6, 3168, USM_CHUNK_END, 0, 0));
        CHECK(is_chunk(7, 3232, USM_CHUNK_END, 0, 0));
        CHECK(list_is_old(SONG_CHUNKS));
    }
}

/* The song with its second audio chunk on channel 7: each channel alone is its piece of the joined stream. */
static void try_channels(void)
{
    static struct song dubbed;
    const uint8_t *film = dubbed.stored.bytes;
    size_t len = song.stored.len, first = 0x190, second = 0x150;
    struct usm_key key = usm_with_key(KEY);

    dubbed = song;
    dubbed.stored.bytes[2080 + 12] = 7;
    CHECK(extract(film, len, USM_READ_WITH_AUDIO, key, len, len).audio_size == first + second);
    CHECK(extract(film, len, usm_read_channel(0), key, len, len).audio_size == first);
    CHECK(memcmp(lent.audio, song.audio, first) == 0);
    CHECK(memcmp(lent.video, song.video, song.video_len) == 0);
    CHECK(extract(film, len, usm_read_channel(7), key, len, len).audio_size == second);
    CHECK(memcmp(lent.audio, song.audio + first, second) == 0);
    CHECK(is_old(lent.audio, second, sizeof lent.audio));
    CHECK(extract(film, len, usm_read_channel(1), key, len, 0).audio_size == 0);
    CHECK(list(film, len, usm_read_channel(7), SONG_CHUNKS).number == USM_ACCEPTED);
    CHECK(is_chunk(1, 1344, USM_CHUNK_AUDIO, 0, 0) && lent.list[1].channel == 0);
    CHECK(is_chunk(3, 2080, USM_CHUNK_AUDIO, 1, second) && lent.list[3].channel == 7);
}

/* The song with another header size in its first chunk, whose payload then starts after it in that mode. */
static void try_payloads(void)
{
    static struct song longer;
    const struct usm_reading after = {USM_AUDIO_ALL, 0, USM_PAYLOADS_AFTER_HEADER, USM_TABLES_ORIGINAL};
    const uint8_t *film = longer.stored.bytes;
    size_t len = song.stored.len;

    longer = song;
    CHECK(same_film(extract(film, len, after, USM_NO_KEY, len, len),
                    extract(film, len, USM_READ_WITH_AUDIO, USM_NO_KEY, len, len)));
    longer.stored.bytes[704 + 9] = 24 + 8;
    CHECK(extract(film, len, after, USM_NO_KEY, len, len).video_size == song.video_len - 8);
    CHECK(memcmp(lent.video, film + 704 + 40, 0x258) == 0);
    CHECK(list(film, len, after, SONG_CHUNKS).number == USM_ACCEPTED);
    CHECK(is_chunk(0, 704, USM_CHUNK_VIDEO, 0, 0x258) && lent.list[0].offset == 40);
    CHECK(is_chunk(5, 3104, USM_CHUNK_OTHER, 0, 0) && lent.list[5].offset == 32);
    CHECK(list(film, len, USM_READ_WITH_AUDIO, SONG_CHUNKS).number == USM_ACCEPTED);
    CHECK(is_chunk(0, 704, USM_CHUNK_VIDEO, 0, 0x258) && lent.list[0].offset == 32);
    longer.stored.bytes[704 + 9] = 23;
    CHECK(same_list(list(film, len, after, SONG_CHUNKS), list_reply(USM_SHORT_HEADER, 704, 0, 0)));
    CHECK(list(film, len, USM_READ_WITH_AUDIO, SONG_CHUNKS).number == USM_ACCEPTED);
}

/* A beginning of the song: more is needed up to a length, and from there on the header is that of the whole. */
static void try_beginnings(void)
{
    const uint8_t *film = song.stored.bytes;
    size_t total = song.stored.len, len, enough;
    struct usm_film_reply whole = usm_extract(film, total, USM_READ_WITH_AUDIO, USM_NO_KEY, NULL, 0, lent.video,
                                              sizeof lent.video, lent.audio, sizeof lent.audio);

    whole.video_size = whole.audio_size = 0;
    for (enough = 0; usm_open(film, enough, total, USM_READ_WITH_AUDIO).more == 1; enough++)
        CHECK(enough < 704);
    for (len = 0; len <= total; len++) {
        struct usm_open_reply reply = usm_open(len == 0 ? NULL : film, len, total, USM_READ_WITH_AUDIO);

        CHECK(reply.more == (len < enough));
        CHECK(reply.chunks == (len < enough ? 0 : 704));
        CHECK(same_film(reply.film, len < enough ? refused_film(0, 0, 0, 0, 0) : whole));
    }
    CHECK(usm_open(film, 4, (size_t)USM_CONTAINER_BYTES + 1, USM_READ_WITH_AUDIO).film.number == USM_TOO_LONG);
}

/* The song by steps: its listing, and its clear streams. */
static void try_steps(void)
{
    struct usm_open_reply opened = usm_open(song.stored.bytes, 704, song.stored.len, USM_READ_WITH_AUDIO);
    struct usm_film_audio audio = usm_audio_of(opened.film);
    size_t total = song.stored.len, place = opened.chunks, video_len = 0, audio_len = 0, i;

    list(song.stored.bytes, total, USM_READ_WITH_AUDIO, SONG_CHUNKS);
    for (i = 0; i < SONG_CHUNKS; i++) {
        const uint8_t *window = song.stored.bytes + place;
        struct usm_step_reply step = usm_step(window, 45, place, total, USM_READ_WITH_AUDIO, audio);
        uint8_t *stream = step.kind == USM_CHUNK_VIDEO ? lent.video + video_len : lent.audio + audio_len;

        CHECK(usm_step(window, 44, place, total, USM_READ_WITH_AUDIO, audio).found == USM_STEP_MORE);
        CHECK(step.number == USM_ACCEPTED && step.found == USM_STEP_CHUNK);
        CHECK(is_chunk(i, place, step.kind, step.data_type, step.length));
        CHECK(step.payload == place + lent.list[i].offset && step.channel == lent.list[i].channel);
        memcpy(stream, song.stored.bytes + step.payload, step.length);
        usm_clear(KEY, step.mask, stream, step.length);
        *(step.kind == USM_CHUNK_VIDEO ? &video_len : &audio_len) += step.length;
        place = step.next;
    }
    CHECK(place == total && usm_step(NULL, 0, place, total, USM_READ_WITH_AUDIO, audio).found == USM_STEP_OVER);
    CHECK(video_len == song.video_len && memcmp(lent.video, song.video, video_len) == 0);
    CHECK(audio_len == song.audio_len && memcmp(lent.audio, song.audio, audio_len) == 0);
}

/* The bits of a key that a payload shows, by its mask and its length. */
static void try_payload_bits(void)
{
    CHECK(usm_payload_bits(USM_MASK_NONE, 0x1000) == 0);
    CHECK(usm_payload_bits(USM_MASK_VIDEO, 0x23F) == 0);
    CHECK(usm_payload_bits(USM_MASK_VIDEO, 0x240) == 0x00FFFF0FFFFFFFFF);
    CHECK(usm_payload_bits(USM_MASK_AUDIO, 0x140) == 0);
    CHECK(usm_payload_bits(USM_MASK_AUDIO, 0x141) == 0xFF);
    CHECK(usm_payload_bits(USM_MASK_AUDIO, 0x159) == 0x00FFFF0FFFFFFFFF);
}

/* The bits of a key that each film shows. The song shows all that count: its video is masked. */
static void try_key_bits(void)
{
    struct usm_key_bits_reply reply = usm_key_bits(song.stored.bytes, song.stored.len, USM_READ_WITH_AUDIO);

    CHECK(reply.number == USM_ACCEPTED && reply.bits == 0x00FFFF0FFFFFFFFF);
    reply = usm_key_bits(f, F_BYTES, USM_READ_WITH_AUDIO);
    CHECK(reply.number == USM_ACCEPTED && reply.bits == 0);
    reply = usm_key_bits(f, 428, USM_READ_WITH_AUDIO);
    CHECK(reply.number == USM_RAN_OUT && reply.refused_at == 384 && reply.bits == 0);
    reply = usm_key_bits(NULL, 0, USM_READ_WITH_AUDIO);
    CHECK(reply.number == USM_RAN_OUT && reply.refused_at == 0 && reply.bits == 0);
}

int main(void)
{
    make_f(f);
    make_song(&song, KEY);
    try_layout();
    try_outputs_on_f();
    try_lists_on_f();
    try_null();
    try_lengths_of_f();
    try_unknown_type();
    try_every_number();
    try_outputs_on_the_song();
    try_replies_on_the_song();
    try_lists_on_the_song();
    try_channels();
    try_payloads();
    try_beginnings();
    try_steps();
    try_key_bits();
    try_payload_bits();
    printf("checks passed\n");
    return 0;
}
