/* usm_write, and the four functions that write piece by piece, beside rules W; and what is written read back. */
#include "fuzz.h"

#include <string.h>

/* What a call is given, by the body: codecs, lengths, then bytes that streams and the name repeat. */
#define HEAD 24

static uint8_t expected[MOST_WRITTEN], name[MOST_FILM], video[MOST_STREAM], audio[MOST_STREAM];

static uint32_t number(const uint8_t *at)
{
    return (uint32_t)at[0] | (uint32_t)at[1] << 8 | (uint32_t)at[2] << 16 | (uint32_t)at[3] << 24;
}

/* Bytes of a length, which repeat those of the body. Around 65,536 bytes payloads are full. */
static struct bytes fill(uint8_t *into, size_t most, uint32_t length, uint8_t turn, struct bytes from, uint8_t marked)
{
    struct bytes made = {into, length % 0x1400};
    size_t i;

    if (turn % 8 >= 6)
        made.len = (size_t)0x10000 * (turn % 8 - 5) + length % 67 - 33;
    if (made.len > most)
        made.len = most;
    for (i = 0; i < made.len; i++)
        into[i] = from.len == 0 ? (uint8_t)i : from.at[i % from.len];
    if (marked % 16 == 15 && made.len >= 13)
        memcpy(into + (made.len > 0x10000 + 13 ? 0x10000 : 0), "#CONTENTS END", 13);
    return made;
}

static struct model_parts parts_of(const struct options *options)
{
    uint8_t head[HEAD] = {0};
    struct bytes body = options->body;
    struct model_parts parts;
    size_t own = body.len < HEAD ? body.len : HEAD;

    memcpy(head, body.at, own);
    body.at += own;
    body.len -= own;
    memset(&parts, 0, sizeof parts);
    parts.packing.key = options->key;
    parts.packing.video_codec = number(head);
    parts.packing.audio_codec = head[4] & 1 ? number(head + 5) : head[5] % 5;
    parts.packing.has_audio = head[9];
    parts.packing.has_video_codec = head[10];
    parts.packing.has_audio_codec = head[11];
    parts.name = fill(name, 0x1000, number(head + 12) & 0xFFF, 0, body, 0);
    parts.video = fill(video, MOST_STREAM, number(head + 14), head[18], body, head[20]);
    parts.audio = fill(audio, MOST_STREAM, number(head + 16), head[19], body, head[21]);
    return parts;
}

/* W10: what was written, extracted under the same key. */
static void read_back(const struct options *options, const struct output *out, size_t size, struct model_parts parts)
{
    struct bytes film = lend(0, options, (struct bytes){out->at, size});
    size_t heard_len = parts.packing.has_audio ? parts.audio.len : 0;
    struct output seen = lend_room(1, options, parts.video.len), heard = lend_room(2, options, heard_len);
    struct usm_film_reply reply = usm_extract(film.at, film.len, USM_READ_WITH_AUDIO, options->key, NULL, 0,
                                              start_of(&seen, options), seen.len, start_of(&heard, options), heard.len);

    expect(reply.number == USM_ACCEPTED, "what was written is not read");
    expect(reply.name_source == USM_NAME_IN_CONTAINER && reply.name_length == parts.name.len,
           "another name is read back");
    expect(memcmp(film.at + reply.name_start, name, parts.name.len) == 0, "other bytes of the name are read back");
    expect(reply.has_audio == (parts.packing.has_audio != 0), "audio is read back otherwise");
    expect(reply.has_video_codec == (parts.packing.has_video_codec != 0), "the video's codec is read back otherwise");
    expect(!reply.has_video_codec || reply.video_codec == parts.packing.video_codec, "another codec is read back");
    expect(reply.has_audio_codec == (parts.packing.has_audio_codec != 0), "the audio's codec is read back otherwise");
    expect(!reply.has_audio_codec || reply.audio_codec == parts.packing.audio_codec, "another codec is read back");
    expect_output(&seen, video, parts.video.len, "another video is read back");
    expect_output(&heard, audio, heard_len, "another audio is read back");
    expect(usm_profile(film.at, film.len).rule == 0, "what was written is not plain");
}

/* One piece that is written into an output of its own, at a byte of the film. Gives where the next one stands. */
static size_t expect_piece(const struct output *out, struct usm_size_reply reply, size_t at, const char *what)
{
    expect(reply.number == USM_ACCEPTED && reply.refused_at == 0 && reply.unknown_type == 0, what);
    expect_output(out, expected + at, reply.size, what);
    return at + reply.size;
}

/* The payload of a turn, stored, and the zeros behind it; compared where the film is made. Gives where the next piece
 * stands; 0 for a marked payload, which is refused and stays. */
static size_t try_payload(const struct options *options, struct model_parts parts, struct usm_turn_reply turn,
                          size_t at, int is_made)
{
    const uint8_t *stream = turn.kind == USM_CHUNK_VIDEO ? video : audio;
    struct output payload = lend_room(2, options, turn.length);
    int is_marked = turn.length >= 13 && memcmp(stream + turn.from, "#CONTENTS END", 13) == 0;
    struct usm_size_reply reply;
    size_t i;

    memcpy(payload.at, stream + turn.from, turn.length);
    reply = usm_write_payload(parts.packing.key.number, turn.mask, payload.at, payload.len);
    expect(reply.number == (is_marked ? USM_MARKED_PAYLOAD : USM_ACCEPTED), "usm_write_payload: another number");
    if (is_marked) {
        expect(memcmp(payload.at, stream + turn.from, turn.length) == 0,
               "usm_write_payload: a marked payload is changed");
        return 0;
    }
    expect(reply.size == turn.length, "usm_write_payload: another size");
    if (!is_made)
        return 1;
    at = expect_piece(&payload, reply, at, "usm_write_payload: other bytes");
    for (i = 0; i < turn.padding; i++)
        expect(expected[at + i] == 0, "usm_write_chunk: another padding");
    return at + turn.padding;
}

/* The film piece by piece: what is written at once, or its refusal. */
static void try_pieces(const struct options *options, struct model_parts parts, struct usm_size_reply full)
{
    struct output out = lend_room(1, options, MOST_FILM);
    struct usm_size_reply reply =
        usm_write_open(name, parts.name.len, parts.video.len, parts.audio.len, parts.packing, out.at, out.len);
    struct usm_turn_reply turn;
    size_t at = 0, next;

    if (full.number == USM_CODEC_ALONE) {
        expect(reply.number == USM_CODEC_ALONE && stays_from(&out, 0), "usm_write_open: another refusal");
        return;
    }
    if (full.number == USM_ACCEPTED)
        at = expect_piece(&out, reply, at, "usm_write_open: other bytes");
    for (next = 0;; next = turn.next) {
        out = lend_room(1, options, USM_HEAD_BYTES);
        turn = usm_write_chunk(parts.video.len, parts.audio.len, next, parts.packing, out.at, out.len);
        if (turn.found == USM_STEP_OVER)
            break;
        if (full.number == USM_ACCEPTED)
            at = expect_piece(&out, turn.head, at, "usm_write_chunk: other bytes");
        at = try_payload(options, parts, turn, at, full.number == USM_ACCEPTED);
        if (at == 0) {
            expect(full.number == USM_MARKED_PAYLOAD, "usm_write_payload refuses what usm_write writes");
            return;
        }
    }
    expect(full.number == USM_ACCEPTED, "the pieces are written of a film that is refused");
    out = lend_room(1, options, 128);
    reply = usm_write_end(parts.packing, out.at, out.len);
    expect(expect_piece(&out, reply, at, "usm_write_end: other bytes") == full.size, "the pieces have another size");
}

void fuzz(const struct options *options)
{
    struct model_parts parts = parts_of(options);
    struct usm_size_reply full = model_write(parts, expected);
    struct output out = lend_room(0, options, room_by(options->rooms[0], full.size));
    int is_short = full.number == 0 && out.len < full.size;
    struct usm_size_reply reply = usm_write(name, parts.name.len, video, parts.video.len, audio, parts.audio.len,
                                            parts.packing, start_of(&out, options), out.len);

    note(reply.number, 0, reply.size);
    note(reply.number, 1, parts.name.len);
    note(reply.number, 2, parts.packing.has_audio ? parts.audio.len : 0);
    expect(reply.number == (is_short ? USM_SHORT_ROOM : full.number), "usm_write: another number");
    expect(reply.size == full.size && reply.refused_at == 0 && reply.unknown_type == 0, "usm_write: another reply");
    expect_output(&out, expected, reply.number == 0 ? full.size : 0, "usm_write: other bytes");
    if (reply.number == 0)
        read_back(options, &out, full.size, parts);
    try_pieces(options, parts, full);
}
