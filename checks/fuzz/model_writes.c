/* Rules W and O. */
#define OLD_PARTS_MOST MOST_FILM
#define OLD_PARTS_AUDIOS 160
#include "model.h"

#include "../hard_use/old_parts.h"

#include <string.h>

#define PAYLOAD 65536

static const char END[] = "#CONTENTS END";

/* A film that is written. */
struct made {
    uint8_t *out;
    size_t size;
};

static void put_number(struct made *made, uint64_t number, size_t width)
{
    size_t i;

    for (i = width; i-- > 0;)
        made->out[made->size++] = (uint8_t)(number >> 8 * i);
}

static void put_part(struct made *made, struct bytes part)
{
    if (part.len > 0)
        memcpy(made->out + made->size, part.at, part.len);
    made->size += part.len;
}

static void put_letters(struct made *made, const char *letters)
{
    struct bytes part = {(const uint8_t *)letters, strlen(letters)};

    put_part(made, part);
}

static void put_zeros(struct made *made, size_t count)
{
    memset(made->out + made->size, 0, count);
    made->size += count;
}

/* W1 and W2. Gives where what it holds begins. */
static size_t put_block(struct made *made, const char *letters, size_t held)
{
    size_t zeros = (0x20 - held % 0x20) % 0x20;

    put_letters(made, letters);
    put_number(made, 0x18 + held + zeros, 4);
    put_number(made, 0x18, 2);
    put_number(made, zeros, 2);
    put_zeros(made, 20 + held + zeros);
    made->size -= held + zeros;
    return made->size + held + zeros;
}

/* W3. */
static void put_marker(struct made *made, const char *letters, const char *marker)
{
    size_t next = put_block(made, letters, 0x20);

    put_letters(made, marker);
    made->size = next;
}

/* The head of a table of one row and column, whose cell has a width, or of none. */
static void put_table(struct made *made, size_t body, size_t columns, size_t width, size_t column_name)
{
    size_t strings = columns ? 24 + 5 + width : 0;

    put_letters(made, "@UTF");
    put_number(made, 24 + body, 4);
    put_number(made, 0, 2);
    put_number(made, columns ? 29 : 0, 2);
    put_number(made, strings, 4);
    put_number(made, columns ? strings + column_name + 1 : 0, 4);
    put_number(made, columns ? column_name : 0, 4);
    put_number(made, columns, 2);
    put_number(made, width, 2);
    put_number(made, columns, 4);
}

/* W4: a table of one cell. Its data is a name. */
static void put_cell_block(struct made *made, const char *letters, const char *column, uint8_t type, uint64_t cell,
                           struct bytes data)
{
    size_t width = type == 0x5B ? 8 : 4, body = 5 + width + strlen(column) + 1 + data.len;
    size_t next = put_block(made, letters, 32 + body);

    put_table(made, body, 1, width, strlen(column));
    put_number(made, type, 1);
    put_number(made, 0, 4);
    put_number(made, cell, width);
    put_letters(made, column);
    put_number(made, 0, 1);
    put_part(made, data);
    made->size = next;
}

static void put_empty_block(struct made *made, const char *letters)
{
    size_t next = put_block(made, letters, 32);

    put_table(made, 0, 0, 0, 0);
    made->size = next;
}

static void put_codec(struct made *made, const char *letters, const char *column, uint8_t given, uint32_t codec)
{
    static const struct bytes NONE = {NULL, 0};

    if (given != 0)
        put_cell_block(made, letters, column, 0x54, codec, NONE);
    else
        put_empty_block(made, letters);
}

/* W5 and W6: the payload of a stream at a turn, if there is one. */
static void put_payload(struct made *made, const char *letters, struct bytes stream, size_t turn, uint8_t mask,
                        uint64_t key)
{
    struct bytes payload = {stream.at, 0};
    size_t next, at;

    if (stream.len <= turn * PAYLOAD)
        return;
    payload.at += turn * PAYLOAD;
    payload.len = stream.len - turn * PAYLOAD < PAYLOAD ? stream.len - turn * PAYLOAD : PAYLOAD;
    next = put_block(made, letters, payload.len);
    at = made->size;
    put_part(made, payload);
    if (mask == USM_MASK_VIDEO)
        model_mask_video(key, made->out + at, payload.len);
    if (mask == USM_MASK_AUDIO)
        model_mask_audio(key, made->out + at, payload.len);
    made->size = next;
}

static int is_marked(struct bytes stream)
{
    size_t at;

    for (at = 0; at < stream.len; at += PAYLOAD)
        if (stream.len - at >= 13 && memcmp(stream.at + at, END, 13) == 0)
            return 1;
    return 0;
}

static struct usm_size_reply size_reply(uint8_t number, size_t size)
{
    struct usm_size_reply reply = {0, size, number, 0};

    return reply;
}

struct usm_size_reply model_write(struct model_parts parts, uint8_t *out)
{
    struct made made = {out, 0};
    struct usm_packing packing = parts.packing;
    int audio = packing.has_audio != 0;
    struct bytes none = {NULL, 0}, heard = audio ? parts.audio : none;
    uint8_t video_mask = packing.key.given ? USM_MASK_VIDEO : USM_MASK_NONE;
    uint8_t audio_mask =
        packing.key.given && packing.has_audio_codec && packing.audio_codec == 2 ? USM_MASK_AUDIO : USM_MASK_NONE;
    size_t turn;

    if (!audio && packing.has_audio_codec != 0)
        return size_reply(23, 0);
    if (is_marked(parts.video) || is_marked(heard))
        return size_reply(15, 0);
    put_cell_block(&made, "CRID", "filename", 0x5B, parts.name.len, parts.name);
    put_codec(&made, "@SFV", "mpeg_codec", packing.has_video_codec, packing.video_codec);
    if (audio)
        put_codec(&made, "@SFA", "audio_codec", packing.has_audio_codec, packing.audio_codec);
    put_marker(&made, "@SFV", "#HEADER END");
    if (audio)
        put_marker(&made, "@SFA", "#HEADER END");
    put_empty_block(&made, "@SFV");
    if (audio)
        put_empty_block(&made, "@SFA");
    put_marker(&made, "@SFV", "#METADATA END");
    if (audio)
        put_marker(&made, "@SFA", "#METADATA END");
    for (turn = 0; turn * PAYLOAD < parts.video.len || turn * PAYLOAD < heard.len; turn++) {
        put_payload(&made, "@SFV", parts.video, turn, video_mask, packing.key.number);
        put_payload(&made, "@SFA", heard, turn, audio_mask, packing.key.number);
    }
    put_marker(&made, "@SFV", END);
    if (audio)
        put_marker(&made, "@SFA", END);
    return size_reply(0, made.size);
}

/* ---- rules O */

static struct bytes bytes_of(struct slice slice)
{
    struct bytes bytes = {slice.at, slice.len};

    return bytes;
}

static struct slice slice_of(struct bytes bytes)
{
    struct slice slice = {bytes.at, bytes.len};

    return slice;
}

struct usm_size_reply model_from_old(struct bytes film, struct usm_codecs codecs, uint8_t *out)
{
    static uint8_t rebuilt[8 * MOST_FILM];
    struct old_parts old = parts_of(film.at, film.len);
    struct model_parts parts;
    struct slice none = {NULL, 0};

    if (!is_utf8(old.name) || put_old_film(rebuilt, old) != film.len || memcmp(rebuilt, film.at, film.len) != 0)
        return size_reply(19, 0);
    if (old.audio_count > 1)
        return size_reply(20, 0);
    memset(&parts, 0, sizeof parts);
    parts.name = bytes_of(old.name);
    parts.video = bytes_of(old.video);
    parts.audio = bytes_of(old.audio_count ? old.audios[0] : none);
    parts.packing.has_audio = (uint8_t)old.audio_count;
    parts.packing.video_codec = codecs.video_codec;
    parts.packing.audio_codec = codecs.audio_codec;
    parts.packing.has_video_codec = codecs.has_video_codec;
    parts.packing.has_audio_codec = codecs.has_audio_codec;
    return model_write(parts, out);
}

/* O10: the parts of a container that may have been moved, if it is accepted. */
static int moved_parts(struct bytes film, struct model_parts *parts)
{
    static struct model_film read;
    static uint8_t video[MOST_WRITTEN], audio[MOST_WRITTEN];
    struct model_header *header = &read.header;

    memset(parts, 0, sizeof *parts);
    model_read(film, USM_READ_WITH_AUDIO, &read);
    if (read.refused.number != 0 || !header->has_name)
        return 0;
    model_streams(film, &read, USM_NO_KEY, video, audio);
    parts->name = header->name;
    parts->video.at = video;
    parts->video.len = read.video_size;
    parts->audio.at = audio;
    parts->audio.len = read.audio_size;
    parts->packing.has_audio = (uint8_t)header->has_audio;
    parts->packing.video_codec = header->video_codec.number;
    parts->packing.audio_codec = header->audio_codec.number;
    parts->packing.has_video_codec = (uint8_t)header->video_codec.given;
    parts->packing.has_audio_codec = (uint8_t)header->audio_codec.given;
    return 1;
}

struct usm_size_reply model_to_old(struct bytes film, uint8_t *out)
{
    static uint8_t rebuilt[4 * MOST_WRITTEN];
    struct model_parts parts;
    struct slice heard;
    struct old_parts old;
    struct usm_size_reply written;

    if (!moved_parts(film, &parts))
        return size_reply(19, 0);
    heard = slice_of(parts.audio);
    old.name = slice_of(parts.name);
    old.video = slice_of(parts.video);
    old.audios = &heard;
    old.audio_count = parts.packing.has_audio;
    written = model_write(parts, rebuilt);
    if (written.number != 0 || written.size != film.len || memcmp(rebuilt, film.at, film.len) != 0 ||
        !is_utf8(old.name))
        return size_reply(19, 0);
    return size_reply(0, put_old_film(out, old));
}
