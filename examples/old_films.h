/*
 * Films of the old builder, made in memory, byte for byte as the original's UsmBuilder writes them, for programs that
 * try usm_from_old and usm_to_old.
 */
#ifndef OLD_FILMS_H
#define OLD_FILMS_H

#include "films.h"

/* The bytes of every payload but the last, of an audio's header block, and of an end. */
#define OLD_PAYLOAD 65536
#define OLD_AUDIO 0x60
#define OLD_END 28

struct slice {
    const uint8_t *at;
    size_t len;
};

/* What the builder is given. */
struct old_parts {
    struct slice name, video;
    const struct slice *audios;
    size_t audio_count;
};

static inline uint8_t *put_bytes(uint8_t *at, const void *bytes, size_t len)
{
    if (len > 0)
        memcpy(at, bytes, len);
    return at + len;
}

/* The bytes with which every block begins. */
static inline uint8_t *put_old_head(uint8_t *at, const char *letters, size_t size, size_t first, size_t second)
{
    memset(at, 0, 28);
    put_text(at, letters);
    put32(at + 4, size);
    put16(at + 8, 1);
    put16(at + 10, 0x18);
    put32(at + 12, first);
    put32(at + 16, second);
    return at + 28;
}

/* Zeros up to a multiple of 0x20 in the film. */
static inline uint8_t *put_old_padding(const uint8_t *film, uint8_t *at)
{
    size_t zeros = (0x20 - (size_t)(at - film) % 0x20) % 0x20;

    memset(at, 0, zeros);
    return at + zeros;
}

/* A header block up to the body of its table, whose bytes are counted. */
static inline uint8_t *put_old_table(uint8_t *at, const char *letters, unsigned rows, size_t strings, size_t data,
                                     unsigned columns, size_t body)
{
    at = put_old_head(at, letters, 20 + 32 + body, 0, 0);
    memset(at, 0, 32);
    put_text(at, "@UTF");
    put32(at + 4, 24 + body);
    put16(at + 8, 1);
    put16(at + 10, rows);
    put32(at + 12, strings);
    put32(at + 16, data);
    put16(at + 24, columns);
    put16(at + 26, 4 * columns);
    put32(at + 28, 1);
    return at + 32;
}

static inline uint8_t *put_old_column(uint8_t *at, uint8_t type, size_t name)
{
    *at = type;
    put32(at + 1, name);
    return at + 5;
}

static inline uint8_t *put_old_number(uint8_t *at, size_t number)
{
    put32(at, number);
    return at + 4;
}

static inline uint8_t *put_old_name(const uint8_t *film, uint8_t *at, struct slice name)
{
    static const char strings[] = "CRIUSF_DIR_STREAM\0filename";

    at = put_old_table(at, "CRID", 25, 29, 57 + name.len, 1, 5 + 4 + sizeof strings + name.len + 1);
    at = put_old_column(at, 0x5A, 18);
    at = put_old_number(at, sizeof strings);
    at = put_bytes(at, strings, sizeof strings);
    at = put_bytes(at, name.at, name.len);
    *at++ = 0;
    return put_old_padding(film, at);
}

static inline uint8_t *put_old_video(const uint8_t *film, uint8_t *at, size_t len)
{
    static const char strings[] = "VIDEO_HDRINFO\0width\0height\0total_frames";

    at = put_old_table(at, "@SFV", 31, 43, 83, 3, 3 * 5 + 3 * 4 + sizeof strings);
    at = put_old_column(at, 0x54, 14);
    at = put_old_column(at, 0x54, 20);
    at = put_old_column(at, 0x54, 27);
    at = put_old_number(at, 1920);
    at = put_old_number(at, 1080);
    at = put_old_number(at, len / 1000);
    at = put_bytes(at, strings, sizeof strings);
    return put_old_padding(film, at);
}

static inline uint8_t *put_old_audio(const uint8_t *film, uint8_t *at, size_t number)
{
    static const char strings[] = "AUDIO_HDRINFO\0stream_id";

    at = put_old_table(at, "@SFA", 0x10, 0x14, 0x30, 1, 5 + 4 + sizeof strings);
    at = put_old_column(at, 0x54, 14);
    at = put_old_number(at, number);
    at = put_bytes(at, strings, sizeof strings);
    return put_old_padding(film, at);
}

/* The chunk of a stream that begins with one of its bytes; nothing where the stream ends before. */
static inline uint8_t *put_old_chunk(const uint8_t *film, uint8_t *at, const char *letters, struct slice stream,
                                     size_t from, size_t number)
{
    size_t len;

    if (stream.len <= from)
        return at;
    len = stream.len - from < OLD_PAYLOAD ? stream.len - from : OLD_PAYLOAD;
    at = put_old_head(at, letters, len + 0x18, from, number);
    at = put_bytes(at, stream.at + from, len);
    return put_old_padding(film, at);
}

/* The film of some parts, in memory that is long enough. Returns its size. */
static inline size_t put_old_film(uint8_t *film, struct old_parts parts)
{
    size_t longest = parts.video.len, from, i;
    uint8_t *at = put_old_video(film, put_old_name(film, film, parts.name), parts.video.len);

    for (i = 0; i < parts.audio_count; i++) {
        longest = parts.audios[i].len > longest ? parts.audios[i].len : longest;
        at = put_old_audio(film, at, i);
    }
    for (from = 0; from < longest; from += OLD_PAYLOAD) {
        at = put_old_chunk(film, at, "@SBV", parts.video, from, 0);
        for (i = 0; i < parts.audio_count; i++)
            at = put_old_chunk(film, at, "@SBA", parts.audios[i], from, i);
    }
    for (i = 0; i <= parts.audio_count; i++)
        at = put_old_head(at, "@END", 0x18, 0, 0);
    return (size_t)(at - film);
}

#endif
