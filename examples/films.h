/*
 * Two small films, made in memory, for programs that try usm.h: example F of docs/RULES.md, and the song,
 * a film with a name, both codecs, ADX audio, metadata of both streams, and masked payloads.
 */
#ifndef FILMS_H
#define FILMS_H

#include "usm.h"

#include <string.h>

/* The bytes of example F, and where its chunks are. */
#define F_BYTES 448
#define F_VIDEO 320
#define F_END 384

#define SONG_NAME "songs/lark.usm"
#define SONG_BYTES 4096
#define SONG_CHUNKS 8

/* A film that grows. */
struct film {
    uint8_t bytes[SONG_BYTES];
    size_t len;
};

/* The song as it is stored, under a key, and its two clear streams. */
struct song {
    struct film stored;
    uint8_t video[SONG_BYTES], audio[SONG_BYTES];
    size_t video_len, audio_len;
};

static inline void put16(uint8_t *at, unsigned number)
{
    at[0] = (uint8_t)(number >> 8);
    at[1] = (uint8_t)number;
}

static inline void put32(uint8_t *at, size_t number)
{
    put16(at, (unsigned)(number >> 16));
    put16(at + 2, (unsigned)number);
}

static inline void put_text(uint8_t *at, const char *text)
{
    memcpy(at, text, strlen(text));
}

/* Example F: 448 bytes, zero but for this. */
static inline void make_f(uint8_t *f)
{
    size_t start;

    memset(f, 0, F_BYTES);
    for (start = 0; start < F_BYTES; start += 64) {
        put_text(f + start, start == 0 ? "CRID" : "@SFV");
        put32(f + start + 4, 56);
    }
    for (start = 32; start <= 224; start += start == 32 ? 64 : 128) {
        put_text(f + start, "@UTF");
        put32(f + start + 4, 24);
    }
    put_text(f + 160, "#HEADER END");
    put_text(f + 288, "#METADATA END");
    put16(f + F_VIDEO + 8, 24);
    put16(f + F_END + 8, 24);
    put_text(f + F_END + 32, "#CONTENTS END");
}

/* Begins a block: its letters and 28 bytes more. Returns where it starts. */
static inline size_t begin_block(struct film *film, const char *letters)
{
    size_t start = film->len;

    memset(film->bytes + start, 0, 32);
    put_text(film->bytes + start, letters);
    film->len += 32;
    return start;
}

/* Ends a block: zeros up to a multiple of 32, and its size. Returns how many zeros. */
static inline size_t end_block(struct film *film, size_t start)
{
    size_t zeros = (32 - film->len % 32) % 32;

    memset(film->bytes + film->len, 0, zeros);
    film->len += zeros;
    put32(film->bytes + start + 4, film->len - start - 8);
    return zeros;
}

static inline void add_marker(struct film *film, const char *letters, const char *marker)
{
    size_t start = begin_block(film, letters);

    put_text(film->bytes + film->len, marker);
    film->len += strlen(marker);
    end_block(film, start);
}

/* Adds a block with a table of one row and one column, a constant: the text, or the number where there
 * is no text. Without a name the table has neither row nor column. */
static inline void add_table(struct film *film, const char *letters, const char *name, const char *text,
                             unsigned number)
{
    size_t start = begin_block(film, letters), column = 0, strings = 0;
    uint8_t *table = film->bytes + film->len;

    memset(table, 0, 256);
    if (name != NULL) {
        column = text != NULL ? 9 : 6;
        strings = strlen(name) + 1;
        table[32] = text != NULL ? 0x3A : 0x30;
        put_text(table + 32 + column, name);
        if (text != NULL) {
            put32(table + 37, strings);
            put_text(table + 32 + column + strings, text);
            strings += strlen(text) + 1;
        } else {
            table[37] = (uint8_t)number;
        }
        put16(table + 24, 1); /* columns */
        put32(table + 28, 1); /* rows */
    }
    put_text(table, "@UTF");
    put32(table + 4, 24 + column + strings);
    put16(table + 10, (unsigned)(24 + column)); /* where rows begin */
    put32(table + 12, 24 + column);             /* where strings begin */
    put32(table + 16, 24 + column + strings);   /* where data begin */
    film->len += 32 + column + strings;
    end_block(film, start);
}

/* Adds a chunk with a payload; returns where the payload is. */
static inline uint8_t *add_chunk(struct film *film, const char *letters, uint8_t type, const uint8_t *payload,
                                 size_t len)
{
    size_t start = begin_block(film, letters);

    memcpy(film->bytes + film->len, payload, len);
    film->len += len;
    put16(film->bytes + start + 8, 24);
    put16(film->bytes + start + 10, (unsigned)end_block(film, start));
    film->bytes[start + 15] = type;
    return film->bytes + start + 32;
}

/* Adds a video payload to the song: clear to the stream, and to the film masked where its type is 0. */
static inline void add_video(struct song *song, uint64_t key, uint8_t type, size_t len)
{
    uint8_t *clear = song->video + song->video_len, *stored;
    size_t i;

    for (i = 0; i < len; i++)
        clear[i] = (uint8_t)(i * 5 + i / 64 + len);
    stored = add_chunk(&song->stored, "@SFV", type, clear, len);
    if (type == 0)
        usm_mask_video(key, stored, len);
    song->video_len += len;
}

/* Adds an audio payload to the song, likewise. */
static inline void add_audio(struct song *song, uint64_t key, uint8_t type, size_t len)
{
    uint8_t *clear = song->audio + song->audio_len, *stored;
    size_t i;

    for (i = 0; i < len; i++)
        clear[i] = (uint8_t)(i * 3 + i / 32 + len);
    stored = add_chunk(&song->stored, "@SFA", type, clear, len);
    if (type == 0)
        usm_mask_audio(key, stored, len);
    song->audio_len += len;
}

/* The song under a key. */
static inline void make_song(struct song *song, uint64_t key)
{
    struct film *film = &song->stored;

    film->len = song->video_len = song->audio_len = 0;
    add_table(film, "CRID", "filename", SONG_NAME, 0);
    add_table(film, "@SFV", "mpeg_codec", NULL, 1);
    add_table(film, "@SFA", "audio_codec", NULL, 2);
    add_marker(film, "@SFV", "#HEADER END");
    add_marker(film, "@SFA", "#HEADER END");
    add_table(film, "@SFV", NULL, NULL, 0);
    add_table(film, "@SFA", NULL, NULL, 0);
    add_marker(film, "@SFV", "#METADATA END");
    add_marker(film, "@SFA", "#METADATA END");

    add_video(song, key, 0, 0x260);
    add_audio(song, key, 0, 0x190);
    add_video(song, key, 0, 0x100); /* too short for a mask to change it */
    add_audio(song, key, 1, 0x150); /* of a type that is not masked */
    add_video(song, key, 0, 0x24D);
    add_marker(film, "@CUE", "a chunk that is skipped");
    add_marker(film, "@SFV", "#CONTENTS END");
    add_marker(film, "@SFA", "#CONTENTS END");
}

#endif
