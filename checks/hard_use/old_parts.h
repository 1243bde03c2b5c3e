/*
 * The parts of a container, taken out as if it were a film of the old builder, with nothing checked: it is one where
 * put_old_film makes the same bytes of them, and their name is text. Who includes this says first how long a container
 * may be, OLD_PARTS_MOST, and how many audios are kept apart, OLD_PARTS_AUDIOS.
 */
#ifndef OLD_PARTS_H
#define OLD_PARTS_H

#include "../../examples/old_films.h"

static inline size_t be32(const uint8_t *at)
{
    return (size_t)at[0] << 24 | (size_t)at[1] << 16 | (size_t)at[2] << 8 | at[3];
}

static uint8_t videos[OLD_PARTS_MOST], audios[OLD_PARTS_AUDIOS][OLD_PARTS_MOST];
static struct slice heard[OLD_PARTS_AUDIOS];

/* What a block of the builder's holds that stands at a place: where its size says, as far as the container goes. */
static inline struct slice held_at(const uint8_t *film, size_t len, size_t at)
{
    size_t counted = film[at + 2] == 'B' ? 0x18 : 20, size = be32(film + at + 4);
    struct slice held = {film + at + 28, size < counted ? 0 : size - counted};

    if (len - at - 28 < held.len)
        held.len = len - at - 28;
    return held;
}

static inline int is_at(const uint8_t *at, const char *letters)
{
    return memcmp(at, letters, 4) == 0;
}

/* Adds a payload to a stream that is gathered. */
static inline void gather(struct slice *stream, uint8_t *into, struct slice payload)
{
    memcpy(into + stream->len, payload.at, payload.len);
    stream->at = into;
    stream->len += payload.len;
}

/* The parts of a container, as if it were a film of the builder. */
static inline struct old_parts parts_of(const uint8_t *film, size_t len)
{
    struct old_parts parts = {{film, 0}, {videos, 0}, heard, 0};
    size_t at, next;

    for (at = 0; at < len && len - at > 28 && !is_at(film + at, "@END"); at = next) {
        struct slice held = held_at(film, len, at);

        next = (at + 28 + held.len + 31) / 32 * 32;
        if (is_at(film + at, "CRID") && held.len > 68) {
            parts.name.at = held.at + 68;
            parts.name.len = held.len - 69;
        } else if (is_at(film + at, "@SFA") && parts.audio_count < OLD_PARTS_AUDIOS) {
            heard[parts.audio_count].at = audios[parts.audio_count];
            heard[parts.audio_count++].len = 0;
        } else if (is_at(film + at, "@SBV")) {
            gather(&parts.video, videos, held);
        } else if (is_at(film + at, "@SBA") && be32(film + at + 16) < parts.audio_count) {
            gather(&heard[be32(film + at + 16)], audios[be32(film + at + 16)], held);
        }
    }
    return parts;
}

/* Whether bytes are well-formed UTF-8. */
static inline int is_utf8(struct slice text)
{
    const uint8_t *at = text.at, *end = text.at + text.len;

    while (at < end) {
        size_t bytes = at[0] < 0x80 ? 1 : at[0] < 0xC2 ? 0 : at[0] < 0xE0 ? 2 : at[0] < 0xF0 ? 3 : at[0] < 0xF5 ? 4 : 0;
        size_t i;

        if (bytes == 0 || (size_t)(end - at) < bytes)
            return 0;
        for (i = 1; i < bytes; i++)
            if (at[i] >> 6 != 2)
                return 0;
        if ((at[0] == 0xE0 && at[1] < 0xA0) || (at[0] == 0xED && at[1] > 0x9F) || (at[0] == 0xF0 && at[1] < 0x90) ||
            (at[0] == 0xF4 && at[1] > 0x8F))
            return 0;
        at += bytes;
    }
    return 1;
}

#endif
