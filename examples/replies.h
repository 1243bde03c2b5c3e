/*
 * Replies of usm.h, made and compared field by field, for programs that try it.
 */
#ifndef REPLIES_H
#define REPLIES_H

#include "usm.h"

#include <string.h>

/* The reply on a film that is refused: all but these fields is 0. */
static inline struct usm_film_reply refused_film(uint8_t number, size_t place, size_t video_size, size_t audio_size,
                                                 uint8_t unknown_type)
{
    struct usm_film_reply reply;

    memset(&reply, 0, sizeof reply);
    reply.number = number;
    reply.refused_at = place;
    reply.video_size = video_size;
    reply.audio_size = audio_size;
    reply.unknown_type = unknown_type;
    return reply;
}

static inline struct usm_list_reply list_reply(uint8_t number, size_t place, size_t count, uint8_t unknown_type)
{
    struct usm_list_reply reply;

    memset(&reply, 0, sizeof reply);
    reply.number = number;
    reply.refused_at = place;
    reply.count = count;
    reply.unknown_type = unknown_type;
    return reply;
}

/* Whether two replies are equal. Bytes between fields are not looked at. */
static inline int same_film(struct usm_film_reply a, struct usm_film_reply b)
{
    return a.refused_at == b.refused_at && a.name_start == b.name_start && a.name_length == b.name_length &&
           a.video_size == b.video_size && a.audio_size == b.audio_size && a.video_codec == b.video_codec &&
           a.audio_codec == b.audio_codec && a.number == b.number && a.unknown_type == b.unknown_type &&
           a.name_source == b.name_source && a.has_audio == b.has_audio && a.has_video_codec == b.has_video_codec &&
           a.has_audio_codec == b.has_audio_codec && a.video_kind == b.video_kind && a.audio_kind == b.audio_kind;
}

static inline int same_list(struct usm_list_reply a, struct usm_list_reply b)
{
    return a.refused_at == b.refused_at && a.count == b.count && a.number == b.number &&
           a.unknown_type == b.unknown_type;
}

static inline int same_open(struct usm_open_reply a, struct usm_open_reply b)
{
    return same_film(a.film, b.film) && a.chunks == b.chunks && a.more == b.more;
}

static inline int same_step(struct usm_step_reply a, struct usm_step_reply b)
{
    return a.refused_at == b.refused_at && a.next == b.next && a.payload == b.payload && a.length == b.length &&
           a.number == b.number && a.unknown_type == b.unknown_type && a.found == b.found && a.kind == b.kind &&
           a.data_type == b.data_type && a.channel == b.channel && a.mask == b.mask;
}

static inline int same_apart(struct usm_apart_reply a, struct usm_apart_reply b)
{
    return a.refused_at == b.refused_at && a.byte == b.byte && a.chunk == b.chunk && a.offset == b.offset &&
           a.number == b.number && a.unknown_type == b.unknown_type && a.stream == b.stream;
}

static inline int same_cell(struct usm_cell_reply a, struct usm_cell_reply b)
{
    return a.refused_at == b.refused_at && a.value == b.value && a.length == b.length && a.number == b.number &&
           a.unknown_type == b.unknown_type && a.kind == b.kind;
}

static inline int same_column(struct usm_column_reply a, struct usm_column_reply b)
{
    return a.refused_at == b.refused_at && a.name_start == b.name_start && a.name_length == b.name_length &&
           a.number == b.number && a.unknown_type == b.unknown_type && a.storage == b.storage &&
           a.type_byte == b.type_byte;
}

#endif
