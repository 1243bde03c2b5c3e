/* Rules H, C and F, and what is asked of a film's chunks: U, P and J. */
#include "model.h"
#include "numbers.h"

#include <string.h>

static const struct refused NOT_REFUSED = {0, 0, 0};

static struct refused at_block(uint8_t number, size_t place)
{
    struct refused refused = {number, 0, place};

    return refused;
}

static size_t left_from(size_t total, size_t place)
{
    return place < total ? total - place : 0;
}

/* ---- rules H */

/* The table of the block that is read. */
static struct model_table table;

/* A header walk: the film, where it stands, and what refused it, perhaps inside a table that is there whole. */
struct walk {
    struct bytes film;
    int zero_columns;
    size_t at, next, claimed;
    struct refused refused;
    int is_in_table;
};

/* Whether letters stand where the walk does; that they are cut is a refusal. */
static int is_next(struct walk *walk, const char *letters)
{
    if (walk->refused.number != 0)
        return 0;
    if (left_from(walk->film.len, walk->at) < 4) {
        walk->refused = at_block(1, walk->at);
        return 0;
    }
    return memcmp(walk->film.at + walk->at, letters, 4) == 0;
}

/* A block with these letters, else this number. */
static void expect_letters(struct walk *walk, const char *letters, uint8_t missing)
{
    if (!is_next(walk, letters) && walk->refused.number == 0)
        walk->refused = at_block(missing, walk->at);
}

static void read_size(struct walk *walk)
{
    if (walk->refused.number != 0)
        return;
    if (left_from(walk->film.len, walk->at) < 8)
        walk->refused = at_block(1, walk->at);
    else
        walk->next = walk->at + 8 + (size_t)number_at(walk->film.at + walk->at + 4, 4);
}

static void expect_marker(struct walk *walk, const char *marker, uint8_t missing)
{
    size_t len = strlen(marker);

    if (walk->refused.number != 0)
        return;
    if (left_from(walk->film.len, walk->at) < 0x20 + len)
        walk->refused = at_block(1, walk->at);
    else if (memcmp(walk->film.at + walk->at + 0x20, marker, len) != 0)
        walk->refused = at_block(missing, walk->at);
}

static void go_on(struct walk *walk)
{
    if (walk->refused.number == 0)
        walk->at = walk->next;
}

static void read_table_block(struct walk *walk, const char *letters, uint8_t missing)
{
    expect_letters(walk, letters, missing);
    read_size(walk);
    if (walk->refused.number != 0)
        return;
    walk->refused = model_table(walk->film, walk->at + 0x20, walk->zero_columns, &table);
    walk->claimed = walk->claimed < table.claimed ? table.claimed : walk->claimed;
    if (walk->refused.number != 0) {
        walk->refused.place = walk->at;
        walk->is_in_table = table.is_laid;
    }
    go_on(walk);
}

static void read_marker_block(struct walk *walk, const char *letters, uint8_t missing, const char *marker,
                              uint8_t unmarked)
{
    expect_letters(walk, letters, missing);
    read_size(walk);
    expect_marker(walk, marker, unmarked);
    go_on(walk);
}

static struct bytes text(const char *letters)
{
    struct bytes bytes = {(const uint8_t *)letters, strlen(letters)};

    return bytes;
}

/* UTF12. */
static struct model_codec codec_in(const struct walk *walk, const char *column)
{
    struct model_codec codec = {0, 0};
    struct model_cell cell;

    if (walk->refused.number != 0)
        return codec;
    cell = model_cell(&table, text(column), 0);
    if (cell.kind == USM_CELL_UNSIGNED || cell.kind == USM_CELL_SIGNED) {
        codec.given = 1;
        codec.number = (uint32_t)cell.value;
    }
    return codec;
}

/* UTF13. */
static void read_name(const struct walk *walk, struct model_header *header)
{
    struct model_cell cell = {0, 0, 0};

    header->has_name = 0;
    if (walk->refused.number != 0)
        return;
    if (table.rows > 0)
        cell = model_cell(&table, text("filename"), table.rows - 1);
    header->has_name = cell.kind == USM_CELL_STRING || cell.kind == USM_CELL_DATA;
    header->name.at = walk->film.at + (header->has_name ? cell.value : 0);
    header->name.len = header->has_name ? cell.length : 0;
}

/* H7 and H8: what closes the header, and where the chunks begin. */
static void read_end(struct walk *walk, struct model_header *header)
{
    if (header->has_audio && is_next(walk, "@SFA")) {
        read_table_block(walk, "@SFA", 5);
        read_marker_block(walk, "@SFV", 4, "#METADATA END", 7);
        read_marker_block(walk, "@SFA", 5, "#METADATA END", 7);
        header->chunks = walk->at;
        return;
    }
    expect_letters(walk, "@SFV", 4);
    expect_marker(walk, "#METADATA END", 7);
    header->chunks = (walk->at + 45 + 3) / 4 * 4 + 16;
}

struct refused model_header(struct bytes film, int zero_columns, struct model_header *header)
{
    struct walk walk = {film, zero_columns, 0, 0, 0, NOT_REFUSED, 0};

    memset(header, 0, sizeof *header);
    read_table_block(&walk, "CRID", 2);
    read_name(&walk, header);
    read_table_block(&walk, "@SFV", 4);
    header->video_codec = codec_in(&walk, "mpeg_codec");
    header->has_audio = is_next(&walk, "@SFA");
    if (header->has_audio) {
        read_table_block(&walk, "@SFA", 5);
        header->audio_codec = codec_in(&walk, "audio_codec");
    }
    read_marker_block(&walk, "@SFV", 4, "#HEADER END", 6);
    if (header->has_audio)
        read_marker_block(&walk, "@SFA", 5, "#HEADER END", 6);
    read_table_block(&walk, "@SFV", 4);
    if (walk.refused.number == 0)
        read_end(&walk, header);
    header->is_settled = walk.is_in_table;
    header->claimed = walk.claimed;
    if (walk.refused.number != 0)
        header->chunks = 0;
    return walk.refused;
}

/* ---- rules C */

static int takes(struct usm_reading reading, struct usm_film_audio audio, uint8_t channel)
{
    if (audio.present == 0 || reading.audio == USM_AUDIO_NONE)
        return 0;
    return reading.audio != USM_AUDIO_CHANNEL || reading.channel == channel;
}

static uint8_t kind_of(const uint8_t *opening)
{
    if (memcmp(opening + 0x20, "#CONTENTS END", 13) == 0)
        return USM_CHUNK_END;
    if (memcmp(opening, "@SFV", 4) == 0)
        return USM_CHUNK_VIDEO;
    if (memcmp(opening, "@SFA", 4) == 0)
        return USM_CHUNK_AUDIO;
    return USM_CHUNK_OTHER;
}

/* C7 without the key. */
static uint8_t mask_of(const struct usm_chunk *chunk, struct usm_film_audio audio)
{
    if (chunk->data_type != 0)
        return USM_MASK_NONE;
    if (chunk->kind == USM_CHUNK_VIDEO)
        return USM_MASK_VIDEO;
    if (chunk->kind == USM_CHUNK_AUDIO && audio.has_codec != 0 && audio.codec == 2)
        return USM_MASK_AUDIO;
    return USM_MASK_NONE;
}

/* C5 and C5a: the payload of a chunk that is taken. Gives the number of its refusal. */
static uint8_t take_payload(struct model_chunk *chunk, size_t total, struct usm_reading reading, uint16_t footer)
{
    size_t spare = (size_t)chunk->header_size + footer;

    if (reading.payloads == USM_PAYLOADS_AFTER_HEADER) {
        if (chunk->header_size < 0x18)
            return 17;
        chunk->as_listed.offset = 8u + chunk->header_size;
    }
    if (chunk->block_size < spare)
        return 9;
    chunk->as_listed.length = chunk->block_size - spare;
    return total < chunk->as_listed.start + chunk->as_listed.offset + chunk->as_listed.length;
}

enum model_found model_step(struct bytes window, size_t place, size_t total, struct usm_reading reading,
                            struct usm_film_audio audio, struct model_chunk *chunk, struct refused *refused)
{
    size_t left = left_from(total, place);
    struct usm_chunk *listed = &chunk->as_listed;

    memset(chunk, 0, sizeof *chunk);
    *refused = at_block(USM_CONTAINER_BYTES < total ? 11 : 1, USM_CONTAINER_BYTES < total ? 0 : place);
    if (USM_CONTAINER_BYTES < total)
        return MODEL_REFUSED;
    if (left < 45)
        return left < 4 ? MODEL_OVER : MODEL_REFUSED;
    if (window.len < 45)
        return MODEL_MORE;
    memcpy(chunk->letters, window.at, 4);
    chunk->block_size = (uint32_t)number_at(window.at + 4, 4);
    chunk->header_size = (uint16_t)number_at(window.at + 8, 2);
    chunk->next = place + 8 + chunk->block_size;
    listed->start = place;
    listed->kind = kind_of(window.at);
    listed->data_type = window.at[15] % 4;
    listed->channel = window.at[12];
    listed->offset = 32;
    chunk->mask = mask_of(listed, audio);
    refused->number = 0;
    if (listed->kind == USM_CHUNK_VIDEO || (listed->kind == USM_CHUNK_AUDIO && takes(reading, audio, listed->channel)))
        refused->number = take_payload(chunk, total, reading, (uint16_t)number_at(window.at + 10, 2));
    return refused->number == 0 ? MODEL_CHUNK : MODEL_REFUSED;
}

static struct usm_film_audio audio_of(const struct model_header *header)
{
    struct usm_film_audio audio = {header->audio_codec.number, (uint8_t)header->has_audio,
                                   (uint8_t)header->audio_codec.given};

    return audio;
}

static void read_chunks(struct bytes film, struct usm_reading reading, struct model_film *read)
{
    size_t at = read->header.chunks;

    for (;;) {
        struct model_chunk *chunk = &read->chunk[read->count];
        struct bytes window = {film.at + (film.len - left_from(film.len, at)), left_from(film.len, at)};
        struct refused refused;
        enum model_found found = model_step(window, at, film.len, reading, audio_of(&read->header), chunk, &refused);

        if (found == MODEL_REFUSED)
            read->refused = refused;
        if (found != MODEL_CHUNK)
            return;
        if (chunk->as_listed.kind == USM_CHUNK_VIDEO)
            read->video_size += chunk->as_listed.length;
        if (chunk->as_listed.kind == USM_CHUNK_AUDIO)
            read->audio_size += chunk->as_listed.length;
        read->count++;
        at = chunk->next;
    }
}

void model_read(struct bytes film, struct usm_reading reading, struct model_film *read)
{
    read->count = read->video_size = read->audio_size = 0;
    read->refused = model_header(film, reading.tables == USM_TABLES_ZERO_COLUMNS, &read->header);
    if (read->refused.number == 0)
        read_chunks(film, reading, read);
}

void model_streams(struct bytes film, const struct model_film *read, struct usm_key key, uint8_t *video, uint8_t *audio)
{
    size_t i;

    for (i = 0; i < read->count; i++) {
        const struct model_chunk *chunk = &read->chunk[i];
        uint8_t **stream = chunk->as_listed.kind == USM_CHUNK_VIDEO ? &video : &audio;

        if (chunk->as_listed.length == 0)
            continue;
        memcpy(*stream, film.at + chunk->as_listed.start + chunk->as_listed.offset, chunk->as_listed.length);
        if (key.given != 0 && chunk->mask == USM_MASK_VIDEO)
            model_unmask_video(key.number, *stream, chunk->as_listed.length);
        if (key.given != 0 && chunk->mask == USM_MASK_AUDIO)
            model_mask_audio(key.number, *stream, chunk->as_listed.length);
        *stream += chunk->as_listed.length;
    }
}

/* ---- rules R: the reply on a film */

static void put_header(struct usm_film_reply *reply, const struct model_header *header, const uint8_t *film)
{
    reply->name_source = header->has_name ? USM_NAME_IN_CONTAINER : USM_NAME_IN_FALLBACK;
    reply->name_start = header->has_name ? (size_t)(header->name.at - film) : 0;
    reply->name_length = header->name.len;
    reply->has_audio = (uint8_t)header->has_audio;
    reply->has_video_codec = (uint8_t)header->video_codec.given;
    reply->has_audio_codec = (uint8_t)header->audio_codec.given;
    reply->video_codec = header->video_codec.number;
    reply->audio_codec = header->audio_codec.number;
    reply->video_kind = header->video_codec.given && header->video_codec.number == 9 ? USM_VIDEO_IVF : USM_VIDEO_M2V;
    reply->audio_kind = header->audio_codec.given && header->audio_codec.number == 4 ? USM_AUDIO_HCA : USM_AUDIO_ADX;
}

static struct usm_film_reply refused_reply(struct refused refused)
{
    struct usm_film_reply reply;

    memset(&reply, 0, sizeof reply);
    reply.number = refused.number;
    reply.unknown_type = refused.type;
    reply.refused_at = refused.place;
    return reply;
}

struct usm_film_reply model_reply(const struct model_film *read, struct bytes film, size_t fallback_len,
                                  size_t video_len, size_t audio_len)
{
    struct usm_film_reply reply = refused_reply(read->refused);

    if (reply.number != 0)
        return reply;
    reply.video_size = read->video_size;
    reply.audio_size = read->audio_size;
    if (video_len < read->video_size || audio_len < read->audio_size) {
        reply.number = 12;
        return reply;
    }
    put_header(&reply, &read->header, film.at);
    if (!read->header.has_name)
        reply.name_length = fallback_len;
    return reply;
}

struct usm_open_reply model_open(struct bytes beginning, size_t total, struct usm_reading reading)
{
    struct usm_open_reply reply;
    struct model_header header;
    struct refused refused;

    memset(&reply, 0, sizeof reply);
    if (USM_CONTAINER_BYTES < total) {
        reply.film.number = 11;
        return reply;
    }
    refused = model_header(beginning, reading.tables == USM_TABLES_ZERO_COLUMNS, &header);
    if (refused.number == 0) {
        put_header(&reply.film, &header, beginning.at);
        reply.chunks = header.chunks;
    } else if (refused.number == 1 && beginning.len < total && !header.is_settled) {
        reply.more = 1;
    } else {
        reply.film = refused_reply(refused);
    }
    return reply;
}

/* ---- rules U */

static struct model_film cut;

/* Whether a film, cut so, is accepted. */
static int is_accepted(struct bytes film, size_t len)
{
    film.len = len;
    model_read(film, USM_READ_WITH_AUDIO, &cut);
    return cut.refused.number == 0;
}

struct usm_salvage_reply model_salvage(struct bytes film)
{
    static struct model_film read;
    struct model_header header;
    struct refused refused = model_header(film, 0, &header);
    struct usm_salvage_reply reply = {refused.place, 0, 0, refused.number, refused.type, 0};
    size_t i, start;

    if (refused.number != 0)
        return reply;
    model_read(film, USM_READ_WITH_AUDIO, &read);
    reply.kept = film.len;
    if (read.refused.number == 0)
        return reply;
    start = read.refused.place;
    for (i = read.count; !is_accepted(film, start); i--) {
        if (i == 0) {
            reply.kept = 0;
            reply.number = 21;
            return reply;
        }
        start = read.chunk[i - 1].as_listed.start;
    }
    reply.kept = start;
    reply.dropped = film.len - start;
    reply.cause = read.refused.number;
    return reply;
}

/* ---- rules P */

struct usm_profile_reply model_profile(struct bytes film)
{
    static struct model_film read;
    struct usm_profile_reply reply;
    int is_closed[2] = {0, 0};
    size_t i;

    memset(&reply, 0, sizeof reply);
    model_read(film, USM_READ_WITH_AUDIO, &read);
    reply.number = read.refused.number;
    reply.unknown_type = read.refused.type;
    reply.refused_at = read.refused.place;
    if (reply.number != 0)
        return reply;
    for (i = 0; i < read.count && reply.rule == 0; i++) {
        const struct model_chunk *chunk = &read.chunk[i];
        int is_video = memcmp(chunk->letters, "@SFV", 4) == 0, is_audio = memcmp(chunk->letters, "@SFA", 4) == 0;
        int has_stream = is_video || (is_audio && read.header.has_audio);

        reply.place = chunk->as_listed.start;
        if (chunk->header_size != 0x18) {
            reply.rule = 1;
        } else if (((uint64_t)chunk->block_size + 8) % 0x20 != 0) {
            reply.rule = 2;
        } else if (has_stream && is_closed[is_audio]) {
            reply.rule = 3;
            reply.stream = is_audio ? USM_CHUNK_AUDIO : USM_CHUNK_VIDEO;
        } else if (!is_video && !is_audio) {
            reply.rule = 4;
        } else if (has_stream && chunk->as_listed.kind == USM_CHUNK_END) {
            is_closed[is_audio] = 1;
        }
    }
    if (reply.rule == 0 && (!is_closed[0] || (read.header.has_audio && !is_closed[1]))) {
        reply.rule = 3;
        reply.stream = is_closed[0] ? USM_CHUNK_AUDIO : USM_CHUNK_VIDEO;
        reply.place = film.len;
    }
    if (reply.rule == 0)
        reply.place = 0;
    return reply;
}

/* ---- rules J */

struct usm_seek_reply model_seek(const struct usm_index_entry *index, size_t count, uint64_t byte)
{
    struct usm_seek_reply reply = {0, 0, 0};
    size_t low = 0, high = count;

    while (low < high) {
        size_t middle = low + (high - low) / 2;

        if (index[middle].place <= byte)
            low = middle + 1;
        else
            high = middle;
    }
    if (low == 0 || byte - index[low - 1].place >= index[low - 1].length)
        return reply;
    reply.chunk = index[low - 1].chunk;
    reply.offset = byte - index[low - 1].place;
    reply.found = 1;
    return reply;
}
