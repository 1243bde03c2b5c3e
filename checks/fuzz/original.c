#include "original.h"

#include <string.h>

/* As original/src/lib.rs has them. */
struct original_chunk {
    uint64_t start, length;
    uint8_t kind, data_type;
};

struct original_reply {
    uint8_t outcome, number, unknown_type, has_audio, has_video_codec, has_audio_codec, is_ivf, is_hca;
    uint32_t video_codec, audio_codec;
    uint64_t place;
    struct bytes name, video, audio;
    const struct original_chunk *chunks;
    size_t count;
};

enum outcome { ACCEPTED, REFUSED, PANICKED };

struct original_reply original_extract(struct bytes film, uint8_t takes_audio, uint8_t has_key, uint64_t key,
                                       struct bytes fallback);

/* What claims more makes the original fill as many bytes before it finds them missing. */
#define MOST_FILLED ((size_t)1 << 18)

/* R9, and what would cost too much. */
static int is_asked(const struct options *options, struct bytes film, const struct model_film *read)
{
    uint8_t number = read->refused.number;

    if (options->reading.tables == USM_TABLES_ZERO_COLUMNS || options->reading.payloads == USM_PAYLOADS_AFTER_HEADER ||
        options->reading.audio == USM_AUDIO_CHANNEL || (number >= 9 && number <= 13))
        return 0;
    if (read->header.claimed > MOST_FILLED)
        return 0;
    if (number != 0)
        return read->header.chunks == 0 || read->chunk[read->count].as_listed.length <= MOST_FILLED;
    return read->header.chunks <= film.len;
}

static int same_bytes(struct bytes a, const uint8_t *at, size_t len)
{
    return a.len == len && (len == 0 || memcmp(a.at, at, len) == 0);
}

static void expect_film(const struct original_reply *reply, const struct model_film *read, struct bytes name,
                        const uint8_t *video, const uint8_t *audio)
{
    const struct model_header *header = &read->header;
    size_t i;

    expect(same_bytes(reply->name, name.at, name.len), "the original has another name");
    expect(reply->has_audio == header->has_audio && reply->has_video_codec == header->video_codec.given &&
               reply->has_audio_codec == header->audio_codec.given &&
               reply->video_codec == header->video_codec.number && reply->audio_codec == header->audio_codec.number,
           "the original has other codecs");
    expect(reply->is_ivf == (header->video_codec.given && header->video_codec.number == 9) &&
               reply->is_hca == (header->audio_codec.given && header->audio_codec.number == 4),
           "the original has other kinds");
    expect(same_bytes(reply->video, video, read->video_size), "the original has another video");
    expect(same_bytes(reply->audio, audio, read->audio_size), "the original has another audio");
    expect(reply->count == read->count, "the original has another count of chunks");
    for (i = 0; i < read->count; i++)
        expect(reply->chunks[i].start == read->chunk[i].as_listed.start &&
                   reply->chunks[i].length == read->chunk[i].as_listed.length &&
                   reply->chunks[i].kind == read->chunk[i].as_listed.kind &&
                   reply->chunks[i].data_type == read->chunk[i].as_listed.data_type,
               "the original has another chunk");
}

void try_original(const struct options *options, struct bytes film, const struct model_film *read, const uint8_t *video,
                  const uint8_t *audio)
{
    struct bytes fallback = {(const uint8_t *)"fallback", 8};
    struct bytes name = read->header.has_name ? read->header.name : fallback;
    struct original_reply reply;

    if (!is_asked(options, film, read))
        return;
    reply = original_extract(film, options->reading.audio != USM_AUDIO_NONE, options->key.given, options->key.number,
                             fallback);
    note(reply.outcome, 7, reply.place);
    expect(reply.outcome != PANICKED, "the original panics inside the domain");
    expect((reply.outcome == REFUSED) == (read->refused.number != 0),
           "the original accepts what is refused, or refuses");
    if (reply.outcome == ACCEPTED)
        expect_film(&reply, read, name, video, audio);
    else
        expect(reply.number == read->refused.number && reply.place == read->refused.place &&
                   reply.unknown_type == read->refused.type,
               "the original refuses otherwise");
}
