/* usm_open, usm_step and usm_clear in cuts of any length, beside rules F and beside the functions over the whole film.
 */
#include "fuzz.h"
#include "../../examples/replies.h"

#include <string.h>

static struct model_film read;
static uint8_t video[MOST_FILM], audio[MOST_FILM];

/* A beginning of some bytes, of a film that has so many. */
static struct usm_open_reply try_beginning(const struct options *options, size_t len, size_t total)
{
    struct bytes part = {options->body.at, len < options->body.len ? len : options->body.len};
    struct bytes beginning = lend(1, options, part);
    struct usm_open_reply reply = usm_open(beginning.at, beginning.len, total, options->reading);

    note(reply.film.number, 0, reply.chunks);
    note(reply.film.number, 1, reply.film.refused_at);
    note(reply.more, 2, beginning.len);
    expect(same_open(reply, model_open(beginning, total, options->reading)), "usm_open: another reply");
    return reply;
}

static struct usm_step_reply step_reply(enum model_found found, const struct model_chunk *chunk, struct refused refused)
{
    struct usm_step_reply reply;

    memset(&reply, 0, sizeof reply);
    if (found == MODEL_REFUSED) {
        reply.number = refused.number;
        reply.refused_at = refused.place;
    } else if (found == MODEL_MORE) {
        reply.found = USM_STEP_MORE;
    } else if (found == MODEL_CHUNK) {
        reply.found = USM_STEP_CHUNK;
        reply.next = chunk->next;
        reply.payload = chunk->as_listed.start + chunk->as_listed.offset;
        reply.length = chunk->as_listed.length;
        reply.kind = chunk->as_listed.kind;
        reply.data_type = chunk->as_listed.data_type;
        reply.channel = chunk->as_listed.channel;
        reply.mask = chunk->mask;
    }
    return reply;
}

/* A window of some bytes at a place of the body, which is called another place of a film of any length. */
static struct usm_step_reply try_window(const struct options *options, size_t at, size_t len, size_t place,
                                        size_t total, struct usm_film_audio audio_is)
{
    struct bytes part = {options->body.at + at, len < options->body.len - at ? len : options->body.len - at};
    struct bytes window = lend(1, options, part);
    struct usm_step_reply reply = usm_step(window.at, window.len, place, total, options->reading, audio_is);
    struct model_chunk chunk;
    struct refused refused;
    enum model_found found = model_step(window, place, total, options->reading, audio_is, &chunk, &refused);

    note(reply.number, 3, reply.length);
    note(reply.found, 4, reply.next);
    note(reply.mask, 5, reply.kind);
    expect(same_step(reply, step_reply(found, &chunk, refused)), "usm_step: another reply");
    return reply;
}

/* The payload of a step, unmasked by its mask, is the part of its stream that begins at a byte. */
static void try_payload(const struct options *options, struct bytes film, struct usm_step_reply step,
                        const uint8_t *stream)
{
    struct output payload = lend_room(0, options, step.length);

    if (step.length > 0)
        memcpy(payload.at, film.at + step.payload, step.length);
    if (options->key.given)
        usm_clear(options->key.number, step.mask, start_of(&payload, options), payload.len);
    expect_output(&payload, stream, step.length, "an unmasked payload is not a part of the stream");
    expect(usm_payload_bits(step.mask, step.length) == model_payload_bits(step.mask, step.length),
           "usm_payload_bits: other bits");
}

/* The whole walk, by windows of 45 bytes or of more. */
static void try_walk(const struct options *options, struct bytes film, struct usm_open_reply opened)
{
    struct usm_film_audio audio_is = usm_audio_of(opened.film);
    size_t place = opened.chunks, i, seen = 0, heard = 0;

    for (i = 0; place < film.len; i++) {
        struct usm_step_reply step =
            try_window(options, place, 45 + (i + options->rooms[0]) % 3, place, film.len, audio_is);

        if (step.number != 0) {
            expect(step.number == read.refused.number && step.refused_at == read.refused.place,
                   "the steps are refused otherwise than the film");
            return;
        }
        if (step.found == USM_STEP_OVER)
            break;
        expect(step.found == USM_STEP_CHUNK, "a window of 45 bytes does not suffice");
        if (read.refused.number == 0 && step.kind <= USM_CHUNK_AUDIO) {
            try_payload(options, film, step, step.kind == USM_CHUNK_VIDEO ? video + seen : audio + heard);
            seen += step.kind == USM_CHUNK_VIDEO ? step.length : 0;
            heard += step.kind == USM_CHUNK_AUDIO ? step.length : 0;
        }
        place = step.next;
    }
    expect(read.refused.number == 0, "the steps accept a film that is refused");
    expect(seen == read.video_size && heard == read.audio_size, "the steps give another size");
}

/* Windows from anywhere in the body, said to stand anywhere in a film of any length, with any audio. */
static void try_anywhere(const struct options *options)
{
    struct usm_film_audio audio_is = {(uint32_t)options->key.number, options->rooms[0], options->rooms[1]};
    size_t at = options->body.len == 0 ? 0 : (size_t)(options->other % options->body.len);

    try_window(options, at, options->choice, (size_t)options->other, (size_t)options->key.number, audio_is);
    try_window(options, at, 60, (size_t)(options->other % 0x50000000), USM_CONTAINER_BYTES, audio_is);
    try_window(options, at, options->choice, at, options->body.len, audio_is);
    try_beginning(options, at, (size_t)options->key.number);
    try_beginning(options, at, options->body.len);
    try_beginning(options, options->choice * 8, options->body.len + options->rooms[1]);
}

void fuzz(const struct options *options)
{
    struct bytes film = lend(0, options, options->body);
    struct usm_open_reply opened = try_beginning(options, film.len, film.len);

    model_read(film, options->reading, &read);
    if (read.refused.number == 0)
        model_streams(film, &read, options->key, video, audio);
    expect(opened.more == 0, "the whole film asks for more");
    if (opened.film.number == USM_ACCEPTED)
        try_walk(options, film, opened);
    else
        expect(opened.film.number == read.refused.number, "the beginning is refused otherwise than the film");
    try_anywhere(options);
}
