/* usm_from_old and usm_to_old beside rules O and W, and what is moved moved back. */
#include "fuzz.h"

#include <string.h>

static uint8_t expected[MOST_WRITTEN];

static struct usm_codecs codecs_of(const struct options *options)
{
    struct usm_codecs codecs = {(uint32_t)options->key.number, (uint32_t)(options->key.number >> 32) % 5,
                                options->reading.payloads, options->reading.tables};

    return codecs;
}

/* One move, as it is asked for, and the same for the model. */
static struct usm_size_reply move(const struct options *options, int is_back, struct bytes film, uint8_t *out,
                                  size_t room)
{
    return is_back ? usm_to_old(film.at, film.len, out, room)
                   : usm_from_old(film.at, film.len, codecs_of(options), out, room);
}

static struct usm_size_reply model_move(const struct options *options, int is_back, struct bytes film)
{
    return is_back ? model_to_old(film, expected) : model_from_old(film, codecs_of(options), expected);
}

/* What was moved, moved again the other way: the first bytes. Codecs are those of a container that is moved back. */
static void move_again(const struct options *options, int is_back, struct bytes film, struct bytes moved)
{
    struct bytes lent = lend(1, options, moved);
    struct output out = lend_room(1, options, film.len);
    struct options other = *options;
    struct usm_size_reply reply;

    if (is_back) {
        struct usm_film_reply read = usm_open(film.at, film.len, film.len, USM_READ_WITH_AUDIO).film;
        struct usm_codecs codecs = {read.video_codec, read.audio_codec, read.has_video_codec, read.has_audio_codec};

        reply = usm_from_old(lent.at, lent.len, codecs, out.at, out.len);
    } else {
        reply = move(&other, 1, lent, out.at, out.len);
    }
    expect(reply.number == USM_ACCEPTED && reply.size == film.len, "what was moved is not moved back");
    expect_output(&out, film.at, film.len, "what was moved back is not what it was");
}

static void try_move(const struct options *options, int is_back, struct bytes film)
{
    struct usm_size_reply full = model_move(options, is_back, film);
    struct output out = lend_room(0, options, room_by(options->rooms[is_back], full.size));
    int is_short = full.number == 0 && out.len < full.size;
    struct usm_size_reply reply = move(options, is_back, film, start_of(&out, options), out.len);

    note(reply.number, (size_t)is_back, reply.size);
    expect(reply.number == (is_short ? USM_SHORT_ROOM : full.number),
           is_back ? "usm_to_old: another number" : "usm_from_old: another number");
    expect(reply.size == full.size && reply.refused_at == 0 && reply.unknown_type == 0, "a move: another reply");
    expect_output(&out, expected, reply.number == 0 ? full.size : 0,
                  is_back ? "usm_to_old: other bytes" : "usm_from_old: other bytes");
    if (reply.number == 0)
        move_again(options, is_back, film, (struct bytes){out.at, full.size});
}

void fuzz(const struct options *options)
{
    struct bytes film = lend(0, options, options->body);

    try_move(options, 0, film);
    try_move(options, 1, film);
}
