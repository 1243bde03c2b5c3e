/* usm_extract and usm_list, beside rules H, C and R; and, where it is linked, beside the original Rust. */
#include "fuzz.h"
#include "../../examples/replies.h"
#include "original.h"

static struct model_film read;
static uint8_t video[MOST_FILM], audio[MOST_FILM];

static void try_extract(const struct options *options, struct bytes film)
{
    struct output seen = lend_room(0, options, room_by(options->rooms[0], read.video_size));
    struct output heard = lend_room(1, options, room_by(options->rooms[1], read.audio_size));
    struct bytes fallback = lend(1, options, (struct bytes){(const uint8_t *)&options->other, options->choice % 9});
    struct usm_film_reply expected = model_reply(&read, film, fallback.len, seen.len, heard.len);
    struct usm_film_reply reply =
        usm_extract(film.at, film.len, options->reading, options->key, fallback.at, fallback.len,
                    start_of(&seen, options), seen.len, start_of(&heard, options), heard.len);
    int is_accepted = reply.number == USM_ACCEPTED;

    note(reply.number, 0, reply.refused_at);
    note(reply.number, 1, reply.video_size);
    note(reply.number, 2, reply.audio_size);
    note(reply.number, 3, reply.unknown_type);
    note(reply.number, 4, reply.name_length);
    expect(same_film(reply, expected), "usm_extract: another reply");
    expect_output(&seen, video, is_accepted ? read.video_size : 0, "usm_extract: another video");
    expect_output(&heard, audio, is_accepted ? read.audio_size : 0, "usm_extract: another audio");
}

static void try_list(const struct options *options, struct bytes film)
{
    size_t room = room_by(options->rooms[0], read.count), size = sizeof(struct usm_chunk), i;
    struct output list = lend_room(2, options, room * size);
    struct usm_list_reply reply =
        usm_list(film.at, film.len, options->reading, (struct usm_chunk *)(void *)start_of(&list, options), room);
    struct usm_list_reply expected = list_reply(read.refused.number, read.refused.place, 0, read.refused.type);

    if (read.refused.number == 0)
        expected = list_reply(room < read.count ? USM_SHORT_LIST : USM_ACCEPTED, 0, read.count, 0);
    note(reply.number, 5, reply.count);
    expect(same_list(reply, expected), "usm_list: another reply");
    for (i = 0; reply.number == USM_ACCEPTED && i < read.count; i++) {
        struct usm_chunk chunk = ((const struct usm_chunk *)(const void *)list.at)[i], model = read.chunk[i].as_listed;

        note(chunk.kind, 6, chunk.length);
        expect(chunk.start == model.start && chunk.kind == model.kind && chunk.data_type == model.data_type &&
                   chunk.channel == model.channel && chunk.offset == model.offset && chunk.length == model.length,
               "usm_list: another chunk");
    }
    expect(stays_from(&list, reply.number == USM_ACCEPTED ? read.count * size : 0), "usm_list: records changed");
}

void fuzz(const struct options *options)
{
    struct bytes film = lend(0, options, options->body);

    model_read(film, options->reading, &read);
    if (read.refused.number == 0)
        model_streams(film, &read, options->key, video, audio);
    try_extract(options, film);
    try_list(options, film);
    try_original(options, film, &read, video, audio);
}
