/* usm_index and usm_seek beside rules J: of a film, and of entries that nobody built. */
#include "fuzz.h"
#include "../../examples/replies.h"

#include <string.h>

/* So many bytes of a stream are sought one by one. */
#define SOUGHT 96

static struct model_film read;
static uint8_t video[MOST_FILM], none[1];
static struct usm_index_entry entries[MOST_FILM / 8 + 1];

static size_t entries_of_film(void)
{
    size_t count = 0, i;
    uint64_t place = 0;

    for (i = 0; i < read.count; i++)
        if (read.chunk[i].as_listed.kind == USM_CHUNK_VIDEO) {
            entries[count].place = place;
            entries[count].chunk = read.chunk[i].as_listed.start;
            entries[count++].length = read.chunk[i].as_listed.length;
            place += read.chunk[i].as_listed.length;
        }
    return count;
}

static void try_seek(const struct usm_index_entry *index, size_t count, uint64_t byte)
{
    struct usm_seek_reply reply = usm_seek(index, count, byte), expected = model_seek(index, count, byte);

    note(reply.found, 0, reply.offset);
    expect(reply.found == expected.found && reply.chunk == expected.chunk && reply.offset == expected.offset,
           "usm_seek: another answer");
}

/* J5: the byte that is found is the stream's. */
static void try_stream(struct bytes film, const struct usm_index_entry *index, size_t count)
{
    size_t n;

    for (n = 0; n < SOUGHT; n++) {
        size_t byte = n < SOUGHT / 2 ? n : read.video_size + SOUGHT / 2 + 8 - n;
        struct usm_seek_reply reply = usm_seek(index, count, byte);

        expect(reply.found == (byte < read.video_size), "usm_seek finds what is not there, or not what is");
        expect(!reply.found || film.at[reply.chunk + 32 + reply.offset] == video[byte], "usm_seek: another byte");
    }
}

static void try_index(const struct options *options, struct bytes film)
{
    size_t count = read.refused.number ? 0 : entries_of_film(), room = room_by(options->rooms[0], count);
    struct output index = lend_room(0, options, room * sizeof entries[0]);
    struct usm_index_entry *at = (struct usm_index_entry *)(void *)start_of(&index, options);
    struct usm_list_reply reply = usm_index(film.at, film.len, at, room);
    struct usm_list_reply expected = list_reply(read.refused.number, read.refused.place, 0, read.refused.type);

    if (read.refused.number == 0)
        expected = list_reply(room < count ? USM_SHORT_LIST : USM_ACCEPTED, 0, count, 0);
    note(reply.number, 1, reply.count);
    note(reply.number, 2, reply.refused_at);
    expect(same_list(reply, expected), "usm_index: another reply");
    expect_output(&index, (const uint8_t *)entries, reply.number == 0 ? count * sizeof entries[0] : 0,
                  "usm_index: other entries");
    if (reply.number == USM_ACCEPTED)
        try_stream(film, at, count);
}

void fuzz(const struct options *options)
{
    struct bytes film = lend(0, options, options->body);
    size_t count = film.len / sizeof entries[0], i;

    memcpy(entries, options->body.at, count * sizeof entries[0]);
    for (i = 0; i < count && i < 8; i++) {
        try_seek(entries, count, entries[(i * 7 + options->choice) % count].place + i / 2);
        try_seek(entries, count, entries[i].place + entries[i].length - 1);
    }
    try_seek(entries, count, options->other);
    model_read(film, USM_READ_VIDEO_ONLY, &read);
    if (read.refused.number == 0)
        model_streams(film, &read, USM_NO_KEY, video, none);
    try_index(options, film);
}
