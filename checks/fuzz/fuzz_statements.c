/* usm_statement and usm_statement_by beside both streams unpacked for every tenant, and beside keys that agree in bits.
 */
#include "fuzz.h"
#include "../../examples/replies.h"

#include <string.h>

#define MOST_TENANTS 18

static struct model_film read;
static uint8_t video[MOST_TENANTS][MOST_FILM], audio[MOST_TENANTS][MOST_FILM];
static struct usm_tenant tenants[MOST_TENANTS];
static struct usm_share lines[MOST_TENANTS];

/* The tenants: two bytes of the body for each say its number, and how its key differs from the first. */
static size_t read_tenants(const struct options *options, struct bytes *film)
{
    size_t count = options->choice % (MOST_TENANTS + 1), i;

    for (i = 0; i < count; i++) {
        uint8_t number = film->len < 2 ? (uint8_t)i : film->at[0], turned = film->len < 2 ? 0 : film->at[1];
        size_t taken = film->len < 2 ? film->len : 2;

        tenants[i].number = number & 0x80 ? options->other + number : number;
        tenants[i].key = options->key.number ^ (turned & 0x40 ? (uint64_t)1 << turned % 64 : 0) ^
                         (turned & 0x80 ? options->other : 0);
        film->at += taken;
        film->len -= taken;
    }
    return count;
}

static int is_bad(size_t count)
{
    size_t i, j;

    for (i = 0; i < count; i++)
        for (j = 0; j < i; j++)
            if (tenants[i].number == tenants[j].number)
                return 1;
    return count == 0 || count > 16;
}

static int have_one_stream(size_t i, size_t j)
{
    return memcmp(video[i], video[j], read.video_size) == 0 && memcmp(audio[i], audio[j], read.audio_size) == 0;
}

/* The bits that a film is said to show. */
static uint64_t shown;

static int agree(size_t i, size_t j)
{
    return ((tenants[i].key ^ tenants[j].key) & shown) == 0;
}

/* S2 to S4: the line of a tenant. */
static struct usm_share line_of(size_t i, size_t count, uint64_t copy, int (*share_copy)(size_t, size_t))
{
    struct usm_share line = {tenants[i].number, tenants[i].number, 0};
    uint64_t members = 0, lower = 0;
    size_t j;

    for (j = 0; j < count; j++)
        if (share_copy(i, j)) {
            members++;
            lower += tenants[j].number < tenants[i].number;
            line.group = tenants[j].number < line.group ? tenants[j].number : line.group;
        }
    line.share = copy / members + (lower < copy % members);
    return line;
}

/* All lines, each at the rank of its tenant. */
static void make_lines(size_t count, uint64_t copy, int (*share_copy)(size_t, size_t))
{
    size_t i, j, rank;

    for (i = 0; i < count; i++) {
        for (rank = j = 0; j < count; j++)
            rank += tenants[j].number < tenants[i].number;
        lines[rank] = line_of(i, count, copy, share_copy);
    }
}

static uint64_t bits_of_film(void)
{
    uint64_t bits = 0;
    size_t i;

    for (i = 0; i < read.count; i++)
        bits |= model_payload_bits(read.chunk[i].mask, read.chunk[i].as_listed.length);
    return bits;
}

/* The statement of a film that is known by bits and size alone. Of a film that is accepted the lines are those before.
 */
static void try_by(const struct options *options, const struct usm_tenant *list, size_t count, uint64_t bits,
                   size_t size)
{
    size_t room = room_by(options->rooms[1], count);
    struct output out = lend_room(1, options, room * sizeof lines[0]);
    struct usm_list_reply reply =
        usm_statement_by(bits, size, list, count, (struct usm_share *)(void *)start_of(&out, options), room);
    struct usm_list_reply expected = list_reply(room < count ? USM_SHORT_LIST : USM_ACCEPTED, 0, count, 0);

    if (is_bad(count))
        expected = list_reply(USM_BAD_TENANTS, 0, 0, 0);
    note(reply.number, 3, reply.count);
    expect(same_list(reply, expected), "usm_statement_by: another reply");
    expect_output(&out, (const uint8_t *)lines, reply.number == 0 ? count * sizeof lines[0] : 0,
                  "usm_statement_by: other lines");
}

void fuzz(const struct options *options)
{
    struct bytes body = options->body, film, list;
    size_t count = read_tenants(options, &body), room;
    struct usm_list_reply expected, reply;
    struct output out;

    film = lend(0, options, body);
    list = lend(1, options, (struct bytes){(const uint8_t *)tenants, count * sizeof tenants[0]});
    model_read(film, USM_READ_WITH_AUDIO, &read);
    room = room_by(options->rooms[0], count);
    out = lend_room(0, options, room * sizeof lines[0]);
    reply = usm_statement(film.at, film.len, (const struct usm_tenant *)(const void *)list.at, count,
                          (struct usm_share *)(void *)start_of(&out, options), room);
    expected = list_reply(read.refused.number, read.refused.place, 0, read.refused.type);
    if (is_bad(count))
        expected = list_reply(USM_BAD_TENANTS, 0, 0, 0);
    else if (read.refused.number == 0)
        expected = list_reply(room < count ? USM_SHORT_LIST : USM_ACCEPTED, 0, count, 0);
    note(reply.number, 0, reply.count);
    note(reply.number, 1, reply.refused_at);
    expect(same_list(reply, expected), "usm_statement: another reply");
    if (reply.number == USM_ACCEPTED) {
        size_t i;

        for (i = 0; i < count; i++)
            model_streams(film, &read, usm_with_key(tenants[i].key), video[i], audio[i]);
        make_lines(count, read.video_size + read.audio_size, have_one_stream);
        note(lines[count - 1].group == lines[0].group, 2, lines[0].share);
    }
    expect_output(&out, (const uint8_t *)lines, reply.number == 0 ? count * sizeof lines[0] : 0,
                  "usm_statement: other lines");
    if (reply.number == USM_ACCEPTED)
        try_by(options, (const struct usm_tenant *)(const void *)list.at, count, bits_of_film(),
               read.video_size + read.audio_size);
    shown = options->other;
    if (!is_bad(count))
        make_lines(count, options->key.number, agree);
    try_by(options, (const struct usm_tenant *)(const void *)list.at, count, shown, (size_t)options->key.number);
}
