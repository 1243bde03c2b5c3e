/*
 * Films written at the edge of forbidden pages, into outputs of every length from 0 to the film's size and
 * one more: see README.md. Each film is small; its name and streams are lent read-only. What is expected of
 * every reply follows from the film's size, and of every output from what a first call wrote: below the size
 * all bytes stay, from it on they are the film and then what they were. The film is then extracted, and has
 * to give back what it was made of; and it is written piece by piece, each piece into outputs of every length
 * too. The status is 1 where something else happens.
 */
#define _GNU_SOURCE
#include "lent.h"
#include "usm.h"

#include <stdio.h>
#include <stdlib.h>
#include <string.h>

#define SEED 1
#define MOST 4096

#define COUNT(list) (sizeof list / sizeof list[0])

/* Lengths of names and streams: none, one byte, around a multiple of 0x20, and around where masks begin. */
static const size_t NAMES[] = {0, 1, 9, 10, 11, 42};
static const size_t STREAMS[] = {0, 1, 31, 32, 33, 0x141, 0x23F, 0x240};

static struct memory name_memory, video_memory, audio_memory, out_memory;
static uint8_t film[MOST], streams[3][MOST], back[2][MOST];
static uint64_t calls;

static void fail(const char *what, size_t name_len, size_t video_len, size_t audio_len, size_t room)
{
    printf("writes: %s; name %zu, video %zu, audio %zu, output %zu bytes\n", what, name_len, video_len, audio_len,
           room);
    exit(1);
}

/* Whether the output's first bytes are the film, and the others are as they were. */
static int holds(const struct output *out, size_t size)
{
    return memcmp(out->at, film, size) == 0 && stays_from(out, size);
}

/* The film, as a first call writes it into plain memory. */
static struct usm_size_reply write_once(const size_t *lens, struct usm_packing packing)
{
    calls++;
    return usm_write(streams[0], lens[0], streams[1], lens[1], streams[2], lens[2], packing, film, sizeof film);
}

/* Tells whether extraction gives back the film's name and streams. */
static int reads_back(const size_t *lens, struct usm_packing packing, size_t size)
{
    struct usm_film_reply read = usm_extract(film, size, USM_READ_WITH_AUDIO, packing.key, NULL, 0, back[0], lens[1],
                                             back[1], packing.has_audio ? lens[2] : 0);

    return read.number == USM_ACCEPTED && read.name_length == lens[0] && read.video_size == lens[1] &&
           read.audio_size == (packing.has_audio ? lens[2] : 0) &&
           memcmp(film + read.name_start, streams[0], lens[0]) == 0 && memcmp(back[0], streams[1], lens[1]) == 0 &&
           memcmp(back[1], streams[2], read.audio_size) == 0;
}

/* Looks at a piece that was put into an output: the film's bytes from one on, or nothing where there is no room. */
static void check_piece(const struct output *out, struct usm_size_reply reply, size_t at, size_t size,
                        const size_t *lens)
{
    calls++;
    if (reply.number != (out->len < size ? USM_SHORT_ROOM : USM_ACCEPTED) || reply.size != size ||
        reply.refused_at != 0 || reply.unknown_type != 0)
        fail("another reply on a piece than expected", lens[0], lens[1], lens[2], out->len);
    if (out->len < size ? !stays_from(out, 0) : memcmp(out->at, film + at, size) != 0 || !stays_from(out, size))
        fail("another piece than expected", lens[0], lens[1], lens[2], out->len);
}

/* The chunk of a turn into outputs of every length, and its payload. Gives where it ends; 0 where the streams are over. */
static size_t try_turn(enum edge edge, size_t at, size_t *turn, const size_t *lens, struct usm_packing packing,
                       struct chance *chance)
{
    struct usm_turn_reply next = {{0, 0, 0, 0}, 0, 0, 0, 0, 0, 0, 0};
    struct output out;
    size_t room, i;

    for (room = 0; room <= USM_HEAD_BYTES + 1; room++) {
        out = lend_output(&out_memory, edge, room, chance);
        next = usm_write_chunk(lens[1], lens[2], *turn, packing, out.at, out.len);
        if (next.found == USM_STEP_OVER) {
            check_piece(&out, next.head, at, 0, lens);
            return 0;
        }
        check_piece(&out, next.head, at, USM_HEAD_BYTES, lens);
    }
    out = lend_output(&out_memory, edge, next.length, chance);
    memcpy(out.at, streams[next.kind == USM_CHUNK_VIDEO ? 1 : 2] + next.from, next.length);
    check_piece(&out, usm_write_payload(packing.key.number, next.mask, out.at, out.len), at + USM_HEAD_BYTES,
                next.length, lens);
    at += USM_HEAD_BYTES + next.length;
    for (i = 0; i < next.padding; i++)
        if (film[at + i] != 0)
            fail("a byte of the padding is not 0", lens[0], lens[1], lens[2], at + i);
    *turn = next.next;
    return at + next.padding;
}

/* Writes one film piece by piece, each into outputs of every length: the pieces are the film's bytes, one after the other. */
static void try_pieces(enum edge edge, const size_t *lens, struct usm_packing packing, size_t size,
                       struct chance *chance)
{
    const uint8_t *name = lend_bytes(&name_memory, edge, streams[0], lens[0]);
    size_t header = usm_write_open(name, lens[0], lens[1], lens[2], packing, NULL, 0).size;
    size_t ends = usm_write_end(packing, NULL, 0).size;
    size_t at = header, turn = 0, room, next;

    for (room = 0; room <= header + 1; room++) {
        struct output out = lend_output(&out_memory, edge, room, chance);

        check_piece(&out, usm_write_open(name, lens[0], lens[1], lens[2], packing, out.at, out.len), 0, header, lens);
    }
    while ((next = try_turn(edge, at, &turn, lens, packing, chance)) != 0)
        at = next;
    for (room = 0; room <= ends + 1; room++) {
        struct output out = lend_output(&out_memory, edge, room, chance);

        check_piece(&out, usm_write_end(packing, out.at, out.len), at, ends, lens);
    }
    if (at + ends != size)
        fail("the pieces are not all of the film", lens[0], lens[1], lens[2], at + ends);
}

/* How many bytes a stream of a size has in payload k, counted down. */
static size_t payload_bytes(size_t size, size_t k)
{
    if (k > size / 65536)
        return 0;
    return size - k * 65536 < 65536 ? size - k * 65536 : 65536;
}

/* Turns of streams that are as long as can be: what is said of each, beside what the payloads of both streams are. */
static void try_turns(enum edge edge, struct chance *chance)
{
    static const size_t sizes[] = {0, 1, 65535, 65536, 65537, 131072, 131073, 1073741824, SIZE_MAX - 65536, SIZE_MAX};
    static const size_t turns[] = {0, 1, 2, 3, 4, 5, 32767, 32768, 32769, SIZE_MAX / 32768 - 1, SIZE_MAX / 32768, SIZE_MAX - 1, SIZE_MAX};
    struct usm_packing packing = {{0, 1}, 0, 2, 1, 0, 1};
    size_t v, a, t;

    for (v = 0; v < COUNT(sizes); v++)
        for (a = 0; a < COUNT(sizes); a++)
            for (t = 0; t < COUNT(turns); t++) {
                struct output out = lend_output(&out_memory, edge, USM_HEAD_BYTES, chance);
                struct usm_turn_reply next =
                    usm_write_chunk(sizes[v], sizes[a], turns[t], packing, out.at, out.len);
                size_t turn = turns[t], tries;

                calls++;
                /* The turn itself, or the one after it; both counted by hand, so that no number wraps. */
                for (tries = 0; tries < 2; tries++) {
                    int is_audio = (turns[t] % 2 + tries) % 2 == 1;
                    size_t k = turns[t] / 2 + (turns[t] % 2 + tries) / 2;
                    size_t bytes = payload_bytes(is_audio ? sizes[a] : sizes[v], k);

                    if (bytes == 0)
                        continue;
                    turn = 2 * k + (size_t)is_audio;
                    if (next.found != USM_STEP_CHUNK || next.kind != (is_audio ? USM_CHUNK_AUDIO : USM_CHUNK_VIDEO) ||
                        next.from != k * 65536 || next.length != bytes || next.next != turn + 1 ||
                        next.padding != (32 - bytes % 32) % 32 ||
                        next.mask != (is_audio ? USM_MASK_AUDIO : USM_MASK_VIDEO))
                        fail("another turn than expected", turns[t], sizes[v], sizes[a], k);
                    break;
                }
                if (tries == 2 && (next.found != USM_STEP_OVER || next.next != 0 || next.length != 0 || !stays_from(&out, 0)))
                    fail("a turn where both streams are over", turns[t], sizes[v], sizes[a], turn);
            }
}

/* Writes one film into outputs of every length. */
static void try_film(enum edge edge, const size_t *lens, struct usm_packing packing, struct chance *chance)
{
    const uint8_t *name = lend_bytes(&name_memory, edge, streams[0], lens[0]);
    const uint8_t *video = lend_bytes(&video_memory, edge, streams[1], lens[1]);
    const uint8_t *audio = lend_bytes(&audio_memory, edge, streams[2], lens[2]);
    size_t size = write_once(lens, packing).size, room;

    if (!reads_back(lens, packing, size))
        fail("the film is not read back", lens[0], lens[1], lens[2], sizeof film);
    for (room = 0; room <= size + 1; room++) {
        struct output out = lend_output(&out_memory, edge, room, chance);
        struct usm_size_reply reply =
            usm_write(name, lens[0], video, lens[1], audio, lens[2], packing, out.at, out.len);

        calls++;
        if (reply.number != (room < size ? USM_SHORT_ROOM : USM_ACCEPTED) || reply.size != size ||
            reply.refused_at != 0 || reply.unknown_type != 0)
            fail("another reply than expected", lens[0], lens[1], lens[2], room);
        if (room < size ? !stays_from(&out, 0) : !holds(&out, size))
            fail("another output than expected", lens[0], lens[1], lens[2], room);
    }
    try_pieces(edge, lens, packing, size, chance);
}

/* A refusal that leaves every output as it was. */
static void try_refused(enum edge edge, uint8_t number, const size_t *lens, struct usm_packing packing,
                        struct chance *chance)
{
    size_t room;

    for (room = 0; room <= MOST; room += 1 + room / 8) {
        struct output out = lend_output(&out_memory, edge, room, chance);
        struct usm_size_reply reply = usm_write(streams[0], lens[0], streams[1], lens[1], streams[2], lens[2], packing,
                                                out.at, out.len);

        calls++;
        if (reply.number != number || reply.size != 0 || reply.refused_at != 0 || !stays_from(&out, 0))
            fail("another refusal than expected", lens[0], lens[1], lens[2], room);
    }
}

/* The header of a refused film, and a marked payload, are refused and left alike. */
static void try_refused_pieces(enum edge edge, struct chance *chance)
{
    static const uint8_t MARKER[] = "#CONTENTS END";
    struct usm_packing packing = {{0, 0}, 0, 0, 0, 0, 1};
    struct output out = lend_output(&out_memory, edge, MOST, chance);
    uint8_t mask;

    calls += 2;
    if (usm_write_open(streams[0], 4, 33, 33, packing, out.at, out.len).number != USM_CODEC_ALONE ||
        !stays_from(&out, 0))
        fail("a header with a codec alone", 4, 33, 33, MOST);
    packing.has_audio = 1;
    if (usm_write_open(streams[0], 4, 1073741824, 0, packing, out.at, out.len).number != USM_TOO_LONG ||
        !stays_from(&out, 0))
        fail("a header of a film that is too long", 4, 1073741824, 0, MOST);
    for (mask = 0; mask < 4; mask++) {
        size_t len;

        for (len = 0; len <= 0x300; len += len < 16 ? 1 : 99) {
            size_t front = len < 13 ? len : 13;
            struct usm_size_reply reply;

            out = lend_output(&out_memory, edge, len, chance);
            memcpy(out.at, MARKER, front);
            reply = usm_write_payload(0x0123456789ABCDEF, mask, out.at, len);
            calls++;
            if (reply.number != (len < 13 ? USM_ACCEPTED : USM_MARKED_PAYLOAD) || reply.size != (len < 13 ? len : 0) ||
                memcmp(out.at, MARKER, front) != 0 || !stays_from(&out, front))
                fail("a marked payload", 0, len, mask, len);
        }
    }
}

/* All films of one edge: every name, stream and packing that differs. */
static void try_edge(enum edge edge, struct chance *chance)
{
    size_t n, v, a, p;

    for (n = 0; n < COUNT(NAMES); n++)
        for (v = 0; v < COUNT(STREAMS); v++)
            for (a = 0; a < COUNT(STREAMS); a += 1 + n)
                for (p = 0; p < 4; p++) {
                    size_t lens[3] = {NAMES[n], STREAMS[v], STREAMS[a]};
                    struct usm_packing packing = {{0x0123456789ABCDEF, (uint8_t)(p % 2)}, 9, 2, (uint8_t)(p / 2),
                                                  (uint8_t)(v % 2), (uint8_t)(p / 2)};

                    try_film(edge, lens, packing, chance);
                }
}

static void try_refusals(enum edge edge, struct chance *chance)
{
    static const size_t lens[3] = {4, 33, 33};
    struct usm_packing packing = {{0, 0}, 0, 0, 0, 0, 1};

    try_refused(edge, USM_CODEC_ALONE, lens, packing, chance);
    packing.has_audio = 1;
    memcpy(streams[2], "#CONTENTS END", 13);
    try_refused(edge, USM_MARKED_PAYLOAD, lens, packing, chance);
    memcpy(streams[1], "#CONTENTS END", 13);
    packing.has_audio = 0;
    packing.has_audio_codec = 0;
    try_refused(edge, USM_MARKED_PAYLOAD, lens, packing, chance);
}

int main(void)
{
    struct chance chance = {SEED};
    enum edge edge;
    size_t i;

    make_memory(&name_memory, MOST, 1);
    make_memory(&video_memory, MOST, 1);
    make_memory(&audio_memory, MOST, 1);
    make_memory(&out_memory, MOST + MARGIN, 0);
    for (edge = ENDS; edge <= BEGINS; edge = (enum edge)(edge + 1)) {
        for (i = 0; i < 3; i++)
            fill_by_chance(&chance, streams[i], MOST);
        try_edge(edge, &chance);
        try_refusals(edge, &chance);
        try_refused_pieces(edge, &chance);
        try_turns(edge, &chance);
    }
    printf("writes: %llu calls of usm_write and of its pieces, all as expected\n", (unsigned long long)calls);
    return 0;
}
