/*
 * Hard use of usm_from_old and usm_to_old: on random films of the old builder and of usm_write, whole and
 * damaged, into outputs of every length near the size, all at pages that may not be touched; then on containers of
 * 64 MiB with as many audios as there can be. See README.md.
 *
 *     moves SECONDS SEED
 *
 * What is expected of usm_from_old follows from the builder, in examples/old_films.h, and from usm_write: the parts are
 * taken out of a container, with nothing checked, and the builder makes a film of them, which is the container or is
 * not. What is expected of usm_to_old follows from usm_extract and usm_write in the same way.
 */
#define _GNU_SOURCE
#define OLD_PARTS_MOST MOST
#define OLD_PARTS_AUDIOS 8
/* The longest container that is tried at an edge. */
#define MOST 0x60000
#include "old_parts.h"
#include "trials.h"
#include "usm.h"

#include <signal.h>
#include <stdio.h>
#include <stdlib.h>

/* The time that an answer may take, in nanoseconds: of a call, and of a byte of the container. */
#define FOR_THE_CALL 1e6
#define FOR_A_BYTE 20.0

#define COUNT(list) (sizeof list / sizeof list[0])

/* Lengths of streams: around those at which padding begins anew, frames are one more, or a payload is full. */
static const size_t SHORT[] = {0, 1, 3, 4, 5, 12, 13, 27, 28, 29, 31, 32, 33, 36, 37, 68, 0x240, 999, 1000};
static const size_t LONG[] = {1, OLD_PAYLOAD - 1, OLD_PAYLOAD, OLD_PAYLOAD + 1, 2 * OLD_PAYLOAD, 2 * OLD_PAYLOAD + 1};

/* Names: none, plain ones, of characters of each length and at their ends, and none of text. */
static const char *const NAMES[] = {"",
                                    "n",
                                    "a film of thirty-one bytes .usm",
                                    "one of thirty-two bytes for usm.",
                                    "\xE3\x82\xA2\xE3\x83\x8B\xE3\x83\xA1.usm",
                                    "\xF0\x9D\x84\x9E\xF0\x9F\x8E\xAC",
                                    "\x7F\xC2\x80\xDF\xBF\xE0\xA0\x80\xEF\xBF\xBF\xF0\x90\x80\x80\xF4\x8F\xBF\xBF",
                                    "\xFF",
                                    "\xC1\xBF",
                                    "\xED\xA0\x80",
                                    "\xE3\x82"};

/* A way of moving, with the codecs on the way from the old builder. */
struct move {
    int back;
    struct usm_codecs codecs;
};

/* What is expected of a move with room: the reply, and the bytes. */
struct moved {
    struct usm_size_reply reply;
    uint8_t bytes[MOST];
};

static struct memory film_memory, out_memory;
static uint64_t answers[2][256];

/* ---- what is expected */

static struct usm_size_reply size_reply(uint8_t given, size_t size)
{
    struct usm_size_reply reply;

    memset(&reply, 0, sizeof reply);
    reply.number = given;
    reply.size = size;
    return reply;
}

static int same_size(struct usm_size_reply a, struct usm_size_reply b)
{
    return a.refused_at == b.refused_at && a.size == b.size && a.number == b.number && a.unknown_type == b.unknown_type;
}

/* What usm_write answers and writes for the parts of a film with at most one audio. */
static void write_parts(struct moved *moved, struct old_parts parts, struct usm_codecs codecs)
{
    struct usm_packing packing = {{0, 0},
                                  codecs.video_codec,
                                  codecs.audio_codec,
                                  (uint8_t)parts.audio_count,
                                  codecs.has_video_codec,
                                  codecs.has_audio_codec};
    struct slice none = {NULL, 0}, audio = parts.audio_count ? parts.audios[0] : none;

    moved->reply = usm_write(parts.name.at, parts.name.len, parts.video.at, parts.video.len, audio.at, audio.len,
                             packing, moved->bytes, sizeof moved->bytes);
}

static void expect_from(struct moved *moved, const uint8_t *film, size_t len, struct usm_codecs codecs)
{
    static uint8_t rebuilt[2 * MOST];
    struct old_parts parts = parts_of(film, len);

    if (!is_utf8(parts.name) || put_old_film(rebuilt, parts) != len || memcmp(rebuilt, film, len) != 0)
        moved->reply = size_reply(USM_FOREIGN, 0);
    else if (parts.audio_count > 1)
        moved->reply = size_reply(USM_MANY_AUDIOS, 0);
    else
        write_parts(moved, parts, codecs);
}

/* The codecs of a container that is converted back, where it is one. */
static void expect_to(struct moved *moved, const uint8_t *film, size_t len, struct usm_codecs *codecs)
{
    struct usm_film_reply read = usm_extract(film, len, USM_READ_WITH_AUDIO, USM_NO_KEY, NULL, 0, videos, sizeof videos,
                                             audios[0], sizeof audios[0]);
    struct old_parts parts = {{film + read.name_start, read.name_length}, {videos, read.video_size}, heard, 0};

    codecs->video_codec = read.video_codec;
    codecs->audio_codec = read.audio_codec;
    codecs->has_video_codec = read.has_video_codec;
    codecs->has_audio_codec = read.has_audio_codec;
    heard[0].at = audios[0];
    heard[0].len = read.audio_size;
    parts.audio_count = read.has_audio;
    moved->reply = size_reply(USM_FOREIGN, 0);
    if (read.number == USM_ACCEPTED)
        write_parts(moved, parts, *codecs);
    if (moved->reply.number != USM_ACCEPTED || moved->reply.size != len || memcmp(moved->bytes, film, len) != 0 ||
        !is_utf8(parts.name))
        moved->reply = size_reply(USM_FOREIGN, 0);
    else
        moved->reply = size_reply(USM_ACCEPTED, put_old_film(moved->bytes, parts));
}

/* ---- what is tried */

static struct usm_size_reply move_into(struct move move, const uint8_t *film, size_t len, uint8_t *out, size_t room)
{
    struct usm_size_reply reply =
        move.back ? usm_to_old(film, len, out, room) : usm_from_old(film, len, move.codecs, out, room);

    answers[move.back][reply.number]++;
    return reply;
}

/* One move into an output of some bytes. */
static void try_room(enum edge edge, struct move move, const uint8_t *film, size_t len, const struct moved *expected,
                     size_t room, struct chance *chance)
{
    struct output out = lend_output(&out_memory, edge, room, chance);
    int is_short = expected->reply.number == USM_ACCEPTED && room < expected->reply.size;
    int is_moved = expected->reply.number == USM_ACCEPTED && !is_short;
    struct usm_size_reply reply =
        move_into(move, film, len, room == 0 && once_in(chance, 2) ? NULL : out.at, out.len);

    expect(same_size(reply, is_short ? size_reply(USM_SHORT_ROOM, expected->reply.size) : expected->reply),
           move.back ? "another reply of usm_to_old" : "another reply of usm_from_old");
    if (is_moved)
        expect(memcmp(out.at, expected->bytes, reply.size) == 0,
               move.back ? "other bytes of usm_to_old" : "other bytes of usm_from_old");
    expect(stays_from(&out, is_moved ? reply.size : 0), "bytes changed that are to stay");
}

/* Moves a container, lent read-only, into outputs of no bytes, of any length, and of every length near the size. */
static void try_move(enum edge edge, struct move move, const uint8_t *bytes, size_t len, const struct moved *expected,
                     struct chance *chance)
{
    const uint8_t *film = lend_bytes(&film_memory, edge, bytes, len);
    size_t size = expected->reply.size, room;

    try_room(edge, move, film, len, expected, 0, chance);
    try_room(edge, move, film, len, expected, below(chance, size + 40), chance);
    for (room = size < 3 ? 0 : size - 3; room <= size + 3; room++)
        try_room(edge, move, film, len, expected, room, chance);
}

/* Moves a container both ways. What is moved is moved back, and is the container again. */
static void try_container(enum edge edge, const uint8_t *bytes, size_t len, struct usm_codecs codecs,
                          struct chance *chance)
{
    static struct moved moved, again;
    struct move from = {0, codecs}, to = {1, codecs};

    memcpy(again.bytes, bytes, len);
    again.reply = size_reply(USM_ACCEPTED, len);
    expect_from(&moved, bytes, len, codecs);
    try_move(edge, from, bytes, len, &moved, chance);
    if (moved.reply.number == USM_ACCEPTED)
        try_move(edge, to, moved.bytes, moved.reply.size, &again, chance);
    expect_to(&moved, bytes, len, &from.codecs);
    try_move(edge, to, bytes, len, &moved, chance);
    if (moved.reply.number == USM_ACCEPTED)
        try_move(edge, from, moved.bytes, moved.reply.size, &again, chance);
}

static struct usm_codecs codecs_by(struct chance *chance)
{
    struct usm_codecs codecs = {(uint32_t)any(chance), (uint32_t)below(chance, 5), (uint8_t)below(chance, 2),
                                (uint8_t)below(chance, 2)};

    if (once_in(chance, 20))
        codecs.has_video_codec = codecs.has_audio_codec = (uint8_t)any(chance);
    return codecs;
}

/* A short stream, which now and then begins with the end marker. */
static struct slice stream_by(struct chance *chance, uint8_t *into)
{
    struct slice stream = {into, once_in(chance, 3) ? below(chance, 200) : SHORT[below(chance, COUNT(SHORT))]};

    fill_by_chance(chance, into, stream.len);
    if (once_in(chance, 12) && stream.len >= 13)
        memcpy(into, "#CONTENTS END", 13);
    return stream;
}

/* Random parts, of at most four audios. */
static struct old_parts parts_by(struct chance *chance)
{
    const char *name = NAMES[below(chance, once_in(chance, 8) ? COUNT(NAMES) : COUNT(NAMES) - 4)];
    struct old_parts parts = {{(const uint8_t *)name, strlen(name)}, {videos, 0}, heard, below(chance, 2)};
    size_t i;

    if (once_in(chance, 6))
        parts.audio_count = 2 + below(chance, 3);
    parts.video = stream_by(chance, videos);
    for (i = 0; i < parts.audio_count; i++)
        heard[i] = stream_by(chance, audios[i]);
    return parts;
}

/* Notes the numbers with which blocks begin: what is damaged more often than other bytes. */
static void note_heads(void)
{
    static const struct field HEAD[] = {{4, 4}, {8, 2}, {10, 2}, {12, 4}, {16, 4}};
    size_t at, i;

    trial.made.count = 0;
    for (at = 0; at + 32 <= trial.made.len; at += 32)
        for (i = 0; i < COUNT(HEAD) && (is_at(trial.made.bytes + at, "CRID") || trial.made.bytes[at] == '@'); i++)
            if (trial.made.count < MADE_FIELDS) {
                trial.made.fields[trial.made.count].at = at + HEAD[i].at;
                trial.made.fields[trial.made.count++].width = HEAD[i].width;
            }
}

/* A case: a film of the builder or of usm_write, one in two damaged. */
static void try_case(enum edge edge)
{
    static struct moved written;
    struct chance chance = chance_of(trial.seed, trial.number);
    struct usm_codecs codecs = codecs_by(&chance);
    struct old_parts parts = parts_by(&chance);
    size_t damages = once_in(&chance, 2) ? 0 : 1 + below(&chance, 2);

    trial.made.len = put_old_film(trial.made.bytes, parts);
    if (once_in(&chance, 2) && parts.audio_count < 2) {
        codecs.has_audio_codec = parts.audio_count ? codecs.has_audio_codec : 0;
        write_parts(&written, parts, codecs);
        trial.made.len = written.reply.size;
        memcpy(trial.made.bytes, written.bytes, trial.made.len);
    }
    note_heads();
    for (; damages > 0; damages--)
        damage(&trial.made, &chance);
    try_container(edge, trial.made.bytes, trial.made.len, codecs, &chance);
}

/* Streams of several turns, whole, and each with a byte changed in its last fourth. */
static void try_turns(enum edge edge)
{
    static uint8_t film[MOST];
    static const struct usm_codecs NONE = {0, 0, 0, 0};
    struct chance chance = chance_of(trial.seed, 1);
    size_t v, a, len;

    trial.made.len = 0;
    for (v = 0; v < COUNT(LONG); v++)
        for (a = 0; a <= COUNT(LONG); a++) {
            struct old_parts parts = {{NULL, 0}, {videos, LONG[v]}, heard, a < COUNT(LONG)};

            fill_by_chance(&chance, videos, LONG[v]);
            heard[0].at = audios[0];
            heard[0].len = a < COUNT(LONG) ? LONG[a] : 0;
            fill_by_chance(&chance, audios[0], heard[0].len);
            len = put_old_film(film, parts);
            try_container(edge, film, len, NONE, &chance);
            film[len - 1 - below(&chance, len / 4)] ^= 1;
            try_container(edge, film, len, NONE, &chance);
        }
}

/* ---- what is caught */

/* Moves a small film of the builder, or from 3 on it moved back; the container (1, 4) or the output (2, 5) lacks a byte
 * of those that the call is given as a length. */
static void move_small(size_t which)
{
    static const uint8_t streams[] = "0123456789";
    static uint8_t old[4096], new[4096];
    struct slice audio = {streams, 4};
    struct old_parts parts = {{streams, 3}, {streams, 7}, &audio, 1};
    struct move move = {which >= 3, {9, 2, 1, 1}};
    size_t old_len = put_old_film(old, parts), new_len = usm_from_old(old, old_len, move.codecs, new, sizeof new).size;
    size_t len = move.back ? new_len : old_len, room = move.back ? old_len : new_len;
    struct chance chance = chance_of(1, 1);
    struct output out = lend_output(&out_memory, ENDS, room - (which % 3 == 2), &chance);

    move_into(move, lend_bytes(&film_memory, ENDS, move.back ? new : old, len - (which % 3 == 1)), len, out.at, room);
}

static void show_catches(void)
{
    size_t which;

    for (which = 0; which < 6; which++)
        expect(signal_of(move_small, which) == (which % 3 == 0 ? 0 : SIGSEGV),
               "a call that reaches too far is not caught");
    printf("moves: with a length of container or output one byte too large, a call ends by SIGSEGV\n");
}

/* ---- the most audios */

/* Times a call without an output on a container of 64 MiB, which is answered so. */
static void time_many(const char *what, const uint8_t *film, size_t len, uint8_t given)
{
    static const struct usm_codecs NONE = {0, 0, 0, 0};
    double began = seconds_by(CLOCK_PROCESS_CPUTIME_ID), spent;
    struct usm_size_reply reply = usm_from_old(film, len, NONE, NULL, 0);

    spent = (seconds_by(CLOCK_PROCESS_CPUTIME_ID) - began) * 1e9;
    printf("moves: %9zu bytes, %-58s %2d in %7.2f ms, %5.2f ns a byte\n", len, what, reply.number, spent / 1e6,
           spent / (double)len);
    expect(reply.number == given, "another answer on a container of 64 MiB");
    expect(spent < FOR_A_BYTE * (double)len + FOR_THE_CALL, "an answer that takes more than in proportion");
}

/* A container of 64 MiB with so many audios, of one byte each or empty; the video has what is left. Whole, then with
 * another last byte, then without its last end. */
static void try_many(const char *what, size_t count, size_t audio_len, uint8_t given)
{
    static const uint8_t byte = 'a';
    size_t bytes = (size_t)64 << 20, taken = 1024 + count * (OLD_AUDIO + OLD_END + (audio_len ? 32 : 0)), i, len;
    struct slice *list = (struct slice *)malloc((count + 1) * sizeof *list);
    size_t video_len = bytes < taken ? 0 : (bytes - taken) / (OLD_PAYLOAD + 32) * OLD_PAYLOAD;
    struct old_parts parts = {{NULL, 0}, {make_zeros(video_len + 1), video_len}, list, count};
    uint8_t *film = make_zeros(bytes + OLD_PAYLOAD);

    expect(list != NULL, "no memory");
    for (i = 0; i < count; i++) {
        list[i].at = &byte;
        list[i].len = audio_len;
    }
    len = put_old_film(film, parts);
    time_many(what, film, len, given);
    film[len - 1] ^= 1;
    time_many("the same, with another last byte:", film, len, USM_FOREIGN);
    time_many("the same, without its last end:", film, len - OLD_END, USM_FOREIGN);
    free(list);
}

int main(int count, char **words)
{
    double seconds = begin_trials("moves", count, words);
    size_t most = ((size_t)64 << 20) - 1024;

    make_memory(&film_memory, MOST, 1);
    make_memory(&out_memory, MOST + MARGIN, 0);
    show_catches();
    expect_no_signal();
    try_turns(ENDS);
    try_turns(BEGINS);
    try_cases(seconds, try_case);
    print_answers("usm_from_old", answers[0]);
    print_answers("\nusm_to_old", answers[1]);
    printf("\n");
    trial.made.len = 0;
    try_many("no audio:", 0, 0, USM_SHORT_ROOM);
    try_many("audios without a byte, as many as there can be:", most / (OLD_AUDIO + OLD_END), 0, USM_MANY_AUDIOS);
    try_many("audios of a byte, as many as there can be:", most / (OLD_AUDIO + OLD_END + 32), 1, USM_MANY_AUDIOS);
    try_many("half of it audios without a byte, and half video:", most / 2 / (OLD_AUDIO + OLD_END), 0, USM_MANY_AUDIOS);
    printf("moves: all as expected\n");
    return 0;
}
