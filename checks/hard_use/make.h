/*
 * Random films, tables and keys: whole films of many shapes, damaged ones, and bytes without sense.
 */
#ifndef MAKE_H
#define MAKE_H

#include "chance.h"
#include "usm.h"

#include <stddef.h>
#include <stdint.h>

#define MADE_BYTES 65536
#define MADE_FIELDS 1024

/* How many channels the chunks of a film that is made have, from 0 on. */
#define CHANNELS 3

/* Where a number stands that a reader goes by, and its bytes. */
struct field {
    size_t at;
    unsigned width;
};

/* What is made, with its fields. */
struct made {
    uint8_t bytes[MADE_BYTES];
    size_t len;
    struct field fields[MADE_FIELDS];
    size_t count;
};

/* Changes a byte, a bit, a span, the length or a field. */
void damage(struct made *made, struct chance *chance);

/* Makes a film: whole, damaged or no film at all. */
void make_any_film(struct made *made, struct chance *chance);

/* Puts the header of the song, a film with ADX audio, and gives its bytes. */
size_t put_song_header(uint8_t *film);

/* Makes the longest film, read-only: chunks so many bytes apart, video and ADX audio by turns, the last one up to its
 * end. It ends at a page that may not be touched. */
uint8_t *make_longest(size_t apart);

/* Makes a film of a few payloads around the lengths at which they show more of a key. */
void make_clips(struct made *made, struct chance *chance);

/* How a film is read: any audio, any channel, both modes of tables and payloads, and now and then a number without a
 * name. */
struct usm_reading reading_by_chance(struct chance *chance);

/* A key, or none. */
struct usm_key key_by_chance(struct chance *chance);

/* Bits of a key that change nothing. */
#define IDLE_BITS 0xFF0000F000000000

/* A key that often has one copy with another one: the same, or one that differs in few bits. */
uint64_t key_near(struct chance *chance, uint64_t key);

/* Makes a table, with bytes in front of it as its place says. */
size_t make_any_table(struct made *made, struct chance *chance);

#endif
