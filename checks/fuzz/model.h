/*
 * A second opinion: what every function of usm.h must answer, by the words of docs/RULES.md, in the plainest C. It
 * knows nothing of the libraries. It is compiled for coverage, so that the inputs that reach more of it are kept.
 */
#ifndef MODEL_H
#define MODEL_H

#include "usm.h"

#include <stddef.h>
#include <stdint.h>

/* The longest input that a harness takes, and the longest stream that is written. */
#define MOST_FILM 0x4000
#define MOST_STREAM 0x21000
#define MOST_WRITTEN 0x48000

struct bytes {
    const uint8_t *at;
    size_t len;
};

/* Why something is refused; number 0 where it is not. */
struct refused {
    uint8_t number, type;
    size_t place;
};

/* Rules K and M. */
struct model_keys {
    uint8_t t[32], v[32], a[32];
};

void model_keys(uint64_t key, struct model_keys *keys);
void model_unmask_video(uint64_t key, uint8_t *payload, size_t len);
void model_mask_video(uint64_t key, uint8_t *payload, size_t len);
void model_mask_audio(uint64_t key, uint8_t *payload, size_t len);

/* Rules T. A cell is as usm_cell replies it. */
struct model_cell {
    uint8_t kind;
    uint64_t value;
    size_t length;
};

struct model_column {
    struct bytes name;
    uint8_t nibble, type;
    struct model_cell constant;
};

struct model_table {
    /* All bytes of the table are there, and its counts are allowed. */
    int is_laid;
    /* The most bytes that something in it claims to have. */
    size_t claimed;
    size_t columns, rows;
    struct model_column column[64];
    struct model_cell cell[256][64];
};

struct refused model_table(struct bytes slice, size_t place, int zero_columns, struct model_table *table);
struct model_cell model_cell(const struct model_table *table, struct bytes name, size_t row);

/* Rules V: the bytes of a table's CSV; those that the room has are written. */
size_t model_csv(struct bytes slice, const struct model_table *table, uint8_t *out, size_t room);

/* Rules H. */
struct model_codec {
    int given;
    uint32_t number;
};

struct model_header {
    /* The refusal is 1 inside a table that is there whole: more bytes change nothing. */
    int is_settled;
    /* The most bytes that something in it claims to have. */
    size_t claimed;
    size_t chunks;
    int has_audio, has_name;
    struct bytes name;
    struct model_codec video_codec, audio_codec;
};

struct refused model_header(struct bytes film, int zero_columns, struct model_header *header);

/* Rules C. */
enum model_found { MODEL_OVER, MODEL_CHUNK, MODEL_MORE, MODEL_REFUSED };

struct model_chunk {
    struct usm_chunk as_listed;
    size_t next;
    uint32_t block_size;
    uint16_t header_size;
    uint8_t letters[4];
    uint8_t mask;
};

/* What stands at a place of a film of so many bytes, by a window of it. */
enum model_found model_step(struct bytes window, size_t place, size_t total, struct usm_reading reading,
                            struct usm_film_audio audio, struct model_chunk *chunk, struct refused *refused);

/* A film as it is read: its header, its chunks, or the first refusal. */
struct model_film {
    struct refused refused;
    struct model_header header;
    struct model_chunk chunk[MOST_WRITTEN / 8 + 1];
    size_t count, video_size, audio_size;
};

void model_read(struct bytes film, struct usm_reading reading, struct model_film *read);

/* Both streams of a film that is accepted, in memory that is long enough. */
void model_streams(struct bytes film, const struct model_film *read, struct usm_key key, uint8_t *video,
                   uint8_t *audio);

/* What usm_extract replies on a film with outputs of these lengths. */
struct usm_film_reply model_reply(const struct model_film *read, struct bytes film, size_t fallback_len,
                                  size_t video_len, size_t audio_len);
/* What usm_open replies by the first bytes of a film of so many. */
struct usm_open_reply model_open(struct bytes beginning, size_t total, struct usm_reading reading);

/* Rule D5a: the bits that a payload shows. */
uint64_t model_payload_bits(uint8_t mask, size_t length);

/* Rules U, P and J. */
struct usm_salvage_reply model_salvage(struct bytes film);
struct usm_profile_reply model_profile(struct bytes film);
struct usm_seek_reply model_seek(const struct usm_index_entry *index, size_t count, uint64_t byte);

/* Rules W: the reply on a film with room enough, and its bytes. */
struct model_parts {
    struct bytes name, video, audio;
    struct usm_packing packing;
};

struct usm_size_reply model_write(struct model_parts parts, uint8_t *out);

/* Rules O: the same of a film moved, onward and back. */
struct usm_size_reply model_from_old(struct bytes film, struct usm_codecs codecs, uint8_t *out);
struct usm_size_reply model_to_old(struct bytes film, uint8_t *out);

#endif
