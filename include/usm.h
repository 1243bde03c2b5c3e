/*
 * usm.h: USM films and their chunks, the masks of their payloads, and @UTF tables, for C and C++.
 *
 * The masks are in libplayer.a, everything else in libusm.a. `./usm` and `examples/run` put them into
 * target/staticlib/; `rt lib`, in crates/player_c and crates/usm_c, is what proves and builds them. Both link
 * into x86-64 Linux programs and shared objects, position independent or not, alone or together, and need
 * no other library: of the C library they call memcpy, memmove and memset at most.
 *
 *     cc -Iinclude my_player.c target/staticlib/libplayer.a target/staticlib/libusm.a
 *
 * `./install` also puts libusm.so in place, which is made of both and shows these functions alone, each
 * under the symbol of its version (USM_0.1); pkg-config has the flags for either:
 *
 *     cc my_player.c $(pkg-config --cflags --libs usm)
 *     cc -static my_player.c $(pkg-config --static --cflags --libs usm)
 *
 * No function keeps state; all may be called from several threads. A pointer must give as many bytes
 * or records as the length beside it says; NULL is allowed where that is 0. The slices of one call must
 * not overlap, and no other thread may write to them during the call.
 *
 * (proved) marks what is proved for every input, beyond what a single call returns and writes.
 *
 * What holds for the masks:
 *
 * - A payload is the whole payload of one chunk, never a part of it or several in a row: what
 *   happens to a byte depends on its place in the payload and on the payload's length.
 * - The caller has to know which payloads are masked. In a film they are those of data type 0, and of
 *   audio only where the audio codec is ADX, 2. The functions do not look.
 * - They work in place, on any length and at any alignment, and never fail. No other thread may read or
 *   write the bytes until the call returns.
 * - Every number is a key, 0 too. Bits 36 to 39 and 56 to 63 of a key change nothing.
 */
#ifndef USM_H
#define USM_H

#include <stddef.h>
#include <stdint.h>

#ifdef __cplusplus
extern "C" {
#endif

/* The version of this header and of both libraries. CHANGELOG.md says what changed. */
#define USM_VERSION "0.1.0"
#define USM_VERSION_MAJOR 0
#define USM_VERSION_MINOR 1
#define USM_VERSION_PATCH 0

/* The bytes of a key's tables: T, V and A, 32 each. */
#define USM_KEY_TABLE_BYTES 96

/*
 * Puts the tables of `key` into the first 96 bytes of `table`: T at 0, V at 32, A at 64. Returns 96;
 * bytes past them are unchanged. Where `len` is below 96 it returns 0, and the buffer is unchanged. It
 * needs 160 bytes of stack below its call.
 */
size_t usm_key_table(uint64_t key, uint8_t *table, size_t len);

/*
 * Unmasks the video payload of `len` bytes at `payload`. Below 0x240 bytes it is unchanged. From
 * there on the bytes below 0x40 are unchanged, and all others are unmasked. It needs 176 bytes of stack
 * below its call, return address and callees included; 152 once the key table is made. The figures for
 * stack are measured on the library (kit rattle-kit-13f) by checks/hard_use/stack.c: the greatest depth of
 * many calls on a painted stack, confirmed on a stack of exactly that size.
 */
void usm_unmask_video(uint64_t key, uint8_t *payload, size_t len);

/*
 * Masks a clear video payload: the reverse of usm_unmask_video. Each undoes the other (proved). It needs
 * 240 bytes of stack below its call.
 */
void usm_mask_video(uint64_t key, uint8_t *payload, size_t len);

/*
 * Unmasks the ADX audio payload of `len` bytes at `payload`. The bytes below 0x140 are unchanged, and
 * so is a payload of 0x140 bytes or less; all others are XORed with A, repeating. It needs 176 bytes of
 * stack below its call.
 */
void usm_unmask_audio(uint64_t key, uint8_t *payload, size_t len);

/*
 * Masks a clear ADX audio payload: the same act as usm_unmask_audio. Each undoes the other (proved). It
 * needs 176 bytes of stack below its call.
 */
void usm_mask_audio(uint64_t key, uint8_t *payload, size_t len);

/*
 * Replies. A function below that can refuse its input returns a reply, a struct by value. Three fields are in
 * every reply (usm_open has them in `film`, usm_write_chunk in `head`):
 *
 *     number        0 where the input is accepted, the number of a refusal where it is not
 *     refused_at    the place that is refused: in a film the start of the block or chunk being read,
 *                   which may lie past the container's end, and 0 beside 2, 11 to 16 and 19 to 23;
 *                   for a table that is read by itself, the table's own
 *     unknown_type  beside USM_UNKNOWN_TYPE the column type: 7, 9 or 12 to 15
 *
 * A field that has no meaning in a reply is 0. A refusal writes nothing: all outputs and lists are
 * unchanged.
 *
 * usm_clear_piece refuses by a plain 0. Functions that refuse nothing have no such fields: usm_clear,
 * usm_seek, usm_why, usm_payload_bits, usm_payload_apart, usm_profile_begin and usm_profile_step.
 */
#define USM_ACCEPTED 0
#define USM_RAN_OUT 1         /* bytes run out */
#define USM_NO_FILM 2         /* no CRID at 0 */
#define USM_NO_TABLE 3        /* no @UTF where a table begins */
#define USM_NO_VIDEO 4        /* no @SFV where one is expected */
#define USM_NO_AUDIO 5        /* no @SFA where one is expected */
#define USM_NO_HEADER_END 6   /* no #HEADER END where one is expected */
#define USM_NO_METADATA_END 7 /* no #METADATA END where one is expected */
#define USM_UNKNOWN_TYPE 8    /* an unknown column type */
#define USM_TOO_SMALL 9       /* a table size below 24, or a block size below header plus footer size */
#define USM_TOO_MANY 10       /* over 64 columns or 256 rows in a table */
#define USM_TOO_LONG 11       /* a container of over USM_CONTAINER_BYTES, read or to be written */
#define USM_SHORT_OUTPUT 12   /* the video or the audio output is too short */
#define USM_SHORT_LIST 13     /* the chunk list, the index or the list of lines is too short */
/* 14 is not used: it stood for streams longer than the container, which cannot occur (proved). */
#define USM_MARKED_PAYLOAD 15 /* a payload that would be written begins with the end marker */
#define USM_SHORT_ROOM 16     /* the output is too short for what would be written */
#define USM_SHORT_HEADER 17   /* a header size below 0x18, where payloads stand after their headers */
#define USM_UNKNOWN_STORAGE 18 /* a column's high nibble is none of 1, 3, 5 and 7, where these are the only ones */
#define USM_FOREIGN 19        /* not a film of the old builder, or not a container that was moved from one */
#define USM_MANY_AUDIOS 20    /* a film of the old builder with more than one audio */
#define USM_NO_BEGINNING 21   /* no beginning of the container is accepted */
#define USM_BAD_TENANTS 22    /* no tenant, over 16, or a number twice */
#define USM_CODEC_ALONE 23    /* an audio codec is given, and no audio */

/*
 * How a film or a table is read. 4 bytes.
 *
 *     audio     USM_AUDIO_NONE, 0: audio is not taken. Its payloads are skipped, unchecked, so a film
 *               may be accepted without audio and refused with it. USM_AUDIO_CHANNEL, 2: audio of one
 *               channel is taken, and that of the others skipped in the same way. Every other number:
 *               all audio is taken, the channels joined as the original joins them. Ignored for tables
 *               that are read by themselves
 *     channel   the channel, where audio is USM_AUDIO_CHANNEL: 0 to 255. Otherwise ignored
 *     tables    USM_TABLES_ZERO_COLUMNS: a column whose type byte has the high nibble 1 stores nothing;
 *               its numbers and floats are 0, its strings and data empty. 1, 3, 5 and 7 are the only
 *               high nibbles, and another is USM_UNKNOWN_STORAGE. Every other number: as the original
 *               reads them, where such a column has a value in each row
 *     payloads  USM_PAYLOADS_AFTER_HEADER, 1: a payload starts 8 + header size bytes after its chunk's
 *               start, where the header ends. A header size below 0x18 is USM_SHORT_HEADER there, for a
 *               payload that is taken. Every other number: as the original reads them, 0x20 bytes after
 *               the chunk's start whatever the header size says. Where every header size is 0x18 both
 *               are the same (proved)
 */
struct usm_reading {
    uint8_t audio;
    uint8_t channel;
    uint8_t payloads;
    uint8_t tables;
};

/* Which audio is taken. */
#define USM_AUDIO_NONE 0
#define USM_AUDIO_ALL 1
#define USM_AUDIO_CHANNEL 2

/* Where payloads start. */
#define USM_PAYLOADS_ORIGINAL 0
#define USM_PAYLOADS_AFTER_HEADER 1

/* The two ways to read tables. */
#define USM_TABLES_ORIGINAL 0
#define USM_TABLES_ZERO_COLUMNS 1

/* Ready readings: tables and payloads as the original reads them, with all audio and without. */
static const struct usm_reading USM_READ_WITH_AUDIO = {USM_AUDIO_ALL, 0, USM_PAYLOADS_ORIGINAL, USM_TABLES_ORIGINAL};
static const struct usm_reading USM_READ_VIDEO_ONLY = {USM_AUDIO_NONE, 0, USM_PAYLOADS_ORIGINAL, USM_TABLES_ORIGINAL};

/* The same with audio of one channel. */
static inline struct usm_reading usm_read_channel(uint8_t channel)
{
    struct usm_reading reading = {USM_AUDIO_CHANNEL, channel, USM_PAYLOADS_ORIGINAL, USM_TABLES_ORIGINAL};
    return reading;
}

/* The meaning of a refusal's number, in words. Every number has one. */
static inline const char *usm_reason(uint8_t number)
{
    switch (number) {
    case USM_ACCEPTED:
        return "accepted";
    case USM_RAN_OUT:
        return "bytes run out";
    case USM_NO_FILM:
        return "no CRID at the start";
    case USM_NO_TABLE:
        return "no @UTF where a table begins";
    case USM_NO_VIDEO:
        return "no @SFV where one is expected";
    case USM_NO_AUDIO:
        return "no @SFA where one is expected";
    case USM_NO_HEADER_END:
        return "no #HEADER END where one is expected";
    case USM_NO_METADATA_END:
        return "no #METADATA END where one is expected";
    case USM_UNKNOWN_TYPE:
        return "unknown column type";
    case USM_TOO_SMALL:
        return "a table or block size that is too small";
    case USM_TOO_MANY:
        return "over 64 columns or 256 rows in a table";
    case USM_TOO_LONG:
        return "longer than 1,073,741,824 bytes";
    case USM_SHORT_OUTPUT:
        return "the video or the audio output is too short";
    case USM_SHORT_LIST:
        return "the list is too short";
    case USM_MARKED_PAYLOAD:
        return "a payload begins with the end marker";
    case USM_SHORT_ROOM:
        return "the output is too short";
    case USM_SHORT_HEADER:
        return "a header that is too short";
    case USM_UNKNOWN_STORAGE:
        return "unknown storage of a column";
    case USM_FOREIGN:
        return "neither a film of the old builder nor one moved from it";
    case USM_MANY_AUDIOS:
        return "more than one audio";
    case USM_NO_BEGINNING:
        return "no beginning is accepted";
    case USM_BAD_TENANTS:
        return "no tenant, over 16 tenants, or a tenant number twice";
    case USM_CODEC_ALONE:
        return "an audio codec without audio";
    default:
        return "a number without a meaning";
    }
}

/*
 * @UTF tables. The table begins at byte `place` of the `len` bytes at `bytes`. Of the numbers they
 * give 0, 1, 3, 8, 9, 10 and 18.
 */

/* The reply on a table. 32 bytes. */
struct usm_table_reply {
    size_t refused_at;
    size_t columns;
    size_t rows;
    uint8_t number;
    uint8_t unknown_type;
};

/* Reads and checks the whole table. */
struct usm_table_reply usm_table(const uint8_t *bytes, size_t len, size_t place,
                                 struct usm_reading reading);

/* The reply on a cell. 32 bytes. */
struct usm_cell_reply {
    size_t refused_at;
    uint64_t value;       /* by the cell's kind, see below */
    size_t length;        /* the bytes of a string or data, which lie within `bytes` (proved) */
    uint8_t number;
    uint8_t unknown_type;
    uint8_t kind;         /* one of the kinds that follow */
};

/* Kinds of cells, and the value of each. */
#define USM_CELL_NOTHING 0  /* there is no such cell; 0 */
#define USM_CELL_UNSIGNED 1 /* the number */
#define USM_CELL_SIGNED 2   /* the number in 64 bits of two's complement */
#define USM_CELL_FLOAT 3    /* the float's 32 bits, a NaN's too */
#define USM_CELL_STRING 4   /* where the string starts in `bytes`; its zero byte is not counted */
#define USM_CELL_DATA 5     /* where the data starts in `bytes`; 0 where it is empty */

/*
 * The cell of the last column that is named by the `name_len` bytes at `name`, in a row counted from
 * 0; nothing where no column has the name or the table has no such row.
 */
struct usm_cell_reply usm_cell(const uint8_t *bytes, size_t len, size_t place, const uint8_t *name,
                               size_t name_len, size_t row, struct usm_reading reading);

/* Where a column has its values. */
#define USM_STORAGE_NONE 0     /* there is no such column */
#define USM_STORAGE_CONSTANT 1 /* one value for every row, in the column's record */
#define USM_STORAGE_ROWS 2     /* a value in each row */
#define USM_STORAGE_ZERO 3     /* nowhere: every value is 0 or empty */
#define USM_STORAGE_UNKNOWN 4  /* a nibble that says nothing: usm_table refuses such a table */

/* The reply on a column. Beside a refusal, and where there is no such column, all but the first and `number` is 0. 32 bytes. */
struct usm_column_reply {
    size_t refused_at;
    size_t name_start;  /* the name is a part of `bytes`, without its zero byte */
    size_t name_length;
    uint8_t number;
    uint8_t unknown_type;
    uint8_t storage;
    uint8_t type_byte;  /* storage in the high half, the type of its values in the low */
};

/*
 * The column of a number, counted from 0 in the table's order, and its cell in a row; nothing where the table has no such
 * column or row. Only the table's header, the columns' records and what is asked for are read, so all cells of a table can
 * be asked for one by one in little time. Whether the table is accepted is for usm_table to say: of one that is not, a column
 * or cell that can be read is given all the same, and a cell is nothing too where its column's record is refused: the name,
 * the storage, or the value of a constant. Of an accepted table usm_cell gives the cell of the last column that has the name
 * (proved).
 */
struct usm_column_reply usm_column(const uint8_t *bytes, size_t len, size_t place, size_t column,
                                   struct usm_reading reading);

struct usm_cell_reply usm_cell_at(const uint8_t *bytes, size_t len, size_t place, size_t column, size_t row,
                                  struct usm_reading reading);

/*
 * Films. The container is the `len` bytes at `container`, a whole USM file, and is never written.
 * USM_TOO_LONG comes first, then the first refusal in reading order, and only then USM_SHORT_OUTPUT
 * or USM_SHORT_LIST.
 */

/* The longest container that is read. */
#define USM_CONTAINER_BYTES 1073741824

/*
 * A key, or none. 16 bytes.
 *
 *     number    the key; every number is one, 0 too
 *     given     0: there is no key, and `number` is ignored. Every other number: there is one
 */
struct usm_key {
    uint64_t number;
    uint8_t given;
};

/* No key, and a key by its number. */
static const struct usm_key USM_NO_KEY = {0, 0};

static inline struct usm_key usm_with_key(uint64_t number)
{
    struct usm_key key = {number, 1};
    return key;
}

/* The reply on a film. 56 bytes. */
struct usm_film_reply {
    size_t refused_at;
    size_t name_start;       /* where the name starts, in the slice that name_source says; 0 in the fallback */
    size_t name_length;      /* its bytes; of the fallback all of them */
    size_t video_size;       /* the bytes of the video stream, also beside USM_SHORT_OUTPUT */
    size_t audio_size;       /* the bytes of the audio stream, the same; 0 where there is none or it is not taken */
    uint32_t video_codec;    /* the codec that the header gives, 0 where it gives none */
    uint32_t audio_codec;    /* the same for audio; 0 without audio */
    uint8_t number;
    uint8_t unknown_type;
    uint8_t name_source;     /* which slice the name is a part of: see below */
    uint8_t has_audio;       /* 1 where the film has audio, taken or not, else 0 */
    uint8_t has_video_codec; /* 1 where the header gives a video codec, else 0 */
    uint8_t has_audio_codec; /* the same for audio; 0 without audio */
    uint8_t video_kind;      /* what the video stream is: see below */
    uint8_t audio_kind;      /* what the audio stream is; adx where there is no audio */
};

/* Sources of a name: the container, or the fallback, where the container has no name. A name is the
 * bytes that the film has, in any encoding. It may be empty, and hold zero bytes and slashes. One that
 * comes from the container lies within it (proved). */
#define USM_NAME_IN_CONTAINER 0
#define USM_NAME_IN_FALLBACK 1

/* Kinds of video: ivf for codec 9, else m2v. Kinds of audio: hca for codec 4, else adx. */
#define USM_VIDEO_M2V 0
#define USM_VIDEO_IVF 1
#define USM_AUDIO_ADX 0
#define USM_AUDIO_HCA 1

/*
 * Extracts both streams of a film: the video payloads into the output `video`, one after the other,
 * and those of audio that is taken into the output `audio`. Bytes past a stream are unchanged. If either
 * output is too short neither is written, and the reply has both sizes: pass length 0 for both to learn
 * them (a film whose streams are both empty is accepted then, with sizes 0). Both streams together are
 * never longer than the container, for every reading (proved), so with two outputs of its length
 * USM_SHORT_OUTPUT cannot occur.
 *
 * Without a key the streams are as stored. With one, payloads of data type 0 are unmasked, those of
 * audio only where the audio codec is ADX, 2. The key changes nothing but the bytes of the streams
 * (proved).
 *
 * `fallback` is the name of a film that has none. Its bytes are not read: the reply says which of the
 * two slices the name is a part of.
 */
struct usm_film_reply usm_extract(const uint8_t *container, size_t len, struct usm_reading reading,
                                  struct usm_key key, const uint8_t *fallback, size_t fallback_len,
                                  uint8_t *video, size_t video_len, uint8_t *audio, size_t audio_len);

/* A chunk: the byte of the container where it starts, its kind, its data type (0 to 3), its channel
 * (byte 12 of any kind of chunk), and its payload: it begins at start + offset, has so many bytes, and
 * lies within the container (proved). Where it is skipped it has 0 bytes, and the offset is 32; else
 * the offset is 32 or, with USM_PAYLOADS_AFTER_HEADER, 8 + header size. 24 bytes. */
struct usm_chunk {
    size_t start;
    uint8_t kind;
    uint8_t data_type;
    uint8_t channel;
    uint32_t offset;
    size_t length;
};

/* Kinds of chunks. Skipped are the ends of streams, chunks of other letters than @SFV and @SFA, and
 * audio where it is not taken, is of another channel than the one that is, or the film's header has
 * none: its kind is audio still. */
#define USM_CHUNK_VIDEO 0
#define USM_CHUNK_AUDIO 1
#define USM_CHUNK_OTHER 2
#define USM_CHUNK_END 3

/* The reply on a listing. 24 bytes. */
struct usm_list_reply {
    size_t refused_at;
    size_t count;         /* how many chunks the film has, also beside USM_SHORT_LIST */
    uint8_t number;
    uint8_t unknown_type;
};

/*
 * Fills the first records of `list`, which has `room` of them, with the film's chunks in their order;
 * records past them are unchanged. If the list is too short it is unchanged, and the reply has the
 * count: pass length 0 to learn the count (a film without chunks is accepted then).
 */
struct usm_list_reply usm_list(const uint8_t *container, size_t len, struct usm_reading reading,
                               struct usm_chunk *list, size_t room);

/*
 * Reading piece by piece: a film of any size in little memory. usm_open reads the header from the film's
 * first bytes; usm_step finds one chunk after the other, from the 45 bytes that stand at its start;
 * usm_clear unmasks a payload, and usm_clear_piece a payload of any length, piece by piece. No function keeps
 * anything between two calls.
 *
 *     struct usm_open_reply opened = usm_open(beginning, len, total, reading);
 *     struct usm_film_audio audio = usm_audio_of(opened.film);
 *     size_t place = opened.chunks;
 *     for (;;) {
 *         struct usm_step_reply step = usm_step(window, window_len, place, total, reading, audio);
 *         if (step.number != USM_ACCEPTED || step.found == USM_STEP_OVER)
 *             break;
 *         .. read step.length bytes from byte step.payload of the film ..
 *         usm_clear(key, step.mask, payload, step.length);
 *         .. append them to the video or the audio stream, by step.kind ..
 *         place = step.next;
 *     }
 *
 * The chunks that the steps find are those of usm_list, and a film that is refused is refused with the
 * number and the place that usm_extract gives, however the film is cut into pieces (proved). The payloads
 * of one kind, unmasked and concatenated, are the stream that usm_extract writes under that key; without a
 * key, skip usm_clear (proved). A refusal can come late: a caller that writes while it walks has written by
 * then, and one that wants nothing written walks all steps first.
 */

/* The reply on a beginning. 72 bytes. */
struct usm_open_reply {
    struct usm_film_reply film; /* as usm_extract replies it, but with both sizes 0; a name of the container lies
                                   within the beginning, and where the film has none the length is 0 */
    size_t chunks;              /* where the first chunk starts; 0 beside a refusal */
    uint8_t more;               /* 1 where a longer beginning is needed to say; all else is 0 then */
};

/*
 * What a film of `total` bytes is, by its first `len` bytes: the header, or the film's refusal, or that
 * more bytes are needed. A beginning never contradicts the whole film, and the whole film never needs
 * more (proved). Pass some KiB first, then twice as many. It needs 1,520 bytes of stack below its call.
 */
struct usm_open_reply usm_open(const uint8_t *beginning, size_t len, size_t total,
                               struct usm_reading reading);

/* Where the tables of a header stand in the film, for usm_table and the like. 40 bytes. */
struct usm_header_tables {
    size_t name;           /* the table with the film's name: the first of the film */
    size_t video;          /* the table with the codec of each stream; 0 for audio where there is none */
    size_t audio;
    size_t video_metadata; /* the table of each stream's metadata; 0 for audio where there is none */
    size_t audio_metadata;
};

/* The reply on a header's tables. 56 bytes. */
struct usm_tables_reply {
    size_t refused_at;
    struct usm_header_tables tables; /* all 0 beside a refusal */
    uint8_t number;
    uint8_t unknown_type;
    uint8_t more;                    /* as in usm_open_reply */
};

/*
 * Where the tables stand in the header of a film of `total` bytes, by its first `len` bytes; the refusal,
 * and that more bytes are needed, are those of usm_open. Of a header that is accepted a table is accepted
 * at each place that is not 0 (proved), and it lies within the beginning.
 */
struct usm_tables_reply usm_header_tables(const uint8_t *beginning, size_t len, size_t total,
                                          struct usm_reading reading);

/* What a film's header says of its audio: has_audio, audio_codec and has_audio_codec of its reply. 8 bytes. */
struct usm_film_audio {
    uint32_t codec;
    uint8_t present;
    uint8_t has_codec;
};

static inline struct usm_film_audio usm_audio_of(struct usm_film_reply film)
{
    struct usm_film_audio audio = {film.audio_codec, film.has_audio, film.has_audio_codec};
    return audio;
}

/* The reply on a place. 40 bytes. */
struct usm_step_reply {
    size_t refused_at;
    size_t next;          /* the place of the next step; the fields from here on are of a chunk */
    size_t payload;       /* where the payload starts in the film */
    size_t length;        /* its bytes, 0 where it is skipped; it lies within the film (proved) */
    uint8_t number;
    uint8_t unknown_type; /* always 0: chunks have no columns */
    uint8_t found;        /* what was found, see below */
    uint8_t kind;         /* as in usm_chunk, and so are the next two */
    uint8_t data_type;
    uint8_t channel;
    uint8_t mask;         /* the mask that the payload has: see below */
};

/* What a step finds: the end of all chunks, a chunk, or that the window is too short to say. */
#define USM_STEP_OVER 0
#define USM_STEP_CHUNK 1
#define USM_STEP_MORE 2

/* The mask of a payload: none, that of video, or that of audio. */
#define USM_MASK_NONE 0
#define USM_MASK_VIDEO 1
#define USM_MASK_AUDIO 2

/*
 * What stands at byte `place` of a film of `total` bytes, by the `len` bytes at `window`, which stand
 * there: 45 of them, or all that are left, always suffice (proved). `audio` is what the header says.
 * Of the numbers it gives USM_TOO_LONG and those of a chunk: 1, 9 and 17. It needs 88 bytes of stack
 * below its call.
 */
struct usm_step_reply usm_step(const uint8_t *window, size_t len, size_t place, size_t total,
                               struct usm_reading reading, struct usm_film_audio audio);

/*
 * Unmasks the whole payload of a step, in place. Where `mask` is neither USM_MASK_VIDEO nor
 * USM_MASK_AUDIO nothing changes. It needs 392 bytes of stack below its call.
 */
void usm_clear(uint64_t key, uint8_t mask, uint8_t *payload, size_t len);

/* The bytes of a row, and the least bytes of the first piece of a payload that has more. */
#define USM_ROW_BYTES 32
#define USM_FIRST_PIECE 0x240

/*
 * Unmasks a piece of a payload, in place: the `len` bytes from byte `place` of a payload of `total` bytes on.
 * `row` is the clear row before it, the last USM_ROW_BYTES of what is clear so far; before the first piece there
 * is none, and it is not looked at.
 *
 *     uint8_t row[USM_ROW_BYTES];
 *     for (size_t place = 0; place < step.length; place += len) {
 *         .. read `len` bytes, a multiple of USM_ROW_BYTES and at least USM_FIRST_PIECE, or all that are left ..
 *         usm_clear_piece(key, step.mask, step.length, place, row, sizeof row, piece, len);
 *         .. append them to the stream ..
 *         if (place + len < step.length)
 *             memcpy(row, piece + len - sizeof row, sizeof row);
 *     }
 *
 * A piece begins at byte 0, or, after a row, at a multiple of USM_ROW_BYTES from USM_FIRST_PIECE on; it ends with
 * the payload, or at such a multiple. The reply is 1 then, and the piece is clear. Other bytes are no piece: the
 * reply is 0, and they are unchanged. However a payload is cut, where no reply is 0 the clear pieces one after
 * the other are what usm_clear leaves of the whole payload (proved). It needs at most 472 bytes of stack below
 * its call.
 */
uint8_t usm_clear_piece(uint64_t key, uint8_t mask, size_t total, size_t place, const uint8_t *row, size_t row_len,
                        uint8_t *piece, size_t len);

/*
 * Writing. What is written goes into the output of `out_len` bytes at `out`, from its first byte on;
 * bytes past it are unchanged. If the output is too short it is unchanged, and the reply has the size:
 * pass length 0 to learn the size.
 */

/* The reply on what is written. 24 bytes. */
struct usm_size_reply {
    size_t refused_at;
    size_t size;          /* how many bytes are written, also beside USM_SHORT_ROOM */
    uint8_t number;
    uint8_t unknown_type;
};

/*
 * How a film is packed. 32 bytes.
 *
 *     key              the key that masks: video, and audio where its codec is ADX, 2; or none
 *     video_codec, audio_codec
 *                      what the header gives as codecs, where they are given: 9 makes the video ivf, 4
 *                      the audio hca (see above). Every number is one
 *     has_audio        0: there is no audio, and `audio` is ignored. Every other number: there is, even if
 *                      it is empty
 *     has_video_codec, has_audio_codec
 *                      0: no codec is given, and its number is ignored. Every other number: it is given
 */
struct usm_packing {
    struct usm_key key;
    uint32_t video_codec;
    uint32_t audio_codec;
    uint8_t has_audio;
    uint8_t has_video_codec;
    uint8_t has_audio_codec;
};

/*
 * Writes a film: the name, which is any bytes, and both streams, which are clear. Extracting it with
 * audio taken and the same key, or none in both, gives back the name, both codecs, whether there is
 * audio, and both streams (proved). Payloads have 65,536 bytes, the last of a stream the rest, and
 * alternate, video first.
 *
 * Of the numbers it gives, in this order: USM_CODEC_ALONE; USM_TOO_LONG, where the film would be longer
 * than USM_CONTAINER_BYTES; USM_MARKED_PAYLOAD, where a payload begins with the 13 letters of the end
 * marker, "#CONTENTS END", since it would be skipped when it is read; USM_SHORT_ROOM. `refused_at` is 0
 * beside each. Nothing else is refused. A film that is written has 416 bytes at least.
 */
struct usm_size_reply usm_write(const uint8_t *name, size_t name_len, const uint8_t *video,
                                size_t video_len, const uint8_t *audio, size_t audio_len,
                                struct usm_packing packing, uint8_t *out, size_t out_len);

/*
 * Writing piece by piece: a film from streams of any size, in the memory of one payload. usm_write_open
 * writes the header; usm_write_chunk says which payload comes next, and writes the head of its chunk;
 * usm_write_payload makes the payload what is stored; usm_write_end writes the ends. No function keeps
 * anything between two calls, and each writes to an output of its own.
 *
 *     uint8_t head[USM_HEAD_BYTES];
 *     size_t turn = 0;
 *     struct usm_size_reply header = usm_write_open(name, name_len, video, audio, packing, out, out_len);
 *     .. write the first header.size bytes of `out` ..
 *     for (;;) {
 *         struct usm_turn_reply next = usm_write_chunk(video, audio, turn, packing, head, sizeof head);
 *         if (next.found == USM_STEP_OVER)
 *             break;
 *         .. read next.length bytes of the stream that next.kind says, from its byte next.from on ..
 *         struct usm_size_reply stored = usm_write_payload(packing.key.number, next.mask, payload, next.length);
 *         .. write `head`, the payload, and next.padding zeros ..
 *         turn = next.next;
 *     }
 *     struct usm_size_reply ends = usm_write_end(packing, out, out_len);
 *     .. write the first ends.size bytes of `out` ..
 *
 * These pieces, one after the other, are the film that usm_write writes from the same name, streams and
 * packing, byte for byte; and one of the calls refuses where usm_write refuses, with the same number
 * (proved). A payload can be refused late: a caller that writes while it goes has written by then, and one
 * that wants nothing written asks usm_write_payload of all payloads first. Where `mask` is USM_MASK_NONE
 * that changes none of them.
 */

/* The bytes of a chunk's head. */
#define USM_HEAD_BYTES 32

/*
 * Writes the header of a film whose streams have `video` and `audio` bytes. Of the numbers it gives, in
 * this order: USM_CODEC_ALONE; USM_TOO_LONG, for the whole film; USM_SHORT_ROOM. The header has 352 bytes
 * or more, by the name: pass length 0 to learn its size.
 */
struct usm_size_reply usm_write_open(const uint8_t *name, size_t name_len, size_t video, size_t audio,
                                     struct usm_packing packing, uint8_t *out, size_t out_len);

/* The reply on a turn. 64 bytes. */
struct usm_turn_reply {
    struct usm_size_reply head; /* the reply on the output of the head: USM_HEAD_BYTES, or USM_SHORT_ROOM */
    size_t next;          /* the turn that is to be asked next; the fields from here on are of a payload,
                             also beside USM_SHORT_ROOM */
    size_t from;          /* the byte of its stream that the payload begins with */
    size_t length;        /* its bytes: 65,536, and of the last payload of a stream the rest */
    size_t padding;       /* how many zeros stand behind it */
    uint8_t found;        /* USM_STEP_CHUNK; USM_STEP_OVER where both streams are over, and all else is 0 then */
    uint8_t kind;         /* USM_CHUNK_VIDEO or USM_CHUNK_AUDIO */
    uint8_t mask;         /* the mask that it is to have, as in usm_step_reply; without a key it is none */
};

/*
 * Which payload is written at a turn, in a film whose streams have `video` and `audio` bytes, and the head
 * of its chunk. Turn 0 is the first; going on with `next` each payload of both streams comes once, by
 * turns, and then the end (proved). Where the packing has no audio, `audio` is not looked at. Where the
 * output is too short for the head it is unchanged, and the rest of the reply is as it would be.
 */
struct usm_turn_reply usm_write_chunk(size_t video, size_t audio, size_t turn, struct usm_packing packing,
                                      uint8_t *head, size_t head_len);

/*
 * Masks the whole payload of a turn as it is stored, in place: the reverse of usm_clear. `mask` is that of
 * its turn; where it is neither USM_MASK_VIDEO nor USM_MASK_AUDIO nothing changes, and `key` is not looked
 * at. Where the payload begins with the end marker it is refused, USM_MARKED_PAYLOAD, and unchanged. The
 * size is the payload's length.
 */
struct usm_size_reply usm_write_payload(uint64_t key, uint8_t mask, uint8_t *payload, size_t len);

/* Writes the ends of a film's streams: 64 bytes for each that there is. Of the numbers it gives
 * USM_SHORT_ROOM. */
struct usm_size_reply usm_write_end(struct usm_packing packing, uint8_t *out, size_t out_len);

/*
 * Films of the old builder, the original's UsmBuilder. No extractor reads its container, not even the
 * original's, so it is converted to that of usm_write. Payloads are copied as they are stored: no key is
 * needed, and payloads that were masked are still masked under the same key.
 */

/*
 * The codecs of a film. 12 bytes.
 *
 *     video_codec, audio_codec
 *                      as in usm_packing; the builder's container has none
 *     has_video_codec, has_audio_codec
 *                      0: no codec is given, and its number is ignored. Every other number: it is given
 */
struct usm_codecs {
    uint32_t video_codec;
    uint32_t audio_codec;
    uint8_t has_video_codec;
    uint8_t has_audio_codec;
};

/*
 * Converts a film of the old builder: the result is what usm_write makes of its name and of its streams
 * as they are stored, with these codecs and without a key.
 *
 * Of the numbers it gives, in this order: USM_TOO_LONG for the container; USM_FOREIGN, where it is not
 * byte for byte what the builder writes for some name, video and audios; USM_MANY_AUDIOS; then those of
 * usm_write for the result. `refused_at` is 0 beside each.
 */
struct usm_size_reply usm_from_old(const uint8_t *container, size_t len, struct usm_codecs codecs,
                                   uint8_t *out, size_t out_len);

/*
 * Converts a film back: the result is the bytes that usm_from_old was given (proved). Converting these
 * again, with the codecs that the container has, gives the container (proved).
 *
 * Of the numbers it gives, in this order: USM_TOO_LONG for the container; USM_FOREIGN, where usm_from_old
 * writes it from no film; USM_SHORT_ROOM. `refused_at` is 0 beside each. The builder's film is never
 * longer than the container.
 */
struct usm_size_reply usm_to_old(const uint8_t *container, size_t len, uint8_t *out, size_t out_len);

/*
 * Uploads that stopped early.
 */

/* The reply on how much of a container is kept. 32 bytes. */
struct usm_salvage_reply {
    size_t refused_at;
    size_t kept;          /* how many bytes are kept, from the first on; 0 beside a refusal */
    size_t dropped;       /* how many are left: both together are `len` (proved); 0 beside a refusal */
    uint8_t number;
    uint8_t unknown_type;
    uint8_t cause;        /* the number of the refusal that caused the cut, USM_RAN_OUT or USM_TOO_SMALL;
                             0 where nothing is dropped, and beside a refusal */
};

/*
 * What can be kept of a film that is cut or damaged: the longest beginning that usm_extract accepts with
 * audio taken and outputs that are long enough, of those that end where a chunk starts, the refused
 * chunk's own start included. It is accepted, and no longer one of them is (proved). A film that is
 * accepted is kept whole, with 0 dropped and cause 0 (proved). The beginning often ends before the refused
 * chunk: every chunk needs 45 bytes from its start on, and a payload may reach past its chunk.
 *
 * Of the numbers it gives, in this order: USM_TOO_LONG; those of the header, which is not repaired, with
 * their places; USM_NO_BEGINNING, with `refused_at` 0, where no such beginning is accepted. It reads the
 * header at most twice and each chunk once, however many cuts there are to choose from.
 */
struct usm_salvage_reply usm_salvage(const uint8_t *container, size_t len);

/*
 * Writes the table that begins at byte `place` of the `len` bytes at `bytes` as CSV by RFC 4180: a
 * record of the column names, then one for each row, each ended by CR LF, fields separated by commas.
 * Columns of one name are all written. Of `reading` only `tables` is looked at.
 *
 *     numbers   decimal, with a minus sign where they are negative
 *     floats    their 32 bits as eight hex digits
 *     data      two hex digits for each byte
 *     strings   their bytes, whatever they are
 *
 * Hex digits are lower-case. A field with a comma, a quote, CR or LF stands in quotes, and its quotes are
 * doubled. A table without columns is written as nothing, whatever its rows; one without rows as its
 * names. Reading the bytes back by the RFC's rules gives the same texts, field by field (proved). Beware of
 * spreadsheets: they may run a field that begins with =, +, - or @ as a formula, and round long numbers.
 *
 * Of the numbers it gives those of a table, at `place`, and then USM_SHORT_ROOM, at 0. The work is at
 * most proportional to the table and to the size in the reply, also beside USM_SHORT_ROOM. Rows can share
 * one long string, so a table of 16,384 bytes can have a CSV of over 500,000,000: ask for the size first.
 */
struct usm_size_reply usm_csv(const uint8_t *bytes, size_t len, size_t place,
                              struct usm_reading reading, uint8_t *out, size_t out_len);

/*
 * Jumping. An index keeps, for each video payload of a film, where it begins in the video stream and in
 * which chunk it stands, so that a byte of the stream is found without a walk over the film.
 */

/* An entry of an index. 24 bytes. */
struct usm_index_entry {
    uint64_t place;       /* where the payload begins in the video stream */
    uint64_t chunk;       /* where its chunk starts in the container */
    uint64_t length;      /* how many bytes the payload has */
};

/*
 * Fills the first entries of `index`, which has `room` of them, with those of the film's video payloads
 * in their order, empty ones too; entries past them are unchanged. The reply is that of a listing, with
 * the count of the entries. Tables and payloads are read as the original reads them, without audio: what is
 * refused there is refused here, and then USM_SHORT_LIST, with the count; the index is unchanged then. Pass
 * length 0 to learn the count (a film without a video payload is accepted then). An index that is built
 * again is identical (proved).
 */
struct usm_list_reply usm_index(const uint8_t *container, size_t len, struct usm_index_entry *index,
                                size_t room);

/* The reply on a jump. 24 bytes. Past the end all is 0. */
struct usm_seek_reply {
    uint64_t chunk;       /* where the chunk starts in the container */
    uint64_t offset;      /* the byte's offset in the chunk's payload */
    uint8_t found;        /* 1, or 0 for past the end */
};

/*
 * Where byte `byte` of the video stream stands, by the `count` entries at `index`. By the entries that
 * usm_index filled, it is the byte that usm_extract writes there without a key, and a byte at or above
 * the stream's size is past the end; an empty payload never answers (proved). Any other entries give an
 * answer too: that of the last entry that a binary search finds to begin at or before the byte. Fewer than
 * 2^k entries take k steps (proved).
 */
struct usm_seek_reply usm_seek(const struct usm_index_entry *index, size_t count, uint64_t byte);

/*
 * The delivery profile: whether a film is plain. Tables and payloads are read as the original reads them,
 * with audio taken; what is refused there is refused here, before any rule is tried. The rules, in their
 * order:
 *
 *     1   a chunk's header size is 0x18
 *     2   a chunk's block size plus 8 is a multiple of 0x20
 *     3   each stream that the film has is closed by exactly one end chunk of its letters, and no chunk
 *         of those letters follows it; video is always there, audio where the header says so
 *     4   no chunk has letters other than @SFV and @SFA
 *
 * What usm_write writes is always plain (proved).
 */

/* The reply on the profile. 24 bytes. */
struct usm_profile_reply {
    size_t refused_at;
    size_t place;         /* the start of the first chunk that breaks a rule; the container's length where
                             an end is missing. 0 where the film is plain or refused */
    uint8_t number;
    uint8_t unknown_type;
    uint8_t rule;         /* the first rule that this chunk breaks; 0 where the film is plain or refused */
    uint8_t stream;       /* of rule 3 the stream: USM_CHUNK_VIDEO or USM_CHUNK_AUDIO; 0 of the others */
};

struct usm_profile_reply usm_profile(const uint8_t *container, size_t len);

/*
 * The profile of a film that is read piece by piece, with all audio: begun with what the header says,
 * stepped once for each chunk that usm_step finds, from the first to the last, and ended with the film's
 * length. The reply is that of usm_profile on the whole film (proved). A film that usm_open or a step
 * refuses has that refusal and no profile.
 *
 *     struct usm_profiling known = usm_profile_begin(audio);
 *     .. for each chunk, before its place becomes step.next ..
 *         known = usm_profile_step(window, window_len, place, known);
 *     struct usm_profile_reply reply = usm_profile_end(total, known);
 */

/* What the chunks so far have shown. 16 bytes. */
struct usm_profiling {
    size_t place;   /* the first rule that was broken, and where, as in usm_profile_reply; 0 where none was */
    uint8_t rule;
    uint8_t stream;
    uint8_t video;  /* each stream: 0 where the film has none, 1 where it is open, 2 where an end closed it */
    uint8_t audio;
};

struct usm_profiling usm_profile_begin(struct usm_film_audio audio);

/* `window` has the bytes at `place`: 45 of them, or more. Bytes that are missing count as 0. */
struct usm_profiling usm_profile_step(const uint8_t *window, size_t len, size_t place,
                                      struct usm_profiling known);

struct usm_profile_reply usm_profile_end(size_t total, struct usm_profiling known);

/*
 * A statement: which tenants share a copy of a film, and what each bears of it.
 *
 * Two tenants are in one group exactly when both streams, with all audio taken, are the same byte for byte under
 * their keys. That is decided from the keys, the audio codec, the data types and the payloads' lengths: no stream is
 * unpacked. A group has one copy. Its bytes, those of both streams, are divided evenly among the group's tenants; a
 * remainder goes one byte each to the lowest numbers.
 */

/* A tenant: its number, which no other tenant of the call has, and its key. 0 is a number, and a key. 16 bytes. */
struct usm_tenant {
    uint64_t number;
    uint64_t key;
};

/* A line: the tenant's number, the lowest number in its group, and its share of the group's copy in bytes. 24 bytes. */
struct usm_share {
    uint64_t tenant;
    uint64_t group;
    uint64_t share;
};

/*
 * Fills `lines`, which has room for `room` of them, with a line for each tenant, by rising tenant number, whatever the
 * order of `tenants`. `count` of the reply is the number of tenants, also beside USM_SHORT_LIST. Refusals, in this order:
 * USM_TOO_LONG; USM_BAD_TENANTS; those of the header and the chunks, with `refused_at`; USM_SHORT_LIST. A refusal leaves
 * `lines` unchanged, and so are lines past the count.
 */
struct usm_list_reply usm_statement(const uint8_t *container, size_t len,
                                    const struct usm_tenant *tenants, size_t tenant_count,
                                    struct usm_share *lines, size_t room);

/*
 * The same for a film that is given by the bits of a key that it shows and by the size of a copy, both streams together: a
 * film that was read piece by piece, with all audio taken, gets the lines that usm_statement gives it (proved). Refusals, in
 * this order: USM_BAD_TENANTS, USM_SHORT_LIST.
 */
struct usm_list_reply usm_statement_by(uint64_t bits, size_t size, const struct usm_tenant *tenants, size_t tenant_count,
                                       struct usm_share *lines, size_t room);

/*
 * The bits of a key that a film shows. Of the numbers it gives: USM_TOO_LONG, then those of the header and of the
 * chunks, with `refused_at`; what usm_extract refuses with that reading, and no other (USM_SHORT_OUTPUT apart).
 */

/* The reply on the bits that a film shows. 24 bytes. */
struct usm_key_bits_reply {
    size_t refused_at;
    uint64_t bits;        /* the bits that the film shows; 0 where it shows none, and beside a refusal */
    uint8_t number;
    uint8_t unknown_type;
};

/*
 * Which bits of a key change the streams of a film, with this reading. Under two keys usm_extract leaves the same two streams
 * exactly when `key & bits` is one number (proved); so the bits that are not set can be cleared in a key, or typed
 * wrong, and nothing changes (proved). A video payload of data type 0 and 0x240 bytes or more shows all that count:
 * 0x00FFFF0FFFFFFFFF. An ADX payload of data type 0 shows, from 0x141 bytes on, bits 0 to 7; from 0x143 16 to 23 too; from
 * 0x145 32 to 35; from 0x147 48 to 55; from 0x149 8 to 15; from 0x14F 24 to 31; from 0x159 40 to 47, which are all. No
 * stream is unpacked, and no key is needed. It needs 1,488 bytes of stack below its call.
 */
struct usm_key_bits_reply usm_key_bits(const uint8_t *container, size_t len, struct usm_reading reading);

/*
 * The bits of a key that one payload shows, by the mask and the length that its step gave. What one payload shows, one
 * that shows more shows too: the largest number of a film's payloads is the number that usm_key_bits replies (proved),
 * so a film that is read piece by piece needs no second reading. It needs 8 bytes of stack below its call.
 */
uint64_t usm_payload_bits(uint8_t mask, size_t length);

/* Of which stream a byte is. */
#define USM_SAME_STREAMS 0
#define USM_VIDEO_STREAM 1
#define USM_AUDIO_STREAM 2

/* Where two keys part. What has no meaning is 0. 40 bytes. */
struct usm_apart_reply {
    size_t refused_at;
    size_t byte;   /* the first byte of the stream that differs, counted from 0 */
    size_t chunk;  /* where the chunk starts that holds it */
    size_t offset; /* its offset in that chunk's payload */
    uint8_t number;
    uint8_t unknown_type;
    uint8_t stream; /* USM_VIDEO_STREAM, USM_AUDIO_STREAM; USM_SAME_STREAMS where no byte differs, and beside a refusal */
};

/*
 * The first byte at which the streams of a film differ under two keys: of what usm_extract leaves under the one and the
 * other, all bytes of that stream before it are the same and it is not; where it is one of the audio, the video streams
 * are the same; and where no byte is named, both streams are (proved). No stream is unpacked. It needs 1,696 bytes of
 * stack below its call.
 */
struct usm_apart_reply usm_apart(const uint8_t *container, size_t len, struct usm_reading reading, uint64_t key,
                                 uint64_t other);

/*
 * The first byte of one payload that usm_clear leaves different under two keys, or `length` where there is none (proved),
 * by the mask and the length that its step gave. The first chunk of the video, or else of the audio, for which this is
 * less than its length is the one that usm_apart names (proved), so a film can be read piece by piece. It needs 336 bytes
 * of stack below its call.
 */
size_t usm_payload_apart(uint8_t mask, size_t length, uint64_t key, uint64_t other);

/* Why two keys give the same streams of a film. */
#define USM_DIFFERENT 0   /* they do not */
#define USM_ONE_KEY 1     /* they are one key */
#define USM_NEVER_COUNT 2 /* they differ only in bits that change no film */
#define USM_NOT_SHOWN 3   /* they differ in bits that count, and this film shows none of those */

/*
 * The reason, for a film that shows `bits` of a key (usm_key_bits, usm_payload_bits). It is USM_DIFFERENT exactly where
 * usm_extract leaves different streams under the two keys (proved). It needs 8 bytes of stack below its call.
 */
uint8_t usm_why(uint64_t bits, uint64_t key, uint64_t other);

#ifdef __cplusplus
}
#endif

#endif
