#define _GNU_SOURCE
#include "make.h"

#include "../../examples/films.h"
#include "lent.h"

#include <string.h>

/* Texts of every table, each up to its zero byte; the first three are the names that a film's header
 * goes by. */
static const char TEXTS[] = "filename\0mpeg_codec\0audio_codec\0\0id\0a film.usm\0folder/of/films/b.usm\0\xFF\xFE\0";

/* Where those names begin in TEXTS, and those of other columns. */
enum { FILENAME = 0, MPEG_CODEC = 9, AUDIO_CODEC = 20, EMPTY = 32, ID = 33, VALUE = 36, ODD = 69 };

/* Lengths of payloads at which something changes. */
static const size_t LENGTHS[] = {0,     1,     12,    13,    31,    32,    0x3F,  0x40,  0x13F, 0x140, 0x141,
                                 0x158, 0x159, 0x15F, 0x160, 0x23F, 0x240, 0x241, 0x25F, 0x260, 0x261, 0x400};

/* Numbers at which something changes in a field. */
static const uint32_t EDGES[] = {0,      1,      2,      4,      7,          8,          12,         13,        23,
                                 24,     25,     31,     32,     33,         63,         64,         65,        255,
                                 256,    257,    0x7FFF, 0xFFFF, 0x10000,    0x7FFFFFFF, 0x80000000, 0xFFFFFFF7, 0xFFFFFFF8,
                                 0xFFFFFFFE, 0xFFFFFFFF};

#define COUNT(array) (sizeof(array) / sizeof((array)[0]))

static void note(struct made *made, size_t at, unsigned width)
{
    if (made->count == MADE_FIELDS || at + width > made->len)
        return;
    made->fields[made->count].at = at;
    made->fields[made->count].width = width;
    made->count++;
}

/* Big-endian numbers of 1, 2, 4 or 8 bytes. */
static uint64_t number_at(const uint8_t *at, unsigned width)
{
    uint64_t number = 0;
    unsigned i;

    for (i = 0; i < width; i++)
        number = number << 8 | at[i];
    return number;
}

static void put_number(uint8_t *at, unsigned width, uint64_t number)
{
    unsigned i;

    for (i = width; i > 0; i--, number >>= 8)
        at[i - 1] = (uint8_t)number;
}

static void add_number(struct made *made, unsigned width, uint64_t number)
{
    put_number(made->bytes + made->len, width, number);
    made->len += width;
    note(made, made->len - width, width);
}

static void add_bytes(struct made *made, const void *bytes, size_t len)
{
    memcpy(made->bytes + made->len, bytes, len);
    made->len += len;
}

static void add_zeros(struct made *made, size_t len)
{
    memset(made->bytes + made->len, 0, len);
    made->len += len;
}

/* A number that is often a codec. */
static uint64_t codec_by_chance(struct chance *chance)
{
    static const uint64_t CODECS[] = {1, 2, 2, 2, 4, 9, 0xFF, 0x100000002, 0x100000009};

    return once_in(chance, 8) ? any(chance) : CODECS[below(chance, COUNT(CODECS))];
}

/* Adds a cell of a type. */
static void add_cell(struct made *made, struct chance *chance, unsigned type)
{
    static const unsigned WIDTHS[] = {1, 1, 2, 2, 4, 4, 8, 0, 4, 0, 4, 8, 0, 0, 0, 0};

    if (type == 0xA) {
        add_number(made, 4, once_in(chance, 4) ? below(chance, sizeof TEXTS) : (size_t)VALUE);
    } else if (type == 0xB) {
        add_number(made, 4, below(chance, 24));
        add_number(made, 4, below(chance, 10));
    } else {
        add_number(made, WIDTHS[type], codec_by_chance(chance));
    }
}

/* A column's type: any of those there are, and now and then one that is unknown. */
static unsigned type_by_chance(struct chance *chance)
{
    static const unsigned TYPES[] = {0, 1, 2, 3, 4, 5, 6, 8, 0xA, 0xA, 0xB, 0xB};

    return once_in(chance, 100) ? (unsigned)below(chance, 16) : TYPES[below(chance, COUNT(TYPES))];
}

/* A column's storage: any high nibble, and more often 3, which is a constant. */
static unsigned storage_by_chance(struct chance *chance)
{
    return once_in(chance, 3) ? 0x30 : (unsigned)below(chance, 16) << 4;
}

/* A column's name: mostly the one that is asked for. */
static size_t name_by_chance(struct chance *chance, size_t asked)
{
    static const size_t NAMES[] = {FILENAME, MPEG_CODEC, AUDIO_CODEC, EMPTY, ID, VALUE, ODD};

    return once_in(chance, 3) ? NAMES[below(chance, COUNT(NAMES))] : asked;
}

/* How many columns or rows: mostly few, now and then around a limit. */
static size_t count_by_chance(struct chance *chance, size_t few, size_t limit)
{
    return once_in(chance, 40) ? limit - 1 + below(chance, 3) : below(chance, few);
}

/* Adds a table, whose columns mostly have the name that is asked for. */
static void add_whole_table(struct made *made, struct chance *chance, size_t asked)
{
    size_t start = made->len, columns = count_by_chance(chance, 4, 64), rows, strings, data, row, i;
    unsigned types[66], storages[66];

    rows = columns > 8 ? below(chance, 3) : count_by_chance(chance, 4, 256);
    add_zeros(made, 32);
    for (i = 0; i < columns; i++) {
        types[i] = type_by_chance(chance);
        storages[i] = storage_by_chance(chance);
        made->bytes[made->len++] = (uint8_t)(storages[i] | types[i]);
        add_number(made, 4, name_by_chance(chance, asked));
        if (storages[i] == 0x30 || storages[i] == 0x70)
            add_cell(made, chance, types[i]);
    }
    put_number(made->bytes + start + 10, 2, made->len - start - 8);
    for (row = 0; row < rows; row++)
        for (i = 0; i < columns; i++)
            if (storages[i] != 0x30 && storages[i] != 0x70)
                add_cell(made, chance, types[i]);
    strings = made->len;
    add_bytes(made, TEXTS, sizeof TEXTS);
    data = made->len;
    add_zeros(made, 32);
    memset(made->bytes + data, 'd', 32);

    memcpy(made->bytes + start, "@UTF", 4);
    put_number(made->bytes + start + 4, 4, made->len - start - 8);
    put_number(made->bytes + start + 12, 4, strings - start - 8);
    put_number(made->bytes + start + 16, 4, data - start - 8);
    put_number(made->bytes + start + 24, 2, columns);
    put_number(made->bytes + start + 28, 4, rows);
}

/* Notes the fields of a table's header. */
static void note_table(struct made *made, size_t start)
{
    note(made, start + 4, 4);
    note(made, start + 10, 2);
    note(made, start + 12, 4);
    note(made, start + 16, 4);
    note(made, start + 24, 2);
    note(made, start + 28, 4);
}

/* Notes the fields of every block of a whole film. */
static void note_blocks(struct made *made)
{
    size_t start = 0;

    while (start + 36 <= made->len) {
        note(made, start + 4, 4);
        note(made, start + 8, 2);
        note(made, start + 10, 2);
        note(made, start + 15, 1);
        if (memcmp(made->bytes + start + 32, "@UTF", 4) == 0)
            note_table(made, start + 32);
        start += 8 + (size_t)number_at(made->bytes + start + 4, 4);
    }
}

/* Begins a block, and gives where it starts. */
static size_t start_block(struct made *made, const char *letters)
{
    size_t start = made->len;

    add_bytes(made, letters, 4);
    add_zeros(made, 28);
    return start;
}

/* Ends a block: zeros up to a multiple of 32, and its size. Gives how many zeros. */
static size_t finish_block(struct made *made, size_t start)
{
    size_t zeros = (32 - made->len % 32) % 32;

    add_zeros(made, zeros);
    put_number(made->bytes + start + 4, 4, made->len - start - 8);
    return zeros;
}

static void add_table_block(struct made *made, struct chance *chance, const char *letters, size_t asked)
{
    size_t start = start_block(made, letters);

    add_whole_table(made, chance, asked);
    finish_block(made, start);
}

static void add_marker_block(struct made *made, const char *letters, const char *marker)
{
    size_t start = start_block(made, letters);

    add_bytes(made, marker, strlen(marker));
    finish_block(made, start);
}

/* Adds a chunk with a payload. */
static void add_any_chunk(struct made *made, struct chance *chance)
{
    static const char *const LETTERS[] = {"@SFV", "@SFV", "@SFV", "@SFA", "@SFA", "@SFA", "@CUE", "\0\0\0\0"};
    static const uint8_t TYPES[] = {0, 0, 0, 0, 1, 2, 3, 4, 7, 0xFF};
    size_t start, len, header = 24, zeros;

    if (once_in(chance, 10)) {
        add_marker_block(made, LETTERS[below(chance, COUNT(LETTERS))], "#CONTENTS END");
        return;
    }
    start = start_block(made, LETTERS[below(chance, COUNT(LETTERS))]);
    len = once_in(chance, 3) ? below(chance, 0x500) : LENGTHS[below(chance, COUNT(LENGTHS))];
    fill_by_chance(chance, made->bytes + made->len, len);
    made->len += len;
    if (once_in(chance, 10))
        header = below(chance, 40);
    else if (once_in(chance, 8))
        header = 24 + below(chance, 60);
    zeros = finish_block(made, start);
    put_number(made->bytes + start + 8, 2, header);
    put_number(made->bytes + start + 10, 2, zeros);
    made->bytes[start + 12] = (uint8_t)below(chance, CHANNELS);
    made->bytes[start + 15] = TYPES[below(chance, COUNT(TYPES))];
}

/* A film of any shape. */
static void make_film(struct made *made, struct chance *chance)
{
    int audio = !once_in(chance, 3), metadata = audio && once_in(chance, 2);
    size_t chunks = below(chance, 9), i;

    add_table_block(made, chance, "CRID", FILENAME);
    add_table_block(made, chance, "@SFV", MPEG_CODEC);
    if (audio)
        add_table_block(made, chance, "@SFA", AUDIO_CODEC);
    add_marker_block(made, "@SFV", "#HEADER END");
    if (audio)
        add_marker_block(made, "@SFA", "#HEADER END");
    add_table_block(made, chance, "@SFV", ID);
    if (metadata)
        add_table_block(made, chance, "@SFA", ID);
    add_marker_block(made, "@SFV", "#METADATA END");
    if (metadata)
        add_marker_block(made, "@SFA", "#METADATA END");
    for (i = 0; i < chunks; i++)
        add_any_chunk(made, chance);
    note_blocks(made);
}

static void make_example_f(struct made *made)
{
    make_f(made->bytes);
    made->len = F_BYTES;
    note_blocks(made);
}

static void make_the_song(struct made *made, struct chance *chance)
{
    static struct song song;

    make_song(&song, any(chance));
    memcpy(made->bytes, song.stored.bytes, song.stored.len);
    made->len = song.stored.len;
    note_blocks(made);
}

/* F's header and then zeros, chunks 8 bytes apart; the last may end with the film. */
static void make_many_chunks(struct made *made, struct chance *chance)
{
    size_t zeros = 48 + 8 * below(chance, once_in(chance, 20) ? 2000 : 40);

    make_f(made->bytes);
    made->len = F_VIDEO;
    add_zeros(made, zeros);
    if (!once_in(chance, 4))
        put_number(made->bytes + made->len - 44, 4, 40);
    note_blocks(made);
}

/* Bytes without sense, after nothing, a film's letters or F's header. */
static void make_garbage(struct made *made, struct chance *chance)
{
    size_t len = below(chance, 600);

    make_f(made->bytes);
    made->len = once_in(chance, 2) ? F_VIDEO : once_in(chance, 2) ? 4 : 0;
    fill_by_chance(chance, made->bytes + made->len, len);
    made->len += len;
}

/* Puts a number at the edge of something into a field. */
static void damage_field(struct made *made, struct chance *chance)
{
    struct field field;
    uint64_t own, number;

    if (made->count == 0)
        return;
    field = made->fields[below(chance, made->count)];
    if (field.at + field.width > made->len)
        return;
    own = number_at(made->bytes + field.at, field.width);
    switch (below(chance, 6)) {
    case 0:
        number = own - 1;
        break;
    case 1:
        number = own + 1;
        break;
    case 2:
        number = made->len - below(chance, made->len) + below(chance, 3);
        break;
    default:
        number = EDGES[below(chance, COUNT(EDGES))];
        break;
    }
    put_number(made->bytes + field.at, field.width, number);
}

void damage(struct made *made, struct chance *chance)
{
    size_t from, to, len;

    if (made->len == 0)
        return;
    switch (below(chance, 8)) {
    case 0:
        made->bytes[below(chance, made->len)] = (uint8_t)any(chance);
        break;
    case 1:
        made->bytes[below(chance, made->len)] ^= (uint8_t)(1u << below(chance, 8));
        break;
    case 2:
        made->len -= once_in(chance, 2) ? below(chance, made->len) : below(chance, made->len < 50 ? made->len : 50);
        break;
    case 3:
        len = below(chance, 64);
        if (made->len + len > MADE_BYTES)
            break;
        if (once_in(chance, 2))
            fill_by_chance(chance, made->bytes + made->len, len);
        else
            memset(made->bytes + made->len, 0, len);
        made->len += len;
        break;
    case 4:
        from = below(chance, made->len);
        to = below(chance, made->len);
        len = below(chance, made->len - (from > to ? from : to));
        memmove(made->bytes + to, made->bytes + from, len);
        break;
    default:
        damage_field(made, chance);
        break;
    }
}

void make_any_film(struct made *made, struct chance *chance)
{
    size_t damages = once_in(chance, 3) ? 0 : once_in(chance, 4) ? below(chance, 6) : 1;

    made->len = made->count = 0;
    switch (below(chance, 10)) {
    case 0:
    case 1:
        make_example_f(made);
        break;
    case 2:
        make_the_song(made, chance);
        break;
    case 3:
        make_many_chunks(made, chance);
        break;
    case 4:
        make_garbage(made, chance);
        break;
    default:
        make_film(made, chance);
        break;
    }
    for (; damages > 0; damages--)
        damage(made, chance);
}

size_t put_song_header(uint8_t *film)
{
    static struct song song;
    struct usm_chunk chunks[SONG_CHUNKS];

    make_song(&song, 0);
    usm_list(song.stored.bytes, song.stored.len, USM_READ_WITH_AUDIO, chunks, SONG_CHUNKS);
    memcpy(film, song.stored.bytes, chunks[0].start);
    return chunks[0].start;
}

void make_clips(struct made *made, struct chance *chance)
{
    static struct film film;
    static uint8_t payload[0x400];
    size_t left = 1 + below(chance, 3);

    film.len = put_song_header(film.bytes);
    for (; left > 0; left--) {
        int video = once_in(chance, 4);
        size_t len = (video ? 0x220 : 0x130) + below(chance, 0x40);

        fill_by_chance(chance, payload, len);
        add_chunk(&film, video ? "@SFV" : "@SFA", once_in(chance, 6) ? 1 : 0, payload, len);
    }
    made->len = made->count = 0;
    add_bytes(made, film.bytes, film.len);
}

uint8_t *make_longest(size_t apart)
{
    uint8_t *film = make_zeros(USM_CONTAINER_BYTES);
    size_t at, next, turn = 0;

    for (at = put_song_header(film); at < USM_CONTAINER_BYTES; at = next) {
        next = USM_CONTAINER_BYTES - at < 2 * apart ? USM_CONTAINER_BYTES : at + apart;
        put_text(film + at, turn++ % 2 ? "@SFA" : "@SFV");
        put32(film + at + 4, next - at - 8);
        put16(film + at + 8, 24);
    }
    forbid_writing(film, USM_CONTAINER_BYTES);
    return film;
}

/* A number that means yes or no to C. */
static uint8_t choice_by_chance(struct chance *chance)
{
    return once_in(chance, 3) ? 0 : once_in(chance, 4) ? (uint8_t)any(chance) : 1;
}

/* A mode: mostly one of the two that have a name. */
static uint8_t mode_by_chance(struct chance *chance)
{
    return once_in(chance, 8) ? (uint8_t)any(chance) : (uint8_t)below(chance, 2);
}

struct usm_reading reading_by_chance(struct chance *chance)
{
    struct usm_reading reading;

    reading.audio = once_in(chance, 3) ? USM_AUDIO_CHANNEL : choice_by_chance(chance);
    reading.channel = (uint8_t)below(chance, CHANNELS);
    reading.payloads = mode_by_chance(chance);
    reading.tables = mode_by_chance(chance);
    return reading;
}

struct usm_key key_by_chance(struct chance *chance)
{
    struct usm_key key;

    memset(&key, 0, sizeof key);
    key.number = once_in(chance, 8) ? 0 : once_in(chance, 8) ? UINT64_MAX : any(chance);
    key.given = choice_by_chance(chance);
    return key;
}

uint64_t key_near(struct chance *chance, uint64_t key)
{
    switch (below(chance, 6)) {
    case 0:
        return key;
    case 1:
        return key ^ (any(chance) & IDLE_BITS);
    case 2:
    case 3:
        return key ^ (uint64_t)1 << below(chance, 64);
    case 4:
        return key ^ (uint64_t)1 << below(chance, 64) ^ (uint64_t)1 << below(chance, 64);
    default:
        return any(chance);
    }
}

size_t make_any_table(struct made *made, struct chance *chance)
{
    size_t place = once_in(chance, 2) ? 0 : below(chance, 40), damages = once_in(chance, 3) ? 0 : below(chance, 4);

    made->len = made->count = 0;
    add_zeros(made, place);
    add_whole_table(made, chance, ID);
    note_table(made, place);
    for (; damages > 0; damages--)
        damage(made, chance);
    if (once_in(chance, 50))
        return once_in(chance, 2) ? (size_t)any(chance) : made->len + below(chance, 3);
    return place;
}
