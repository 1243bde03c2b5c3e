#define _GNU_SOURCE
#include "tries.h"

#include "../../examples/replies.h"
#include "calls.h"
#include "make.h"

#include <stdio.h>
#include <stdlib.h>
#include <string.h>
#include <unistd.h>

#define LIST_BYTES (MADE_BYTES / 8 * sizeof(struct usm_chunk))
#define FALLBACK_BYTES 300
#define NAME_BYTES 32

const char *const CALL_NAMES[CALLS] = {
    "usm_key_table", "usm_unmask_video", "usm_mask_video", "usm_unmask_audio", "usm_mask_audio",
    "usm_table",     "usm_cell",         "usm_extract",    "usm_list",
};

struct tally tally;
volatile enum call last_call;

/* What is lent: read-only, and to be written. */
static struct memory films, fallbacks, names, videos, audios, lists;

/* The case that is being tried. */
static uint64_t case_seed, case_number;
static enum edge case_edge;
static struct made made;
static struct chance chance;

/* Two streams as the list and the masks make them. */
static uint8_t right_video[MADE_BYTES], right_audio[MADE_BYTES];

void make_all_memory(void)
{
    make_memory(&films, MADE_BYTES, 1);
    make_memory(&fallbacks, FALLBACK_BYTES, 1);
    make_memory(&names, NAME_BYTES, 1);
    make_memory(&videos, MADE_BYTES + 1, 0);
    make_memory(&audios, MADE_BYTES + 1, 0);
    make_memory(&lists, LIST_BYTES + 64 * sizeof(struct usm_chunk), 0);
}

/* Writes to stderr by nothing but write, since printf is not for a signal's handler. */
static void say(const char *text)
{
    size_t left = strlen(text);

    while (left > 0) {
        ssize_t written = write(STDERR_FILENO, text, left);

        if (written <= 0)
            return;
        text += written;
        left -= (size_t)written;
    }
}

static void say_number(uint64_t number)
{
    char digits[21], *first = digits + 20;

    *first = '\0';
    do {
        *--first = (char)('0' + number % 10);
        number /= 10;
    } while (number > 0);
    say(first);
}

static void say_bytes(const uint8_t *bytes, size_t len)
{
    static const char DIGITS[] = "0123456789abcdef";
    static char hex[2 * MADE_BYTES + 1];
    size_t i;

    for (i = 0; i < len; i++) {
        hex[2 * i] = DIGITS[bytes[i] >> 4];
        hex[2 * i + 1] = DIGITS[bytes[i] & 15];
    }
    hex[2 * len] = '\0';
    say(hex);
}

void print_case(const char *what)
{
    say("hard_use: ");
    say(what);
    say("\nseed ");
    say_number(case_seed);
    say(", case ");
    say_number(case_number);
    say(case_edge == ENDS ? ", slices end" : ", slices begin");
    say(" at the page, last call ");
    say(CALL_NAMES[last_call]);
    say(", bytes:\n");
    say_bytes(made.bytes, made.len);
    say("\n");
}

#define EXPECT(fact) expect((fact), #fact, __LINE__)

static void expect(int holds, const char *fact, int line)
{
    char what[512];

    if (holds)
        return;
    snprintf(what, sizeof what, "not as expected, line %d: %s", line, fact);
    print_case(what);
    exit(1);
}

/* What is lent of a slice: where it has no bytes, NULL now and then. */
static uint8_t *start_of(const struct output *output)
{
    return output->len == 0 && once_in(&chance, 4) ? NULL : output->at;
}

/* How much is lent where so much is needed: 0 to 64, or as much, one less and one more. */
static size_t room_by_chance(size_t needed)
{
    switch (below(&chance, 4)) {
    case 0:
        return below(&chance, 65);
    case 1:
        return needed == 0 ? 0 : needed - 1;
    case 2:
        return needed;
    default:
        return needed + 1;
    }
}

/* A film, how it is read, and what the first calls said of it. */
struct reading {
    const uint8_t *film;
    size_t len;
    struct usm_reading how;
    struct usm_key key;
    const uint8_t *fallback;
    size_t fallback_len;
    /* The walk's refusal, if there is one; sizes and count otherwise. */
    int refused;
    uint8_t number, unknown_type;
    size_t place, video_size, audio_size, count;
    int masked_audio;
};

/* One extraction into outputs of some lengths. */
struct extraction {
    struct output video, audio;
    struct usm_film_reply reply;
};

static struct extraction extract(const struct reading *reading, size_t video_len, size_t audio_len)
{
    struct extraction x;

    x.video = lend_output(&videos, case_edge, video_len, &chance);
    x.audio = lend_output(&audios, case_edge, audio_len, &chance);
    calling(EXTRACT);
    x.reply = usm_extract(reading->film, reading->len, reading->how, reading->key, reading->fallback,
                          reading->fallback_len, start_of(&x.video), video_len, start_of(&x.audio), audio_len);
    answered(x.reply.number);
    return x;
}

/* The reply is a refusal, with nothing beside these values, and no output is written. */
static void expect_refusal(const struct extraction *x, uint8_t number, size_t place, size_t video_size,
                           size_t audio_size, uint8_t unknown_type)
{
    EXPECT(same_film(x->reply, refused_film(number, place, video_size, audio_size, unknown_type)));
    EXPECT(stays_from(&x->video, 0) && stays_from(&x->audio, 0));
}

/* What a type beside a number may be. */
static int is_type_of(uint8_t number, uint8_t type)
{
    return number == USM_UNKNOWN_TYPE ? type == 7 || type == 9 || (type >= 12 && type <= 15) : type == 0;
}

/* What a table may be refused with, as it is read. */
static int is_table_number(uint8_t number, struct usm_reading how)
{
    return number <= USM_TOO_MANY || (number == USM_UNKNOWN_STORAGE && how.tables == USM_TABLES_ZERO_COLUMNS);
}

/* What a film may be. */
static int is_film_number(uint8_t number, struct usm_reading how)
{
    return is_table_number(number, how) || (number == USM_SHORT_HEADER && how.payloads == USM_PAYLOADS_AFTER_HEADER);
}

/* How many bytes after its chunk's start a payload that is taken stands. */
static uint32_t offset_in(const uint8_t *chunk, struct usm_reading how)
{
    return how.payloads == USM_PAYLOADS_AFTER_HEADER ? 8 + chunk[8] * 256u + chunk[9] : 32;
}

/* The first call: outputs without bytes. */
static void ask_for_sizes(struct reading *reading)
{
    struct extraction x = extract(reading, 0, 0);
    struct usm_film_reply reply = x.reply;

    EXPECT(stays_from(&x.video, 0) && stays_from(&x.audio, 0));
    reading->video_size = reading->audio_size = 0;
    if (reply.number == USM_SHORT_OUTPUT) {
        reading->video_size = reply.video_size;
        reading->audio_size = reply.audio_size;
        EXPECT(reply.video_size + reply.audio_size > 0);
        EXPECT(reply.video_size + reply.audio_size <= reading->len);
        expect_refusal(&x, USM_SHORT_OUTPUT, 0, reply.video_size, reply.audio_size, 0);
    } else if (reply.number != USM_ACCEPTED) {
        reading->refused = 1;
        reading->number = reply.number;
        reading->place = reply.refused_at;
        reading->unknown_type = reply.unknown_type;
        EXPECT(is_film_number(reply.number, reading->how));
        EXPECT(reply.number != USM_NO_FILM || reply.refused_at == 0);
        EXPECT(is_type_of(reply.number, reply.unknown_type));
        expect_refusal(&x, reply.number, reply.refused_at, 0, 0, reply.unknown_type);
    }
}

/* The reply on a film that is accepted. */
static void expect_film(struct reading *reading, struct usm_film_reply reply)
{
    EXPECT(reply.number == USM_ACCEPTED && reply.refused_at == 0 && reply.unknown_type == 0);
    if (reply.name_source == USM_NAME_IN_FALLBACK)
        EXPECT(reply.name_start == 0 && reply.name_length == reading->fallback_len);
    else
        EXPECT(reply.name_source == USM_NAME_IN_CONTAINER && reply.name_start + reply.name_length <= reading->len);
    EXPECT(reply.has_audio <= 1 && reply.has_video_codec <= 1 && reply.has_audio_codec <= reply.has_audio);
    EXPECT(reply.has_video_codec || reply.video_codec == 0);
    EXPECT(reply.has_audio_codec || reply.audio_codec == 0);
    EXPECT(reply.video_kind == (reply.video_codec == 9 ? USM_VIDEO_IVF : USM_VIDEO_M2V));
    EXPECT(reply.audio_kind == (reply.audio_codec == 4 ? USM_AUDIO_HCA : USM_AUDIO_ADX));
    EXPECT(reply.video_size == reading->video_size && reply.audio_size == reading->audio_size);
    EXPECT(reading->audio_size == 0 || (reading->how.audio != 0 && reply.has_audio == 1));
    reading->masked_audio = reply.audio_codec == 2;
}

/* Extracts once, into outputs of some lengths. Only what is accepted writes them. */
static void try_extraction(struct reading *reading, size_t video_len, size_t audio_len)
{
    struct extraction x = extract(reading, video_len, audio_len);

    if (reading->refused) {
        expect_refusal(&x, reading->number, reading->place, 0, 0, reading->unknown_type);
    } else if (video_len < reading->video_size || audio_len < reading->audio_size) {
        expect_refusal(&x, USM_SHORT_OUTPUT, 0, reading->video_size, reading->audio_size, 0);
    } else {
        expect_film(reading, x.reply);
        EXPECT(memcmp(x.video.at, right_video, reading->video_size) == 0);
        EXPECT(memcmp(x.audio.at, right_audio, reading->audio_size) == 0);
        EXPECT(stays_from(&x.video, reading->video_size) && stays_from(&x.audio, reading->audio_size));
    }
}

static struct usm_list_reply list_into(const struct reading *reading, const struct output *list)
{
    struct usm_list_reply reply;

    calling(LIST);
    reply = usm_list(reading->film, reading->len, reading->how, (struct usm_chunk *)(void *)start_of(list),
                     list->len / sizeof(struct usm_chunk));
    answered(reply.number);
    return reply;
}

/* Lists into so many records; gives them. */
static struct output try_list(const struct reading *reading, size_t room)
{
    struct output list = lend_output(&lists, case_edge, room * sizeof(struct usm_chunk), &chance);
    struct usm_list_reply reply = list_into(reading, &list);

    if (reading->refused) {
        EXPECT(same_list(reply, list_reply(reading->number, reading->place, 0, reading->unknown_type)));
        EXPECT(stays_from(&list, 0));
    } else if (room < reading->count) {
        EXPECT(same_list(reply, list_reply(USM_SHORT_LIST, 0, reading->count, 0)));
        EXPECT(stays_from(&list, 0));
    } else {
        EXPECT(same_list(reply, list_reply(USM_ACCEPTED, 0, reading->count, 0)));
        EXPECT(stays_from(&list, reading->count * sizeof(struct usm_chunk)));
    }
    return list;
}

/* The count of chunks, by a call without a list. */
static void ask_for_count(struct reading *reading)
{
    struct output list = lend_output(&lists, case_edge, 0, &chance);

    reading->count = list_into(reading, &list).count;
    EXPECT(stays_from(&list, 0));
    EXPECT(reading->count <= reading->len / 8);
}

/* Puts together what both streams should be: each payload as the list has it, unmasked as the header
 * says. */
static void make_streams(const struct reading *reading, const struct output *list)
{
    size_t video = 0, audio = 0, next = 0, i;

    for (i = 0; i < reading->count; i++) {
        struct usm_chunk chunk;

        memcpy(&chunk, list->at + i * sizeof chunk, sizeof chunk);
        EXPECT(chunk.kind <= USM_CHUNK_END && chunk.data_type <= 3);
        EXPECT(chunk.start >= next && chunk.start + 45 <= reading->len);
        next = chunk.start + 8;
        EXPECT(chunk.length == 0 || chunk.kind <= USM_CHUNK_AUDIO);
        EXPECT(chunk.start + chunk.offset + chunk.length <= reading->len);
        EXPECT(chunk.offset == (chunk.length == 0 ? chunk.offset : offset_in(reading->film + chunk.start, reading->how)));
        EXPECT(chunk.channel == reading->film[chunk.start + 12]);
        EXPECT(chunk.length == 0 || chunk.kind != USM_CHUNK_AUDIO || reading->how.audio != USM_AUDIO_CHANNEL ||
               chunk.channel == reading->how.channel);
        if (chunk.kind == USM_CHUNK_VIDEO) {
            EXPECT(video + chunk.length <= reading->video_size);
            memcpy(right_video + video, reading->film + chunk.start + chunk.offset, chunk.length);
            if (reading->key.given && chunk.data_type == 0)
                usm_unmask_video(reading->key.number, right_video + video, chunk.length);
            video += chunk.length;
        } else if (chunk.kind == USM_CHUNK_AUDIO) {
            EXPECT(audio + chunk.length <= reading->audio_size);
            memcpy(right_audio + audio, reading->film + chunk.start + chunk.offset, chunk.length);
            if (reading->key.given && reading->masked_audio && chunk.data_type == 0)
                usm_unmask_audio(reading->key.number, right_audio + audio, chunk.length);
            audio += chunk.length;
        }
    }
    EXPECT(video == reading->video_size && audio == reading->audio_size);
}

static void try_film(void)
{
    uint8_t fallback[FALLBACK_BYTES] = {0};
    struct reading reading;
    struct output list;
    int i;

    make_any_film(&made, &chance);
    memset(&reading, 0, sizeof reading);
    reading.len = made.len;
    reading.film = lend_bytes(&films, case_edge, made.bytes, made.len);
    reading.fallback_len = once_in(&chance, 2) ? below(&chance, 2) : below(&chance, FALLBACK_BYTES + 1);
    reading.fallback = lend_bytes(&fallbacks, case_edge, fallback, reading.fallback_len);
    reading.how = reading_by_chance(&chance);
    reading.key = key_by_chance(&chance);

    ask_for_sizes(&reading);
    ask_for_count(&reading);
    if (!reading.refused) {
        /* What the header says is learnt by an extraction into outputs that are long enough. */
        expect_film(&reading, extract(&reading, reading.video_size, reading.audio_size).reply);
        list = try_list(&reading, reading.count);
        make_streams(&reading, &list);
        try_extraction(&reading, reading.video_size, reading.audio_size);
    }
    for (i = 0; i < 4; i++)
        try_extraction(&reading, room_by_chance(reading.video_size), room_by_chance(reading.audio_size));
    for (i = 0; i < 4; i++)
        try_list(&reading, room_by_chance(reading.count));
    EXPECT(memcmp(reading.film, made.bytes, made.len) == 0);
}

/* Reads a table; gives its reply. */
static struct usm_table_reply try_table(const uint8_t *bytes, size_t place, struct usm_reading how)
{
    struct usm_table_reply reply;

    calling(TABLE);
    reply = usm_table(bytes, made.len, place, how);
    answered(reply.number);
    EXPECT(is_table_number(reply.number, how) && is_type_of(reply.number, reply.unknown_type));
    EXPECT(reply.refused_at == (reply.number == USM_ACCEPTED ? 0 : place));
    EXPECT(reply.columns <= 64 && reply.rows <= 256);
    EXPECT(reply.number == USM_ACCEPTED || (reply.columns == 0 && reply.rows == 0));
    return reply;
}

/* Asks for one cell of a table that has this reply. */
static void try_cell(const uint8_t *bytes, size_t place, struct usm_reading how, struct usm_table_reply table)
{
    static const char *const NAMES[] = {"filename", "mpeg_codec", "audio_codec", "", "id", "a film.usm", "i", "idx"};
    const char *asked = NAMES[below(&chance, sizeof NAMES / sizeof NAMES[0])];
    size_t row = once_in(&chance, 8) ? (size_t)any(&chance) : below(&chance, 4), name_len = strlen(asked);
    const uint8_t *name = lend_bytes(&names, case_edge, (const uint8_t *)asked, name_len);
    struct usm_cell_reply cell;

    calling(CELL);
    cell = usm_cell(bytes, made.len, place, name, name_len, row, how);
    answered(cell.number);
    EXPECT(cell.number == table.number && cell.refused_at == table.refused_at);
    EXPECT(cell.unknown_type == table.unknown_type && cell.kind <= USM_CELL_DATA);
    EXPECT(cell.kind == USM_CELL_NOTHING || (cell.number == USM_ACCEPTED && row < table.rows));
    EXPECT(cell.kind != USM_CELL_NOTHING || (cell.value == 0 && cell.length == 0));
    EXPECT(cell.kind >= USM_CELL_STRING ? cell.value + cell.length <= made.len : cell.length == 0);
}

static void try_tables(void)
{
    size_t place = make_any_table(&made, &chance);
    const uint8_t *bytes = lend_bytes(&films, case_edge, made.bytes, made.len);
    struct usm_reading how = reading_by_chance(&chance);
    struct usm_table_reply table = try_table(bytes, place, how);
    int i;

    for (i = 0; i < 3; i++)
        try_cell(bytes, place, how, table);
    EXPECT(memcmp(bytes, made.bytes, made.len) == 0);
}

typedef void act(uint64_t key, uint8_t *payload, size_t len);

/* A mask and its reverse on a payload: what is below a place stays, and in the end all is as before. */
static void try_mask(enum call call, act *first, enum call back, act *second, size_t stays, size_t shortest)
{
    uint64_t key = key_by_chance(&chance).number;
    size_t len = once_in(&chance, 3) ? below(&chance, 65) : once_in(&chance, 2) ? below(&chance, 2000) : 0x130 + below(&chance, 0x140);
    struct output payload = lend_output(&videos, case_edge, len, &chance);
    size_t before = (size_t)(payload.at - payload.whole), kept = len < shortest ? len : stays < len ? stays : len;

    calling(call);
    first(key, start_of(&payload), len);
    EXPECT(memcmp(payload.at, payload.old + before, kept) == 0);
    EXPECT(stays_from(&payload, len));
    calling(back);
    second(key, start_of(&payload), len);
    EXPECT(stays_from(&payload, 0));
}

static void try_key_table(void)
{
    struct output table = lend_output(&videos, case_edge, once_in(&chance, 2) ? below(&chance, 65) : below(&chance, 200), &chance);
    size_t given;

    calling(KEY_TABLE);
    given = usm_key_table(key_by_chance(&chance).number, start_of(&table), table.len);
    answered((uint8_t)given);
    EXPECT(given == (table.len < USM_KEY_TABLE_BYTES ? 0 : USM_KEY_TABLE_BYTES));
    EXPECT(stays_from(&table, given));
}

void try_case(uint64_t seed, uint64_t number, enum edge edge)
{
    case_seed = seed;
    case_number = number;
    case_edge = edge;
    chance = chance_of(seed, number);
    try_film();
    try_tables();
    try_mask(UNMASK_VIDEO, usm_unmask_video, MASK_VIDEO, usm_mask_video, 0x40, 0x240);
    try_mask(MASK_VIDEO, usm_mask_video, UNMASK_VIDEO, usm_unmask_video, 0x40, 0x240);
    try_mask(UNMASK_AUDIO, usm_unmask_audio, MASK_AUDIO, usm_mask_audio, 0x140, 0x140);
    try_key_table();
}
