/*
 * Calls exported functions on fixed inputs, each once, for callgrind to count.
 *
 *     cost FOLDER < CASES
 *
 * A case is a line: its name, the function, the file of FOLDER that it is called on, a number, and the number of the reply
 * that is expected. For each a line is printed: the name, and how many bytes the library had C's functions copy or set,
 * whose instructions are not counted: they are those of the C library. The instructions of the call itself stand in
 * callgrind's dump of that name.
 */
#include "../../include/usm.h"

#include <stdio.h>
#include <stdlib.h>
#include <valgrind/callgrind.h>

static int is_counting;
static size_t moved;

/* C's own functions, outside the count. They are compiled so that the compiler makes no call of them. */
static void pause_count(size_t len)
{
    if (is_counting) {
        CALLGRIND_TOGGLE_COLLECT;
        moved += len;
    }
}

static void go_on(void)
{
    if (is_counting)
        CALLGRIND_TOGGLE_COLLECT;
}

void *memcpy(void *to, const void *from, size_t len)
{
    size_t i;

    pause_count(len);
    for (i = 0; i < len; i++)
        ((unsigned char *)to)[i] = ((const unsigned char *)from)[i];
    go_on();
    return to;
}

void *memmove(void *to, const void *from, size_t len)
{
    size_t i;

    pause_count(len);
    if ((uintptr_t)to <= (uintptr_t)from)
        for (i = 0; i < len; i++)
            ((unsigned char *)to)[i] = ((const unsigned char *)from)[i];
    else
        for (i = len; i > 0; i--)
            ((unsigned char *)to)[i - 1] = ((const unsigned char *)from)[i - 1];
    go_on();
    return to;
}

void *memset(void *to, int byte, size_t len)
{
    size_t i;

    pause_count(len);
    for (i = 0; i < len; i++)
        ((unsigned char *)to)[i] = (unsigned char)byte;
    go_on();
    return to;
}

#define COUNTED(call)             \
    do {                          \
        CALLGRIND_ZERO_STATS;     \
        is_counting = 1;          \
        CALLGRIND_TOGGLE_COLLECT; \
        call;                     \
        CALLGRIND_TOGGLE_COLLECT; \
        is_counting = 0;          \
    } while (0)

static const uint64_t KEY = 0x0123456789ABCDEF;

/* What a case is called on. */
struct input {
    uint8_t *bytes;
    size_t len;
    uint64_t number;
};

static void stop(const char *what)
{
    fprintf(stderr, "cost: %s\n", what);
    exit(2);
}

static void *room(size_t bytes)
{
    void *memory = calloc(bytes + 1, 1);

    if (memory == NULL)
        stop("no memory");
    return memory;
}

static struct input read_input(const char *folder, const char *name)
{
    struct input input = {NULL, 0, 0};
    char path[4096];
    long len;
    FILE *file;

    snprintf(path, sizeof path, "%s/%s", folder, name);
    file = fopen(path, "rb");
    if (file == NULL || fseek(file, 0, SEEK_END) != 0 || (len = ftell(file)) < 0)
        stop(path);
    rewind(file);
    input.len = (size_t)len;
    input.bytes = room(input.len);
    if (fread(input.bytes, 1, input.len, file) != input.len)
        stop(path);
    fclose(file);
    return input;
}

/* ---- a function for each export; each gives the number of its reply, or what stands for one */

static unsigned key_table(struct input in)
{
    uint8_t table[USM_KEY_TABLE_BYTES];
    size_t size;

    (void)in;
    COUNTED(size = usm_key_table(KEY, table, sizeof table));
    return size == sizeof table ? 0 : 255;
}

static unsigned unmask_video(struct input in) { COUNTED(usm_unmask_video(KEY, in.bytes, in.len)); return 0; }
static unsigned mask_video(struct input in) { COUNTED(usm_mask_video(KEY, in.bytes, in.len)); return 0; }
static unsigned unmask_audio(struct input in) { COUNTED(usm_unmask_audio(KEY, in.bytes, in.len)); return 0; }
static unsigned mask_audio(struct input in) { COUNTED(usm_mask_audio(KEY, in.bytes, in.len)); return 0; }

static unsigned table(struct input in)
{
    struct usm_table_reply reply;

    COUNTED(reply = usm_table(in.bytes, in.len, 0, USM_READ_WITH_AUDIO));
    return reply.number;
}

/* The file begins with the name, whose length the case gives. */
static unsigned cell(struct input in)
{
    struct usm_cell_reply reply;
    size_t name = (size_t)in.number;

    COUNTED(reply = usm_cell(in.bytes + name, in.len - name, 0, in.bytes, name, 0, USM_READ_WITH_AUDIO));
    return reply.number;
}

/* The case gives the column, and the row in its upper half. */
static unsigned column(struct input in)
{
    struct usm_column_reply reply;

    COUNTED(reply = usm_column(in.bytes, in.len, 0, (uint32_t)in.number, USM_READ_WITH_AUDIO));
    return reply.storage == USM_STORAGE_NONE ? 255 : reply.number;
}

static unsigned cell_at(struct input in)
{
    struct usm_cell_reply reply;

    COUNTED(reply = usm_cell_at(in.bytes, in.len, 0, (uint32_t)in.number, (size_t)(in.number >> 32), USM_READ_WITH_AUDIO));
    return reply.kind == USM_CELL_NOTHING ? 255 : reply.number;
}

/* The case gives the size; 0 where only that is asked. */
static unsigned csv(struct input in)
{
    struct usm_size_reply reply;
    uint8_t *out = room((size_t)in.number);

    COUNTED(reply = usm_csv(in.bytes, in.len, 0, USM_READ_WITH_AUDIO, out, (size_t)in.number));
    free(out);
    return reply.number;
}

/* With number 0 no key is given, with 1 the key; with 2 outputs have no room. */
static unsigned extract(struct input in)
{
    struct usm_film_reply reply;
    struct usm_key key = in.number == 1 ? usm_with_key(KEY) : USM_NO_KEY;
    size_t len = in.number == 2 ? 0 : in.len;
    uint8_t *video = room(len), *audio = room(len);

    COUNTED(reply = usm_extract(in.bytes, in.len, USM_READ_WITH_AUDIO, key, NULL, 0, video, len, audio, len));
    free(video);
    free(audio);
    return reply.number;
}

/* The case gives the room. */
static unsigned list(struct input in)
{
    struct usm_list_reply reply;
    struct usm_chunk *chunks = room((size_t)in.number * sizeof *chunks);

    COUNTED(reply = usm_list(in.bytes, in.len, USM_READ_WITH_AUDIO, chunks, (size_t)in.number));
    free(chunks);
    return reply.number;
}

static unsigned open_film(struct input in)
{
    struct usm_open_reply reply;

    COUNTED(reply = usm_open(in.bytes, in.len < 16384 ? in.len : 16384, in.len, USM_READ_WITH_AUDIO));
    return reply.more ? 255 : reply.film.number;
}

static struct usm_open_reply opened(struct input in)
{
    return usm_open(in.bytes, in.len, in.len, USM_READ_WITH_AUDIO);
}

static unsigned step(struct input in)
{
    struct usm_open_reply film = opened(in);
    struct usm_film_audio audio = usm_audio_of(film.film);
    struct usm_step_reply reply;

    COUNTED(reply = usm_step(in.bytes + film.chunks, 45, film.chunks, in.len, USM_READ_WITH_AUDIO, audio));
    return reply.number;
}

static unsigned header_tables(struct input in)
{
    struct usm_tables_reply reply;

    COUNTED(reply = usm_header_tables(in.bytes, in.len, in.len, USM_READ_WITH_AUDIO));
    return reply.number;
}

static unsigned profile_begin(struct input in)
{
    struct usm_film_audio audio = usm_audio_of(opened(in).film);
    struct usm_profiling known;

    COUNTED(known = usm_profile_begin(audio));
    return known.rule;
}

/* The first chunk of the film breaks a rule. */
static unsigned profile_step(struct input in)
{
    struct usm_open_reply film = opened(in);
    struct usm_profiling known = usm_profile_begin(usm_audio_of(film.film));

    COUNTED(known = usm_profile_step(in.bytes + film.chunks, 45, film.chunks, known));
    return known.place != film.chunks;
}

/* After no chunk, both ends are missing. */
static unsigned profile_end(struct input in)
{
    struct usm_profiling known = usm_profile_begin(usm_audio_of(opened(in).film));
    struct usm_profile_reply reply;

    COUNTED(reply = usm_profile_end(in.len, known));
    return reply.number;
}

static unsigned clear(struct input in) { COUNTED(usm_clear(KEY, (uint8_t)in.number, in.bytes, in.len)); return 0; }

/* The bytes as the second of many pieces. */
static unsigned clear_piece(struct input in)
{
    static const uint8_t row[USM_ROW_BYTES] = {7};
    uint8_t reply;

    COUNTED(reply = usm_clear_piece(KEY, (uint8_t)in.number, 100 * in.len, in.len, row, sizeof row, in.bytes, in.len));
    return !reply;
}

/* The case gives how many bytes are video; the others are audio. */
static unsigned write_film(struct input in)
{
    struct usm_packing packing = {{0x0123456789ABCDEF, 1}, 1, 2, 1, 1, 1};
    size_t video = (size_t)in.number, len = 2 * in.len + 65536;
    struct usm_size_reply reply;
    uint8_t *out = room(len);

    COUNTED(reply = usm_write((const uint8_t *)"lark", 4, in.bytes, video, in.bytes + video, in.len - video, packing, out, len));
    free(out);
    return reply.number;
}

static const struct usm_packing BY_PIECES = {{0x0123456789ABCDEF, 1}, 1, 2, 1, 1, 1};

/* The case gives how many bytes are video, and how many audio. */
static unsigned write_open(struct input in)
{
    struct usm_size_reply reply;
    uint8_t *out = room(1024);

    COUNTED(reply = usm_write_open((const uint8_t *)"lark", 4, (size_t)in.number, (size_t)in.number, BY_PIECES, out, 1024));
    free(out);
    return reply.number;
}

static unsigned write_chunk(struct input in)
{
    struct usm_turn_reply reply;
    uint8_t head[USM_HEAD_BYTES];

    COUNTED(reply = usm_write_chunk((size_t)in.number, (size_t)in.number, 3, BY_PIECES, head, sizeof head));
    return reply.head.number;
}

/* The case gives the mask. */
static unsigned write_payload(struct input in)
{
    struct usm_size_reply reply;

    COUNTED(reply = usm_write_payload(KEY, (uint8_t)in.number, in.bytes, in.len));
    return reply.number;
}

static unsigned write_end(struct input in)
{
    struct usm_size_reply reply;
    uint8_t *out = room(1024);

    (void)in;
    COUNTED(reply = usm_write_end(BY_PIECES, out, 1024));
    free(out);
    return reply.number;
}

static unsigned from_old(struct input in)
{
    struct usm_codecs codecs = {1, 2, 1, 1};
    size_t len = in.len + in.len / 2 + 65536;
    struct usm_size_reply reply;
    uint8_t *out = room(len);

    COUNTED(reply = usm_from_old(in.bytes, in.len, codecs, out, len));
    free(out);
    return reply.number;
}

static unsigned to_old(struct input in)
{
    struct usm_size_reply reply;
    uint8_t *out = room(in.len);

    COUNTED(reply = usm_to_old(in.bytes, in.len, out, in.len));
    free(out);
    return reply.number;
}

static unsigned salvage(struct input in)
{
    struct usm_salvage_reply reply;

    COUNTED(reply = usm_salvage(in.bytes, in.len));
    return reply.number;
}

/* The case gives the room. */
static unsigned make_index(struct input in)
{
    struct usm_list_reply reply;
    struct usm_index_entry *index = room((size_t)in.number * sizeof *index);

    COUNTED(reply = usm_index(in.bytes, in.len, index, (size_t)in.number));
    free(index);
    return reply.number;
}

/* The case gives the count of entries: payloads of 100 bytes. The last byte is sought. */
static unsigned seek(struct input in)
{
    size_t count = (size_t)in.number, i;
    struct usm_index_entry *index = room(count * sizeof *index);
    struct usm_seek_reply reply;

    for (i = 0; i < count; i++) {
        index[i].place = 100 * i;
        index[i].chunk = 132 * i;
        index[i].length = 100;
    }
    COUNTED(reply = usm_seek(index, count, 100 * count - 1));
    free(index);
    return reply.found ? 0 : 255;
}

static unsigned profile(struct input in)
{
    struct usm_profile_reply reply;

    COUNTED(reply = usm_profile(in.bytes, in.len));
    return reply.number;
}

static void fill_tenants(struct usm_tenant *tenants)
{
    size_t i;

    for (i = 0; i < 16; i++) {
        tenants[i].number = 16 - i;
        tenants[i].key = KEY + (uint64_t)(i % 5) * 0x0100000000000001;
    }
}

static unsigned statement_by(struct input in)
{
    struct usm_tenant tenants[16];
    struct usm_share lines[16];
    struct usm_list_reply reply;

    fill_tenants(tenants);
    COUNTED(reply = usm_statement_by(in.number, 1000, tenants, 16, lines, 16));
    return reply.number;
}

static unsigned statement(struct input in)
{
    struct usm_tenant tenants[16];
    struct usm_share lines[16];
    struct usm_list_reply reply;

    fill_tenants(tenants);
    COUNTED(reply = usm_statement(in.bytes, in.len, tenants, 16, lines, 16));
    return reply.number;
}

static unsigned key_bits(struct input in)
{
    struct usm_key_bits_reply reply;

    COUNTED(reply = usm_key_bits(in.bytes, in.len, USM_READ_WITH_AUDIO));
    return reply.number;
}

static unsigned payload_bits(struct input in)
{
    uint64_t bits;

    COUNTED(bits = usm_payload_bits(USM_MASK_AUDIO, (size_t)in.number));
    return bits != 0 ? 0 : 255;
}

/* The case gives in which bits the other key differs. */
static unsigned apart(struct input in)
{
    struct usm_apart_reply reply;

    COUNTED(reply = usm_apart(in.bytes, in.len, USM_READ_WITH_AUDIO, KEY, KEY ^ in.number));
    return reply.number;
}

static unsigned payload_apart(struct input in)
{
    size_t byte;

    COUNTED(byte = usm_payload_apart(USM_MASK_AUDIO, (size_t)in.number, KEY, KEY ^ 1));
    return byte < in.number ? 0 : 255;
}

static unsigned why(struct input in)
{
    uint8_t reason;

    COUNTED(reason = usm_why(in.number, KEY, KEY ^ 1));
    return reason == USM_DIFFERENT ? 0 : 255;
}

/* ---- the cases */

struct export {
    const char *name;
    unsigned (*call)(struct input);
};

static const struct export EXPORTS[] = {
    {"usm_key_table", key_table},       {"usm_unmask_video", unmask_video}, {"usm_mask_video", mask_video},
    {"usm_unmask_audio", unmask_audio}, {"usm_mask_audio", mask_audio},     {"usm_table", table},
    {"usm_cell", cell},                 {"usm_csv", csv},                   {"usm_extract", extract},
    {"usm_list", list},                 {"usm_open", open_film},            {"usm_step", step},
    {"usm_clear", clear},               {"usm_clear_piece", clear_piece},
    {"usm_write", write_film},          {"usm_from_old", from_old},
    {"usm_to_old", to_old},             {"usm_salvage", salvage},           {"usm_index", make_index},
    {"usm_seek", seek},                 {"usm_profile", profile},           {"usm_profile_begin", profile_begin},
    {"usm_profile_step", profile_step}, {"usm_profile_end", profile_end},   {"usm_header_tables", header_tables},
    {"usm_write_open", write_open},     {"usm_write_chunk", write_chunk},   {"usm_write_payload", write_payload},
    {"usm_write_end", write_end},
    {"usm_statement", statement},       {"usm_key_bits", key_bits},         {"usm_payload_bits", payload_bits},
    {"usm_statement_by", statement_by}, {"usm_column", column},             {"usm_cell_at", cell_at},
    {"usm_apart", apart},               {"usm_payload_apart", payload_apart}, {"usm_why", why},
};

static int is_same(const char *one, const char *other)
{
    while (*one != '\0' && *one == *other)
        one++, other++;
    return *one == *other;
}

static const struct export *export_of(const char *name)
{
    size_t i;

    for (i = 0; i < sizeof EXPORTS / sizeof EXPORTS[0]; i++)
        if (is_same(EXPORTS[i].name, name))
            return &EXPORTS[i];
    stop(name);
    return NULL;
}

int main(int count, char **words)
{
    char name[256], function[64], file[256];
    unsigned long long number;
    unsigned expected;

    if (count != 2)
        stop("usage: cost FOLDER < CASES");
    while (scanf("%255s %63s %255s %llu %u", name, function, file, &number, &expected) == 5) {
        struct input input = read_input(words[1], file);
        unsigned found;

        input.number = number;
        moved = 0;
        found = export_of(function)->call(input);
        CALLGRIND_DUMP_STATS_AT(name);
        printf("%s %zu\n", name, moved);
        if (found != expected) {
            fprintf(stderr, "cost: %s: the number is %u, and not %u\n", name, found, expected);
            return 1;
        }
        free(input.bytes);
    }
    return 0;
}
