#define _GNU_SOURCE
#include "catches.h"

#include "../../examples/films.h"
#include "lent.h"

#include <signal.h>
#include <stdio.h>
#include <string.h>

#define PAYLOAD 0x260

/* A table with one column, "id", which is a constant. */
static const uint8_t TABLE[] = {'@', 'U', 'T', 'F', 0, 0, 0, 33, 0, 1, 0, 30, 0, 0, 0, 30, 0, 0, 0, 33, 0,
                                0,   0,   0,   0,   1, 0, 0, 0,  0, 0, 1, 0x30, 0, 0, 0, 0, 7, 'i', 'd', 0};

static struct memory read_only, second_read_only, third_read_only, written, second_written;
static struct chance chance;
static struct song song;
static uint8_t f[F_BYTES];

/* A slice to be written that has fewer bytes than the call is given as its length. */
static uint8_t *lacking(struct memory *memory, size_t len, size_t lacks)
{
    return lend_output(memory, ENDS, len - lacks, &chance).at;
}

static const uint8_t *film_of(const uint8_t *bytes, size_t len, size_t lacks)
{
    return lend_bytes(&read_only, ENDS, bytes, len - lacks);
}

/* The calls. Each is given a length of one slice that is too large by `lacks`. */
static void key_table(size_t lacks)
{
    usm_key_table(1, lacking(&written, USM_KEY_TABLE_BYTES, lacks), USM_KEY_TABLE_BYTES);
}

static void unmask_video(size_t lacks)
{
    usm_unmask_video(1, lacking(&written, PAYLOAD, lacks), PAYLOAD);
}

static void mask_video(size_t lacks)
{
    usm_mask_video(1, lacking(&written, PAYLOAD, lacks), PAYLOAD);
}

static void unmask_audio(size_t lacks)
{
    usm_unmask_audio(1, lacking(&written, PAYLOAD, lacks), PAYLOAD);
}

static void mask_audio(size_t lacks)
{
    usm_mask_audio(1, lacking(&written, PAYLOAD, lacks), PAYLOAD);
}

static void table(size_t lacks)
{
    usm_table(film_of(TABLE, sizeof TABLE, lacks), sizeof TABLE, 0, USM_READ_WITH_AUDIO);
}

static void cell(size_t lacks)
{
    usm_cell(film_of(TABLE, sizeof TABLE, lacks), sizeof TABLE, 0, (const uint8_t *)"id", 2, 0, USM_READ_WITH_AUDIO);
}

static void cell_name(size_t lacks)
{
    usm_cell(film_of(TABLE, sizeof TABLE, 0), sizeof TABLE, 0,
             lend_bytes(&second_read_only, ENDS, (const uint8_t *)"id", 2 - lacks), 2, 0, USM_READ_WITH_AUDIO);
}

static void column(size_t lacks)
{
    usm_column(film_of(TABLE, sizeof TABLE, lacks), sizeof TABLE, 0, 0, USM_READ_WITH_AUDIO);
}

static void cell_at(size_t lacks)
{
    usm_cell_at(film_of(TABLE, sizeof TABLE, lacks), sizeof TABLE, 0, 0, 0, USM_READ_WITH_AUDIO);
}

/* Extracts the song; the film, the video output or the audio output is too long. */
static void extract(size_t film, size_t video, size_t audio)
{
    usm_extract(film_of(song.stored.bytes, song.stored.len, film), song.stored.len, USM_READ_WITH_AUDIO,
                usm_with_key(1), NULL, 0, lacking(&written, song.video_len, video), song.video_len,
                lacking(&second_written, song.audio_len, audio), song.audio_len);
}

static void extract_film(size_t lacks)
{
    extract(lacks, 0, 0);
}

static void extract_video(size_t lacks)
{
    extract(0, lacks, 0);
}

static void extract_audio(size_t lacks)
{
    extract(0, 0, lacks);
}

/* Lists F without the bytes behind its last marker, whose last byte decides; the film or the list is too
 * long. */
static void list(size_t film, size_t records)
{
    size_t record = sizeof(struct usm_chunk);

    usm_list(film_of(f, 429, film), 429, USM_READ_WITH_AUDIO,
             (struct usm_chunk *)(void *)lacking(&written, 2 * record, records * record), 2);
}

static void list_film(size_t lacks)
{
    list(lacks, 0);
}

static void list_records(size_t lacks)
{
    list(0, lacks);
}

/* Indexes F, likewise; the film or the index is too long. */
static void index_f(size_t film, size_t entries)
{
    size_t entry = sizeof(struct usm_index_entry);

    usm_index(film_of(f, 429, film), 429,
              (struct usm_index_entry *)(void *)lacking(&written, entry, entries * entry), 1);
}

static void index_film(size_t lacks)
{
    index_f(lacks, 0);
}

static void index_entries(size_t lacks)
{
    index_f(0, lacks);
}

static void seek(size_t lacks)
{
    static const struct usm_index_entry entry = {0, F_VIDEO, 32};

    usm_seek((const struct usm_index_entry *)(const void *)film_of((const uint8_t *)&entry, sizeof entry,
                                                                    lacks * sizeof entry),
             1, 0);
}

static void profile(size_t lacks)
{
    usm_profile(film_of(f, 429, lacks), 429);
}

/* Writes the table as CSV; the table or the output is too long. */
static void csv(size_t bytes, size_t out)
{
    size_t size = usm_csv(TABLE, sizeof TABLE, 0, USM_READ_WITH_AUDIO, NULL, 0).size;

    usm_csv(film_of(TABLE, sizeof TABLE, bytes), sizeof TABLE, 0, USM_READ_WITH_AUDIO, lacking(&written, size, out),
            size);
}

static void csv_table(size_t lacks)
{
    csv(lacks, 0);
}

static void csv_output(size_t lacks)
{
    csv(0, lacks);
}

/* Writes a film with a name and streams of 33 bytes; one of the four slices is too long. */
static void write_film(size_t name, size_t video, size_t audio, size_t out)
{
    struct usm_packing packing = {{0, 0}, 0, 0, 1, 0, 0};
    size_t len = 33, size = usm_write(TABLE, len, f, len, f, len, packing, NULL, 0).size;

    usm_write(film_of(TABLE, len, name), len, lend_bytes(&second_read_only, ENDS, f, len - video), len,
              lend_bytes(&third_read_only, ENDS, f, len - audio), len, packing, lacking(&written, size, out), size);
}

static void write_name(size_t lacks)
{
    write_film(lacks, 0, 0, 0);
}

static void write_video(size_t lacks)
{
    write_film(0, lacks, 0, 0);
}

static void write_audio(size_t lacks)
{
    write_film(0, 0, lacks, 0);
}

static void write_output(size_t lacks)
{
    write_film(0, 0, 0, lacks);
}

/* Writes the header of a film with a name of 33 bytes; one of the two slices is too long. */
static void write_open(size_t name, size_t out)
{
    struct usm_packing packing = {{0, 0}, 0, 0, 1, 0, 0};
    size_t len = 33, size = usm_write_open(TABLE, len, len, len, packing, NULL, 0).size;

    usm_write_open(film_of(TABLE, len, name), len, len, len, packing, lacking(&written, size, out), size);
}

static void open_name(size_t lacks)
{
    write_open(lacks, 0);
}

static void open_output(size_t lacks)
{
    write_open(0, lacks);
}

static void write_chunk(size_t lacks)
{
    struct usm_packing packing = {{0, 0}, 0, 0, 1, 0, 0};

    usm_write_chunk(1, 1, 0, packing, lacking(&written, USM_HEAD_BYTES, lacks), USM_HEAD_BYTES);
}

static void write_payload(size_t lacks)
{
    usm_write_payload(1, USM_MASK_AUDIO, lacking(&written, PAYLOAD, lacks), PAYLOAD);
}

static void write_end(size_t lacks)
{
    struct usm_packing packing = {{0, 0}, 0, 0, 1, 0, 0};
    size_t size = usm_write_end(packing, NULL, 0).size;

    usm_write_end(packing, lacking(&written, size, lacks), size);
}

/* A slice that begins at the page, and a call that begins before it. */
static void before(size_t lacks)
{
    usm_key_table(1, lend_output(&written, BEGINS, USM_KEY_TABLE_BYTES, &chance).at - lacks, USM_KEY_TABLE_BYTES);
}

/* A payload in read-only memory, which may be read. */
static void read_only_payload(size_t lacks)
{
    const uint8_t *payload = film_of(song.stored.bytes, PAYLOAD, 0);

    usm_unmask_audio(1, (uint8_t *)payload, lacks == 0 ? 0x140 : PAYLOAD);
}

static const struct {
    const char *what;
    void (*call)(size_t lacks);
} CATCHES[] = {
    {"usm_key_table, the buffer", key_table},
    {"usm_unmask_video, the payload", unmask_video},
    {"usm_mask_video, the payload", mask_video},
    {"usm_unmask_audio, the payload", unmask_audio},
    {"usm_mask_audio, the payload", mask_audio},
    {"usm_table, the bytes", table},
    {"usm_cell, the bytes", cell},
    {"usm_cell, the name", cell_name},
    {"usm_column, the bytes", column},
    {"usm_cell_at, the bytes", cell_at},
    {"usm_extract, the container", extract_film},
    {"usm_extract, the video output", extract_video},
    {"usm_extract, the audio output", extract_audio},
    {"usm_list, the container", list_film},
    {"usm_list, the list", list_records},
    {"usm_index, the container", index_film},
    {"usm_index, the index", index_entries},
    {"usm_seek, the index", seek},
    {"usm_profile, the container", profile},
    {"usm_csv, the bytes", csv_table},
    {"usm_csv, the output", csv_output},
    {"usm_write, the name", write_name},
    {"usm_write, the video", write_video},
    {"usm_write, the audio", write_audio},
    {"usm_write, the output", write_output},
    {"usm_write_open, the name", open_name},
    {"usm_write_open, the output", open_output},
    {"usm_write_chunk, the head", write_chunk},
    {"usm_write_payload, the payload", write_payload},
    {"usm_write_end, the output", write_end},
    {"usm_key_table, one byte before the buffer", before},
    {"usm_unmask_audio, a payload that is read-only", read_only_payload},
};

int show_catches(void)
{
    size_t count = sizeof CATCHES / sizeof CATCHES[0], caught = 0, i;

    make_memory(&read_only, SONG_BYTES, 1);
    make_memory(&second_read_only, SONG_BYTES, 1);
    make_memory(&third_read_only, SONG_BYTES, 1);
    make_memory(&written, SONG_BYTES, 0);
    make_memory(&second_written, SONG_BYTES, 0);
    make_f(f);
    make_song(&song, 1);
    /* The song ends with the last payload, so that its last byte is wanted. */
    song.stored.len = 3104 - 19;

    for (i = 0; i < count; i++) {
        int right = signal_of(CATCHES[i].call, 0), wrong = signal_of(CATCHES[i].call, 1);

        if (right == 0 && wrong == SIGSEGV)
            caught++;
        else
            printf("NOT caught: %s, signal %d with the right length and %d with one too large\n", CATCHES[i].what,
                   right, wrong);
    }
    printf("%zu of %zu calls that reach one too far end by SIGSEGV; with the right length none does\n", caught, count);
    return caught == count;
}
