/*
 * Extracts a film of any size in 1 MiB of memory, step by step: its video and its audio stream become two
 * files, and the bits of a key that the film shows are printed.
 *
 *     steps FILM VIDEO AUDIO      the streams as they are stored
 *     steps FILM VIDEO AUDIO KEY  unmasked under the key, in hex
 *
 * One buffer of 1 MiB holds the header first, and then a payload or a piece of one at a time. A header that does
 * not fit into the buffer ends the program with a message.
 *
 * The steps are walked twice: once to see that nothing is refused, once to write. So a film that can't be
 * extracted leaves no file. AUDIO is written where the film has audio. No file is overwritten.
 *
 * The status is 0 where the film is extracted, 1 where it is refused, 2 where a file or an argument is at
 * fault, or the buffer is too short.
 */
#define _POSIX_C_SOURCE 200809L
#include "key.h"
#include "usm.h"

#include <errno.h>
#include <fcntl.h>
#include <inttypes.h>
#include <stdarg.h>
#include <stdio.h>
#include <stdlib.h>
#include <string.h>
#include <sys/stat.h>
#include <unistd.h>

#define REFUSED 1
#define TROUBLE 2

#define BUFFER_BYTES ((size_t)1 << 20)

/* How much of a film is read first to find its header, and how much at each step. */
#define FIRST_BYTES 4096
#define WINDOW_BYTES 45

static uint8_t buffer[BUFFER_BYTES];

/* A film's file, and what its header says. */
struct film {
    const char *path;
    int file;
    size_t total;
    struct usm_open_reply opened;
};

/* What all steps add up to. */
struct walk {
    size_t chunks, longest, video_bytes, audio_bytes;
    uint64_t bits; /* the bits of a key that the film shows */
};

static void give_up(int status, const char *format, ...)
{
    va_list values;

    fflush(stdout);
    fprintf(stderr, "steps: ");
    va_start(values, format);
    vfprintf(stderr, format, values);
    va_end(values);
    fprintf(stderr, "\n");
    exit(status);
}

static void give_up_on(const char *path)
{
    give_up(TROUBLE, "%s: %s", path, strerror(errno));
}

static void end_refused(uint8_t number, size_t place)
{
    give_up(REFUSED, "refused %d at %zu: %s", number, place, usm_reason(number));
}

/* Reads so many bytes of the film, from a place on. The file has all of them. */
static void read_at(const struct film *film, size_t place, uint8_t *into, size_t len)
{
    while (len > 0) {
        ssize_t got = pread(film->file, into, len, (off_t)place);

        if (got < 0 && errno == EINTR)
            continue;
        if (got < 0)
            give_up_on(film->path);
        if (got == 0)
            give_up(TROUBLE, "%s: it has become shorter", film->path);
        into += got;
        place += (size_t)got;
        len -= (size_t)got;
    }
}

static size_t lesser(size_t a, size_t b)
{
    return a < b ? a : b;
}

static void open_file(struct film *film, const char *path)
{
    struct stat status;

    film->path = path;
    film->file = open(path, O_RDONLY);
    if (film->file < 0 || fstat(film->file, &status) != 0)
        give_up_on(path);
    if (!S_ISREG(status.st_mode))
        give_up(TROUBLE, "%s: no file with a length", path);
    film->total = (size_t)status.st_size;
}

/* Reads the header: from some bytes first, and from twice as many as long as more are needed. */
static void read_header(struct film *film)
{
    size_t len = lesser(FIRST_BYTES, film->total);

    for (;;) {
        read_at(film, 0, buffer, len);
        film->opened = usm_open(buffer, len, film->total, USM_READ_WITH_AUDIO);
        if (!film->opened.more)
            break;
        if (len == BUFFER_BYTES)
            give_up(TROUBLE, "the header is longer than the buffer of %zu bytes", BUFFER_BYTES);
        len = lesser(lesser(2 * len, BUFFER_BYTES), film->total);
    }
    if (film->opened.film.number != USM_ACCEPTED)
        end_refused(film->opened.film.number, film->opened.film.refused_at);
}

static struct usm_step_reply step_at(const struct film *film, size_t place)
{
    uint8_t window[WINDOW_BYTES];
    size_t len = place < film->total ? lesser(WINDOW_BYTES, film->total - place) : 0;
    struct usm_step_reply step;

    read_at(film, place, window, len);
    step = usm_step(window, len, place, film->total, USM_READ_WITH_AUDIO, usm_audio_of(film->opened.film));
    if (step.number != USM_ACCEPTED)
        end_refused(step.number, step.refused_at);
    return step;
}

/* Walks all steps, and writes nothing. */
static struct walk measure(const struct film *film)
{
    struct walk walk = {0, 0, 0, 0, 0};
    size_t place = film->opened.chunks;

    for (;;) {
        struct usm_step_reply step = step_at(film, place);
        uint64_t bits = usm_payload_bits(step.mask, step.length);

        if (step.found == USM_STEP_OVER)
            return walk;
        walk.chunks++;
        if (walk.longest < step.length)
            walk.longest = step.length;
        if (walk.bits < bits)
            walk.bits = bits;
        if (step.kind == USM_CHUNK_VIDEO)
            walk.video_bytes += step.length;
        if (step.kind == USM_CHUNK_AUDIO)
            walk.audio_bytes += step.length;
        place = step.next;
    }
}

/* Appends a payload to its stream, in pieces as long as the buffer: a whole number of rows, but for the last. */
static void append(const struct film *film, const struct usm_step_reply *step, struct usm_key key, FILE *stream)
{
    uint8_t row[USM_ROW_BYTES];
    size_t place, len;

    for (place = 0; place < step->length; place += len) {
        len = lesser(BUFFER_BYTES, step->length - place);
        read_at(film, step->payload + place, buffer, len);
        if (key.given &&
            !usm_clear_piece(key.number, step->mask, step->length, place, row, sizeof row, buffer, len))
            give_up(TROUBLE, "%zu bytes at %zu of a payload are no piece", len, place);
        if (fwrite(buffer, 1, len, stream) != len)
            give_up(TROUBLE, "a stream can't be written: %s", strerror(errno));
        if (place + len < step->length)
            memcpy(row, buffer + len - sizeof row, sizeof row);
    }
}

/* Walks all steps again, and appends each payload to its stream. */
static void write_streams(const struct film *film, struct usm_key key, FILE *video, FILE *audio)
{
    size_t place = film->opened.chunks;

    for (;;) {
        struct usm_step_reply step = step_at(film, place);
        FILE *stream = step.kind == USM_CHUNK_VIDEO ? video : audio;

        if (step.found == USM_STEP_OVER)
            return;
        append(film, &step, key, stream);
        place = step.next;
    }
}

/* A new file for a stream. */
static FILE *create(const char *path)
{
    FILE *file = fopen(path, "wbx");

    if (file == NULL)
        give_up_on(path);
    return file;
}

/* Ends a stream's file, and prints how long it is. */
static void finish(FILE *file, const char *stream, const char *path, size_t len)
{
    if (fclose(file) != 0)
        give_up_on(path);
    printf("%s  %zu bytes: %s\n", stream, len, path);
}

int main(int argc, char **argv)
{
    struct usm_key key = USM_NO_KEY;
    FILE *video, *audio = NULL;
    struct film film;
    struct walk walk;

    if (argc != 4 && argc != 5) {
        fprintf(stderr, "usage: steps FILM VIDEO AUDIO [KEY]\n");
        return TROUBLE;
    }
    if (argc == 5) {
        if (!read_key(argv[4], &key.number))
            give_up(TROUBLE, "%s " NO_KEY, argv[4]);
        key = usm_with_key(key.number);
    }
    open_file(&film, argv[1]);
    read_header(&film);
    walk = measure(&film);
    printf("film   %zu bytes, %zu chunks, the longest payload of %zu bytes\n", film.total, walk.chunks, walk.longest);

    video = create(argv[2]);
    if (film.opened.film.has_audio)
        audio = create(argv[3]);
    write_streams(&film, key, video, audio);
    finish(video, "video", argv[2], walk.video_bytes);
    if (film.opened.film.has_audio)
        finish(audio, "audio", argv[3], walk.audio_bytes);
    else
        printf("audio  none\n");
    printf("bits   %016" PRIX64 "\n", walk.bits);
    close(film.file);
    return 0;
}
