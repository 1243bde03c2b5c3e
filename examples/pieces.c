/*
 * Packs two files of any size, a video and an audio stream, into a film, in the memory of one payload. The
 * film is the one that pack.c writes from the same files.
 *
 *     pieces VIDEO AUDIO FILM NAME      as they are
 *     pieces VIDEO AUDIO FILM NAME KEY  masked under the key, in hex
 *
 * The film has the name NAME; its header says that its audio is ADX, codec 2, and has no codec for its video.
 * FILM is not overwritten. A payload can be refused when others are written already, so all turns are walked
 * twice: once to check every payload, once to write. So a film that is refused leaves no file.
 *
 * The status is 0 where the film is written, 1 where it is refused, 2 where a file or an argument is at
 * fault.
 */
#define _POSIX_C_SOURCE 200809L
#include "key.h"
#include "usm.h"

#include <errno.h>
#include <stdarg.h>
#include <stdio.h>
#include <stdlib.h>
#include <string.h>
#include <sys/stat.h>

#define REFUSED 1
#define TROUBLE 2

/* Payloads of usm_write have 65,536 bytes at most; the header is somewhat longer than the name. */
#define PAYLOAD_BYTES 65536
#define HEADER_BYTES 8192

static uint8_t payload[PAYLOAD_BYTES];
static uint8_t small[HEADER_BYTES];

/* A stream's file, and how long it is. */
struct stream {
    const char *path;
    FILE *file;
    size_t len;
};

static void give_up(int status, const char *format, ...)
{
    va_list values;

    fprintf(stderr, "pieces: ");
    va_start(values, format);
    vfprintf(stderr, format, values);
    va_end(values);
    fprintf(stderr, "\n");
    exit(status);
}

static void give_up_on(const char *path)
{
    give_up(TROUBLE, "%s: %s", path, strerror(errno));
}

static void check(struct usm_size_reply reply)
{
    if (reply.number != USM_ACCEPTED)
        give_up(REFUSED, "the film is refused %u: %s", reply.number, usm_reason(reply.number));
}

static void open_stream(struct stream *stream, const char *path)
{
    struct stat status;

    stream->path = path;
    stream->file = fopen(path, "rb");
    if (stream->file == NULL || fstat(fileno(stream->file), &status) != 0)
        give_up_on(path);
    if (!S_ISREG(status.st_mode))
        give_up(TROUBLE, "%s: no file with a length", path);
    stream->len = (size_t)status.st_size;
}

/* Reads the payload of a turn. */
static void read_payload(const struct stream *stream, struct usm_turn_reply next)
{
    if (fseek(stream->file, (long)next.from, SEEK_SET) != 0)
        give_up_on(stream->path);
    if (fread(payload, 1, next.length, stream->file) == next.length)
        return;
    if (ferror(stream->file))
        give_up_on(stream->path);
    give_up(TROUBLE, "%s: it has become shorter", stream->path);
}

static void put(FILE *film, const uint8_t *bytes, size_t len)
{
    if (fwrite(bytes, 1, len, film) != len)
        give_up(TROUBLE, "the film can't be written: %s", strerror(errno));
}

/* Walks all turns. Where there is no film to write, every payload is checked, and none is masked. */
static void put_payloads(const struct stream *video, const struct stream *audio, struct usm_packing packing, FILE *film)
{
    static const uint8_t zeros[USM_HEAD_BYTES] = {0};
    uint8_t head[USM_HEAD_BYTES];
    size_t turn = 0;

    for (;;) {
        struct usm_turn_reply next = usm_write_chunk(video->len, audio->len, turn, packing, head, sizeof head);

        if (next.found == USM_STEP_OVER)
            return;
        read_payload(next.kind == USM_CHUNK_VIDEO ? video : audio, next);
        check(usm_write_payload(packing.key.number, film == NULL ? USM_MASK_NONE : next.mask, payload, next.length));
        if (film != NULL) {
            put(film, head, sizeof head);
            put(film, payload, next.length);
            put(film, zeros, next.padding);
        }
        turn = next.next;
    }
}

int main(int argc, char **argv)
{
    struct usm_packing packing = {USM_NO_KEY, 0, 2, 1, 0, 1};
    struct usm_size_reply header, ends;
    struct stream video, audio;
    uint64_t key;
    FILE *film;

    if (argc < 5 || argc > 6) {
        fprintf(stderr, "usage: pieces VIDEO AUDIO FILM NAME [KEY]\n");
        return TROUBLE;
    }
    if (argc == 6) {
        if (!read_key(argv[5], &key))
            give_up(TROUBLE, "%s " NO_KEY, argv[5]);
        packing.key = usm_with_key(key);
    }
    open_stream(&video, argv[1]);
    open_stream(&audio, argv[2]);
    header = usm_write_open((const uint8_t *)argv[4], strlen(argv[4]), video.len, audio.len, packing, small,
                            sizeof small);
    if (header.number == USM_SHORT_ROOM)
        give_up(TROUBLE, "the name is longer than the buffer");
    check(header);
    put_payloads(&video, &audio, packing, NULL);

    film = fopen(argv[3], "wbx");
    if (film == NULL)
        give_up_on(argv[3]);
    put(film, small, header.size);
    put_payloads(&video, &audio, packing, film);
    ends = usm_write_end(packing, small, sizeof small);
    check(ends);
    put(film, small, ends.size);
    if (fclose(film) != 0)
        give_up_on(argv[3]);
    printf("%s is written: video %zu bytes, audio %zu bytes\n", argv[3], video.len, audio.len);
    return 0;
}
