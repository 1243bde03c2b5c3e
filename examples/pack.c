/*
 * Packs two files, a video and an audio stream, into a film, and extracts them from it again. This is all
 * that a program needs of usm.h to do so.
 *
 *     pack VIDEO AUDIO FILM NAME      as they are
 *     pack VIDEO AUDIO FILM NAME KEY  masked under the key, in hex
 *
 * The film has the name NAME; its header says that its audio is ADX, codec 2, and has no codec for its video.
 * Afterwards it is read from its file, extracted under the same key, and both streams are compared with the files
 * that they came from. FILM is not overwritten.
 *
 * The status is 0 where the film was written and gives both streams back, 1 where it is refused, 2 where
 * a file or an argument is at fault.
 */
#include "key.h"
#include "usm.h"

#include <stdio.h>
#include <stdlib.h>
#include <string.h>

#define REFUSED 1
#define TROUBLE 2

/* Bytes on the heap. */
struct bytes {
    uint8_t *at;
    size_t len;
};

static void trouble(const char *file)
{
    perror(file);
    exit(TROUBLE);
}

static struct bytes room_for(size_t len)
{
    struct bytes bytes;

    bytes.at = (uint8_t *)malloc(len + 1);
    bytes.len = len;
    if (bytes.at == NULL)
        trouble("memory");
    return bytes;
}

static struct bytes read_file(const char *path)
{
    FILE *file = fopen(path, "rb");
    struct bytes bytes;
    long len;

    if (file == NULL || fseek(file, 0, SEEK_END) != 0 || (len = ftell(file)) < 0 || fseek(file, 0, SEEK_SET) != 0)
        trouble(path);
    bytes = room_for((size_t)len);
    if (fread(bytes.at, 1, bytes.len, file) != bytes.len || fclose(file) != 0)
        trouble(path);
    return bytes;
}

/* Writes a new file. */
static void write_file(const char *path, struct bytes bytes)
{
    FILE *file = fopen(path, "rb");

    if (file != NULL) {
        fprintf(stderr, "pack: %s is there already\n", path);
        exit(TROUBLE);
    }
    file = fopen(path, "wb");
    if (file == NULL || fwrite(bytes.at, 1, bytes.len, file) != bytes.len || fclose(file) != 0)
        trouble(path);
}

static void end_refused(const char *act, uint8_t number)
{
    fprintf(stderr, "pack: %s refused %u: %s\n", act, number, usm_reason(number));
    exit(REFUSED);
}

/* The film of both streams: measured first, then written. */
static struct bytes pack(const char *name, struct bytes video, struct bytes audio, struct usm_packing packing)
{
    const uint8_t *letters = (const uint8_t *)name;
    size_t len = strlen(name);
    struct usm_size_reply reply = usm_write(letters, len, video.at, video.len, audio.at, audio.len, packing, NULL, 0);
    struct bytes film;

    if (reply.number != USM_SHORT_ROOM)
        end_refused("the film is", reply.number);
    film = room_for(reply.size);
    reply = usm_write(letters, len, video.at, video.len, audio.at, audio.len, packing, film.at, film.len);
    if (reply.number != USM_ACCEPTED)
        end_refused("the film is", reply.number);
    return film;
}

/* Whether a film gives both streams back, under a key. */
static int gives_back(struct bytes film, struct bytes video, struct bytes audio, struct usm_key key)
{
    struct bytes seen = room_for(film.len), heard = room_for(film.len);
    struct usm_film_reply reply =
        usm_extract(film.at, film.len, USM_READ_WITH_AUDIO, key, NULL, 0, seen.at, seen.len, heard.at, heard.len);
    int same;

    if (reply.number != USM_ACCEPTED)
        end_refused("the extraction is", reply.number);
    printf("named %.*s, %zu bytes of video, %zu bytes of audio, audio codec %u\n", (int)reply.name_length,
           (const char *)film.at + reply.name_start, reply.video_size, reply.audio_size, (unsigned)reply.audio_codec);
    same = reply.video_size == video.len && memcmp(seen.at, video.at, video.len) == 0 &&
           reply.audio_size == audio.len && memcmp(heard.at, audio.at, audio.len) == 0;
    free(seen.at);
    free(heard.at);
    return same;
}

int main(int argc, char **argv)
{
    struct usm_packing packing = {USM_NO_KEY, 0, 2, 1, 0, 1};
    struct bytes video, audio, film;
    uint64_t key;

    if (argc < 5 || argc > 6) {
        fprintf(stderr, "usage: pack VIDEO AUDIO FILM NAME [KEY]\n");
        return TROUBLE;
    }
    if (argc == 6) {
        if (!read_key(argv[5], &key)) {
            fprintf(stderr, "pack: %s " NO_KEY "\n", argv[5]);
            return TROUBLE;
        }
        packing.key = usm_with_key(key);
    }
    video = read_file(argv[1]);
    audio = read_file(argv[2]);
    film = pack(argv[4], video, audio, packing);
    write_file(argv[3], film);
    printf("%s: %zu bytes\n", argv[3], film.len);
    free(film.at);

    film = read_file(argv[3]);
    if (!gives_back(film, video, audio, packing.key)) {
        fprintf(stderr, "pack: %s gives other streams back\n", argv[3]);
        return REFUSED;
    }
    printf("both streams are given back\n");
    free(film.at);
    free(video.at);
    free(audio.at);
    return 0;
}
