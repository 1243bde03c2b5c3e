/*
 * Writes small films for extract to try, and what it should find in one of them:
 *
 *     films FOLDER KEY  KEY in hex
 *
 * f.usm is example F of docs/RULES.md, cut.usm its first 428 bytes, which are refused, and empty.usm its
 * first 301 bytes, a film without chunks. long.usm is F's header and one video payload of 1 MiB and one
 * byte. song.usm is a film with audio, masked under the key; song.video and song.audio are its two clear
 * streams. examples/song.usm is what this program writes under 0123456789ABCDEF; examples/run compares
 * the two.
 */
#include "films.h"
#include "key.h"
#include "usm.h"

#include <stdio.h>
#include <stdlib.h>

/* One byte more than steps.c has room for. */
#define LONG_PAYLOAD (((size_t)1 << 20) + 1)

/* Writes a file of a folder; a failure ends the program. */
static void write_file(const char *folder, const char *name, const uint8_t *bytes, size_t len)
{
    char path[1024];
    FILE *file;

    snprintf(path, sizeof path, "%s/%s", folder, name);
    file = fopen(path, "wb");
    if (file == NULL || fwrite(bytes, 1, len, file) != len || fclose(file) != 0) {
        perror(path);
        exit(2);
    }
}

/* F's header and one video payload of so many zeros. Returns the bytes of both. */
static size_t make_long(uint8_t *film, size_t payload)
{
    make_f(film);
    memset(film + F_VIDEO + 32, 0, payload);
    put32(film + F_VIDEO + 4, 24 + payload);
    return F_VIDEO + 32 + payload;
}

int main(int argc, char **argv)
{
    static struct song song;
    static uint8_t long_film[F_BYTES + LONG_PAYLOAD];
    uint8_t f[F_BYTES];
    uint64_t key;

    if (argc != 3) {
        fprintf(stderr, "usage: films FOLDER KEY\n");
        return 2;
    }
    if (!read_key(argv[2], &key)) {
        fprintf(stderr, "films: %s " NO_KEY "\n", argv[2]);
        return 2;
    }
    make_f(f);
    write_file(argv[1], "f.usm", f, F_BYTES);
    write_file(argv[1], "cut.usm", f, 428);
    write_file(argv[1], "empty.usm", f, 301);
    write_file(argv[1], "long.usm", long_film, make_long(long_film, LONG_PAYLOAD));

    make_song(&song, key);
    write_file(argv[1], "song.usm", song.stored.bytes, song.stored.len);
    write_file(argv[1], "song.video", song.video, song.video_len);
    write_file(argv[1], "song.audio", song.audio, song.audio_len);
    return 0;
}
