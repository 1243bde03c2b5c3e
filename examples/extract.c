/*
 * Extracts a film: its video and its audio stream become two files beside it, and what it holds is
 * printed. This is all that a program needs of usm.h to do so.
 *
 *     extract FILE      the streams as they are stored
 *     extract FILE KEY  unmasked under the key, in hex
 *
 * The files have the film's own name, or FILE's where it has none, and end in .m2v or .ivf and in .adx
 * or .hca. No file is overwritten: a film chooses its name, and should not choose what it replaces.
 *
 * The status is 0 where the film is extracted, 1 where it is refused, 2 where a file or an argument
 * is at fault.
 */
#include "key.h"
#include "usm.h"

#include <errno.h>
#include <inttypes.h>
#include <stdarg.h>
#include <stdio.h>
#include <stdlib.h>
#include <string.h>

#define REFUSED 1
#define TROUBLE 2

/* The room for a path, and how many bytes of a film's name are kept. A path that leaves no room for them
 * is refused. */
#define PATH_BYTES 4096
#define NAME_BYTES 100

static const char *const CHUNK_KINDS[] = {"video", "audio", "other", "end"};

/* A film in memory, and how it is to be read. */
struct film {
    uint8_t *bytes;
    size_t len;
    struct usm_key key;
    /* FILE's folder with its slash, and its name without its ending: the fallback name. */
    char folder[PATH_BYTES], own_name[PATH_BYTES];
};

/* Two streams. */
struct streams {
    uint8_t *video, *audio;
    size_t video_len, audio_len;
};

static void give_up(int status, const char *format, ...)
{
    va_list values;

    fflush(stdout);
    fprintf(stderr, "extract: ");
    va_start(values, format);
    vfprintf(stderr, format, values);
    va_end(values);
    fprintf(stderr, "\n");
    exit(status);
}

/* Room for so many bytes, or one where there are none. */
static void *room_for(void *old, size_t bytes)
{
    void *room = realloc(old, bytes == 0 ? 1 : bytes);

    if (room == NULL)
        give_up(TROUBLE, "no memory for %zu bytes", bytes);
    return room;
}

/* Reads a whole file. One byte over the limit is enough: it will be refused. */
static void read_film(struct film *film, const char *path)
{
    size_t room = 1 << 16;
    FILE *file = fopen(path, "rb");

    if (file == NULL)
        give_up(TROUBLE, "%s: %s", path, strerror(errno));
    film->bytes = (uint8_t *)room_for(NULL, room);
    film->len = 0;
    for (;;) {
        film->len += fread(film->bytes + film->len, 1, room - film->len, file);
        if (film->len < room || room > USM_CONTAINER_BYTES)
            break;
        room = room < USM_CONTAINER_BYTES ? room * 2 : (size_t)USM_CONTAINER_BYTES + 1;
        film->bytes = (uint8_t *)room_for(film->bytes, room);
    }
    if (ferror(file))
        give_up(TROUBLE, "%s: %s", path, strerror(errno));
    fclose(file);
}

/* Takes a path apart: its folder, and its name without its ending. */
static void split_path(struct film *film, const char *path)
{
    const char *slash = strrchr(path, '/');
    const char *name = slash == NULL ? path : slash + 1;
    const char *dot = strrchr(name, '.');
    size_t len = dot == NULL || dot == name ? strlen(name) : (size_t)(dot - name);

    if (strlen(path) >= PATH_BYTES - NAME_BYTES)
        give_up(TROUBLE, "the path is too long");
    memcpy(film->folder, path, (size_t)(name - path));
    film->folder[name - path] = '\0';
    memcpy(film->own_name, name, len);
    film->own_name[len] = '\0';
}

static struct usm_film_reply try_to_extract(const struct film *film, const struct streams *out)
{
    return usm_extract(film->bytes, film->len, USM_READ_WITH_AUDIO, film->key, (const uint8_t *)film->own_name,
                       strlen(film->own_name), out->video, out->video_len, out->audio, out->audio_len);
}

/* Extracts both streams: a first call without outputs gives the sizes, a second one writes. Where both
 * are empty the first is accepted, and there is nothing to write. */
static struct usm_film_reply extract(const struct film *film, struct streams *out)
{
    struct usm_film_reply reply = try_to_extract(film, out);

    if (reply.number == USM_SHORT_OUTPUT) {
        out->video_len = reply.video_size;
        out->audio_len = reply.audio_size;
        out->video = (uint8_t *)room_for(NULL, out->video_len);
        out->audio = (uint8_t *)room_for(NULL, out->audio_len);
        reply = try_to_extract(film, out);
    }
    if (reply.number != USM_ACCEPTED)
        give_up(REFUSED, "refused %d at %zu: %s", reply.number, reply.refused_at, usm_reason(reply.number));
    return reply;
}

/* Whether a byte of a film's name may stand in a file's name. Names in Shift-JIS lose most of theirs. */
static int is_safe(uint8_t byte)
{
    return (byte >= 'a' && byte <= 'z') || (byte >= 'A' && byte <= 'Z') || (byte >= '0' && byte <= '9') ||
           byte == '-' || byte == '_' || byte == '.' || byte == ' ';
}

/* Makes a name that is safe in a folder: no folders, no ending, no byte that is not safe, no dot in
 * front. Nothing may be left. */
static void make_safe(char *safe, const uint8_t *name, size_t len)
{
    size_t start = len, end = len, i, kept = 0;

    while (start > 0 && name[start - 1] != '/' && name[start - 1] != '\\')
        start--;
    for (i = len; i > start + 1; i--) {
        if (name[i - 1] == '.') {
            end = i - 1;
            break;
        }
    }
    for (i = start; i < end && kept < NAME_BYTES; i++, kept++)
        safe[kept] = (char)(is_safe(name[i]) ? name[i] : '_');
    safe[kept] = '\0';
    if (safe[0] == '.')
        safe[0] = '_';
}

/* The name of a film's files: its own, made safe, or that of FILE. */
static void name_files(const struct film *film, struct usm_film_reply reply, char *name)
{
    name[0] = '\0';
    if (reply.name_source == USM_NAME_IN_CONTAINER)
        make_safe(name, film->bytes + reply.name_start, reply.name_length);
    if (name[0] == '\0')
        strcpy(name, film->own_name);
}

/* Writes a stream to a new file, and prints what it is. An empty one may be NULL. */
static void write_stream(const struct film *film, const char *stream, const char *name, const char *kind,
                         int has_codec, uint32_t codec, const uint8_t *bytes, size_t len)
{
    char path[2 * PATH_BYTES + 8];
    FILE *file;

    snprintf(path, sizeof path, "%s%s.%s", film->folder, name, kind);
    file = fopen(path, "wbx");
    if (file == NULL || (len != 0 && fwrite(bytes, 1, len, file) != len) || fclose(file) != 0)
        give_up(TROUBLE, "%s: %s", path, strerror(errno));
    printf("%s  %s, %zu bytes, ", stream, kind, len);
    if (has_codec)
        printf("codec %" PRIu32, codec);
    else
        printf("no codec");
    printf(": %s\n", path);
}

/* Prints the film's name as it is stored. */
static void print_name(const struct film *film, struct usm_film_reply reply)
{
    const uint8_t *name = film->bytes + reply.name_start;
    size_t i;

    if (reply.name_source == USM_NAME_IN_FALLBACK) {
        printf("name   none\n");
        return;
    }
    printf("name   \"");
    for (i = 0; i < reply.name_length; i++) {
        if (name[i] >= ' ' && name[i] <= '~' && name[i] != '"' && name[i] != '\\')
            putchar(name[i]);
        else
            printf("\\x%02X", name[i]);
    }
    printf("\"\n");
}

/* Prints a line for each chunk: a first call without a list gives their count. The film was accepted, so
 * with a list of as many records nothing is refused. */
static void print_chunks(const struct film *film)
{
    size_t count = usm_list(film->bytes, film->len, USM_READ_WITH_AUDIO, NULL, 0).count, i;
    struct usm_chunk *list = (struct usm_chunk *)room_for(NULL, count * sizeof *list);

    usm_list(film->bytes, film->len, USM_READ_WITH_AUDIO, list, count);
    printf("chunks %zu\n", count);
    for (i = 0; i < count; i++)
        printf("%zu %s %d %zu %d\n", list[i].start, CHUNK_KINDS[list[i].kind], list[i].data_type, list[i].length,
               list[i].channel);
    free(list);
}

int main(int argc, char **argv)
{
    static struct film film;
    struct streams out = {NULL, NULL, 0, 0};
    struct usm_film_reply reply;
    char name[PATH_BYTES];
    uint64_t key;

    if (argc != 2 && argc != 3) {
        fprintf(stderr, "usage: extract FILE [KEY]\n");
        return TROUBLE;
    }
    film.key = USM_NO_KEY;
    if (argc == 3) {
        if (!read_key(argv[2], &key))
            give_up(TROUBLE, "%s " NO_KEY, argv[2]);
        film.key = usm_with_key(key);
    }
    split_path(&film, argv[1]);
    read_film(&film, argv[1]);

    reply = extract(&film, &out);
    name_files(&film, reply, name);
    print_name(&film, reply);
    write_stream(&film, "video", name, reply.video_kind == USM_VIDEO_IVF ? "ivf" : "m2v", reply.has_video_codec,
                 reply.video_codec, out.video, out.video_len);
    if (reply.has_audio)
        write_stream(&film, "audio", name, reply.audio_kind == USM_AUDIO_HCA ? "hca" : "adx", reply.has_audio_codec,
                     reply.audio_codec, out.audio, out.audio_len);
    else
        printf("audio  none\n");
    print_chunks(&film);

    free(out.video);
    free(out.audio);
    free(film.bytes);
    return 0;
}
