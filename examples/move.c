/*
 * A film of the old builder, converted to the container that usm_extract reads, and back: asks for the size, allocates
 * as much, and converts. The caller says which codecs the streams have, since the builder's container does not.
 */
#include "old_films.h"
#include "usm.h"

#include <stdio.h>
#include <stdlib.h>

static const struct usm_codecs CODECS = {1, 2, 1, 1};

static void end_refused(struct usm_size_reply reply)
{
    fprintf(stderr, "refused %d: %s\n", reply.number, usm_reason(reply.number));
    exit(1);
}

/* The film in the new container, in memory of its own. */
static struct slice moved(const uint8_t *film, size_t len)
{
    struct usm_size_reply reply = usm_from_old(film, len, CODECS, NULL, 0);
    struct slice container = {NULL, reply.size};
    uint8_t *out;

    if (reply.number != USM_SHORT_ROOM)
        end_refused(reply);
    out = (uint8_t *)malloc(reply.size);
    if (out == NULL)
        exit(1);
    reply = usm_from_old(film, len, CODECS, out, reply.size);
    if (reply.number != USM_ACCEPTED)
        end_refused(reply);
    container.at = out;
    return container;
}

int main(void)
{
    static const struct slice audio = {(const uint8_t *)"a song", 6};
    static const struct old_parts parts = {
        {(const uint8_t *)"lark.usm", 8}, {(const uint8_t *)"a flight", 8}, &audio, 1};
    uint8_t film[1024], again[1024], video[8], sound[6];
    size_t len = put_old_film(film, parts);
    struct slice container = moved(film, len);
    struct usm_film_reply read = usm_extract(container.at, container.len, USM_READ_WITH_AUDIO, USM_NO_KEY, NULL, 0,
                                             video, sizeof video, sound, sizeof sound);
    struct usm_size_reply back = usm_to_old(container.at, container.len, again, sizeof again);

    printf("%zu bytes of the old builder, %zu moved\n", len, container.len);
    if (read.number != USM_ACCEPTED)
        return 1;
    printf("named %.*s, video \"%.*s\", audio \"%.*s\", codecs %u and %u\n", (int)read.name_length,
           (const char *)container.at + read.name_start, (int)read.video_size, (const char *)video,
           (int)read.audio_size, (const char *)sound, (unsigned)read.video_codec, (unsigned)read.audio_codec);
    if (back.number != USM_ACCEPTED)
        end_refused(back);
    printf("%zu bytes moved back, %s\n", back.size,
           back.size == len && memcmp(again, film, len) == 0 ? "the same" : "others");
    free((void *)container.at);
    return 0;
}
