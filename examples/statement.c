/*
 * A statement of the song of films.h for three tenants: who shares a copy with whom, and what each bears of it. The keys
 * of tenants 30 and 7 differ only in bits that change nothing, so these two share a copy; 12 has its own.
 */
#include "films.h"
#include "usm.h"

#include <inttypes.h>
#include <stdio.h>

#define KEY 0x0123456789ABCDEF
#define TENANTS 3

int main(void)
{
    static const struct usm_tenant tenants[TENANTS] = {
        {30, KEY},
        {12, KEY + 1},
        {7, KEY ^ 0xFF0000F000000000},
    };
    static struct song song;
    struct usm_share lines[TENANTS];
    struct usm_list_reply reply;
    size_t i;

    make_song(&song, KEY);
    reply = usm_statement(song.stored.bytes, song.stored.len, tenants, TENANTS, lines, TENANTS);
    if (reply.number != USM_ACCEPTED) {
        fprintf(stderr, "refused %d at %zu: %s\n", reply.number, reply.refused_at, usm_reason(reply.number));
        return 1;
    }
    for (i = 0; i < reply.count; i++)
        printf("tenant %" PRIu64 ": %" PRIu64 " bytes of the copy of tenant %" PRIu64 "'s group\n", lines[i].tenant,
               lines[i].share, lines[i].group);
    return 0;
}
