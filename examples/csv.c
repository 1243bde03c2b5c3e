/*
 * A table as CSV: asks for the size, allocates as much, and writes the bytes to standard output.
 */
#include "usm.h"

#include <stdio.h>
#include <stdlib.h>

/* Columns "id", a signed byte in each row, "title, of the film", a string in each row, and "id" again, a constant. */
static const uint8_t TABLE[] = {
    '@', 'U', 'T', 'F', 0, 0, 0, 92,        /* signature, size */
    0, 1, 0, 40, 0, 0, 0, 50, 0, 0, 0, 92,  /* version, row, string and data offset */
    0, 0, 0, 0, 0, 3, 0, 5, 0, 0, 0, 2,     /* table name, columns, row size, rows */
    0x51, 0, 0, 0, 0, 0x5A, 0, 0, 0, 3, 0x30, 0, 0, 0, 0, 9, /* the columns, the last with its constant */
    0xFF, 0, 0, 0, 22,                      /* the rows */
    7, 0, 0, 0, 31,
    'i', 'd', 0, 't', 'i', 't', 'l', 'e', ',', ' ', 'o', 'f', ' ', 't', 'h', 'e', ' ', 'f', 'i', 'l', 'm', 0,
    'T', 'h', 'e', ' ', 'l', 'a', 'r', 'k', 0, 'a', ' ', '"', 's', 'o', 'n', 'g', '"', 0, 0, 0,
};

int main(void)
{
    struct usm_size_reply reply = usm_csv(TABLE, sizeof TABLE, 0, USM_READ_WITH_AUDIO, NULL, 0);
    uint8_t *csv;

    if (reply.number != USM_SHORT_ROOM) {
        fprintf(stderr, "refused %d at %zu: %s\n", reply.number, reply.refused_at, usm_reason(reply.number));
        return 1;
    }
    csv = (uint8_t *)malloc(reply.size);
    if (csv == NULL)
        return 1;
    reply = usm_csv(TABLE, sizeof TABLE, 0, USM_READ_WITH_AUDIO, csv, reply.size);
    fwrite(csv, 1, reply.size, stdout);
    free(csv);
    return reply.number;
}
