/*
 * A small player's use of usm.h: unmasks a video and an audio payload under the key that is given,
 * shows what changed, masks them again and checks that they are as before.
 *
 *     player KEY        KEY in hex
 */
#include "key.h"
#include "usm.h"

#include <inttypes.h>
#include <stdio.h>
#include <string.h>

#define PAYLOAD_BYTES 0x260

typedef void act(uint64_t key, uint8_t *payload, size_t len);

static void print_bytes(const char *name, const uint8_t *bytes)
{
    int i;

    printf("%s", name);
    for (i = 0; i < 8; i++)
        printf(" %02X", bytes[i]);
    printf("\n");
}

/* Prints how many bytes differ, and the first of them on both sides. */
static void print_changes(const uint8_t *stored, const uint8_t *clear)
{
    size_t first = PAYLOAD_BYTES, changed = 0, i;

    for (i = 0; i < PAYLOAD_BYTES; i++) {
        if (stored[i] == clear[i])
            continue;
        if (changed == 0)
            first = i;
        changed++;
    }
    printf("  %zu of %d bytes changed", changed, PAYLOAD_BYTES);
    if (changed != 0)
        printf(", the first at 0x%zX, from %02X to %02X", first, stored[first], clear[first]);
    printf("\n");
}

/* Unmasks a stored payload and masks it again; returns 1 where it is then as it was stored. */
static int there_and_back(const char *name, uint64_t key, act *unmask, act *mask)
{
    uint8_t stored[PAYLOAD_BYTES], payload[PAYLOAD_BYTES];
    int same, i;

    for (i = 0; i < PAYLOAD_BYTES; i++)
        stored[i] = (uint8_t)(i * 7 + i / 32);
    memcpy(payload, stored, sizeof stored);

    printf("%s, unmasked:\n", name);
    unmask(key, payload, sizeof payload);
    print_changes(stored, payload);

    mask(key, payload, sizeof payload);
    same = memcmp(payload, stored, sizeof stored) == 0;
    printf("  masked again: %s\n", same ? "as before" : "NOT as before");
    return same;
}

int main(int argc, char **argv)
{
    uint8_t table[USM_KEY_TABLE_BYTES];
    uint64_t key;
    int video, audio;

    if (argc != 2) {
        fprintf(stderr, "usage: player KEY\n");
        return 2;
    }
    if (!read_key(argv[1], &key)) {
        fprintf(stderr, "player: %s " NO_KEY "\n", argv[1]);
        return 2;
    }

    if (usm_key_table(key, table, sizeof table) != USM_KEY_TABLE_BYTES)
        return 1;
    printf("key %016" PRIX64 "\n", key);
    print_bytes("T begins", table);
    print_bytes("V begins", table + 32);
    print_bytes("A begins", table + 64);

    video = there_and_back("video", key, usm_unmask_video, usm_mask_video);
    audio = there_and_back("audio", key, usm_unmask_audio, usm_mask_audio);
    return video && audio ? 0 : 1;
}
