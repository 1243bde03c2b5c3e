/*
 * What usm.h says about NULL, short buffers and threads, tried on the masks: ends with status 0
 * and the line "checks passed", or with 1 and the line of the check that failed.
 */
#define _POSIX_C_SOURCE 200809L
#include "check.h"
#include "usm.h"

#include <pthread.h>
#include <stdio.h>
#include <string.h>

#define PAYLOAD_BYTES 4099
#define ROUNDS 2000

static void fill(uint8_t *bytes, size_t len)
{
    size_t i;

    for (i = 0; i < len; i++)
        bytes[i] = (uint8_t)(i * 31 + i / 256);
}

/* NULL is allowed where the length is 0. */
static void try_null(void)
{
    CHECK(usm_key_table(1, NULL, 0) == 0);
    usm_unmask_video(1, NULL, 0);
    usm_mask_video(1, NULL, 0);
    usm_unmask_audio(1, NULL, 0);
    usm_mask_audio(1, NULL, 0);
}

/* A buffer of less than 96 bytes is unchanged, and so are the bytes past 96 of a longer one. */
static void try_table_lengths(void)
{
    uint8_t before[USM_KEY_TABLE_BYTES + 1], table[USM_KEY_TABLE_BYTES + 1];

    fill(before, sizeof before);
    memcpy(table, before, sizeof before);
    CHECK(usm_key_table(1, table, USM_KEY_TABLE_BYTES - 1) == 0);
    CHECK(memcmp(table, before, sizeof before) == 0);
    CHECK(usm_key_table(1, table, sizeof table) == USM_KEY_TABLE_BYTES);
    CHECK(memcmp(table, before, USM_KEY_TABLE_BYTES) != 0);
    CHECK(table[USM_KEY_TABLE_BYTES] == before[USM_KEY_TABLE_BYTES]);
}

/* The lengths at which the masks begin. */
static void try_short_payloads(void)
{
    uint8_t before[0x240], payload[0x240];

    fill(before, sizeof before);
    memcpy(payload, before, sizeof before);
    usm_unmask_video(1, payload, 0x23F);
    CHECK(memcmp(payload, before, sizeof before) == 0);
    usm_unmask_video(1, payload, 0x240);
    CHECK(memcmp(payload, before, 0x40) == 0);
    CHECK(memcmp(payload, before, sizeof before) != 0);

    memcpy(payload, before, sizeof before);
    usm_unmask_audio(1, payload, 0x140);
    CHECK(memcmp(payload, before, sizeof before) == 0);
    usm_unmask_audio(1, payload, 0x141);
    CHECK(payload[0x140] != before[0x140]);
}

/* A thread's own key and payloads, and whether each round gave the same as the first. */
struct worker {
    uint64_t key;
    uint8_t video[PAYLOAD_BYTES], audio[PAYLOAD_BYTES];
    int agrees;
};

static void *work(void *given)
{
    struct worker *w = (struct worker *)given;
    uint8_t stored[PAYLOAD_BYTES], payload[PAYLOAD_BYTES];
    int round;

    fill(stored, sizeof stored);
    w->agrees = 1;
    for (round = 0; round < ROUNDS; round++) {
        memcpy(payload, stored, sizeof stored);
        usm_unmask_video(w->key, payload, sizeof payload);
        w->agrees &= memcmp(payload, w->video, sizeof payload) == 0;
        usm_mask_video(w->key, payload, sizeof payload);
        w->agrees &= memcmp(payload, stored, sizeof payload) == 0;
        usm_unmask_audio(w->key, payload, sizeof payload);
        w->agrees &= memcmp(payload, w->audio, sizeof payload) == 0;
        usm_mask_audio(w->key, payload, sizeof payload);
        w->agrees &= memcmp(payload, stored, sizeof payload) == 0;
    }
    return NULL;
}

/* Two threads with two keys give what one thread alone gives. */
static void try_threads(void)
{
    static struct worker workers[2];
    pthread_t threads[2];
    int i;

    for (i = 0; i < 2; i++) {
        workers[i].key = i == 0 ? 0x0123456789ABCDEF : 0xFEDCBA9876543210;
        fill(workers[i].video, PAYLOAD_BYTES);
        usm_unmask_video(workers[i].key, workers[i].video, PAYLOAD_BYTES);
        fill(workers[i].audio, PAYLOAD_BYTES);
        usm_unmask_audio(workers[i].key, workers[i].audio, PAYLOAD_BYTES);
    }
    CHECK(memcmp(workers[0].video, workers[1].video, PAYLOAD_BYTES) != 0);
    for (i = 0; i < 2; i++)
        CHECK(pthread_create(&threads[i], NULL, work, &workers[i]) == 0);
    for (i = 0; i < 2; i++)
        CHECK(pthread_join(threads[i], NULL) == 0);
    CHECK(workers[0].agrees && workers[1].agrees);
}

int main(void)
{
    try_null();
    try_table_lengths();
    try_short_payloads();
    try_threads();
    printf("checks passed\n");
    return 0;
}
