/* Rules K, M and D5a. */
#include "model.h"

void model_keys(uint64_t key, struct model_keys *keys)
{
    uint8_t k[8], *t = keys->t;
    size_t i;

    for (i = 0; i < 8; i++)
        k[i] = (uint8_t)(key >> 8 * i);
    t[0x00] = k[0];
    t[0x01] = k[1];
    t[0x02] = k[2];
    t[0x03] = (uint8_t)(k[3] - 0x34);
    t[0x04] = (uint8_t)(k[4] % 16 + 0xF9);
    t[0x05] = k[5] ^ 0x13;
    t[0x06] = (uint8_t)(k[6] + 0x61);
    t[0x07] = t[0x00] ^ 0xFF;
    t[0x08] = (uint8_t)(t[0x02] + t[0x01]);
    t[0x09] = (uint8_t)(t[0x01] - t[0x07]);
    t[0x0A] = t[0x02] ^ 0xFF;
    t[0x0B] = t[0x01] ^ 0xFF;
    t[0x0C] = (uint8_t)(t[0x0B] + t[0x09]);
    t[0x0D] = (uint8_t)(t[0x08] - t[0x03]);
    t[0x0E] = t[0x0D] ^ 0xFF;
    t[0x0F] = (uint8_t)(t[0x0A] - t[0x0B]);
    t[0x10] = (uint8_t)(t[0x08] - t[0x0F]);
    t[0x11] = t[0x10] ^ t[0x07];
    t[0x12] = t[0x0F] ^ 0xFF;
    t[0x13] = t[0x03] ^ 0x10;
    t[0x14] = (uint8_t)(t[0x04] - 0x32);
    t[0x15] = (uint8_t)(t[0x05] + 0xED);
    t[0x16] = t[0x06] ^ 0xF3;
    t[0x17] = (uint8_t)(t[0x13] - t[0x0F]);
    t[0x18] = (uint8_t)(t[0x15] + t[0x07]);
    t[0x19] = (uint8_t)(0x21 - t[0x13]);
    t[0x1A] = t[0x14] ^ t[0x17];
    t[0x1B] = (uint8_t)(t[0x16] + t[0x16]);
    t[0x1C] = (uint8_t)(t[0x17] + 0x44);
    t[0x1D] = (uint8_t)(t[0x03] + t[0x04]);
    t[0x1E] = (uint8_t)(t[0x05] - t[0x16]);
    t[0x1F] = t[0x1D] ^ t[0x13];
    for (i = 0; i < 32; i++) {
        keys->v[i] = t[i] ^ 0xFF;
        keys->a[i] = i % 2 == 0 ? keys->v[i] : (uint8_t) "URUC"[i / 2 % 4];
    }
}

/* M4 and its reverse: head row r is XORed with T and the clear tail rows 0 to r. */
static void turn_head(const struct model_keys *keys, const uint8_t *tail, uint8_t *head)
{
    size_t row, lane, r;

    for (row = 0; row < 8; row++)
        for (lane = 0; lane < 32; lane++) {
            head[32 * row + lane] ^= keys->t[lane];
            for (r = 0; r <= row; r++)
                head[32 * row + lane] ^= tail[32 * r + lane];
        }
}

void model_unmask_video(uint64_t key, uint8_t *payload, size_t len)
{
    struct model_keys keys;
    size_t i;

    if (len < 0x240)
        return;
    model_keys(key, &keys);
    for (i = 0x140; i < len; i++)
        payload[i] ^= keys.v[i % 32] ^ (i < 0x160 ? 0 : payload[i - 32]);
    turn_head(&keys, payload + 0x140, payload + 0x40);
}

void model_mask_video(uint64_t key, uint8_t *payload, size_t len)
{
    struct model_keys keys;
    size_t i;

    if (len < 0x240)
        return;
    model_keys(key, &keys);
    turn_head(&keys, payload + 0x140, payload + 0x40);
    for (i = len; i-- > 0x140;)
        payload[i] ^= keys.v[i % 32] ^ (i < 0x160 ? 0 : payload[i - 32]);
}

void model_mask_audio(uint64_t key, uint8_t *payload, size_t len)
{
    struct model_keys keys;
    size_t i;

    model_keys(key, &keys);
    for (i = 0x140; i < len; i++)
        payload[i] ^= keys.a[i % 32];
}

uint64_t model_payload_bits(uint8_t mask, size_t length)
{
    /* Over so many bytes from 0x140 on, these bits are shown. */
    static const struct {
        size_t over;
        uint64_t bits;
    } LANES[] = {{0x00, 0xFFull},      {0x02, 0xFFull << 16}, {0x04, 0xFull << 32}, {0x06, 0xFFull << 48},
                 {0x08, 0xFFull << 8}, {0x0E, 0xFFull << 24}, {0x18, 0xFFull << 40}};
    uint64_t bits = 0;
    size_t i;

    if (mask == USM_MASK_VIDEO)
        return length < 0x240 ? 0 : 0x00FFFF0FFFFFFFFFull;
    if (mask != USM_MASK_AUDIO || length <= 0x140)
        return 0;
    for (i = 0; i < sizeof LANES / sizeof LANES[0]; i++)
        if (LANES[i].over < length - 0x140)
            bits |= LANES[i].bits;
    return bits;
}
