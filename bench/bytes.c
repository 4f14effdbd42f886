/* From bytes to blocks and back for the portable C contestants: words, padding, digest. */
#include "contestant.h"
#include "hmac.h"

#include <string.h>

static const uint32_t H[8] = {
    0x6a09e667, 0xbb67ae85, 0x3c6ef372, 0xa54ff53a, 0x510e527f, 0x9b05688c, 0x1f83d9ab, 0x5be0cd19,
};

/* chain := its compression with a block of bytes. */
static void take(uint32_t chain[8], const uint8_t bytes[BLOCK_BYTES])
{
    uint32_t m[16];
    for (int i = 0; i < 16; i++) {
        const uint8_t *b = bytes + 4 * i;
        m[i] = (uint32_t)b[0] << 24 | (uint32_t)b[1] << 16 | (uint32_t)b[2] << 8 | b[3];
    }
    contestant_block(chain, m);
}

void hash_two_blocks(const uint8_t first[BLOCK_BYTES], const uint8_t *data, size_t length,
                     uint8_t digest[DIGEST_BYTES])
{
    uint32_t chain[8];
    memcpy(chain, H, sizeof H);
    take(chain, first);

    uint8_t last[BLOCK_BYTES] = {0};
    size_t bits = 8 * (BLOCK_BYTES + length);
    memcpy(last, data, length);
    last[length] = 0x80;
    last[62] = (uint8_t)(bits >> 8);
    last[63] = (uint8_t)bits;
    take(chain, last);

    for (int i = 0; i < DIGEST_BYTES; i++)
        digest[i] = (uint8_t)(chain[i / 4] >> (24 - 8 * (i % 4)));
}
