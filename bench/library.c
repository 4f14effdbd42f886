/* The contestant that is the library: its C entries, passed on unchanged. */
#include "contestant.h"

void probe_block(uint32_t chain[8], const uint32_t m[16]);
uint32_t probe_hmac(const uint8_t *key, size_t key_length,
                    const uint8_t *message, size_t length, uint8_t digest[32]);

const int contestant_takes_bytes = 0;

void contestant_block(uint32_t chain[8], const uint32_t m[16])
{
    probe_block(chain, m);
}

uint32_t contestant_hmac(const uint8_t *key, size_t key_length,
                         const uint8_t *message, size_t length, uint8_t digest[32])
{
    return probe_hmac(key, key_length, message, length, digest);
}
