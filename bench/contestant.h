/* What every contestant of the benchmark offers: one SHA-256 block and one HMAC. */
#ifndef CONTESTANT_H
#define CONTESTANT_H

#include <stddef.h>
#include <stdint.h>

/* chain := the compression of chain with the block m. */
void contestant_block(uint32_t chain[8], const uint32_t m[16]);

/* Whether m holds the 64 bytes of the block in their order in the message (1), or its 16 words
   as numbers (0). The driver lays m once, outside of what is measured. */
extern const int contestant_takes_bytes;

/* digest := the HMAC of a message of at most 55 bytes under a key of 32 bytes; answers 0, or the
   number of the refusal (6 the key's length, 11 the message's) with a digest of zeros. */
uint32_t contestant_hmac(const uint8_t *key, size_t key_length,
                         const uint8_t *message, size_t length, uint8_t digest[32]);

#endif
