/* What the HMAC in hmac.c asks of a contestant that has none of its own. */
#ifndef HMAC_H
#define HMAC_H

#include <stddef.h>
#include <stdint.h>

enum { KEY_BYTES = 32, MESSAGE_LIMIT = 55, BLOCK_BYTES = 64, DIGEST_BYTES = 32 };

/* digest := the SHA-256 of one whole block followed by at most 55 bytes of data: two blocks. */
void hash_two_blocks(const uint8_t first[BLOCK_BYTES], const uint8_t *data, size_t length,
                     uint8_t digest[DIGEST_BYTES]);

#endif
