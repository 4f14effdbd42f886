/* The HMAC of the C contestants: FIPS 198-1 with a 32-byte key, two hashes of two blocks each. */
#include "hmac.h"
#include "contestant.h"

#include <string.h>

enum { IPAD = 0x36, OPAD = 0x5c };
enum { REFUSED_KEY = 6, REFUSED_MESSAGE = 11 };

static void keyed_hash(const uint8_t key[KEY_BYTES], uint8_t pad, const uint8_t *data,
                       size_t length, uint8_t digest[DIGEST_BYTES])
{
    uint8_t first[BLOCK_BYTES];
    memset(first, pad, BLOCK_BYTES);
    for (int i = 0; i < KEY_BYTES; i++)
        first[i] ^= key[i];
    hash_two_blocks(first, data, length, digest);
}

uint32_t contestant_hmac(const uint8_t *key, size_t key_length,
                         const uint8_t *message, size_t length, uint8_t digest[32])
{
    uint8_t inner[DIGEST_BYTES];
    memset(digest, 0, DIGEST_BYTES);
    if (key_length != KEY_BYTES)
        return REFUSED_KEY;
    if (length > MESSAGE_LIMIT)
        return REFUSED_MESSAGE;
    keyed_hash(key, IPAD, message, length, inner);
    keyed_hash(key, OPAD, inner, DIGEST_BYTES, digest);
    return 0;
}
