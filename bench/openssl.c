/* OpenSSL as a contestant, by its low-level calls: its HMAC() looks the hash up by name at every
   call, which costs many times the four blocks. */
#define OPENSSL_SUPPRESS_DEPRECATED
#include "contestant.h"
#include "hmac.h"

#include <openssl/sha.h>
#include <string.h>

const int contestant_takes_bytes = 1;

/* The chain goes into OpenSSL's record and comes back: two copies of 32 bytes that a caller who
   keeps the record does not pay. */
void contestant_block(uint32_t chain[8], const uint32_t m[16])
{
    SHA256_CTX record;
    memcpy(record.h, chain, sizeof record.h);
    SHA256_Transform(&record, (const unsigned char *)m);
    memcpy(chain, record.h, sizeof record.h);
}

void hash_two_blocks(const uint8_t first[BLOCK_BYTES], const uint8_t *data, size_t length,
                     uint8_t digest[DIGEST_BYTES])
{
    SHA256_CTX record;
    SHA256_Init(&record);
    SHA256_Update(&record, first, BLOCK_BYTES);
    SHA256_Update(&record, data, length);
    SHA256_Final(digest, &record);
}
