/* Calls the linked contestant, as the second program does it (second/src/bench.rs).

   driver block N    from the initial hash value, N times the block with words 0 to 15
   driver hmac N     from the key with bytes 0 to 31, N times the HMAC of the message with bytes 0
                     to 15, the digest being the next key
   driver requests   request lines for random inputs, in the form of tests/hash/shim.c
   driver answers    the contestant's answers to these requests

   The first two print the last result: contestants that do the same work print the same digits. */
#include "contestant.h"

#include <stdio.h>
#include <stdlib.h>
#include <string.h>

enum { KEY = 32, MESSAGE = 16, DIGEST = 32, RANDOM_BLOCKS = 500, LONGEST = 60 };

/* Digits by a table, all bytes alike: what is printed must not change what is counted. */
static void print_hex(const uint8_t *bytes, size_t length)
{
    for (size_t i = 0; i < length; i++) {
        putchar("0123456789abcdef"[bytes[i] >> 4]);
        putchar("0123456789abcdef"[bytes[i] & 15]);
    }
    if (length == 0)
        putchar('-');
}

/* Words as bytes, the high byte first. */
static void spread(const uint32_t *words, size_t count, uint8_t *bytes)
{
    for (size_t i = 0; i < 4 * count; i++)
        bytes[i] = (uint8_t)(words[i / 4] >> (24 - 8 * (i % 4)));
}

static void print_words(const uint32_t *words, size_t count)
{
    uint8_t bytes[64];
    spread(words, count, bytes);
    print_hex(bytes, 4 * count);
}

/* Lays the words of a block as the contestant reads them. */
static void lay(uint32_t m[16])
{
    uint8_t bytes[64];
    spread(m, 16, bytes);
    if (contestant_takes_bytes)
        memcpy(m, bytes, sizeof bytes);
}

/* A fixed sequence (xorshift), so that every contestant is asked the same. */
static uint32_t next_random(void)
{
    static uint64_t x = 0x9e3779b97f4a7c15;
    x ^= x << 13;
    x ^= x >> 7;
    x ^= x << 17;
    return (uint32_t)(x >> 32);
}

static void random_block(int answer)
{
    uint32_t chain[8], m[16];
    for (int i = 0; i < 8; i++)
        chain[i] = next_random();
    for (int i = 0; i < 16; i++)
        m[i] = next_random();
    if (answer) {
        lay(m);
        contestant_block(chain, m);
        printf("0 ");
        print_words(chain, 8);
    } else {
        printf("B ");
        print_words(chain, 8);
        printf(" ");
        print_words(m, 16);
    }
    printf("\n");
}

static void random_hmac(int answer, size_t key_length, size_t length)
{
    uint8_t key[KEY + 1], message[LONGEST], digest[DIGEST];
    for (size_t i = 0; i < sizeof key; i++)
        key[i] = (uint8_t)next_random();
    for (size_t i = 0; i < sizeof message; i++)
        message[i] = (uint8_t)next_random();
    if (answer) {
        printf("%u ", (unsigned)contestant_hmac(key, key_length, message, length, digest));
        print_hex(digest, DIGEST);
    } else {
        printf("M ");
        print_hex(key, key_length);
        printf(" ");
        print_hex(message, length);
    }
    printf("\n");
}

/* The HMACs have every message length up to and beyond the limit, and key lengths around 32. */
static void random_inputs(int answer)
{
    for (int i = 0; i < RANDOM_BLOCKS; i++)
        random_block(answer);
    for (size_t key_length = KEY - 1; key_length <= KEY + 1; key_length++)
        for (size_t length = 0; length <= LONGEST; length++)
            random_hmac(answer, key_length, length);
}

static void blocks(unsigned long n)
{
    uint32_t chain[8] = {0x6a09e667, 0xbb67ae85, 0x3c6ef372, 0xa54ff53a,
                         0x510e527f, 0x9b05688c, 0x1f83d9ab, 0x5be0cd19};
    uint32_t m[16];
    for (uint32_t i = 0; i < 16; i++)
        m[i] = i;
    lay(m);
    for (; n > 0; n--)
        contestant_block(chain, m);
    print_words(chain, 8);
}

static void hmacs(unsigned long n)
{
    uint8_t key[KEY], message[MESSAGE], digest[DIGEST];
    for (uint8_t i = 0; i < KEY; i++)
        key[i] = i;
    for (uint8_t i = 0; i < MESSAGE; i++)
        message[i] = i;
    for (; n > 0; n--) {
        contestant_hmac(key, KEY, message, MESSAGE, digest);
        memcpy(key, digest, KEY);
    }
    print_hex(key, KEY);
}

int main(int argc, char **argv)
{
    const char *what = argc > 1 ? argv[1] : "";
    unsigned long n = argc > 2 ? strtoul(argv[2], NULL, 10) : 0;
    if (strcmp(what, "requests") == 0 || strcmp(what, "answers") == 0) {
        random_inputs(what[0] == 'a');
        return 0;
    }
    if (strcmp(what, "block") == 0)
        blocks(n);
    else if (strcmp(what, "hmac") == 0)
        hmacs(n);
    else
        return 2;
    printf("\n");
    return 0;
}
