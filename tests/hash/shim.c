/* The shim: answers hash request lines on standard input by calling the proved library.
 *
 * One request a line, one answer a line, in order; `?` answers a line that is no request. Bytes
 * stand as lower-case hexadecimal digits, `-` for none, words high byte first:
 *
 *   H MESSAGE      the hash call: refusal number and digest
 *   M KEY MESSAGE  the HMAC call: refusal number and digest
 *   B CHAIN BLOCK  one block from the chaining words: 0 and the chaining words after it
 *
 * Every buffer that the library gets has its exact size and stands between guard bytes. If a call
 * changed a guard byte, or a byte that it was only lent to read, the shim says so and ends.
 */
#include "../shared/lent.h"

#include <stdio.h>

void probe_block(uint32_t chain[8], const uint32_t m[16]);
uint32_t probe_hash(const uint8_t *message, size_t length, uint8_t digest[32]);
uint32_t probe_hmac(const uint8_t *key, size_t key_length, const uint8_t *message, size_t length,
                    uint8_t digest[32]);

enum { DIGEST = 32, CHAIN = 32, BLOCK = 64 };

static const char letter_a = 'a';

/* Prints the answer and lets its buffer go. */
static void answer(uint32_t number, struct lent result)
{
    printf("%lu ", (unsigned long)number);
    write_bytes(bytes(result), result.length, letter_a);
    printf("\n");
    let_go(result);
}

static void answer_hash(struct lent message)
{
    struct lent digest = buffer(DIGEST);
    lend(message);
    lend(digest);
    uint32_t number = probe_hash(bytes(message), message.length, bytes(digest));
    take_back(message, "message", 0);
    take_back(digest, "digest", 1);
    let_go(message);
    answer(number, digest);
}

static void answer_hmac(struct lent key, struct lent message)
{
    struct lent digest = buffer(DIGEST);
    lend(key);
    lend(message);
    lend(digest);
    uint32_t number = probe_hmac(bytes(key), key.length, bytes(message), message.length, bytes(digest));
    take_back(key, "key", 0);
    take_back(message, "message", 0);
    take_back(digest, "digest", 1);
    let_go(key);
    let_go(message);
    answer(number, digest);
}

/* Bytes, high byte first, to words in place, and back. */
static void to_words(struct lent lent)
{
    for (size_t i = 0; i < lent.length / 4; i++) {
        uint8_t *b = bytes(lent) + 4 * i;
        words(lent)[i] = (uint32_t)b[0] << 24 | (uint32_t)b[1] << 16 | (uint32_t)b[2] << 8 | b[3];
    }
}

static void from_words(struct lent lent)
{
    for (size_t i = 0; i < lent.length / 4; i++) {
        uint32_t word = words(lent)[i];
        for (size_t j = 0; j < 4; j++)
            bytes(lent)[4 * i + j] = (uint8_t)(word >> (24 - 8 * j));
    }
}

static void answer_block(struct lent chain, struct lent block)
{
    to_words(chain);
    to_words(block);
    lend(chain);
    lend(block);
    probe_block(words(chain), words(block));
    take_back(chain, "chaining words", 1);
    take_back(block, "block", 0);
    let_go(block);
    from_words(chain);
    answer(0, chain);
}

static void answer_line(const char *line, size_t length)
{
    struct field fields[2];
    int count = split(line, length, fields, 2);
    char letter = length > 0 ? line[0] : '\0';
    long first = count >= 1 ? field_length(fields[0], letter_a) : -1;
    long second = count >= 2 ? field_length(fields[1], letter_a) : -1;
    if (letter == 'H' && count == 1 && first >= 0)
        answer_hash(read_field(fields[0], letter_a));
    else if (letter == 'M' && count == 2 && first >= 0 && second >= 0)
        answer_hmac(read_field(fields[0], letter_a), read_field(fields[1], letter_a));
    else if (letter == 'B' && count == 2 && first == CHAIN && second == BLOCK)
        answer_block(read_field(fields[0], letter_a), read_field(fields[1], letter_a));
    else
        printf("?\n");
}

int main(void)
{
    serve(answer_line);
    return 0;
}
