/* Calls whose traces are compared, tests/host/traces.py says how: the C library of the host, the hash below
   it, and two functions that are no good, which the comparison has to find out.

   calls marks              the addresses of the two marks
   calls WORK LENGTH COUNT  COUNT calls of this kind between the marks, each with other keys, data and
                            signatures; LENGTH is that of the message where one is hashed

   The buffers stand at fixed places, and each call is made at the same depth of the stack: traces differ
   only if the bytes do. A call that does not give the answer of its kind ends the program. */
#include "../../../include/rpmc_host.h"

#include <inttypes.h>
#include <stdio.h>
#include <stdlib.h>
#include <string.h>

void probe_block(uint32_t chain[8], const uint32_t m[16]);
uint32_t probe_hash(const uint8_t *message, size_t length, uint8_t digest[32]);
uint32_t probe_hmac(const uint8_t *key, size_t key_length, const uint8_t *message, size_t length,
                    uint8_t digest[32]);

enum { TAG_PLACE = 1, VALUE_PLACE = 13, SIGNATURE_PLACE = 17, TOLD = RPMC_TAG_SIZE + RPMC_VALUE_SIZE, LONGEST = 55 };

static size_t turn, message_length;
static uint32_t chain[8], block[16];
static uint8_t key[RPMC_KEY_SIZE], message[LONGEST], tag[RPMC_TAG_SIZE], reply[RPMC_REPLY_SIZE];
static uint8_t frame[RPMC_LONGEST_FRAME_SIZE], digest[RPMC_KEY_SIZE];

/* ---- the bytes of a turn */

static uint8_t next_random(void)
{
    static uint64_t x = 0x9e3779b97f4a7c15; /* a fixed sequence (xorshift) */
    x ^= x << 13;
    x ^= x >> 7;
    x ^= x << 17;
    return (uint8_t)(x >> 32);
}

static void fill(void *buffer, size_t length)
{
    for (size_t i = 0; i < length; i++)
        ((uint8_t *)buffer)[i] = next_random();
}

static void any_bytes(void)
{
    fill(key, sizeof key);
    fill(message, sizeof message);
    fill(tag, sizeof tag);
    fill(reply, sizeof reply);
    fill(chain, sizeof chain);
    fill(block, sizeof block);
}

static void good_reply(void)
{
    any_bytes();
    reply[0] = RPMC_STATUS_DONE;
    memcpy(reply + TAG_PLACE, tag, sizeof tag);
    probe_hmac(key, sizeof key, reply + TAG_PLACE, TOLD, reply + SIGNATURE_PLACE);
}

/* One byte wrong, another one each turn: a comparison that stops at it stops at another place. */
static void wrong_tag(void)
{
    good_reply();
    reply[TAG_PLACE + turn % RPMC_TAG_SIZE] ^= 0x40;
}

static void wrong_signature(void)
{
    good_reply();
    memcpy(digest, reply + SIGNATURE_PLACE, sizeof digest);
    reply[SIGNATURE_PLACE + turn % RPMC_KEY_SIZE] ^= 0x40;
}

static void busy_reply(void)
{
    any_bytes();
    reply[0] |= 1;
}

static void failed_reply(void)
{
    any_bytes();
    reply[0] &= 0x7e;
}

/* ---- the calls: each gives its answer */

static uint32_t counter(void)
{
    return (uint32_t)turn % 4;
}

static uint32_t build_root_key(void)
{
    return rpmc_build_root_key(counter(), key, sizeof key, frame, sizeof frame);
}

static uint32_t build_session_key(void)
{
    return rpmc_build_session_key(counter(), key, sizeof key, message, RPMC_KEY_DATA_SIZE, frame, sizeof frame);
}

static uint32_t build_increment(void)
{
    return rpmc_build_increment(counter(), key, sizeof key, message, RPMC_VALUE_SIZE, frame, sizeof frame);
}

static uint32_t build_request(void)
{
    return rpmc_build_request(counter(), key, sizeof key, tag, sizeof tag, frame, sizeof frame);
}

static uint32_t session_key(void)
{
    return rpmc_session_key(key, sizeof key, message, RPMC_KEY_DATA_SIZE, digest, sizeof digest);
}

static uint32_t read_reply(void)
{
    return rpmc_read_reply(key, sizeof key, tag, sizeof tag, reply, sizeof reply);
}

static uint32_t part_length(void)
{
    struct rpmc_reply_part part;
    rpmc_part(key, sizeof key, tag, sizeof tag, reply, sizeof reply, &part);
    return (uint32_t)part.length;
}

static uint32_t one_block(void)
{
    probe_block(chain, block);
    return 0;
}

static uint32_t hash(void)
{
    return probe_hash(message, message_length, digest);
}

static uint32_t hmac(void)
{
    return probe_hmac(key, sizeof key, message, message_length, digest);
}

/* No good: stops at the first byte that differs. */
static uint32_t stops_early(void)
{
    for (size_t i = 0; i < sizeof digest; i++)
        if (digest[i] != reply[SIGNATURE_PLACE + i])
            return 1;
    return 0;
}

/* No good: a byte of the key picks the place that is read. */
static uint32_t looks_up(void)
{
    static const volatile uint8_t table[256];
    return table[key[0]];
}

struct work {
    const char *name;
    void (*bytes)(void);
    uint32_t (*call)(void);
    uint32_t answer;
};

static const struct work works[] = {
    { "build_root_key", any_bytes, build_root_key, RPMC_DONE },
    { "build_session_key", any_bytes, build_session_key, RPMC_DONE },
    { "build_increment", any_bytes, build_increment, RPMC_DONE },
    { "build_request", any_bytes, build_request, RPMC_DONE },
    { "session_key", any_bytes, session_key, RPMC_DONE },
    { "read_reply_busy", busy_reply, read_reply, RPMC_BUSY },
    { "read_reply_failed", failed_reply, read_reply, RPMC_FAILED },
    { "read_reply_wrong_tag", wrong_tag, read_reply, RPMC_WRONG_TAG },
    { "read_reply_wrong_signature", wrong_signature, read_reply, RPMC_WRONG_SIGNATURE },
    { "read_reply_good", good_reply, read_reply, RPMC_GOOD },
    { "part_wrong_tag", wrong_tag, part_length, 0 },
    { "part_wrong_signature", wrong_signature, part_length, 0 },
    { "part_good", good_reply, part_length, RPMC_VALUE_SIZE },
    { "block", any_bytes, one_block, 0 },
    { "hash", any_bytes, hash, 0 },
    { "hmac", any_bytes, hmac, 0 },
    { "stops_early", wrong_signature, stops_early, 1 },
    { "looks_up", any_bytes, looks_up, 0 },
};

/* ---- the marks */

static volatile int marked;

__attribute__((noinline)) static void begin(void)
{
    marked = 1;
}

__attribute__((noinline)) static void end(void)
{
    marked = 0;
}

static int run(const struct work *work, size_t count)
{
    for (turn = 0; turn < count; turn++) {
        work->bytes();
        begin();
        uint32_t answer = work->call();
        end();
        if (answer != work->answer) {
            printf("%s answers %" PRIu32 ", not %" PRIu32 "\n", work->name, answer, work->answer);
            return 1;
        }
    }
    return 0;
}

int main(int argc, char **argv)
{
    const char *name = argc > 1 ? argv[1] : "";
    if (strcmp(name, "marks") == 0) {
        printf("begin=%" PRIxPTR ",end=%" PRIxPTR "\n", (uintptr_t)begin, (uintptr_t)end);
        return 0;
    }
    message_length = argc > 2 ? (size_t)strtoul(argv[2], NULL, 10) : 0;
    for (size_t i = 0; i < sizeof works / sizeof works[0]; i++)
        if (argc == 4 && strcmp(name, works[i].name) == 0 && message_length <= LONGEST)
            return run(&works[i], (size_t)strtoul(argv[3], NULL, 10));
    fprintf(stderr, "usage: calls marks | WORK LENGTH COUNT\n");
    return 2;
}
