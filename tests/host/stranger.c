/* A program as somebody else writes it who has the installed library and its header alone, in C or C++:
 * calls each function once and prints what it gives. The reply is read from standard input. */
#include <rpmc_host.h>
#include <stdio.h>

static const uint8_t key[RPMC_KEY_SIZE] = { 0x20, 0x21, 0x22, 0x23 };
static const uint8_t four[RPMC_VALUE_SIZE] = { 0x00, 0x11, 0x22, 0x33 };
static const uint8_t tag[RPMC_TAG_SIZE] = { 1, 2, 3, 4, 5, 6, 7, 8, 9, 10, 11, 12 };

static void print(uint32_t answer, const uint8_t *bytes, size_t length)
{
    printf("%lu ", (unsigned long)answer);
    for (size_t i = 0; i < length; i++)
        printf("%02X", bytes[i]);
    printf("\n");
}

int main(void)
{
    uint8_t frame[RPMC_LONGEST_FRAME_SIZE], made[RPMC_KEY_SIZE], reply[RPMC_REPLY_SIZE];
    struct rpmc_reply_part part;
    uint32_t answer = rpmc_build_root_key(3, key, sizeof key, frame, sizeof frame);
    print(answer, frame, RPMC_ROOT_KEY_FRAME_SIZE);
    answer = rpmc_build_session_key(3, key, sizeof key, four, sizeof four, frame, sizeof frame);
    print(answer, frame, RPMC_SESSION_KEY_FRAME_SIZE);
    answer = rpmc_build_increment(3, key, sizeof key, four, sizeof four, frame, sizeof frame);
    print(answer, frame, RPMC_INCREMENT_FRAME_SIZE);
    answer = rpmc_build_request(3, key, sizeof key, tag, sizeof tag, frame, sizeof frame);
    print(answer, frame, RPMC_REQUEST_FRAME_SIZE);
    answer = rpmc_session_key(key, sizeof key, four, sizeof four, made, sizeof made);
    print(answer, made, sizeof made);
    if (fread(reply, 1, sizeof reply, stdin) != sizeof reply)
        return 1;
    answer = rpmc_read_reply(key, sizeof key, tag, sizeof tag, reply, sizeof reply);
    rpmc_part(key, sizeof key, tag, sizeof tag, reply, sizeof reply, &part);
    print(answer, part.bytes, part.length);
    return 0;
}
