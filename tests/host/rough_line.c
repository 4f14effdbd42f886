/* The code of rough_line.h. */
#include "rough_line.h"

#include "claims.h"

#include <string.h>

static const char *const troubles[TROUBLES] = {
    [FRAME_LOST] = "a frame is lost", [FRAME_TWICE] = "a frame comes twice",
    [REPLY_LOST] = "a reply is lost", [REPLY_LATE] = "a reply comes late",
    [DIP] = "the power dips",         [NO_FRESH] = "no fresh bytes are there",
};

/* splitmix64, by S. Vigna: each seed gives another row of numbers, also seeds that follow each other. */
static uint64_t next_number(struct rough_line *line)
{
    uint64_t z = line->random += 0x9e3779b97f4a7c15u;
    z = (z ^ (z >> 30)) * 0xbf58476d1ce4e5b9u;
    z = (z ^ (z >> 27)) * 0x94d049bb133111ebu;
    return z ^ (z >> 31);
}

uint32_t chance(struct rough_line *line, uint32_t below)
{
    return (uint32_t)((next_number(line) >> 32) % below);
}

void rough_begin(struct rough_line *line, uint64_t seed)
{
    static const uint32_t often[] = { 0, 0, 20, 100, 300 };
    line->random = seed;
    line->given = 0;
    memset(line->shown, 0xff, sizeof line->shown);
    for (int i = 0; i < TROUBLES; i++)
        line->per_mille[i] = often[chance(line, 5)];
    line->per_mille[DIP] /= 5; /* it may come at every frame, read and wait */
    line->per_mille[NO_FRESH] /= 10;
    line->steps = chance(line, 2) ? CARD_LONGEST_JOB : 1 + chance(line, 8);
}

void rough_mend(struct rough_line *line)
{
    memset(line->per_mille, 0, sizeof line->per_mille);
    line->steps = CARD_LONGEST_JOB;
}

static int happens(struct rough_line *line, enum trouble trouble)
{
    int yes = chance(line, 1000) < line->per_mille[trouble];
    line->happened[trouble] += (unsigned long)yes;
    return yes;
}

static void perhaps_dip(struct rough_line *line)
{
    if (happens(line, DIP)) {
        line->cuts += (unsigned long)device_is_busy(&line->device);
        device_power_up(&line->device);
    }
}

static void deliver(struct rough_line *line, const uint8_t *frame, size_t length)
{
    line->while_busy += (unsigned long)device_is_busy(&line->device);
    device_frame(&line->device, frame, length);
}

static int send_frame(void *context, const uint8_t *frame, size_t length)
{
    struct rough_line *line = context;
    perhaps_dip(line);
    if (happens(line, FRAME_LOST))
        return (int)chance(line, 4) == 0; /* seldom is it noticed */
    deliver(line, frame, length);
    if (happens(line, FRAME_TWICE))
        deliver(line, frame, length);
    perhaps_dip(line);
    return 0;
}

static int read_reply(void *context, uint8_t *reply, size_t length)
{
    struct rough_line *line = context;
    perhaps_dip(line);
    memmove(line->shown[1], line->shown[0], CARD_LATE * sizeof line->shown[0]);
    device_read(&line->device, line->shown[0], RPMC_REPLY_SIZE);
    if (line->fault == SAYS_04_FOR_08 && line->shown[0][0] == RPMC_STATUS_NO_SESSION_KEY)
        line->shown[0][0] = RPMC_STATUS_WRONG_SIGNATURE;
    if (line->fault == SAYS_80_FOR_04 && line->shown[0][0] == RPMC_STATUS_WRONG_SIGNATURE)
        line->shown[0][0] = RPMC_STATUS_DONE;
    if (happens(line, REPLY_LOST))
        return 1;
    uint32_t late = happens(line, REPLY_LATE) ? 1 + chance(line, CARD_LATE) : 0;
    memcpy(reply, line->shown[late], length);
    return 0;
}

static void wait_a_little(void *context)
{
    struct rough_line *line = context;
    uint32_t steps = line->steps == 0 ? 0 : chance(line, line->steps + 1);
    device_work(&line->device, steps);
    perhaps_dip(line);
}

static int fresh_bytes(void *context, uint8_t *bytes, size_t length)
{
    struct rough_line *line = context;
    if (happens(line, NO_FRESH))
        return 1;
    uint64_t number = ++line->given;
    for (size_t i = 0; i < length; i++)
        bytes[i] = (uint8_t)(i < sizeof number ? number >> (8 * i) : 0);
    return 0;
}

struct card_line rough_card_line(struct rough_line *line)
{
    struct card_line it = { line, send_frame, read_reply, wait_a_little, fresh_bytes };
    return it;
}

void rough_tell(const struct rough_line *line)
{
    for (int i = 0; i < TROUBLES; i++)
        came(troubles[i], line->happened[i]);
    came("a frame finds the device at work", line->while_busy);
    came("a dip does", line->cuts);
}

/* ---- other counters */

/* Builds a frame of any type, under the key with which such frames pair the counter; what is asked is sometimes right
 * and sometimes wrong, so that all statuses come. Gives the frame's length. */
static size_t build_any(struct rough_line *line, uint32_t counter, uint8_t frame[RPMC_LONGEST_FRAME_SIZE])
{
    static const uint8_t root_key[RPMC_KEY_SIZE] = "the root key of another counter";
    const uint8_t data[RPMC_TAG_SIZE] = { 0, 0, 0, (uint8_t)chance(line, 2) };
    uint8_t key[RPMC_KEY_SIZE];
    (void)rpmc_session_key(root_key, RPMC_KEY_SIZE, data, RPMC_KEY_DATA_SIZE, key, sizeof key);
    switch (chance(line, 4)) {
    case 0:
        (void)rpmc_build_root_key(counter, root_key, RPMC_KEY_SIZE, frame, RPMC_LONGEST_FRAME_SIZE);
        return RPMC_ROOT_KEY_FRAME_SIZE;
    case 1:
        (void)rpmc_build_session_key(counter, root_key, RPMC_KEY_SIZE, data, 4, frame, RPMC_LONGEST_FRAME_SIZE);
        return RPMC_SESSION_KEY_FRAME_SIZE;
    case 2:
        (void)rpmc_build_increment(counter, key, RPMC_KEY_SIZE, data, 4, frame, RPMC_LONGEST_FRAME_SIZE);
        return RPMC_INCREMENT_FRAME_SIZE;
    default:
        (void)rpmc_build_request(counter, key, RPMC_KEY_SIZE, data, sizeof data, frame, RPMC_LONGEST_FRAME_SIZE);
        return RPMC_REQUEST_FRAME_SIZE;
    }
}

void rough_traffic(struct rough_line *line, uint32_t counter)
{
    uint8_t frame[RPMC_LONGEST_FRAME_SIZE], status;
    for (uint32_t frames = 1 + chance(line, 12); frames > 0; frames--) {
        size_t length = build_any(line, counter, frame);
        device_work(&line->device, CARD_LONGEST_JOB);
        device_frame(&line->device, frame, length);
    }
    device_work(&line->device, chance(line, CARD_LONGEST_JOB + 1));
    device_read(&line->device, &status, 1);
    came(status == RPMC_STATUS_BUSY ? "another counter's job is not done" : "another counter's job is done", 1);
    came("another counter's 10h", status == RPMC_STATUS_WRONG_VALUE);
}
