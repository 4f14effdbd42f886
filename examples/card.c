/* The code of card.h. */
#include "card.h"

#include "card_line.h"

#include <string.h>

void card_start(struct card *card, struct card_line line, uint32_t counter, const uint8_t *root_key)
{
    memset(card, 0, sizeof *card);
    card->line = line;
    card->counter = counter;
    memcpy(card->root_key, root_key, RPMC_KEY_SIZE);
}

static int no_fresh(struct card *card, uint8_t *bytes, size_t length)
{
    return card->line.fresh(card->line.context, bytes, length) != 0;
}

/* ---- asking, once */

static uint32_t number_of(const uint8_t bytes[RPMC_VALUE_SIZE])
{
    return (uint32_t)bytes[0] << 24 | (uint32_t)bytes[1] << 16 | (uint32_t)bytes[2] << 8 | bytes[3];
}

static uint32_t build_request(struct card *card, const uint8_t tag[RPMC_TAG_SIZE],
                              uint8_t frame[RPMC_REQUEST_FRAME_SIZE])
{
    return rpmc_build_request(card->counter, card->session_key, RPMC_KEY_SIZE, tag, RPMC_TAG_SIZE, frame,
                              RPMC_REQUEST_FRAME_SIZE);
}

/* A request with a tag that was never used: no other reply passes for its reply. What is not good may have
 * come late, and is read again. */
static enum card_outcome ask(struct card *card, const uint8_t tag[RPMC_TAG_SIZE], uint32_t *value)
{
    const uint8_t *key = card->session_key;
    uint8_t frame[RPMC_REQUEST_FRAME_SIZE], reply[RPMC_REPLY_SIZE];
    struct rpmc_reply_part part;
    if (build_request(card, tag, frame) != RPMC_DONE)
        return CARD_REFUSED;
    enum card_outcome outcome = line_send(card, frame, sizeof frame);
    for (int late = 0; late <= CARD_LATE && outcome == CARD_GOOD; late++) {
        outcome = line_read(card, reply, sizeof reply, 0);
        if (outcome == CARD_GOOD &&
            rpmc_read_reply(key, RPMC_KEY_SIZE, tag, RPMC_TAG_SIZE, reply, sizeof reply) == RPMC_GOOD) {
            rpmc_part(key, RPMC_KEY_SIZE, tag, RPMC_TAG_SIZE, reply, sizeof reply, &part);
            *value = number_of(part.bytes);
            card->in_session = 1;
            return CARD_GOOD;
        }
        card->line.wait(card->line.context);
    }
    return outcome == CARD_GOOD ? CARD_LOST : outcome;
}

static enum card_outcome request_once(struct card *card, uint32_t *value)
{
    uint8_t tag[RPMC_TAG_SIZE];
    return no_fresh(card, tag, sizeof tag) ? CARD_NO_FRESH : ask(card, tag, value);
}

/* ---- opening a session */

/* A session key frame; then a request, whose signed reply shows that the device has the session key. The
 * status of the first is not looked at. */
static enum card_outcome open_once(struct card *card, uint32_t *value)
{
    uint8_t key_data[RPMC_KEY_DATA_SIZE], tag[RPMC_TAG_SIZE], frame[RPMC_SESSION_KEY_FRAME_SIZE];
    if (no_fresh(card, key_data, sizeof key_data) || no_fresh(card, tag, sizeof tag))
        return CARD_NO_FRESH;
    if (rpmc_build_session_key(card->counter, card->root_key, RPMC_KEY_SIZE, key_data, sizeof key_data, frame,
                               sizeof frame) != RPMC_DONE)
        return CARD_REFUSED;
    card->in_session = 0; /* from now on nobody knows which key the device has, until a signed reply comes */
    (void)rpmc_session_key(card->root_key, RPMC_KEY_SIZE, key_data, sizeof key_data, card->session_key,
                           sizeof card->session_key);
    enum card_outcome outcome = line_send(card, frame, sizeof frame);
    return outcome == CARD_GOOD ? ask(card, tag, value) : outcome;
}

/* What the device says to a session key frame under this root key. */
static enum card_outcome session_key_status(struct card *card, const uint8_t *root_key, uint8_t *status)
{
    uint8_t key_data[RPMC_KEY_DATA_SIZE], frame[RPMC_SESSION_KEY_FRAME_SIZE];
    if (no_fresh(card, key_data, sizeof key_data))
        return CARD_NO_FRESH;
    (void)rpmc_build_session_key(card->counter, root_key, RPMC_KEY_SIZE, key_data, sizeof key_data, frame,
                                 sizeof frame);
    return line_status(card, frame, sizeof frame, status);
}

/* Whether the device has the counter at all: to other frames for one that it has not it says 04h. */
static enum card_outcome look_for_counter(struct card *card)
{
    uint8_t dud[RPMC_ROOT_KEY_FRAME_SIZE], status;
    line_dud(card, dud);
    enum card_outcome outcome = line_status(card, dud, sizeof dud, &status);
    if (outcome != CARD_GOOD)
        return outcome;
    switch (status) {
    case RPMC_STATUS_ROOT_KEY:
        return CARD_GOOD;
    case RPMC_STATUS_NO_COUNTER:
        return CARD_NO_COUNTER;
    case RPMC_STATUS_FATAL:
        return CARD_WORN;
    default:
        return CARD_WRONG;
    }
}

/* Of a device that says 04h to our root key: while it has none of its own, the temporary key is in use. */
static enum card_outcome look_for_root_key(struct card *card)
{
    uint8_t temporary[RPMC_KEY_SIZE], status;
    memset(temporary, 0xff, sizeof temporary);
    enum card_outcome outcome = session_key_status(card, temporary, &status);
    if (outcome != CARD_GOOD)
        return outcome;
    switch (status) {
    case RPMC_STATUS_DONE:
        return CARD_UNFINISHED;
    case RPMC_STATUS_WRONG_SIGNATURE:
        return CARD_COPY;
    default:
        return CARD_WRONG;
    }
}

/* Why there is no signed reply under a new session key. Lost means: try again. */
static enum card_outcome why_not_open(struct card *card)
{
    uint8_t status = RPMC_STATUS_POWER_ON;
    enum card_outcome outcome = look_for_counter(card);
    if (outcome == CARD_GOOD)
        outcome = session_key_status(card, card->root_key, &status);
    if (outcome != CARD_GOOD)
        return outcome;
    switch (status) {
    case RPMC_STATUS_DONE: /* so it was a frame or a reply that got lost */
        return CARD_LOST;
    case RPMC_STATUS_ROOT_KEY:
        return CARD_UNPAIRED;
    case RPMC_STATUS_WRONG_SIGNATURE:
        return look_for_root_key(card);
    default:
        return CARD_WRONG;
    }
}

/* A copy is one each time that it is asked: a frame that was damaged on its way gets 04h too. */
static enum card_outcome open_session(struct card *card, uint32_t *value)
{
    int copies = 0;
    for (int tries = 0; tries < CARD_TRIES; tries++) {
        enum card_outcome outcome = open_once(card, value);
        if (outcome == CARD_LOST)
            outcome = why_not_open(card);
        if (outcome == CARD_COPY)
            copies++;
        else if (outcome != CARD_LOST)
            return outcome;
    }
    return copies == CARD_TRIES ? CARD_COPY : CARD_LOST;
}

/* ---- keeping it */

/* Why a request has no signed reply: by the status that the device gives to one. 08h says that it has no
 * session key, 04h only that it has another one: the session is over, and nothing is said about the card.
 * Lost means: ask again. */
static enum card_outcome why_no_reply(struct card *card, uint8_t *status)
{
    uint8_t tag[RPMC_TAG_SIZE], frame[RPMC_REQUEST_FRAME_SIZE];
    if (no_fresh(card, tag, sizeof tag))
        return CARD_NO_FRESH;
    (void)build_request(card, tag, frame);
    enum card_outcome outcome = line_status(card, frame, sizeof frame, status);
    if (outcome != CARD_GOOD)
        return outcome;
    switch (*status) {
    case RPMC_STATUS_NO_SESSION_KEY:
    case RPMC_STATUS_WRONG_SIGNATURE:
        card->in_session = 0;
        return CARD_LOST;
    case RPMC_STATUS_DONE:
        return CARD_LOST;
    case RPMC_STATUS_FATAL:
        return CARD_WORN;
    default:
        return CARD_WRONG;
    }
}

/* A new session for one that ended with this status. */
static enum card_outcome renew(struct card *card, uint8_t status, uint32_t *value)
{
    enum card_outcome outcome = open_session(card, value);
    if (outcome == CARD_GOOD) {
        card->renewals++;
        card->odd_renewals += status == RPMC_STATUS_WRONG_SIGNATURE;
    }
    return outcome;
}

static enum card_outcome send_increment(struct card *card, uint32_t value)
{
    const uint8_t data[RPMC_VALUE_SIZE] = { (uint8_t)(value >> 24), (uint8_t)(value >> 16), (uint8_t)(value >> 8),
                                            (uint8_t)value };
    uint8_t frame[RPMC_INCREMENT_FRAME_SIZE];
    if (rpmc_build_increment(card->counter, card->session_key, RPMC_KEY_SIZE, data, sizeof data, frame,
                             sizeof frame) != RPMC_DONE)
        return CARD_REFUSED;
    return line_send(card, frame, sizeof frame);
}

/* One try of an increment: its own status is not looked at, the value behind it is asked for. */
static enum card_outcome increment_once(struct card *card, uint32_t value, uint32_t *now)
{
    uint8_t tag[RPMC_TAG_SIZE];
    if (no_fresh(card, tag, sizeof tag))
        return CARD_NO_FRESH;
    enum card_outcome outcome = send_increment(card, value);
    if (outcome == CARD_GOOD)
        outcome = ask(card, tag, now);
    return outcome == CARD_LOST ? card_request(card, now) : outcome;
}

/* ---- the operations */

enum card_outcome card_pair(struct card *card)
{
    uint8_t frame[RPMC_ROOT_KEY_FRAME_SIZE];
    if (rpmc_build_root_key(card->counter, card->root_key, RPMC_KEY_SIZE, frame, sizeof frame) != RPMC_DONE)
        return CARD_REFUSED;
    enum card_outcome outcome = card_open(card);
    for (int tries = 0; tries < CARD_TRIES && (outcome == CARD_UNPAIRED || outcome == CARD_UNFINISHED); tries++) {
        outcome = line_send(card, frame, sizeof frame);
        if (outcome == CARD_GOOD || outcome == CARD_LOST) /* its status is not looked at: the session tells */
            outcome = card_open(card);
    }
    return outcome;
}

enum card_outcome card_open(struct card *card)
{
    uint32_t value;
    return open_session(card, &value);
}

enum card_outcome card_request(struct card *card, uint32_t *value)
{
    if (!card->in_session)
        return open_session(card, value);
    for (int tries = 0; tries < CARD_TRIES; tries++) {
        uint8_t status = RPMC_STATUS_DONE;
        enum card_outcome outcome = request_once(card, value);
        if (outcome == CARD_LOST)
            outcome = why_no_reply(card, &status);
        if (outcome != CARD_LOST)
            return outcome;
        if (!card->in_session)
            return renew(card, status, value);
    }
    return CARD_LOST;
}

/* An increment is made once however often its frame is sent: the device compares the value. */
enum card_outcome card_increment(struct card *card, uint32_t value)
{
    enum card_outcome outcome = card->in_session ? CARD_GOOD : card_open(card);
    for (int tries = 0; tries < CARD_TRIES && outcome == CARD_GOOD; tries++) {
        uint32_t now = value;
        outcome = increment_once(card, value, &now);
        if (outcome == CARD_GOOD && now != value)
            return value != UINT32_MAX && now == value + 1 ? CARD_GOOD : CARD_MOVED;
    }
    if (outcome != CARD_GOOD)
        return outcome;
    return value == UINT32_MAX ? CARD_WORN : CARD_LOST;
}
