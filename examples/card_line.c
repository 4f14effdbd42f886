/* The code of card_line.h. */
#include "card_line.h"

#include <string.h>

/* A reply that got lost is read again: the device keeps it. */
enum card_outcome line_read(struct card *card, uint8_t *reply, size_t length, int thrown_away)
{
    const struct card_line *line = &card->line;
    enum card_outcome outcome = CARD_LOST;
    int came = 0;
    for (int polls = 0; polls < CARD_POLLS; polls++) {
        if (line->read(line->context, reply, length) != 0) {
            card->lost++;
        } else if ((reply[0] & RPMC_STATUS_BUSY) != 0) {
            came++;
            card->busy++;
            outcome = CARD_STUCK;
        } else if (came++ >= thrown_away) {
            return CARD_GOOD;
        }
        line->wait(line->context);
    }
    return outcome;
}

enum card_outcome line_send(struct card *card, const uint8_t *frame, size_t length)
{
    uint8_t status;
    enum card_outcome outcome = line_read(card, &status, 1, 0);
    if (outcome != CARD_GOOD)
        return outcome;
    for (int tries = 0; tries < CARD_TRIES; tries++)
        if (card->line.send(card->line.context, frame, length) == 0)
            return CARD_GOOD;
    return CARD_LOST;
}

/* The status that stands there behind a frame, whether the device took it or not. */
static enum card_outcome status_behind(struct card *card, const uint8_t *frame, size_t length, uint8_t *status)
{
    enum card_outcome outcome = line_send(card, frame, length);
    return outcome == CARD_GOOD ? line_read(card, status, 1, CARD_LATE) : outcome;
}

void line_dud(const struct card *card, uint8_t frame[RPMC_ROOT_KEY_FRAME_SIZE])
{
    uint8_t temporary[RPMC_KEY_SIZE];
    memset(temporary, 0xff, sizeof temporary);
    (void)rpmc_build_root_key(card->counter, temporary, sizeof temporary, frame, RPMC_ROOT_KEY_FRAME_SIZE);
    frame[RPMC_ROOT_KEY_FRAME_SIZE - 1] ^= 1;
}

/* A status is the frame's own if it is not the one that stood there before; nor 00h, which a dip leaves. So
 * that the two differ, a mark is sent before the frame, in turn one that leaves 04h, a request that is cut
 * short, and one that never does, the dud: no frame gets the same status as both. Whether the mark itself
 * was taken does not matter, since what stands there behind it is read. */
enum card_outcome line_status(struct card *card, const uint8_t *frame, size_t length, uint8_t *status)
{
    const uint8_t cut_short[2] = { 0x9b, 0x03 };
    uint8_t dud[RPMC_ROOT_KEY_FRAME_SIZE], before = RPMC_STATUS_POWER_ON;
    line_dud(card, dud);
    for (int tries = 0; tries < 2 * CARD_TRIES; tries++) {
        int odd = tries % 2;
        enum card_outcome outcome =
            status_behind(card, odd ? dud : cut_short, odd ? sizeof dud : sizeof cut_short, &before);
        if (outcome == CARD_GOOD)
            outcome = status_behind(card, frame, length, status);
        if (outcome != CARD_GOOD)
            return outcome;
        if (*status != before && *status != RPMC_STATUS_POWER_ON)
            return CARD_GOOD;
    }
    return CARD_LOST;
}
