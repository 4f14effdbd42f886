/* What a driver can know over a line that loses frames and replies: for card.c.
 *
 * A frame that got lost leaves the status of an earlier one, also of another counter's, and nobody notices.
 * A device at work takes no frame. A late reply shows what was there before. So frames are sent to an idle
 * device alone, and a status counts as a frame's own only where it cannot be another's. */
#ifndef CARD_LINE_H
#define CARD_LINE_H

#include "card.h"

/* Reads until the device is not busy, and throws away so many of the reads that come before. After
 * CARD_LATE of them, a read shows what the device had to say after this call began. */
enum card_outcome line_read(struct card *card, uint8_t *reply, size_t length, int thrown_away);

/* Waits until the device is not busy, and sends a frame; again, if it is known to be lost. */
enum card_outcome line_send(struct card *card, const uint8_t *frame, size_t length);

/* The status that the device gives to this frame: good if it is told. */
enum card_outcome line_status(struct card *card, const uint8_t *frame, size_t length, uint8_t *status);

/* Builds a root key frame for the card's counter that no device takes: the temporary key, which leaves
 * root unset, and a wrong signature. It gives 02h if the counter is there, 06h if not, 20h if its memory
 * is bad, and changes nothing. The counter number is at most 3. */
void line_dud(const struct card *card, uint8_t frame[RPMC_ROOT_KEY_FRAME_SIZE]);

#endif
