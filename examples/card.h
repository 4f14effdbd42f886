/* A driver for a card with an RPMC device, over rpmc_host.h: pairing, session keys, counting, asking.
 *
 * What it believes. A card is good, and its counter has a value, if a signed reply to a fresh tag shows it,
 * and by nothing else: a status is not signed, and it may be that of an earlier frame, if the last one got
 * lost. What else is said of a card is said by a status that is shown to be a frame's own (card_line.h). So
 * the driver tells a card that lost its session key, as every card does at a power dip, or has another one,
 * as after a restart of the host, from a card that is not the one paired: the first gets a new session key
 * and goes on, the second is called a copy.
 *
 * What it needs. While one of its operations runs, nobody else sends command frames to the device; between
 * two of them anybody may, for any counter. Frames and replies may get lost, and replies come late or twice,
 * and the power may dip at any moment: the driver asks again, a bounded number of times. */
#ifndef CARD_H
#define CARD_H

#include "rpmc_host.h"

enum {
    CARD_POLLS = 100, /* of a frame, before the device is given up as stuck */
    CARD_TRIES = 3,   /* of what seems to be lost, or damaged on its way */
    CARD_LATE = 2     /* a read may show what one of so many reads before it should have shown */
};

/* What the board gives the driver: functions, and what is handed to each of them. `send` and `read`
 * give 0, or another number if they know that the frame or the reply got lost; `fresh` gives 0, or
 * another number if it has no bytes that were not given before, in an earlier run of the host either. */
struct card_line {
    void *context;
    int (*send)(void *context, const uint8_t *frame, size_t length);
    int (*read)(void *context, uint8_t *reply, size_t length);  /* the read, 96h, of so many bytes */
    void (*wait)(void *context);                                /* between two polls */
    int (*fresh)(void *context, uint8_t *bytes, size_t length); /* so many of them */
};

struct card {
    struct card_line line;
    uint32_t counter;
    uint8_t root_key[RPMC_KEY_SIZE];
    uint8_t session_key[RPMC_KEY_SIZE];
    int in_session;        /* a signed reply has shown that the device has this session key */
    unsigned busy;         /* for the board's log: how many polls found the device busy, */
    unsigned lost;         /* how many replies got lost, */
    unsigned renewals;     /* how often a session key that the device once had was renewed, */
    unsigned odd_renewals; /* and how many of these were after 04h, not 08h */
};

/* A right card says 04h to a session key that it had only if it was given another one since: by another
 * host, or by this one before it came back with an old struct. Where that is ruled out, an odd renewal is
 * one of a card that says 04h for 08h. The driver goes on with such a card; the board's log shows it. */

enum card_outcome {
    CARD_GOOD,       /* done, as a signed reply shows */
    CARD_LOST,       /* no answer that could be believed, or nothing done, at each try: ask again */
    CARD_STUCK,      /* busy at each of CARD_POLLS polls */
    CARD_UNPAIRED,   /* the counter was never paired: pair it */
    CARD_UNFINISHED, /* it has no root key yet, the pairing was cut or the key is temporary: pair it */
    CARD_COPY,       /* it has another root key: not the card that was paired */
    CARD_NO_COUNTER, /* the device does not have this counter */
    CARD_MOVED,      /* the counter has another value */
    CARD_WORN,       /* the counter is at its end, or its memory is bad */
    CARD_WRONG,      /* a status that no right device gives here */
    CARD_NO_FRESH,   /* `fresh` failed, and nothing was sent that it was needed for */
    CARD_REFUSED     /* the counter number is above 3 */
};

/* Makes the driver ready for a card, paired or to be paired with this root key. */
void card_start(struct card *card, struct card_line line, uint32_t counter, const uint8_t *root_key);

/* Pairs a card and opens a session. The root key is sent only to a card that has none; if it has one
 * already, that has to be the same. A root key once set stays, so a host that has paired this card before
 * and hears CARD_UNPAIRED or CARD_UNFINISHED has another card before it, and should not pair it. */
enum card_outcome card_pair(struct card *card);

/* Opens a session with a new session key: good if the card is the one that was paired. */
enum card_outcome card_open(struct card *card);

/* Takes the counter from this value to the next, once, however often frames or replies get lost: good if
 * a signed reply shows the next value. A caller that gets another outcome may ask again with the same one. */
enum card_outcome card_increment(struct card *card, uint32_t value);

/* The counter's value, if good. */
enum card_outcome card_request(struct card *card, uint32_t *value);

#endif
