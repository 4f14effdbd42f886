/* A line to the device of card_device.h on which things go wrong at random, by a seed: the line that a driver of
 * examples/card.h gets. */
#ifndef ROUGH_LINE_H
#define ROUGH_LINE_H

#include "card.h"
#include "card_device.h"

/* What may go wrong, or happen, on the line. */
enum trouble {
    FRAME_LOST,
    FRAME_TWICE,
    REPLY_LOST,
    REPLY_LATE, /* a read shows what one of the CARD_LATE reads before it had to show */
    DIP,
    NO_FRESH,
    TROUBLES
};

/* What is wrong with the card's statuses. */
enum fault {
    NO_FAULT,
    SAYS_04_FOR_08, /* the card of the incident */
    SAYS_80_FOR_04  /* a copy that pretends to be good */
};

struct rough_line {
    struct card_device device;
    uint64_t random;                               /* the state of the source of chance */
    uint64_t given;                                /* how often fresh bytes were, so that none come twice */
    uint8_t shown[CARD_LATE + 1][RPMC_REPLY_SIZE]; /* what the last reads had to show, the latest first */
    uint32_t per_mille[TROUBLES];                  /* how often each trouble comes */
    uint32_t steps;                                /* at most so many while the driver waits */
    enum fault fault;
    unsigned long happened[TROUBLES];
    unsigned long while_busy; /* frames that found the device at work */
    unsigned long cuts;       /* dips that did */
};

/* The line of a new session begins, with a device that is started elsewhere. What was counted stays. */
void rough_begin(struct rough_line *line, uint64_t seed);

/* A number below a limit. */
uint32_t chance(struct rough_line *line, uint32_t below);

/* From now on nothing goes wrong. */
void rough_mend(struct rough_line *line);

struct card_line rough_card_line(struct rough_line *line);

/* Somebody else uses another counter of the card, over a line on which nothing goes wrong. The last of the frames
 * may still be worked on when this ends. */
void rough_traffic(struct rough_line *line, uint32_t counter);

/* Counts what happened, as events of claims.h. */
void rough_tell(const struct rough_line *line);

#endif
