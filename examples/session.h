/* What the scenes of session.c share: a card in its slot, and checks that are counted. */
#ifndef SESSION_H
#define SESSION_H

#include "pipe.h"

/* A card in its slot, and the driver for it. */
struct place {
    struct pipe_device device;
    struct card card;
};

enum { COUNTER = 2, OTHER_COUNTER = 1 };

extern const uint8_t our_key[RPMC_KEY_SIZE], other_key[RPMC_KEY_SIZE], temporary_key[RPMC_KEY_SIZE];

/* Prints a check, and counts it. */
void check(const char *what, int holds);

/* Puts in a card that was never paired. The driver has our key. */
void put_in(struct place *place);

void take_out(struct place *place);

/* The host restarts and knows nothing but this root key. */
void start_again(struct place *place, const uint8_t *root_key);

/* Whether the card tells this value, in a signed reply. */
int value_is(struct place *place, uint32_t wanted);

/* ---- the scenes, by what goes wrong in them */

void power_scenes(void);   /* power that dips */
void restart_scenes(void); /* a host that ends too early, or restarts */
void line_scenes(void);    /* what is lost, late or damaged */
void card_scenes(void);    /* cards that are not the one paired, or not as they should be */

#endif
