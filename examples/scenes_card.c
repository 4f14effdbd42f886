/* Scenes: cards that are not the one paired, or not as they should be; and a host that cannot ask. */
#include "session.h"

static void copied_card(void)
{
    struct place ours, copy;
    uint32_t value;
    put_in(&ours);
    put_in(&copy);
    start_again(&copy, other_key);
    check("copied card: ours is paired", card_pair(&ours.card) == CARD_GOOD);
    check("copied card: the other is paired with another root key", card_pair(&copy.card) == CARD_GOOD);
    start_again(&copy, our_key);
    copy.device.frames[PIPE_ROOT_KEY] = 0;
    check("copied card: it gets no session", card_open(&copy.card) == CARD_COPY);
    check("copied card: it gets no request", card_request(&copy.card, &value) == CARD_COPY);
    check("copied card: it gets no increment", card_increment(&copy.card, 0) == CARD_COPY);
    check("copied card: it cannot be paired anew", card_pair(&copy.card) == CARD_COPY);
    check("copied card: it was never sent our root key", copy.device.frames[PIPE_ROOT_KEY] == 0);
    pipe_dip(&copy.device);
    pipe_dip(&ours.device);
    check("copied card: after a power dip it is a copy still", card_request(&copy.card, &value) == CARD_COPY);
    check("copied card: ours, after a power dip, is none", value_is(&ours, 0));
    copy.card.in_session = 1;
    check("copied card: nor does it come into a session that is open", card_request(&copy.card, &value) == CARD_COPY);
    take_out(&copy);
    take_out(&ours);
}

static void missing_counter(void)
{
    struct place place;
    uint32_t value;
    put_in(&place);
    check("missing counter: the card is paired", card_pair(&place.card) == CARD_GOOD);
    place.device.missing = 1;
    check("missing counter: a request in an open session", card_request(&place.card, &value) == CARD_NO_COUNTER);
    start_again(&place, our_key);
    check("missing counter: a session", card_open(&place.card) == CARD_NO_COUNTER);
    check("missing counter: a request", card_request(&place.card, &value) == CARD_NO_COUNTER);
    check("missing counter: an increment", card_increment(&place.card, 0) == CARD_NO_COUNTER);
    check("missing counter: it cannot be paired", card_pair(&place.card) == CARD_NO_COUNTER);
    place.device.missing = 0;
    place.card.counter = RPMC_HIGHEST_COUNTER + 1;
    check("a counter number above 3 is refused",
          card_open(&place.card) == CARD_REFUSED && card_pair(&place.card) == CARD_REFUSED);
    take_out(&place);
}

/* How many frames the driver has sent, of whatever kind. */
static unsigned frames_sent(const struct place *place)
{
    unsigned frames = 0;
    for (int kind = 0; kind < PIPE_KINDS; kind++)
        frames += place->device.frames[kind];
    return frames;
}

static void no_fresh_bytes(void)
{
    struct place place;
    uint32_t value;
    put_in(&place);
    place.device.no_fresh = 1;
    check("no fresh bytes: no pairing", card_pair(&place.card) == CARD_NO_FRESH);
    check("no fresh bytes: no session", card_open(&place.card) == CARD_NO_FRESH);
    check("no fresh bytes: nothing was sent", frames_sent(&place) == 0);
    place.device.no_fresh = 0;
    check("no fresh bytes: once they are there, pairing", card_pair(&place.card) == CARD_GOOD);
    unsigned frames = frames_sent(&place);
    place.device.no_fresh = 1;
    check("no fresh bytes: no request", card_request(&place.card, &value) == CARD_NO_FRESH);
    check("no fresh bytes: no increment", card_increment(&place.card, 0) == CARD_NO_FRESH);
    check("no fresh bytes: nothing was sent in the session", frames_sent(&place) == frames);
    place.device.no_fresh = 0;
    check("no fresh bytes: once they are there, it goes on", value_is(&place, 0));
    take_out(&place);
}

void card_scenes(void)
{
    copied_card();
    missing_counter();
    no_fresh_bytes();
}
