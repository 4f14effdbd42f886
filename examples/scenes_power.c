/* Scenes: power that dips, and a host that ends too early, or restarts.
 *
 * The first is the one that once went wrong in the field: a device that has lost its session key has to
 * say 08h, and a host that hears 04h there dropped a good card as a copy. */
#include "session.h"

static void power_dip(void)
{
    struct place place;
    put_in(&place);
    check("power dip: the card is paired", card_pair(&place.card) == CARD_GOOD);
    check("power dip: no session key was renewed so far", place.card.renewals == 0);
    pipe_dip(&place.device);
    check("power dip: a request goes on", value_is(&place, 0));
    check("power dip: under a renewed session key", place.card.renewals == 1);
    pipe_dip(&place.device);
    check("power dip: an increment goes on", card_increment(&place.card, 0) == CARD_GOOD);
    check("power dip: under a renewed session key again", place.card.renewals == 2);
    place.device.dip_at = 1;
    check("power dip in the middle of an increment: it goes on", card_increment(&place.card, 1) == CARD_GOOD);
    place.device.dip_at = 2;
    check("power dip just after an increment: it goes on", card_increment(&place.card, 2) == CARD_GOOD);
    place.device.dip_at = 1;
    check("power dip in the middle of a request: it goes on", value_is(&place, 3));
    check("power dip: each of the three took a session key with it", place.card.renewals == 5);
    check("power dip: no renewal was odd", place.card.odd_renewals == 0);
    take_out(&place);
}

/* The bought-in card says 04h for 08h: a lab goes on with it all the same, and its log shows it. */
static void card_of_the_incident(void)
{
    struct place place;
    put_in(&place);
    place.device.says_04_for_08 = 1;
    check("card of the incident: it is paired", card_pair(&place.card) == CARD_GOOD);
    pipe_dip(&place.device);
    check("card of the incident: after a power dip a request goes on", value_is(&place, 0));
    pipe_dip(&place.device);
    check("card of the incident: and an increment", card_increment(&place.card, 0) == CARD_GOOD);
    check("card of the incident: both were odd renewals", place.card.renewals == 2 && place.card.odd_renewals == 2);
    take_out(&place);
}

/* Sends the root key frame, and lets the power dip after so many steps; then the host restarts. */
static void cut_pairing(struct place *place, int steps)
{
    uint8_t frame[RPMC_ROOT_KEY_FRAME_SIZE];
    struct card_line line = pipe_line(&place->device);
    (void)rpmc_build_root_key(COUNTER, our_key, sizeof our_key, frame, sizeof frame);
    line.send(line.context, frame, sizeof frame);
    pipe_work(&place->device, steps);
    pipe_dip(&place->device);
    start_again(place, our_key);
}

/* After 13 steps the root key stands in the card and nothing is set; after 14 the counter is set, and root is
 * not: then the card says 04h to its own root key. */
static void pairing_cut(void)
{
    struct place place;
    put_in(&place);
    cut_pairing(&place, 13);
    check("pairing cut before the counter is set: it was never paired", card_open(&place.card) == CARD_UNPAIRED);
    cut_pairing(&place, 14);
    check("pairing cut before root is set: it is unfinished, and no copy", card_open(&place.card) == CARD_UNFINISHED);
    check("pairing cut before root is set: so says an increment", card_increment(&place.card, 0) == CARD_UNFINISHED);
    check("pairing cut before root is set: pairing again", card_pair(&place.card) == CARD_GOOD);
    check("pairing cut before root is set: the counter starts at 0", value_is(&place, 0));
    take_out(&place);
}

/* Whether a card gets paired whose power dips at this wait of the driver. */
static int paired_through_a_dip(int waits)
{
    struct place place;
    put_in(&place);
    place.device.steps = 7;
    place.device.dip_at = waits;
    int good = card_pair(&place.card) == CARD_GOOD && value_is(&place, 0) && place.device.dip_at == 0;
    take_out(&place);
    return good;
}

/* At 7 steps a wait the root key frame is cut after 7 and after 14 of its 15 steps; before it, and behind it,
 * are the frames that open a session. */
static void dip_while_pairing(void)
{
    enum { WAITS = 16 };
    int good = 0;
    for (int waits = 1; waits <= WAITS; waits++)
        good += paired_through_a_dip(waits);
    check("power dip in the middle of pairing, at any wait: it goes on, and the counter starts at 0", good == WAITS);
}

static void temporary_key_in_use(void)
{
    struct place place;
    put_in(&place);
    start_again(&place, temporary_key);
    check("temporary key: a counter is set with it", card_pair(&place.card) == CARD_GOOD);
    check("temporary key: and counts", card_increment(&place.card, 0) == CARD_GOOD);
    start_again(&place, our_key);
    check("temporary key: to our key the card is unfinished, and no copy", card_open(&place.card) == CARD_UNFINISHED);
    check("temporary key: pairing with our key", card_pair(&place.card) == CARD_GOOD);
    check("temporary key: the counter stays", value_is(&place, 1));
    start_again(&place, temporary_key);
    check("temporary key: now it is another's", card_open(&place.card) == CARD_COPY);
    take_out(&place);
}

void power_scenes(void)
{
    power_dip();
    card_of_the_incident();
    pairing_cut();
    dip_while_pairing();
    temporary_key_in_use();
}

/* ---- the host */

/* The driver opens a session, and gives up while the device is busy with it; then the device finishes. */
static void give_up_while_busy(struct place *place)
{
    place->device.steps = 0;
    check("given up while busy: no session", card_open(&place->card) == CARD_STUCK);
    pipe_work(&place->device, 15);
    place->device.steps = 4;
}

/* The driver opens a session, and the device takes its frame, but every reply from then on gets lost. */
static void lose_all_replies(struct place *place)
{
    place->device.mute_behind[PIPE_SESSION_KEY] = 1;
    check("all replies lost: no session", card_open(&place->card) == CARD_LOST);
    place->device.mute_behind[PIPE_SESSION_KEY] = place->device.mute = 0;
}

static void opening_given_up(void)
{
    struct place place;
    put_in(&place);
    check("given up: the card is paired", card_pair(&place.card) == CARD_GOOD);
    give_up_while_busy(&place);
    check("given up while busy: a request goes on", value_is(&place, 0));
    give_up_while_busy(&place);
    check("given up while busy: an increment goes on", card_increment(&place.card, 0) == CARD_GOOD);
    lose_all_replies(&place);
    check("all replies lost: a request goes on", value_is(&place, 1));
    lose_all_replies(&place);
    check("all replies lost: an increment goes on", card_increment(&place.card, 1) == CARD_GOOD);
    check("given up: the device never lost a session key", place.card.renewals == 0);
    take_out(&place);
}

static void host_restarts(void)
{
    struct place place;
    put_in(&place);
    check("host restarts: the card is paired", card_pair(&place.card) == CARD_GOOD);
    struct card old = place.card;
    check("host restarts: another session", card_open(&place.card) == CARD_GOOD);
    place.card = old;
    check("host restarts with an old session key: a request goes on", value_is(&place, 0));
    check("host restarts with an old session key: it is seen in the log", place.card.odd_renewals == 1);
    place.card = old;
    check("host restarts with an old session key: an increment goes on", card_increment(&place.card, 0) == CARD_GOOD);
    start_again(&place, our_key);
    check("host restarts with the root key alone: a request goes on", value_is(&place, 1));
    take_out(&place);
}

void restart_scenes(void)
{
    opening_given_up();
    host_restarts();
}
