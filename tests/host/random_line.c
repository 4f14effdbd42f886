/* The driver in examples/ over lines on which things go wrong at random: `random_line SEED SESSIONS`.
 *
 * Each session has a card of some sort (the host's own, a copy, one that was never paired, ..) with the proved
 * device in it, a line that loses, delays and repeats, power that dips, and a host that restarts with a new
 * struct or with an old one; in between other counters of the card are used, or the card is exchanged for a
 * copy. After each operation of the driver its outcome is compared with what stands in the device's image. At
 * the end of a session nothing goes wrong any more, and the driver has to tell the card for what it is. Session
 * n has the seed SEED + n. */
#include "claims.h"
#include "rough_line.h"

#include <stdio.h>
#include <stdlib.h>

struct session {
    struct rough_line line;
    struct card card, old; /* the driver, and what an earlier one has kept */
    uint64_t seed;
    int came_back; /* with an old session key, so that the device has another one */
};

enum { COUNTER = 1, OPERATIONS = 8 };

static const uint8_t our_key[RPMC_KEY_SIZE] = "the root key of this very host!";
static const uint8_t other_key[RPMC_KEY_SIZE] = "a root key of some other host..";

/* The outcomes that have to come; those that must not are no events. */
static const char *const outcomes[CARD_REFUSED + 1] = {
    [CARD_GOOD] = "good",
    [CARD_LOST] = "lost",
    [CARD_STUCK] = "stuck",
    [CARD_UNPAIRED] = "unpaired",
    [CARD_COPY] = "copy",
    [CARD_UNFINISHED] = "unfinished",
    [CARD_MOVED] = "moved",
    [CARD_WORN] = "worn",
    [CARD_NO_COUNTER] = "no counter",
    [CARD_NO_FRESH] = "no fresh bytes",
};

/* ---- what is claimed */

static enum card_truth truth_of(struct session *session)
{
    return device_truth(&session->line.device, COUNTER, our_key);
}

static uint32_t value_of(struct session *session)
{
    return device_value(&session->line.device, COUNTER);
}

/* What a driver has to say of a card, if nothing goes wrong. */
static enum card_outcome told_as(enum card_truth truth)
{
    static const enum card_outcome as[TRUTHS] = {
        [TRUTH_UNPAIRED] = CARD_UNPAIRED, [TRUTH_UNFINISHED] = CARD_UNFINISHED,
        [TRUTH_OURS] = CARD_GOOD,         [TRUTH_COPY] = CARD_COPY,
        [TRUTH_BAD] = CARD_WORN,          [TRUTH_MISSING] = CARD_NO_COUNTER,
    };
    return as[truth];
}

/* Whether one of the outcomes that speak of the card, but good and copy, may be said of it. */
static int may_be_said(struct session *session, enum card_outcome outcome)
{
    switch (outcome) {
    case CARD_UNPAIRED:
    case CARD_UNFINISHED:
    case CARD_NO_COUNTER:
        return told_as(truth_of(session)) == outcome;
    case CARD_WORN:
        return truth_of(session) == TRUTH_BAD || (truth_of(session) == TRUTH_OURS && value_of(session) == UINT32_MAX);
    case CARD_LOST:
    case CARD_STUCK:
    case CARD_NO_FRESH:
        return 1;
    default:
        return 0; /* wrong and refused: the device is right, and so are the calls */
    }
}

/* The claims about every operation. */
static void check_outcome(struct session *session, enum card_outcome outcome)
{
    enum card_truth truth = truth_of(session);
    uint64_t seed = session->seed;
    if (outcome == CARD_GOOD || truth == TRUTH_COPY)
        claim(COPY_IS_NOT_GOOD, outcome != CARD_GOOD || truth == TRUTH_OURS, seed);
    if (session->line.fault == SAYS_80_FOR_04)
        return; /* of a card that lies, nothing else is claimed */
    if (outcomes[outcome] != NULL)
        came(outcomes[outcome], 1);
    if (truth == TRUTH_OURS)
        claim(GOOD_IS_NO_COPY, outcome != CARD_COPY, seed);
    if (truth == TRUTH_UNFINISHED || truth == TRUTH_UNPAIRED)
        claim(UNFINISHED_IS_NO_COPY, outcome != CARD_COPY, seed);
    if (truth == TRUTH_MISSING)
        claim(MISSING_IS_NO_COPY, outcome != CARD_COPY, seed);
    if (outcome != CARD_GOOD && outcome != CARD_COPY && outcome != CARD_MOVED)
        claim(WHAT_IS_SAID_IS_SO, may_be_said(session, outcome), seed);
    if (truth == TRUTH_OURS && session->line.fault == NO_FAULT && !session->came_back)
        claim(RENEWALS_ARE_NOT_ODD, session->card.odd_renewals == 0, seed);
    if (outcome == CARD_GOOD && chance(&session->line, 2))
        session->old = session->card;
}

/* ---- what happens in a session */

static void pair(struct session *session)
{
    int was_paired = truth_of(session) == TRUTH_OURS;
    enum card_outcome outcome = card_pair(&session->card);
    check_outcome(session, outcome);
    came("a card is paired", !was_paired && outcome == CARD_GOOD);
}

static void request(struct session *session)
{
    uint32_t value = 0;
    enum card_outcome outcome = card_request(&session->card, &value);
    check_outcome(session, outcome);
    claim(MOVED_HAS_MOVED, outcome != CARD_MOVED, session->seed); /* a request has no value to move from */
    if (outcome == CARD_GOOD)
        claim(VALUE_IS_THE_DEVICES, value == value_of(session), session->seed);
}

static void increment(struct session *session)
{
    uint32_t before = value_of(session), random = chance(&session->line, 8);
    uint32_t value = random == 0 ? UINT32_MAX : random == 1 ? before - 1 : random == 2 ? before + 7 : before;
    enum card_outcome outcome = card_increment(&session->card, value);
    uint32_t now = value_of(session);
    check_outcome(session, outcome);
    if (outcome == CARD_GOOD) {
        claim(INCREMENT_WAS_MADE, value != UINT32_MAX && now == value + 1, session->seed);
        came("an increment is made and good", now == before + 1);
    } else if (outcome == CARD_MOVED) {
        claim(MOVED_HAS_MOVED, now != value && (value == UINT32_MAX || now != value + 1), session->seed);
    }
}

static void restart(struct session *session)
{
    session->came_back = (int)chance(&session->line, 2);
    if (session->came_back)
        session->card = session->old;
    else
        card_start(&session->card, rough_card_line(&session->line), COUNTER, our_key);
    came(session->came_back ? "the host restarts with an old session key" : "the host restarts with the root key", 1);
}

/* Somebody takes the card out and puts in a copy, which the driver does not see. */
static void exchange(struct session *session)
{
    uint32_t value = value_of(session);
    device_start(&session->line.device, CARD_COUNTERS);
    device_make(&session->line.device, COUNTER, TRUTH_COPY, other_key, value);
    came("the card is exchanged for a copy", 1);
}

/* The device does nothing while the driver waits, in this operation. */
static void fall_asleep(struct session *session)
{
    uint32_t steps = session->line.steps;
    session->line.steps = 0;
    check_outcome(session, card_open(&session->card));
    session->line.steps = steps;
}

static void operate(struct session *session)
{
    switch (chance(&session->line, 16)) {
    case 0:
        pair(session);
        break;
    case 1:
    case 2:
        check_outcome(session, card_open(&session->card));
        break;
    case 3:
    case 4:
        rough_traffic(&session->line, COUNTER + 1);
        break;
    case 5:
    case 6:
        restart(session);
        break;
    case 7:
        device_power_up(&session->line.device);
        break;
    case 8:
        device_work(&session->line.device, CARD_LONGEST_JOB);
        break;
    case 9:
        if (chance(&session->line, 4) == 0)
            exchange(session);
        else if (chance(&session->line, 2))
            fall_asleep(session);
        break;
    case 10:
    case 11:
    case 12:
        request(session);
        break;
    default:
        increment(session);
    }
}

/* ---- sessions */

/* A card of some sort: of three in eight the host's own, of two a copy. */
static void put_in(struct session *session)
{
    static const enum card_truth sorts[] = { TRUTH_OURS, TRUTH_OURS,       TRUTH_OURS,     TRUTH_COPY,
                                             TRUTH_COPY, TRUTH_UNFINISHED, TRUTH_UNPAIRED, TRUTH_BAD };
    struct rough_line *line = &session->line;
    enum card_truth truth = sorts[chance(line, 8)];
    uint32_t counters = chance(line, 8) ? CARD_COUNTERS : COUNTER; /* of the latter the driver's is missing */
    uint32_t value = chance(line, 8) ? chance(line, 3) : UINT32_MAX - chance(line, 2);
    line->fault = chance(line, 4) ? NO_FAULT : truth == TRUTH_COPY ? SAYS_80_FOR_04 : SAYS_04_FOR_08;
    device_start(&line->device, counters);
    if (counters > COUNTER)
        device_make(&line->device, COUNTER, truth, truth == TRUTH_COPY ? other_key : our_key, value);
    card_start(&session->card, rough_card_line(line), COUNTER, our_key);
    session->old = session->card;
    session->came_back = 0;
}

static void run_session(struct session *session, uint64_t seed)
{
    session->seed = seed;
    rough_begin(&session->line, seed);
    put_in(session);
    for (int i = 0; i < OPERATIONS; i++)
        operate(session);
    rough_mend(&session->line);
    if (session->line.fault == SAYS_80_FOR_04)
        return;
    came("a session key is renewed", session->card.renewals);
    came("an odd renewal", session->card.odd_renewals);
    claim(ALL_IS_TOLD_AT_LAST, card_open(&session->card) == told_as(truth_of(session)), seed);
}

int main(int argc, char **argv)
{
    static struct session session;
    unsigned long long seed = argc == 3 ? strtoull(argv[1], NULL, 10) : 0;
    unsigned long sessions = argc == 3 ? strtoul(argv[2], NULL, 10) : 0;
    if (sessions == 0) {
        fprintf(stderr, "usage: random_line SEED SESSIONS\n");
        return 2;
    }
    claims_of(argv[0]);
    for (int i = 0; i <= CARD_REFUSED; i++)
        if (outcomes[i] != NULL)
            came(outcomes[i], 0); /* so that one that never comes is missed */
    for (unsigned long i = 0; i < sessions; i++)
        run_session(&session, seed + i);
    rough_tell(&session.line);
    return tell_claims(sessions / 100);
}
