/* Scenes: a device that is busy, and a line that loses, delays or damages. */
#include "session.h"

static void busy_device(void)
{
    struct place place;
    uint32_t value;
    put_in(&place);
    place.device.steps = 1;
    check("busy: a device that does a step a poll is waited for", card_pair(&place.card) == CARD_GOOD);
    place.card.busy = 0;
    check("busy: a session", card_open(&place.card) == CARD_GOOD);
    check("busy: 8 polls for the session key, 8 for a request", place.card.busy == 8 + 8);
    check("busy: an increment", card_increment(&place.card, 0) == CARD_GOOD);
    check("busy: 5 polls for it, 8 for a request", place.card.busy == 8 + 8 + 5 + 8);
    place.card.busy = 0;
    place.device.steps = 0;
    check("busy: a device that does none is given up", card_request(&place.card, &value) == CARD_STUCK);
    check("busy: after 100 polls", place.card.busy == CARD_POLLS);
    place.device.steps = 4;
    check("busy: once it works again, so does the driver", value_is(&place, 1));
    take_out(&place);
}

static void lost_on_the_line(void)
{
    struct place place;
    uint32_t value;
    put_in(&place);
    place.device.lose_frames[PIPE_ROOT_KEY] = 1;
    check("lost root key frame: sent again", card_pair(&place.card) == CARD_GOOD);
    place.device.lose_replies = 1;
    check("lost reply: read again", value_is(&place, 0));
    check("lost reply: one was lost", place.card.lost == 1);
    place.device.lose_frames[PIPE_REQUEST] = 1;
    check("lost request: sent again, with a fresh tag", value_is(&place, 0));
    place.device.lose_frames[PIPE_SESSION_KEY] = 1;
    check("lost session key frame: sent again", card_open(&place.card) == CARD_GOOD);
    place.device.lose_frames[PIPE_INCREMENT] = 1;
    check("lost increment: sent again", card_increment(&place.card, 0) == CARD_GOOD);
    place.device.lose_replies = 1;
    check("lost status of an increment: read again", card_increment(&place.card, 1) == CARD_GOOD);
    check("lost on the line: each increment counted once", value_is(&place, 2));
    check("lost on the line: no session key was renewed", place.card.renewals == 0);
    place.device.mute = 1;
    check("no reply at all: the driver gives up", card_request(&place.card, &value) == CARD_LOST);
    place.device.mute = 0;
    check("and when they come again, goes on", value_is(&place, 2));
    place.device.lose_frames[PIPE_INCREMENT] = CARD_TRIES;
    check("every increment lost: it is not believed", card_increment(&place.card, 2) == CARD_LOST);
    check("every increment lost: the counter is where it was", value_is(&place, 2));
    take_out(&place);
}

/* Pairs another counter of the same card, whose frames leave 80h. */
static void leave_done(struct place *place)
{
    struct card other;
    card_start(&other, pipe_line(&place->device), OTHER_COUNTER, our_key);
    check("another counter of the card", card_pair(&other) == CARD_GOOD);
}

/* An increment with the wrong value, which leaves 10h. */
static void leave_wrong_value(struct place *place)
{
    const uint8_t data[RPMC_VALUE_SIZE] = { 0, 0, 0, 7 };
    uint8_t frame[RPMC_INCREMENT_FRAME_SIZE], status = 0;
    struct card_line line = pipe_line(&place->device);
    (void)rpmc_build_increment(COUNTER, place->card.session_key, RPMC_KEY_SIZE, data, sizeof data, frame,
                               sizeof frame);
    line.send(line.context, frame, sizeof frame);
    pipe_work(&place->device, 4);
    line.read(line.context, &status, 1);
    check("an increment with the wrong value: 10h", status == RPMC_STATUS_WRONG_VALUE);
}

static void stale_status(void)
{
    struct place place;
    put_in(&place);
    leave_done(&place);
    place.device.lose_frames[PIPE_ROOT_KEY] = 1;
    check("stale 80h of another counter, and a lost root key frame: sent again", card_pair(&place.card) == CARD_GOOD);
    check("stale 80h: the counter starts at 0", value_is(&place, 0));
    leave_wrong_value(&place);
    place.device.lose_frames[PIPE_REQUEST] = 1;
    check("stale 10h, and a lost request: sent again", value_is(&place, 0));
    leave_wrong_value(&place);
    place.device.lose_frames[PIPE_INCREMENT] = place.device.lose_frames[PIPE_REQUEST] = 1;
    check("stale 10h, and a lost increment: sent again", card_increment(&place.card, 0) == CARD_GOOD);
    leave_done(&place);
    place.device.lose_frames[PIPE_SESSION_KEY] = 1;
    check("stale 80h, and a lost session key frame: sent again", card_open(&place.card) == CARD_GOOD);
    take_out(&place);
    put_in(&place);
    check("stale 02h: the card was never paired", card_open(&place.card) == CARD_UNPAIRED);
    place.device.lose_frames[PIPE_ROOT_KEY] = 1;
    check("stale 02h, and a lost root key frame: sent again", card_pair(&place.card) == CARD_GOOD);
    take_out(&place);
}

/* Reads that show what was there before a frame. */
static void late_replies(void)
{
    struct place place;
    put_in(&place);
    check("late replies: the card is paired", card_pair(&place.card) == CARD_GOOD);
    check("late replies: the counter starts at 0", value_is(&place, 0));
    place.device.late_replies = CARD_LATE;
    check("late replies: a request", value_is(&place, 0));
    place.device.late_replies = CARD_LATE;
    check("late replies: an increment", card_increment(&place.card, 0) == CARD_GOOD);
    place.device.late_replies = CARD_LATE;
    check("late replies: a session", card_open(&place.card) == CARD_GOOD);
    check("late replies: the counter is at 1", value_is(&place, 1));
    take_out(&place);
}

static void damaged_frames(void)
{
    struct place place;
    put_in(&place);
    place.device.damage_frames[PIPE_ROOT_KEY] = 1;
    check("damaged root key frame: sent again", card_pair(&place.card) == CARD_GOOD);
    place.device.damage_frames[PIPE_SESSION_KEY] = 3; /* that of the session, and two that ask for the reason */
    check("damaged session key frames: no copy", card_open(&place.card) == CARD_GOOD);
    place.device.damage_frames[PIPE_REQUEST] = 1;
    check("damaged request: sent again", value_is(&place, 0));
    place.device.damage_frames[PIPE_INCREMENT] = 1;
    check("damaged increment: sent again", card_increment(&place.card, 0) == CARD_GOOD);
    take_out(&place);
}

void line_scenes(void)
{
    busy_device();
    lost_on_the_line();
    stale_status();
    late_replies();
    damaged_frames();
}
