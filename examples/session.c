/* The driver of card.h with a device, in the scenes that a board meets: `session COMMAND..`, where the
 * command runs rpmcrun. Each scene has devices of its own, on a line that does wrong only what the scene
 * says. Every check is printed; the last line counts them, and the exit status is 0 only if all held. */
#include "session.h"

const uint8_t our_key[RPMC_KEY_SIZE] = "the root key of this very host!";
const uint8_t other_key[RPMC_KEY_SIZE] = "a root key of some other host..";
const uint8_t temporary_key[RPMC_KEY_SIZE] = { 255, 255, 255, 255, 255, 255, 255, 255, 255, 255, 255,
                                               255, 255, 255, 255, 255, 255, 255, 255, 255, 255, 255,
                                               255, 255, 255, 255, 255, 255, 255, 255, 255, 255 };

static char **command; /* that runs a device */
static int passed, failed;

void check(const char *what, int holds)
{
    printf("%s %s\n", holds ? "ok" : "FAIL", what);
    fflush(stdout);
    if (holds)
        passed++;
    else
        failed++;
}

void put_in(struct place *place)
{
    pipe_start(&place->device, command);
    place->device.steps = 4;
    start_again(place, our_key);
}

void take_out(struct place *place)
{
    pipe_end(&place->device);
}

void start_again(struct place *place, const uint8_t *root_key)
{
    card_start(&place->card, pipe_line(&place->device), COUNTER, root_key);
}

int value_is(struct place *place, uint32_t wanted)
{
    uint32_t value;
    return card_request(&place->card, &value) == CARD_GOOD && value == wanted;
}

static void paired_and_counted(void)
{
    struct place place;
    put_in(&place);
    check("a card that was never paired is told", card_open(&place.card) == CARD_UNPAIRED);
    check("pairing", card_pair(&place.card) == CARD_GOOD);
    check("pairing again, with the same root key", card_pair(&place.card) == CARD_GOOD);
    check("a session", card_open(&place.card) == CARD_GOOD);
    check("a request: the counter starts at 0", value_is(&place, 0));
    check("an increment", card_increment(&place.card, 0) == CARD_GOOD);
    check("a request: the counter is at 1", value_is(&place, 1));
    check("an increment of a value that is gone", card_increment(&place.card, 0) == CARD_GOOD);
    check("an increment of a value that is to come", card_increment(&place.card, 7) == CARD_MOVED);
    check("neither moved the counter", value_is(&place, 1));
    check("no session key was renewed", place.card.renewals == 0);
    take_out(&place);
}

/* The highest value has no next one: 0 is not it, though a sum of 32 bits says so. */
static void highest_value(void)
{
    struct place place;
    put_in(&place);
    check("highest value: the card is paired", card_pair(&place.card) == CARD_GOOD);
    check("highest value: 0 is not the next one", card_increment(&place.card, UINT32_MAX) == CARD_MOVED);
    check("highest value: the counter is where it was", value_is(&place, 0));
    take_out(&place);
}

int main(int argc, char **argv)
{
    if (argc < 2) {
        fprintf(stderr, "usage: session COMMAND.., which runs rpmcrun\n");
        return 2;
    }
    command = argv + 1;
    paired_and_counted();
    highest_value();
    power_scenes();
    restart_scenes();
    line_scenes();
    card_scenes();
    printf("%d passed, %d failed\n", passed, failed);
    return passed > 0 && failed == 0 ? 0 : 1;
}
