/* The code of claims.h. */
#include "claims.h"

#include <stdio.h>
#include <string.h>

enum { EVENTS = 64 };

static const char *const names[CLAIMS] = {
    [GOOD_IS_NO_COPY] = "no good card is called a copy",
    [UNFINISHED_IS_NO_COPY] = "no card without a root key is called a copy",
    [MISSING_IS_NO_COPY] = "no card that does not have the counter is called a copy",
    [COPY_IS_NOT_GOOD] = "no copy is called good",
    [INCREMENT_WAS_MADE] = "no increment is believed that the device did not make",
    [VALUE_IS_THE_DEVICES] = "a value that is told is the device's",
    [MOVED_HAS_MOVED] = "a counter that is said to have moved has",
    [WHAT_IS_SAID_IS_SO] = "what else is said of a card is so",
    [RENEWALS_ARE_NOT_ODD] = "no renewal of a right card's session key is odd",
    [ALL_IS_TOLD_AT_LAST] = "once nothing goes wrong any more, every card is told for what it is",
};

static const char *name = "random_line";
static int passed, failed;

static struct {
    unsigned long held, broken;
} cases[CLAIMS];

static struct {
    const char *name;
    unsigned long times;
} events[EVENTS];

void claims_of(const char *program)
{
    name = program;
}

void claim(enum claim claim, int holds, unsigned long long seed)
{
    if (holds)
        cases[claim].held++;
    else if (cases[claim].broken++ == 0)
        printf("to repeat: %s %llu 1  # not so: %s\n", name, seed, names[claim]);
}

void came(const char *event, unsigned long times)
{
    int i = 0;
    while (i < EVENTS - 1 && events[i].name != NULL && strcmp(events[i].name, event) != 0)
        i++;
    events[i].name = event;
    events[i].times += times;
}

/* Prints whether something holds, and counts it; its words come behind. */
static void tell(int holds)
{
    printf("%s ", holds ? "ok" : "FAIL");
    if (holds)
        passed++;
    else
        failed++;
}

int tell_claims(unsigned long often)
{
    for (int i = 0; i < CLAIMS; i++) {
        unsigned long held = cases[i].held, broken = cases[i].broken;
        tell(broken == 0);
        printf("%s: %lu times so, %lu times not\n", names[i], held, broken);
        tell(held + broken >= often); /* a claim that is hardly ever tried says little */
        printf("tried %lu times\n", held + broken);
    }
    for (int i = 0; i < EVENTS && events[i].name != NULL; i++) {
        tell(events[i].times >= often);
        printf("came %lu times: %s\n", events[i].times, events[i].name);
    }
    printf("%d passed, %d failed\n", passed, failed);
    return failed != 0;
}
