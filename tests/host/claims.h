/* What tests/host/random_line.c claims of a driver, and counts: claims that hold each time, and events that have
 * to come often enough. */
#ifndef CLAIMS_H
#define CLAIMS_H

enum claim {
    GOOD_IS_NO_COPY,
    UNFINISHED_IS_NO_COPY,
    MISSING_IS_NO_COPY,
    COPY_IS_NOT_GOOD,
    INCREMENT_WAS_MADE,
    VALUE_IS_THE_DEVICES,
    MOVED_HAS_MOVED,
    WHAT_IS_SAID_IS_SO,
    RENEWALS_ARE_NOT_ODD,
    ALL_IS_TOLD_AT_LAST,
    CLAIMS
};

/* Begins with the name of the program, which repeats a session by its seed. */
void claims_of(const char *program);

/* Counts a case of a claim. The first that does not hold is printed, with the command for its session alone. */
void claim(enum claim claim, int holds, unsigned long long seed);

/* Counts an event that has to come. */
void came(const char *event, unsigned long times);

/* Prints every claim; and every event, and how often a claim was tried, which have to have come so often; then the
 * last line. Gives the exit status. */
int tell_claims(unsigned long often);

#endif
