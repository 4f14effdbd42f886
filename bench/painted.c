/* Calls a function on a painted stack and looks for the deepest byte that changed. */
#define _XOPEN_SOURCE 600
#include "painted.h"

#include <string.h>
#include <ucontext.h>

enum { ROOM = 256 * 1024, RETURN_ADDRESS = 8 };

static uint8_t painted[ROOM] __attribute__((aligned(64)));
uint8_t *painted_at_call;

/* The bytes that a call writes below its return address, on a stack painted with one value. */
static long depth(void (*call)(void), int paint)
{
    ucontext_t outside, inside;
    memset(painted, paint, ROOM);
    getcontext(&inside);
    inside.uc_stack.ss_sp = painted;
    inside.uc_stack.ss_size = ROOM;
    inside.uc_link = &outside;
    makecontext(&inside, call, 0);
    swapcontext(&outside, &inside);

    const uint8_t *deepest = painted;
    while (*deepest == paint)
        deepest++;
    return (long)(painted_at_call - RETURN_ADDRESS - deepest);
}

/* A byte may be written with the paint's own value: of two paints one shows it. */
long painted_depth(void (*call)(void))
{
    long one = depth(call, 0xa5), other = depth(call, 0x5a);
    return one > other ? one : other;
}
