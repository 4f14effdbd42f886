/* Measures the stack of the linked contestant on a painted stack. Prints the bytes below the return
   address, "block N" and "hmac N". */
#include "contestant.h"
#include "painted.h"

#include <stdio.h>

static volatile int returned;

static uint32_t chain[8], m[16];
static uint8_t key[32], message[16], digest[32];

/* Six arguments or fewer travel in registers: nothing is pushed between the note and the call. What
   follows the call keeps it from becoming a jump that drops this frame. */
static void call_block(void)
{
    NOTE_STACK_POINTER();
    contestant_block(chain, m);
    returned++;
}

static void call_hmac(void)
{
    NOTE_STACK_POINTER();
    contestant_hmac(key, sizeof key, message, sizeof message, digest);
    returned++;
}

int main(void)
{
    printf("block %ld\n", painted_depth(call_block));
    printf("hmac %ld\n", painted_depth(call_hmac));
    return returned == 4 ? 0 : 1;
}
