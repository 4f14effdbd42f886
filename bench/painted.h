/* A painted stack: how deep a call goes below its return address. */
#ifndef PAINTED_H
#define PAINTED_H

#include <stdint.h>

extern uint8_t *painted_at_call;

/* To be done in the frame that makes the call, just before it. */
#define NOTE_STACK_POINTER() \
    __asm__ volatile("mov %%rsp, %0" : "=r"(painted_at_call) : : "memory")

/* The bytes from the return address of the noted call down to the deepest byte that changed. Bytes
   that a function sets aside and never writes do not show: code.py reads those. It calls twice. */
long painted_depth(void (*call)(void));

#endif
