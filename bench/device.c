/* Drives the device for the benchmark: carries out a scene, and its last line many times.

   device FILE N        the last line N times, each time from the state and the slot that the lines
                        before it left, and prints what it leaves
   device FILE stack    the last line on a painted stack, and prints how many bytes deep it went

   The lines of a scene:

   I LENGTH     an image of one counter, its slot all FFh right behind the header
   W AT WORD    stores a word, 8 hex digits, at a place of the slot
   P            power-up
   F HEX        a frame, with a buffer of 49 bytes for a read; an empty one is F alone
   S QUOTA      work
   U            the state is unpacked and packed: what F and S do beside their call
   N            nothing: what the driver itself does */
#include "painted.h"

#include <stddef.h>
#include <stdio.h>
#include <stdlib.h>
#include <string.h>

uint32_t probe_power_up(const uint8_t *image, size_t length, uint8_t state[383]);
uint32_t probe_frame(const uint8_t *image, size_t length, uint8_t state[383], const uint8_t *frame,
                     size_t frame_length, uint8_t *output, size_t output_length);
uint32_t probe_work(uint8_t *image, size_t length, uint8_t state[383], uint32_t quota,
                    uint32_t steps[1]);
void probe_state(uint8_t state[383]);

enum { LONGEST_IMAGE = 65536, HEADER = 16, SLOT = 48, STATE = 383, READ = 49, LONGEST_FRAME = 256 };

static uint8_t image[LONGEST_IMAGE], state[STATE], frame[LONGEST_FRAME], output[READ];
static size_t image_length, frame_length;
static uint32_t quota, number, steps[1];

/* What stands after the calls keeps the calls from becoming jumps. */
static volatile unsigned long calls;

static void power_up(void)
{
    NOTE_STACK_POINTER();
    number = probe_power_up(image, image_length, state);
    calls++;
}

/* The seventh argument goes over the stack, behind the noted place. */
static void send_frame(void)
{
    NOTE_STACK_POINTER();
    number = probe_frame(image, image_length, state, frame, frame_length, output, READ);
    calls++;
}

static void work(void)
{
    NOTE_STACK_POINTER();
    number = probe_work(image, image_length, state, quota, steps);
    calls++;
}

static void in_and_out(void)
{
    NOTE_STACK_POINTER();
    probe_state(state);
    calls++;
}

static void nothing(void)
{
    NOTE_STACK_POINTER();
    calls++;
}

static void put_word(uint8_t *at, unsigned long word)
{
    for (int i = 0; i < 4; i++)
        at[i] = (uint8_t)(word >> (24 - 8 * i));
}

static void new_image(size_t length)
{
    const unsigned long header[] = {1, HEADER, SLOT, length};
    if (length < HEADER + SLOT || length > LONGEST_IMAGE)
        exit(2);
    memset(image, 0xff, length);
    for (int i = 0; i < 4; i++)
        put_word(image + 4 * i, header[i]);
    image_length = length;
}

static void poke(const char *text)
{
    char *behind;
    size_t at = strtoul(text, &behind, 10);
    if (at > SLOT - 4)
        exit(2);
    put_word(image + HEADER + at, strtoul(behind, NULL, 16));
}

static void read_frame(const char *text)
{
    unsigned byte;
    for (frame_length = 0; frame_length < LONGEST_FRAME; frame_length++, text += 2) {
        if (sscanf(text, "%2x", &byte) != 1)
            break;
        frame[frame_length] = (uint8_t)byte;
    }
}

/* The call of a line, its arguments laid out; what is no call of the device is done at once. */
static void (*call_of(const char *line))(void)
{
    const char *fields = line + 1;
    switch (line[0]) {
    case 'I':
        new_image(strtoul(fields, NULL, 10));
        return nothing;
    case 'W':
        poke(fields);
        return nothing;
    case 'P':
        return power_up;
    case 'F':
        read_frame(fields + strspn(fields, " "));
        return send_frame;
    case 'S':
        quota = (uint32_t)strtoul(fields, NULL, 10);
        return work;
    case 'U':
        return in_and_out;
    case 'N':
        return nothing;
    }
    exit(2);
}

/* Carries out the lines of a file, all but the last, and answers the last one's call. */
static void (*last_call(const char *path))(void)
{
    static char line[2 * LONGEST_FRAME + 8];
    void (*call)(void) = NULL;
    FILE *file = fopen(path, "r");
    if (file == NULL)
        exit(2);
    while (fgets(line, sizeof line, file) != NULL) {
        if (call != NULL)
            call();
        call = call_of(line);
    }
    fclose(file);
    if (call == NULL)
        exit(2);
    return call;
}

static void print_hex(const char *name, const uint8_t *bytes, size_t length)
{
    printf("%s ", name);
    for (size_t i = 0; i < length; i++)
        printf("%02x", bytes[i]);
    printf("\n");
}

/* The last line's call, and what stood before it. A step changes no byte outside of the slot. */
static void (*measured)(void);
static uint8_t state_before[STATE], slot_before[SLOT];

static void note_before(void)
{
    memcpy(state_before, state, STATE);
    memcpy(slot_before, image + HEADER, SLOT);
}

static void call_from_before(void)
{
    memcpy(state, state_before, STATE);
    memcpy(image + HEADER, slot_before, SLOT);
    measured();
}

static void print_what_is_left(void)
{
    printf("number %u\nsteps %u\n", (unsigned)number, (unsigned)steps[0]);
    print_hex("state", state, STATE);
    print_hex("slot", image + HEADER, SLOT);
    print_hex("output", output, READ);
}

int main(int argc, char **argv)
{
    if (argc != 3)
        return 2;
    measured = last_call(argv[1]);
    note_before();
    if (strcmp(argv[2], "stack") == 0) {
        printf("stack %ld\n", painted_depth(call_from_before));
        return 0;
    }
    for (unsigned long n = strtoul(argv[2], NULL, 10); n > 0; n--)
        call_from_before();
    print_what_is_left();
    return 0;
}
