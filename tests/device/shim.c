/* The shim of the device: answers device request lines on standard input by calling the proved
 * library.
 *
 * One request a line, one answer a line, in order; `?` answers a line that is no request. Bytes
 * stand as upper-case hexadecimal digits, `-` for none; a STATE is the 383 bytes that
 * second/src/state_bytes.rs describes:
 *
 *   U IMAGE                  power-up: NUMBER STATE
 *   F IMAGE STATE FRAME OUT  a frame, with the lent output before it: NUMBER STATE IMAGE OUT
 *   W IMAGE STATE QUOTA      work: NUMBER STEPS STATE IMAGE
 *
 * Every buffer that the library gets has its exact size and stands between guard bytes. If a call
 * changed a guard byte, or a byte that it was only lent to read, the shim says so and ends.
 */
#include "../shared/lent.h"

#include <stdio.h>

uint32_t probe_power_up(const uint8_t *image, size_t image_length, uint8_t state[383]);
uint32_t probe_frame(const uint8_t *image, size_t image_length, uint8_t state[383], const uint8_t *frame,
                     size_t frame_length, uint8_t *output, size_t output_length);
uint32_t probe_work(uint8_t *image, size_t image_length, uint8_t state[383], uint32_t quota, uint32_t steps[1]);

enum { STATE = 383, KIND_PLACE = 3, LAST_KIND = 6 };

/* Where a state has a yes or no, which is 1 or 0. */
static const size_t flag_places[] = { 1, 2, 10, 59, 92, 125, 158 };

static const char letter_a = 'A';

/* Prints the next field of an answer and lets its buffer go. */
static void answer_field(struct lent lent)
{
    putchar(' ');
    write_bytes(bytes(lent), lent.length, letter_a);
    let_go(lent);
}

static void answer_power_up(struct lent image)
{
    struct lent state = buffer(STATE);
    lend(image);
    lend(state);
    uint32_t number = probe_power_up(bytes(image), image.length, bytes(state));
    take_back(image, "image", 0);
    take_back(state, "state", 1);
    let_go(image);
    printf("%lu", (unsigned long)number);
    answer_field(state);
    putchar('\n');
}

static void answer_frame(struct lent image, struct lent state, struct lent frame, struct lent output)
{
    lend(image);
    lend(state);
    lend(frame);
    lend(output);
    uint32_t number = probe_frame(bytes(image), image.length, bytes(state), bytes(frame), frame.length,
                                  bytes(output), output.length);
    take_back(image, "image", 0);
    take_back(state, "state", 1);
    take_back(frame, "frame", 0);
    take_back(output, "output", 1);
    let_go(frame);
    printf("%lu", (unsigned long)number);
    answer_field(state);
    answer_field(image);
    answer_field(output);
    putchar('\n');
}

static void answer_work(struct lent image, struct lent state, uint32_t quota)
{
    struct lent steps = buffer(sizeof(uint32_t));
    lend(image);
    lend(state);
    lend(steps);
    uint32_t number = probe_work(bytes(image), image.length, bytes(state), quota, words(steps));
    take_back(image, "image", 1);
    take_back(state, "state", 1);
    take_back(steps, "steps", 1);
    printf("%lu %lu", (unsigned long)number, (unsigned long)words(steps)[0]);
    let_go(steps);
    answer_field(state);
    answer_field(image);
    putchar('\n');
}

static int is_bytes(struct field field)
{
    return field_length(field, letter_a) >= 0;
}

/* 383 bytes, each yes or no 0 or 1, and a kind of job that there is. */
static int is_state(struct field field)
{
    if (field_length(field, letter_a) != STATE || field_byte(field, KIND_PLACE, letter_a) > LAST_KIND)
        return 0;
    for (size_t i = 0; i < sizeof flag_places / sizeof flag_places[0]; i++)
        if (field_byte(field, flag_places[i], letter_a) > 1)
            return 0;
    return 1;
}

static struct lent field_bytes(struct field field)
{
    return read_field(field, letter_a);
}

static void answer_line(const char *line, size_t length)
{
    struct field f[4];
    int count = split(line, length, f, 4);
    char letter = length > 0 ? line[0] : '\0';
    uint32_t quota = 0;
    if (letter == 'U' && count == 1 && is_bytes(f[0]))
        answer_power_up(field_bytes(f[0]));
    else if (letter == 'F' && count == 4 && is_bytes(f[0]) && is_state(f[1]) && is_bytes(f[2]) && is_bytes(f[3]))
        answer_frame(field_bytes(f[0]), field_bytes(f[1]), field_bytes(f[2]), field_bytes(f[3]));
    else if (letter == 'W' && count == 3 && is_bytes(f[0]) && is_state(f[1]) && field_number(f[2], &quota))
        answer_work(field_bytes(f[0]), field_bytes(f[1]), quota);
    else
        printf("?\n");
}

int main(void)
{
    serve(answer_line);
    return 0;
}
