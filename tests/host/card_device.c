/* The code of card_device.h. A call that the library refuses ends the program: no such call is made here. */
#include "card_device.h"

#include <stdio.h>
#include <stdlib.h>
#include <string.h>

uint32_t probe_power_up(const uint8_t *image, size_t image_length, uint8_t state[CARD_STATE]);
uint32_t probe_frame(const uint8_t *image, size_t image_length, uint8_t state[CARD_STATE], const uint8_t *frame,
                     size_t frame_length, uint8_t *output, size_t output_length);
uint32_t probe_work(uint8_t *image, size_t image_length, uint8_t state[CARD_STATE], uint32_t quota,
                    uint32_t steps[1]);

enum { HEADER = 16, SLOT = 48, COUNTER_STATE = 4, VALUE = 8, KEY = 16 };

static const uint32_t set = 0, unset = UINT32_MAX, neither = 5;

static void done(uint32_t number)
{
    if (number != 0) {
        printf("the device refuses a call: %lu\n", (unsigned long)number);
        exit(1);
    }
}

static void put(uint8_t *place, uint32_t word)
{
    for (int i = 0; i < 4; i++)
        place[i] = (uint8_t)(word >> (24 - 8 * i));
}

static uint32_t get(const uint8_t *place)
{
    return (uint32_t)place[0] << 24 | (uint32_t)place[1] << 16 | (uint32_t)place[2] << 8 | place[3];
}

void device_start(struct card_device *device, uint32_t counters)
{
    memset(device->image, 0xff, sizeof device->image);
    put(device->image, counters);
    put(device->image + 4, HEADER);
    put(device->image + 8, SLOT);
    put(device->image + 12, CARD_IMAGE);
    device_power_up(device);
}

void device_make(struct card_device *device, uint32_t counter, enum card_truth truth, const uint8_t *key,
                 uint32_t value)
{
    uint8_t *slot = device->image + HEADER + SLOT * counter;
    put(slot, truth == TRUTH_BAD ? neither : truth == TRUTH_OURS || truth == TRUTH_COPY ? set : unset);
    put(slot + COUNTER_STATE, truth == TRUTH_UNPAIRED ? unset : set);
    put(slot + VALUE, value);
    memcpy(slot + KEY, key, RPMC_KEY_SIZE); /* under an unset root it is not in use: a cut may leave it */
}

void device_power_up(struct card_device *device)
{
    done(probe_power_up(device->image, CARD_IMAGE, device->state));
}

void device_frame(struct card_device *device, const uint8_t *frame, size_t length)
{
    uint8_t nothing;
    done(probe_frame(device->image, CARD_IMAGE, device->state, frame, length, &nothing, 0));
}

void device_read(struct card_device *device, uint8_t *reply, size_t length)
{
    const uint8_t read[2] = { 0x96, 0 };
    done(probe_frame(device->image, CARD_IMAGE, device->state, read, sizeof read, reply, length));
}

void device_work(struct card_device *device, uint32_t steps)
{
    uint32_t did[1];
    done(probe_work(device->image, CARD_IMAGE, device->state, steps, did));
}

int device_is_busy(struct card_device *device)
{
    uint8_t status;
    device_read(device, &status, 1);
    return status == RPMC_STATUS_BUSY;
}

enum card_truth device_truth(const struct card_device *device, uint32_t counter, const uint8_t *key)
{
    const uint8_t *slot = device->image + HEADER + SLOT * counter;
    if (counter >= get(device->image))
        return TRUTH_MISSING;
    uint32_t root = get(slot), state = get(slot + COUNTER_STATE);
    if ((root != set && root != unset) || (state != set && state != unset) || (root == set && state == unset))
        return TRUTH_BAD;
    if (state == unset)
        return TRUTH_UNPAIRED;
    if (root == unset)
        return TRUTH_UNFINISHED;
    return memcmp(slot + KEY, key, RPMC_KEY_SIZE) == 0 ? TRUTH_OURS : TRUTH_COPY;
}

uint32_t device_value(const struct card_device *device, uint32_t counter)
{
    return get(device->image + HEADER + SLOT * counter + VALUE);
}
