/* The proved device in this process, and the truth about it: what stands in its image. */
#ifndef CARD_DEVICE_H
#define CARD_DEVICE_H

#include "rpmc_host.h"

enum { CARD_IMAGE = 208, CARD_STATE = 383, CARD_COUNTERS = 4, CARD_LONGEST_JOB = 15 };

struct card_device {
    uint8_t image[CARD_IMAGE];
    uint8_t state[CARD_STATE];
};

/* What a slot may hold, by its two state words and its key. */
enum card_truth {
    TRUTH_UNPAIRED,   /* neither is set */
    TRUTH_UNFINISHED, /* the counter is set and root is not */
    TRUTH_OURS,       /* both are, and the key is the host's */
    TRUTH_COPY,       /* both are, and the key is another */
    TRUTH_BAD,
    TRUTH_MISSING, /* there is no such slot */
    TRUTHS
};

/* A device with so many counters, none of them paired, powered up. */
void device_start(struct card_device *device, uint32_t counters);

/* Writes a slot as it has to be for this truth; the counter is there. */
void device_make(struct card_device *device, uint32_t counter, enum card_truth truth, const uint8_t *key,
                 uint32_t value);

void device_power_up(struct card_device *device);

/* A frame that is no read. */
void device_frame(struct card_device *device, const uint8_t *frame, size_t length);

void device_read(struct card_device *device, uint8_t *reply, size_t length);

void device_work(struct card_device *device, uint32_t steps);

int device_is_busy(struct card_device *device);

/* The truth about a counter, for a host with this key. */
enum card_truth device_truth(const struct card_device *device, uint32_t counter, const uint8_t *key);

/* The value in a slot. */
uint32_t device_value(const struct card_device *device, uint32_t counter);

#endif
