/* The program rpmcrun as the device, at the other end of two pipes: the line that a driver of card.h
 * gets here. For trying a driver it loses, damages or delays what it is told to, and nothing else. */
#ifndef PIPE_H
#define PIPE_H

#include "card.h"

#include <stdio.h>
#include <sys/types.h>

/* The kinds of frame: the four types, and whatever else a driver may send. */
enum pipe_kind { PIPE_ROOT_KEY, PIPE_SESSION_KEY, PIPE_INCREMENT, PIPE_REQUEST, PIPE_OTHER, PIPE_KINDS };

struct pipe_device {
    pid_t process;
    FILE *lines;                    /* to the device */
    FILE *answers;                  /* from the device */
    int steps;                      /* that the device does while the driver waits */
    unsigned frames[PIPE_KINDS];    /* that the driver has sent, by kind */
    uint8_t shown[RPMC_REPLY_SIZE]; /* what the last read had to show */

    /* What goes wrong on the line, nothing at first. */
    int lose_frames[PIPE_KINDS];   /* how many of the next frames of a kind get lost, */
    int damage_frames[PIPE_KINDS]; /* or have a wrong bit; */
    int mute_behind[PIPE_KINDS];   /* whether replies get lost behind the next one, */
    int mute;                      /* or from now on; */
    int lose_replies;              /* how many of the next replies get lost, */
    int late_replies;              /* and how many of the next reads show what the one before them had to; */
    int dip_at;                    /* at which of the next waits the power dips, 0 is none; */
    int no_fresh;                  /* whether there are no fresh bytes */

    /* What is wrong with the card. */
    int missing;        /* it does not have the counter: frames go to a number that no device has */
    int says_04_for_08; /* it has the fault of the card of the incident */
};

/* Starts the command, whose words end with NULL. A device that cannot be talked with ends the program:
 * here and below, a message on standard error says why. */
void pipe_start(struct pipe_device *device, char **command);

/* The line to a device that was started. */
struct card_line pipe_line(struct pipe_device *device);

/* Power off and on again. */
void pipe_dip(struct pipe_device *device);

/* The device works, while no driver waits. */
void pipe_work(struct pipe_device *device, int steps);

/* Ends the device. */
void pipe_end(struct pipe_device *device);

#endif
