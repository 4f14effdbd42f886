/* The code of pipe.h. Lines and answers are those of rpmcrun: P, F, S and R. */
#define _POSIX_C_SOURCE 200809L
#include "pipe.h"

#include <fcntl.h>
#include <signal.h>
#include <stdlib.h>
#include <string.h>
#include <sys/wait.h>
#include <unistd.h>

enum { LONGEST_ANSWER = 600 }; /* a read of 256 bytes has 517 characters */

static void give_up(const char *what, const char *said)
{
    fprintf(stderr, "%s%s\n", what, said);
    exit(1);
}

/* ---- lines */

/* Reads an answer without its newline. */
static void hear(struct pipe_device *device, char answer[LONGEST_ANSWER])
{
    if (fgets(answer, LONGEST_ANSWER, device->answers) == NULL)
        give_up("the device says nothing more", "");
    answer[strcspn(answer, "\n")] = '\0';
}

/* Ends the line that was written, and reads its answer, which has to begin like this; gives the rest. */
static const char *ask(struct pipe_device *device, const char *begins, char answer[LONGEST_ANSWER])
{
    if (fputc('\n', device->lines) == EOF || fflush(device->lines) != 0)
        give_up("the device does not listen", "");
    hear(device, answer);
    if (strncmp(answer, begins, strlen(begins)) != 0)
        give_up("the device answers ", answer);
    return answer + strlen(begins);
}

void pipe_dip(struct pipe_device *device)
{
    char answer[LONGEST_ANSWER];
    fputs("P", device->lines);
    ask(device, "P 0", answer);
}

void pipe_work(struct pipe_device *device, int steps)
{
    char answer[LONGEST_ANSWER];
    fprintf(device->lines, "S %d", steps);
    ask(device, "S 0 ", answer);
}

/* A frame that is cut short is of no kind, nor is one that carries the temporary key. */
static enum pipe_kind kind_of(const uint8_t *frame, size_t length)
{
    int temporary = length > 4 && frame[1] == PIPE_ROOT_KEY && frame[4] == 0xff;
    if (length < RPMC_SESSION_KEY_FRAME_SIZE || frame[1] > PIPE_REQUEST || temporary)
        return PIPE_OTHER;
    return (enum pipe_kind)frame[1];
}

/* A frame as it arrives: with a wrong bit in its signature, or for a counter that no device has. */
static void pass_on(struct pipe_device *device, const uint8_t *frame, size_t length, int damaged)
{
    char answer[LONGEST_ANSWER];
    fputs("F ", device->lines);
    for (size_t i = 0; i < length; i++) {
        unsigned byte = i == 2 && device->missing ? RPMC_HIGHEST_COUNTER + 1u : frame[i];
        fprintf(device->lines, "%02X", byte ^ (unsigned)(damaged && i == length - 1));
    }
    ask(device, "F 0", answer);
}

static int send_frame(void *context, const uint8_t *frame, size_t length)
{
    struct pipe_device *device = context;
    enum pipe_kind kind = kind_of(frame, length);
    device->frames[kind]++;
    if (device->lose_frames[kind] > 0) {
        device->lose_frames[kind]--;
        return 0; /* nobody on a bus notices that a frame got lost */
    }
    int damaged = device->damage_frames[kind] > 0;
    device->damage_frames[kind] -= damaged;
    pass_on(device, frame, length, damaged);
    device->mute |= device->mute_behind[kind];
    return 0;
}

/* What the device has to say now. */
static void read_now(struct pipe_device *device, uint8_t *reply, size_t length)
{
    char answer[LONGEST_ANSWER];
    fprintf(device->lines, "R %lu", (unsigned long)length);
    const char *digits = ask(device, "R 0 ", answer);
    if (strlen(digits) != 2 * length)
        give_up("the device answers ", answer);
    for (size_t i = 0; i < length; i++) {
        char byte[] = { digits[2 * i], digits[2 * i + 1], '\0' };
        reply[i] = (uint8_t)strtoul(byte, NULL, 16);
    }
    if (device->says_04_for_08 && reply[0] == RPMC_STATUS_NO_SESSION_KEY)
        reply[0] = RPMC_STATUS_WRONG_SIGNATURE;
}

/* A whole reply is read each time, so that it can be shown late; the driver asks for no more. */
static int read_reply(void *context, uint8_t *reply, size_t length)
{
    struct pipe_device *device = context;
    uint8_t now[RPMC_REPLY_SIZE];
    read_now(device, now, sizeof now);
    if (device->late_replies > 0) {
        device->late_replies--;
        memcpy(reply, device->shown, length);
        return 0;
    }
    memcpy(device->shown, now, sizeof now);
    memcpy(reply, now, length);
    if (device->lose_replies > 0) {
        device->lose_replies--;
        return 1;
    }
    return device->mute;
}

/* While the driver waits, the device works: so many steps. */
static void wait_a_little(void *context)
{
    struct pipe_device *device = context;
    pipe_work(device, device->steps);
    if (device->dip_at > 0 && --device->dip_at == 0)
        pipe_dip(device);
}

static int fresh_bytes(void *context, uint8_t *bytes, size_t length)
{
    struct pipe_device *device = context;
    FILE *source = device->no_fresh ? NULL : fopen("/dev/urandom", "rb");
    if (source == NULL)
        return 1;
    size_t came = fread(bytes, 1, length, source);
    fclose(source);
    return came != length;
}

struct card_line pipe_line(struct pipe_device *device)
{
    struct card_line line = { device, send_frame, read_reply, wait_a_little, fresh_bytes };
    return line;
}

/* ---- the process */

/* A pipe whose ends no other process gets: a device sees its input end when its driver closes it. */
static int own_pipe(int ends[2])
{
    return pipe(ends) == 0 && fcntl(ends[0], F_SETFD, FD_CLOEXEC) == 0 && fcntl(ends[1], F_SETFD, FD_CLOEXEC) == 0;
}

/* In the new process: the two ends become its standard input and output. */
static void become(char **command, int input, int output)
{
    signal(SIGPIPE, SIG_DFL);
    if (dup2(input, STDIN_FILENO) >= 0 && dup2(output, STDOUT_FILENO) >= 0)
        execvp(command[0], command);
    perror(command[0]);
    _exit(127);
}

void pipe_start(struct pipe_device *device, char **command)
{
    int down[2], up[2];
    char answer[LONGEST_ANSWER];
    memset(device, 0, sizeof *device);
    signal(SIGPIPE, SIG_IGN); /* a device that is gone is noticed by what a write gives */
    if (!own_pipe(down) || !own_pipe(up) || (device->process = fork()) < 0)
        give_up("cannot start ", command[0]);
    if (device->process == 0)
        become(command, down[0], up[1]);
    close(down[0]);
    close(up[1]);
    device->lines = fdopen(down[1], "w");
    device->answers = fdopen(up[0], "r");
    if (device->lines == NULL || device->answers == NULL)
        give_up("no pipe to ", command[0]);
    hear(device, answer);
    if (strncmp(answer, "counters ", strlen("counters ")) != 0)
        give_up("the device begins with ", answer);
}

void pipe_end(struct pipe_device *device)
{
    int status;
    fclose(device->lines);
    fclose(device->answers);
    if (waitpid(device->process, &status, 0) < 0 || status != 0)
        give_up("the device did not end well", "");
}
