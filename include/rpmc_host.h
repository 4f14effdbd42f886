/* The host end of RPMC: building the four frames that a host sends to a device, and reading the
 * reply to a request. Each function is proved to give the answers and to write the bytes that are said
 * of it here.
 *
 * How a driver uses them (examples/card.c is a whole one):
 *
 *   once in a card's life     rpmc_build_root_key, send, poll: the card is paired
 *   after each power-up or    rpmc_build_session_key, send, poll; at status 80h the device has a new
 *   reset of the device       session key, and rpmc_session_key gives the host the same one
 *   to count                  rpmc_build_increment, send, poll; then ask for the value, to be sure
 *   to ask for the value      rpmc_build_request with a tag never used before, send, poll; then
 *                             rpmc_read_reply for the verdict, and rpmc_part for the value
 *
 * To send is to select the device, clock out every byte of the frame, and deselect it. To read is to
 * select it, clock out 96h and one dummy byte, clock in as many bytes as are wanted, and deselect it.
 * To poll is to read until bit 0 of the first byte, the status, is 0. Poll also before a frame is sent, if
 * the device may be at work on an earlier one: then it takes no command frame.
 *
 * Rules for every call
 *
 * Buffers    A buffer is a pointer and its length in bytes. It is the caller's before, during and
 *            after the call: nothing is kept, nothing is freed. All its bytes must be there, to be read
 *            or, in an output, to be written. It needs no alignment. The pointer is never NULL, not
 *            even where the length is 0: the address of any object will do there. `part` is not a
 *            buffer but a pointer to a struct, for which the same holds but that it is aligned.
 * Overlap    An output (`frame`, `session_key`, `part`) shares no byte with another buffer of the call.
 *            Buffers that are only read may share bytes, or be the same.
 * Lengths    They are checked. A wrong one is refused by its number below; it is never undefined.
 * Refusals   A refused call writes nothing: its output is as it was found. The number that is given is
 *            that of the first refusal, in the order in which the function names them. rpmc_part has no
 *            number: it writes `part` in every case.
 * Numbers    Counter value, counter data and the words inside frames stand high byte first.
 * State      There is none. No call allocates, locks, waits, or calls the system, and none can fail but
 *            by its refusals. Calls may be made from several threads at once, and from signal and
 *            interrupt handlers, as long as none writes a buffer that another one uses meanwhile.
 * Time       No secret picks a branch or an address: keys, key data, tags, counter bytes, signatures.
 *            How long a call takes may show the lengths, whether the counter number is above 3, the
 *            status byte of a reply, and the answer.
 * Traces     What a call works out may be left below the stack pointer. The library wipes nothing.
 * Machine    x86-64 with the System V calling convention. A call takes less than 2 KiB of stack. Of the
 *            C library it uses memcpy alone.
 */
#ifndef RPMC_HOST_H
#define RPMC_HOST_H

#include <stddef.h>
#include <stdint.h>

#ifdef __cplusplus
extern "C" {
#endif

/* ---- Sizes, in bytes */

#define RPMC_KEY_SIZE 32      /* a root key, a session key */
#define RPMC_KEY_DATA_SIZE 4  /* what a session key is made of, beside the root key */
#define RPMC_VALUE_SIZE 4     /* a counter value, high byte first */
#define RPMC_TAG_SIZE 12      /* what names a request, and comes back in its reply */
#define RPMC_REPLY_SIZE 49    /* status 0, tag 1-12, counter value 13-16, signature 17-48 */

#define RPMC_ROOT_KEY_FRAME_SIZE 64
#define RPMC_SESSION_KEY_FRAME_SIZE 40
#define RPMC_INCREMENT_FRAME_SIZE 40
#define RPMC_REQUEST_FRAME_SIZE 48
#define RPMC_LONGEST_FRAME_SIZE 64

#define RPMC_HIGHEST_COUNTER 3 /* counters are 0 to 3; a device may have fewer */

/* ---- Answers of the calls */

#define RPMC_DONE 0 /* not refused: the frame is built, the session key made */

/* Refusals. */
#define RPMC_REFUSED_COUNTER 5 /* the counter number is above 3 */
#define RPMC_REFUSED_LENGTH 6  /* a key is not 32 bytes, a tag not 12, key data or a value not 4 */
#define RPMC_REFUSED_ROOM 7    /* the output is shorter than the frame, or than the session key */
#define RPMC_REFUSED_REPLY 8   /* the reply is not 49 bytes */

/* Verdicts on a reply. The first one that applies is given, in this order; good is the last. */
#define RPMC_BUSY 16            /* bit 0 of the status is set: read again later */
#define RPMC_FAILED 17          /* the status, reply[0], is not 80h: the request failed with it */
#define RPMC_WRONG_TAG 18       /* the tag is not the one sent: the reply to another request, or none */
#define RPMC_WRONG_SIGNATURE 19 /* signed under another key, or altered on the way: not to be believed */
#define RPMC_GOOD 0             /* the reply of a device that has this session key, to this request */

/* ---- The status of a device, the first byte of a read
 *
 * It speaks of the last command frame that the device took, for whichever counter that was. A frame that
 * got lost, or came while the device was busy, is not taken and leaves the status of an earlier one: so a
 * status is a frame's own only if something shows it, such as another status that was read before it was
 * sent. And a status is not signed: whoever has to be sure asks for a value and reads the reply. */

#define RPMC_STATUS_POWER_ON 0x00 /* none was taken since power-up or reset */
#define RPMC_STATUS_BUSY 0x01     /* at work on it: every byte of a read is 01h */
#define RPMC_STATUS_DONE 0x80     /* it succeeded */

/* Root key frame: the counter has a root key already, which cannot be replaced; or the signature is
 * wrong. Session key frame: the counter is unset, that is, it was never paired: pair it. */
#define RPMC_STATUS_ROOT_KEY 0x02

/* The signature is wrong: made under another key than the device's.
 *
 * Increment or request: the device has another session key than the host, and this says no more: a session
 * key frame whose status the host never saw may have been taken, or the host has come back with an old key.
 * It is no sign of a copy: open a new session and go on.
 *
 * Session key frame: the root key in use is another one. Either the card is paired with another root key,
 * and is not the card that was paired with this one. Or its root key is not set, though its counter is:
 * the pairing was cut off by a loss of power, or the key is temporary. Then a session key frame under 32
 * bytes of FFh gives 80h: pair it again, it is no copy.
 *
 * Given also, but not to a root key frame, for a counter that the device does not have: it is no copy, and a
 * root key frame gets 06h. Given also for a frame that was damaged on its way, and for what the builders
 * never build: a type above 03, a wrong length, a reserved byte that is not 0. */
#define RPMC_STATUS_WRONG_SIGNATURE 0x04

/* Root key frame: the device does not have this counter. Other frames for it get 04h. */
#define RPMC_STATUS_NO_COUNTER 0x06

/* Increment or request: the device has no session key for this counter, as after every power-up and
 * reset. It is no sign of a copy: renew the session key and go on. Given also if the counter is unset,
 * and then a session key frame gives 02h. */
#define RPMC_STATUS_NO_SESSION_KEY 0x08

/* Increment: the counter data is not the counter's value, which stays as it is. */
#define RPMC_STATUS_WRONG_VALUE 0x10

/* The counter's place in the device's memory is bad, or an increment finds the value at FFFFFFFFh. */
#define RPMC_STATUS_FATAL 0x20

/* ---- Building frames
 *
 * `room` is the length of the output, `frame`. If the answer is RPMC_DONE, the frame stands at its
 * front, in as many bytes as the frame has, and the rest is as it was found. */

/* Builds a root key frame, of 64 bytes: pairs a counter whose root key was never set. The frame holds
 * the root key itself, so it is sent where nobody listens. The key of 32 bytes FFh is the temporary
 * one: it sets the counter and leaves the root key unset.
 *
 * root_key   the key to be set, 32 bytes
 *
 * Status of the device afterwards: 80h, or else 02h, 06h or 20h.
 * RPMC_DONE, or refused: RPMC_REFUSED_COUNTER, RPMC_REFUSED_LENGTH, RPMC_REFUSED_ROOM. */
uint32_t rpmc_build_root_key(uint32_t counter, const uint8_t *root_key, size_t root_key_length,
                             uint8_t *frame, size_t room);

/* Builds a session key frame, of 40 bytes: gives the counter a new session key, which both ends make
 * of the root key and the key data, and which no frame holds. It lasts until the next one, or until
 * the device is powered up or reset.
 *
 * root_key   the key that the counter was paired with, 32 bytes; 32 bytes of FFh while none is set
 * key_data   4 bytes, others each time
 *
 * Status of the device afterwards: 80h, or else 02h, 04h or 20h.
 * RPMC_DONE, or refused: RPMC_REFUSED_COUNTER, RPMC_REFUSED_LENGTH, RPMC_REFUSED_ROOM. */
uint32_t rpmc_build_session_key(uint32_t counter, const uint8_t *root_key, size_t root_key_length,
                                const uint8_t *key_data, size_t key_data_length, uint8_t *frame, size_t room);

/* Makes the session key that this key data gives under this root key: the one that the device has once
 * the session key frame of the same two got 80h. `room` is the length of the output, `session_key`: the
 * first 32 bytes are written, and the rest is as it was found.
 *
 * root_key, key_data   as in rpmc_build_session_key
 *
 * RPMC_DONE, or refused: RPMC_REFUSED_LENGTH, RPMC_REFUSED_ROOM. */
uint32_t rpmc_session_key(const uint8_t *root_key, size_t root_key_length, const uint8_t *key_data,
                          size_t key_data_length, uint8_t *session_key, size_t room);

/* Builds an increment frame, of 40 bytes: adds 1 to a counter that has the value given.
 *
 * session_key   the counter's session key, 32 bytes
 * value         the counter data: the value that the counter has before, 4 bytes
 *
 * Status of the device afterwards: 80h, or else 04h, 08h, 10h or 20h.
 * RPMC_DONE, or refused: RPMC_REFUSED_COUNTER, RPMC_REFUSED_LENGTH, RPMC_REFUSED_ROOM. */
uint32_t rpmc_build_increment(uint32_t counter, const uint8_t *session_key, size_t session_key_length,
                              const uint8_t *value, size_t value_length, uint8_t *frame, size_t room);

/* Builds a request frame, of 48 bytes: asks for the counter's value in a signed reply.
 *
 * session_key   the counter's session key, 32 bytes
 * tag           12 bytes that no earlier request had, and not all FFh: with a tag that was used
 *               before, an old reply would pass for a new one
 *
 * Status of the device afterwards: 80h, or else 04h, 08h or 20h.
 * RPMC_DONE, or refused: RPMC_REFUSED_COUNTER, RPMC_REFUSED_LENGTH, RPMC_REFUSED_ROOM. */
uint32_t rpmc_build_request(uint32_t counter, const uint8_t *session_key, size_t session_key_length,
                            const uint8_t *tag, size_t tag_length, uint8_t *frame, size_t room);

/* ---- Reading a reply */

/* The verdict on a reply to the request with this tag.
 *
 * session_key   the key that the request was built with, 32 bytes
 * tag           the tag that it was built with, 12 bytes
 * reply         the first 49 bytes of a read
 *
 * Refused: RPMC_REFUSED_LENGTH, RPMC_REFUSED_REPLY. Else a verdict: RPMC_BUSY, RPMC_FAILED,
 * RPMC_WRONG_TAG, RPMC_WRONG_SIGNATURE, RPMC_GOOD. After RPMC_FAILED the status is reply[0]. */
uint32_t rpmc_read_reply(const uint8_t *session_key, size_t session_key_length, const uint8_t *tag,
                         size_t tag_length, const uint8_t *reply, size_t reply_length);

/* A part of a reply, where it stands there: no copy, and valid as long as the reply is. If the length
 * is 0, nothing is at `bytes`, which is not to be looked at. */
struct rpmc_reply_part {
    const uint8_t *bytes;
    size_t length;
};

/* The counter value in a reply. If rpmc_read_reply gives RPMC_GOOD for the same arguments, part->bytes
 * becomes reply + 13 and part->length 4; if it gives anything else, a refusal too, part->length becomes 0
 * and part->bytes something that is not to be looked at. Both are written in every case, and what they
 * held before means nothing. */
void rpmc_part(const uint8_t *session_key, size_t session_key_length, const uint8_t *tag, size_t tag_length,
               const uint8_t *reply, size_t reply_length, struct rpmc_reply_part *part);

#ifdef __cplusplus
}
#endif

#endif
