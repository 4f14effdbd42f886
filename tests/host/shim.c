/* The host's shim: answers host request lines on standard input by calling the C library as a driver
 * does, through its header.
 *
 * One request a line, one answer a line, in order; `?` answers a line that is no request. Bytes
 * stand as upper-case hexadecimal digits, `-` for none, a counter in decimal:
 *
 *   B TYPE COUNTER KEY DATA OUT  builds a frame of type 0 to 3; DATA is `-` for type 0: NUMBER OUT
 *   V KEY TAG REPLY              reads a reply: NUMBER VERDICT STATUS PART, as second/src/host_lines.rs has it
 *   K KEY DATA OUT               makes a session key: NUMBER OUT
 *
 * Every buffer that the library gets has its exact size and stands between guard bytes. If a call
 * changed a guard byte, or a byte that it was only lent to read, the shim says so and ends.
 */
#include "../../include/rpmc_host.h"
#include "../shared/lent.h"

#include <stdio.h>
#include <stdlib.h>

enum { ROOT_KEY, SESSION_KEY, INCREMENT, REQUEST };
enum { MOST_FIELDS = 5, VALUE_PLACE = 13 };

static const char letter_a = 'A';

static void take_back_to_read(struct lent lent, const char *name)
{
    take_back(lent, name, 0);
    let_go(lent);
}

/* Prints an answer that is a number and an output, and lets the output go. */
static void answer(uint32_t number, struct lent output)
{
    take_back(output, "output", 1);
    printf("%lu ", (unsigned long)number);
    write_bytes(bytes(output), output.length, letter_a);
    printf("\n");
    let_go(output);
}

static uint32_t build(uint32_t type, uint32_t counter, struct lent key, struct lent data, struct lent frame)
{
    switch (type) {
    case ROOT_KEY:
        return rpmc_build_root_key(counter, bytes(key), key.length, bytes(frame), frame.length);
    case SESSION_KEY:
        return rpmc_build_session_key(counter, bytes(key), key.length, bytes(data), data.length, bytes(frame),
                                      frame.length);
    case INCREMENT:
        return rpmc_build_increment(counter, bytes(key), key.length, bytes(data), data.length, bytes(frame),
                                    frame.length);
    default:
        return rpmc_build_request(counter, bytes(key), key.length, bytes(data), data.length, bytes(frame),
                                  frame.length);
    }
}

static void answer_build(uint32_t type, uint32_t counter, struct lent key, struct lent data, struct lent frame)
{
    lend(key);
    lend(data);
    lend(frame);
    uint32_t number = build(type, counter, key, data, frame);
    take_back_to_read(key, "key");
    take_back_to_read(data, "data");
    answer(number, frame);
}

static void answer_session_key(struct lent key, struct lent data, struct lent session_key)
{
    lend(key);
    lend(data);
    lend(session_key);
    uint32_t number = rpmc_session_key(bytes(key), key.length, bytes(data), data.length, bytes(session_key),
                                       session_key.length);
    take_back_to_read(key, "key");
    take_back_to_read(data, "data");
    answer(number, session_key);
}

/* The refusal number, the verdict's name and the status. */
static void print_verdict(uint32_t given, uint8_t status)
{
    switch (given) {
    case RPMC_GOOD:
        printf("0 good 0 ");
        break;
    case RPMC_BUSY:
        printf("0 busy 0 ");
        break;
    case RPMC_FAILED:
        printf("0 failed %d ", status);
        break;
    case RPMC_WRONG_TAG:
        printf("0 tag 0 ");
        break;
    case RPMC_WRONG_SIGNATURE:
        printf("0 signature 0 ");
        break;
    default:
        printf("%lu refused 0 ", (unsigned long)given);
    }
}

/* Prints the part, and lets its buffer go. It has to be in the reply, at its place: a copy is none. An
 * empty one is at the front. */
static void answer_part(struct lent lent, struct lent reply)
{
    const struct rpmc_reply_part *part = (const void *)bytes(lent);
    take_back(lent, "part", 1);
    if (part->bytes != bytes(reply) + (part->length == 0 ? 0 : VALUE_PLACE)) {
        printf("damage: the part is not at its place in the reply\n");
        exit(1);
    }
    write_bytes(part->bytes, part->length, letter_a);
    printf("\n");
    let_go(lent);
}

static void answer_reply(struct lent key, struct lent tag, struct lent reply)
{
    struct lent part = buffer(sizeof(struct rpmc_reply_part));
    lend(key);
    lend(tag);
    lend(reply);
    lend(part);
    uint32_t given = rpmc_read_reply(bytes(key), key.length, bytes(tag), tag.length, bytes(reply), reply.length);
    rpmc_part(bytes(key), key.length, bytes(tag), tag.length, bytes(reply), reply.length, (void *)bytes(part));
    print_verdict(given, reply.length == 0 ? 0 : bytes(reply)[0]);
    answer_part(part, reply);
    take_back_to_read(key, "key");
    take_back_to_read(tag, "tag");
    take_back_to_read(reply, "reply");
}

static int are_bytes(const struct field *fields, int count)
{
    for (int i = 0; i < count; i++)
        if (field_length(fields[i], letter_a) < 0)
            return 0;
    return 1;
}

/* Whether the fields are a type, a counter, and bytes, of which a root key frame has no data. */
static int is_build(const struct field f[MOST_FIELDS], uint32_t *type, uint32_t *counter)
{
    return field_number(f[0], type) && *type <= REQUEST && field_number(f[1], counter) && are_bytes(f + 2, 3)
           && (*type != ROOT_KEY || field_length(f[3], letter_a) == 0);
}

static struct lent field_bytes(struct field field)
{
    return read_field(field, letter_a);
}

static void answer_line(const char *line, size_t length)
{
    struct field f[MOST_FIELDS];
    int count = split(line, length, f, MOST_FIELDS);
    char letter = length > 0 ? line[0] : '\0';
    uint32_t type = 0, counter = 0;
    if (letter == 'B' && count == 5 && is_build(f, &type, &counter))
        answer_build(type, counter, field_bytes(f[2]), field_bytes(f[3]), field_bytes(f[4]));
    else if (letter == 'V' && count == 3 && are_bytes(f, 3))
        answer_reply(field_bytes(f[0]), field_bytes(f[1]), field_bytes(f[2]));
    else if (letter == 'K' && count == 3 && are_bytes(f, 3))
        answer_session_key(field_bytes(f[0]), field_bytes(f[1]), field_bytes(f[2]));
    else
        printf("?\n");
}

int main(void)
{
    serve(answer_line);
    return 0;
}
