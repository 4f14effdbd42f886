/* What the shims share: buffers lent to the library between guard bytes, and request lines. */
#ifndef LENT_H
#define LENT_H

#include <stddef.h>
#include <stdint.h>

/* Guard bytes, `length` bytes, guard bytes; `before` is all that as it was lent. */
struct lent {
    uint8_t *all;
    uint8_t *before;
    size_t length;
};

/* A buffer of this exact size, its bytes not yet written. */
struct lent buffer(size_t length);

uint8_t *bytes(struct lent lent);

/* The same bytes, which are aligned for words. */
uint32_t *words(struct lent lent);

/* Remembers a buffer as it is now; to be called before the library gets it. */
void lend(struct lent lent);

/* Checks a buffer after a call. If a guard byte was changed, or a byte that was only lent to read,
 * says so and ends the program. */
void take_back(struct lent lent, const char *name, int may_write);

void let_go(struct lent lent);

/* A field of a line, as its characters. Bytes stand there as hexadecimal digits, `-` for none;
 * `letter_a` is the digit after 9, `a` or `A`. */
struct field {
    const char *digits;
    size_t length;
};

/* Splits a line after its letter at each space: the number of fields, room + 1 if there are more
 * than `room`, 0 if the letter is not one character. */
int split(const char *line, size_t length, struct field *fields, int room);

/* The number of bytes that a field stands for, or -1 if it is not of the form above. */
long field_length(struct field field, char letter_a);

/* Byte i of a field that is of this form. */
uint8_t field_byte(struct field field, size_t i, char letter_a);

/* Whether a field is a number below 2^32: decimal digits, no sign, no leading zero. */
int field_number(struct field field, uint32_t *number);

/* The bytes of a field that is of this form. */
struct lent read_field(struct field field, char letter_a);

void write_bytes(const uint8_t *from, size_t length, char letter_a);

/* Answers the lines of standard input until it ends; a line has no newline here. */
void serve(void (*answer_line)(const char *line, size_t length));

#endif
