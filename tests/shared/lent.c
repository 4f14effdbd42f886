/* The code of lent.h: buffers lent to the library between guard bytes, and request lines. */
#define _POSIX_C_SOURCE 200809L
#include "lent.h"

#include <stdio.h>
#include <stdlib.h>
#include <string.h>

/* Under AddressSanitizer a guard is out of bounds while the library has the buffer, to read it too. */
#ifdef __SANITIZE_ADDRESS__
#include <sanitizer/asan_interface.h>
#else
#define ASAN_POISON_MEMORY_REGION(from, size) ((void)(from), (void)(size))
#define ASAN_UNPOISON_MEMORY_REGION(from, size) ((void)(from), (void)(size))
#endif

enum { GUARD = 64, GUARD_BYTE = 0xa5, UNWRITTEN = 0x5a };

static void *allocate(size_t size)
{
    void *memory = malloc(size);
    if (memory == NULL) {
        printf("no memory for a buffer\n");
        exit(1);
    }
    return memory;
}

/* ---- buffers */

struct lent buffer(size_t length)
{
    struct lent lent = { allocate(length + 2 * GUARD), allocate(length + 2 * GUARD), length };
    memset(lent.all, GUARD_BYTE, length + 2 * GUARD);
    memset(lent.all + GUARD, UNWRITTEN, length);
    return lent;
}

uint8_t *bytes(struct lent lent)
{
    return lent.all + GUARD;
}

/* malloc's alignment and GUARD, a multiple of it, make the bytes fit for words */
uint32_t *words(struct lent lent)
{
    return (uint32_t *)(void *)bytes(lent);
}

void lend(struct lent lent)
{
    memcpy(lent.before, lent.all, lent.length + 2 * GUARD);
    ASAN_POISON_MEMORY_REGION(lent.all, GUARD);
    ASAN_POISON_MEMORY_REGION(lent.all + GUARD + lent.length, GUARD);
}

static void damaged(const char *name, const char *what)
{
    printf("damage: the call changed %s the %s\n", what, name);
    exit(1);
}

void take_back(struct lent lent, const char *name, int may_write)
{
    size_t end = GUARD + lent.length;
    ASAN_UNPOISON_MEMORY_REGION(lent.all, end + GUARD);
    if (memcmp(lent.all, lent.before, GUARD) != 0)
        damaged(name, "a byte before");
    if (memcmp(lent.all + end, lent.before + end, GUARD) != 0)
        damaged(name, "a byte after");
    if (!may_write && memcmp(bytes(lent), lent.before + GUARD, lent.length) != 0)
        damaged(name, "a byte of");
}

void let_go(struct lent lent)
{
    free(lent.all);
    free(lent.before);
}

/* ---- fields */

int split(const char *line, size_t length, struct field *fields, int room)
{
    int count = 0;
    for (size_t i = 1; i < length; i++) {
        if (line[i] == ' ') {
            if (++count > room)
                return count;
            fields[count - 1] = (struct field){ line + i + 1, 0 };
        } else if (count == 0) {
            return 0;
        } else {
            fields[count - 1].length++;
        }
    }
    return count;
}

static int digit(char character, char letter_a)
{
    if (character >= '0' && character <= '9')
        return character - '0';
    if (character >= letter_a && character < letter_a + 6)
        return character - letter_a + 10;
    return -1;
}

long field_length(struct field field, char letter_a)
{
    if (field.length == 1 && field.digits[0] == '-')
        return 0;
    if (field.length == 0 || field.length % 2 != 0)
        return -1;
    for (size_t i = 0; i < field.length; i++)
        if (digit(field.digits[i], letter_a) < 0)
            return -1;
    return (long)(field.length / 2);
}

uint8_t field_byte(struct field field, size_t i, char letter_a)
{
    return (uint8_t)(16 * digit(field.digits[2 * i], letter_a) + digit(field.digits[2 * i + 1], letter_a));
}

int field_number(struct field field, uint32_t *number)
{
    uint64_t read = 0;
    if (field.length == 0 || field.length > 10 || (field.length > 1 && field.digits[0] == '0'))
        return 0;
    for (size_t i = 0; i < field.length; i++) {
        if (field.digits[i] < '0' || field.digits[i] > '9')
            return 0;
        read = 10 * read + (uint64_t)(field.digits[i] - '0');
    }
    *number = (uint32_t)read;
    return read <= UINT32_MAX;
}

struct lent read_field(struct field field, char letter_a)
{
    struct lent lent = buffer((size_t)field_length(field, letter_a));
    for (size_t i = 0; i < lent.length; i++)
        bytes(lent)[i] = field_byte(field, i, letter_a);
    return lent;
}

static char digit_of(int value, char letter_a)
{
    return (char)(value < 10 ? '0' + value : letter_a + value - 10);
}

void write_bytes(const uint8_t *from, size_t length, char letter_a)
{
    if (length == 0) {
        putchar('-');
        return;
    }
    char *text = allocate(2 * length);
    for (size_t i = 0; i < length; i++) {
        text[2 * i] = digit_of(from[i] / 16, letter_a);
        text[2 * i + 1] = digit_of(from[i] % 16, letter_a);
    }
    fwrite(text, 1, 2 * length, stdout);
    free(text);
}

/* ---- lines */

void serve(void (*answer_line)(const char *line, size_t length))
{
    char *line = NULL;
    size_t room = 0;
    ssize_t length;
    while ((length = getline(&line, &room, stdin)) > 0) {
        if (line[length - 1] == '\n')
            length--;
        answer_line(line, (size_t)length);
        /* each answer leaves at once, so that the last one seen is the last one given */
        fflush(stdout);
    }
    free(line);
}
