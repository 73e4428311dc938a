/*
 * The archive's boundary from C: memories of exactly the lengths that it is told, of every length
 * that matters, and records of the layout that the header says. Run it under valgrind, which then
 * sees each byte that is read or written beside them. What sheets, exports and programs with blocks
 * mean is tried here by a few examples only: tests/differential does that.
 *
 * Prints a line for each check that fails and, if all hold, one last line. Exit status 1: a check
 * has failed.
 */
#include "check.h"

#include <stdio.h>
#include <stdlib.h>
#include <string.h>

static const char *checked;
static unsigned checks;
static unsigned failures;

void begin(const char *entry)
{
    checked = entry;
}

void check(int holds, const char *name, const char *what)
{
    checks++;
    if (!holds) {
        failures++;
        printf("c: %s: %s: %s\n", checked, name, what);
    }
}

struct wanted written(const char *lines)
{
    struct wanted wanted = {lines, {PAVEBOX_WRITTEN, 0, 0, 0, 0, 0, 0}};
    wanted.numbers[2] = (uint32_t)strlen(lines);
    return wanted;
}

void check_three(const char *name, const char *place, const uint32_t *found,
                 const uint32_t *numbers)
{
    check(found[0] == numbers[0], name, "number");
    check(found[1] == numbers[1], name, place);
    check(found[2] == numbers[2], name, "bytes written");
}

uint8_t *memory(size_t length)
{
    uint8_t *bytes = malloc(length);
    if (bytes == NULL && length > 0) {
        printf("c: no memory\n");
        exit(1);
    }
    if (length > 0)
        memset(bytes, FILL, length);
    return bytes;
}

uint8_t *copy(const void *bytes, size_t length)
{
    uint8_t *copied = memory(length);
    if (length > 0)
        memcpy(copied, bytes, length);
    return copied;
}

int is_filled(const uint8_t *bytes, size_t length)
{
    size_t place;
    for (place = 0; place < length; place++)
        if (bytes[place] != FILL)
            return 0;
    return 1;
}

int same(const void *one, const void *other, size_t length)
{
    return length == 0 || memcmp(one, other, length) == 0;
}

void check_answer(const struct entry *entry, const char *name, const uint8_t *answer,
                  const uint32_t *numbers)
{
    uint8_t bytes[4 * MOST_NUMBERS];
    size_t place;
    for (place = 0; place < 4 * entry->numbers; place++)
        bytes[place] = (uint8_t)(numbers[place / 4] >> (8 * (place % 4)));
    check(same(answer, bytes, 4 * entry->numbers), name, "the bytes of the answer");
    entry->check_read(name, answer, numbers);
}

void check_call(const struct entry *entry, const char *name, const void *input, size_t input_len,
                size_t lent, struct wanted wanted)
{
    const size_t length = strlen(wanted.text), answer_len = 4 * entry->numbers;
    uint8_t *lent_input = copy(input, input_len);
    uint8_t *output = memory(lent);
    uint8_t *answer = memory(answer_len);
    const uint32_t returned
        = entry->call(lent_input, input_len, output, lent, answer, answer_len);
    check(returned == wanted.numbers[0], name, "return");
    check_answer(entry, name, answer, wanted.numbers);
    check(same(lent_input, input, input_len), name, "the input has changed");
    check(length <= lent && same(output, wanted.text, length), name, "written lines");
    check(length == lent || (length < lent && is_filled(output + length, lent - length)), name,
          "bytes behind the lines");
    free(lent_input);
    free(output);
    free(answer);
}

void check_guards(const struct entry *entry, const void *input, size_t input_len, size_t lent,
                  struct wanted wanted)
{
    const size_t length = strlen(wanted.text), answer_len = 4 * entry->numbers, guard = 13;
    uint8_t *output = memory(guard + lent + guard);
    uint8_t *answer = memory(guard + answer_len + guard);
    const uint32_t returned
        = entry->call(input, input_len, output + guard, lent, answer + guard, answer_len);
    check(returned == wanted.numbers[0], "guards", "return");
    check_answer(entry, "guards", answer + guard, wanted.numbers);
    check(same(output + guard, wanted.text, length), "guards", "written lines");
    check(is_filled(output, guard), "guards", "bytes before the output memory");
    check(is_filled(output + guard + length, lent - length + guard), "guards",
          "bytes behind the lines and behind the output memory");
    check(is_filled(answer, guard), "guards", "bytes before the answer memory");
    check(is_filled(answer + guard + answer_len, guard), "guards",
          "bytes behind the answer memory");
    free(output);
    free(answer);
}

/* Refusal 10 for an answer memory of this length, at the start of one that has `there` bytes. */
static void check_refused_answer(const struct entry *entry, const void *input, size_t input_len,
                                 size_t length, size_t there)
{
    const size_t lent = 100;
    uint8_t *lent_input = copy(input, input_len);
    uint8_t *output = memory(lent);
    uint8_t *answer = memory(there);
    char name[48];
    snprintf(name, sizeof name, "answer of %lu bytes of %lu", (unsigned long)length,
             (unsigned long)there);
    check(entry->call(lent_input, input_len, output, lent, answer, length) == PAVEBOX_BAD_ANSWER,
          name, "return");
    check(is_filled(output, lent), name, "output memory");
    check(is_filled(answer, there), name, "answer memory");
    free(lent_input);
    free(output);
    free(answer);
}

void check_answer_lengths(const struct entry *entry, const void *input, size_t input_len)
{
    size_t length;
    for (length = 0; length <= 64; length++)
        if (length != 4 * entry->numbers)
            check_refused_answer(entry, input, input_len, length, length);
}

void check_short_answer(const struct entry *entry, const void *input, size_t input_len,
                        size_t length)
{
    check_refused_answer(entry, input, input_len, length, 4 * entry->numbers);
}

void check_nulls(const struct entry *entry, const char *input, struct wanted empty,
                 struct wanted no_room)
{
    const size_t input_len = strlen(input), lent = 100, answer_len = 4 * entry->numbers;
    uint8_t *lent_input = copy(input, input_len);
    uint8_t *output = memory(lent);
    uint8_t *answer = memory(answer_len);
    check(entry->call(NULL, 0, output, lent, answer, answer_len) == empty.numbers[0], "no input",
          "return");
    check_answer(entry, "no input", answer, empty.numbers);
    check(entry->call(lent_input, input_len, NULL, 0, answer, answer_len) == no_room.numbers[0],
          "no output memory", "return");
    check_answer(entry, "no output memory", answer, no_room.numbers);
    check(entry->call(NULL, 0, NULL, 0, answer, answer_len) == empty.numbers[0],
          "no input and no output memory", "return");
    check_answer(entry, "no input and no output memory", answer, empty.numbers);
    check(entry->call(lent_input, input_len, output, lent, NULL, 0) == PAVEBOX_BAD_ANSWER,
          "no answer memory", "return");
    check(entry->call(NULL, 0, NULL, 0, NULL, 0) == PAVEBOX_BAD_ANSWER, "no memory", "return");
    check(is_filled(output, lent), "no memory", "output memory");
    free(lent_input);
    free(output);
    free(answer);
}

static void check_open_bytes(const struct entry *entry, const char *name, size_t length)
{
    uint8_t text[MOST_BYTES];
    memset(text, 'x', length);
    check_call(entry, name, text, length, 0, REFUSED(2, 1));
    memset(text, '\n', length);
    text[length - 1] = 'x';
    check_call(entry, name, text, length, 0, REFUSED(2, (uint32_t)length));
    text[length - 1] = 127;
    check_call(entry, name, text, length, 0, REFUSED(2, (uint32_t)length));
    text[length / 2] = 31;
    check_call(entry, name, text, length, 0, REFUSED(2, (uint32_t)(length / 2) + 1));
}

static void check_closed_bytes(const struct entry *entry, const char *name, size_t length,
                               uint32_t other)
{
    uint8_t text[MOST_BYTES];
    size_t place;
    memset(text, 'x', length);
    text[length - 1] = '\n';
    check_call(entry, name, text, length, 0, REFUSED(other, 1));
    for (place = 0; place + 1 < length; place++) {
        text[place] = 127;
        check_call(entry, name, text, length, 0, REFUSED(2, 1));
        text[place] = 'x';
    }
}

void check_bytes(const struct entry *entry, uint32_t other)
{
    size_t length;
    for (length = 1; length <= MOST_BYTES; length++) {
        char name[32];
        snprintf(name, sizeof name, "2, %lu bytes", (unsigned long)length);
        check_open_bytes(entry, name, length);
        check_closed_bytes(entry, name, length, other);
    }
}

int main(void)
{
    check_run();
    check_csv();
    check_blocks();
    check_record();
    check_writing();
    check_reading();
    check_turning();
    if (failures > 0)
        return 1;
    printf("c: all %u checks hold\n", checks);
    return 0;
}
