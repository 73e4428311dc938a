/*
 * What the C tests share: checks that are counted, heap memory of exact lengths, and calls of one
 * entry of the archive on such memory.
 */
#ifndef CHECK_H
#define CHECK_H

#include "pavebox.h"

/* What the output memory and the answer memory hold before a call. */
#define FILL 0xaa

/* The most numbers that an answer has. */
#define MOST_NUMBERS 7

#define COUNT(list) (sizeof(list) / sizeof(list)[0])

/* An entry of the archive. */
struct entry {
    uint32_t (*call)(const uint8_t *input, size_t input_len, uint8_t *output, size_t output_len,
                     uint8_t *answer, size_t answer_len);
    /* How many numbers its answer has. */
    size_t numbers;
    /* Checks that the header reads these numbers out of an answer. */
    void (*check_read)(const char *name, const uint8_t *answer, const uint32_t *numbers);
};

/* What a call is to give: the text at the start of the output memory, and the numbers. */
struct wanted {
    const char *text;
    uint32_t numbers[MOST_NUMBERS];
};

/* What a refusal by an entry that writes lines gives: nothing is written. The place is the line or
 * row that is refused. */
#define REFUSED(number, place) ((struct wanted){"", {number, place, 0, 0, 0, 0, 0}})

/* What such an entry gives where it writes these lines. */
struct wanted written(const char *lines);

/* Names the entry that the checks behind it are of. */
void begin(const char *entry);

/* Counts a check and prints a line if it fails. */
void check(int holds, const char *name, const char *what);

/* Checks the three numbers of such an entry, as the header has read them: number, place, bytes
 * written. The second is called "line" or "row". */
void check_three(const char *name, const char *place, const uint32_t *found,
                 const uint32_t *numbers);

/* Heap memory of exactly this length, which may be 0: filled, or with a copy of these bytes. */
uint8_t *memory(size_t length);
uint8_t *copy(const void *bytes, size_t length);

/* Whether this many bytes are those that memory is filled with; whether two texts are the same. */
int is_filled(const uint8_t *bytes, size_t length);
int same(const void *one, const void *other, size_t length);

/* The bytes of an answer, and the numbers that the header reads out of them. */
void check_answer(const struct entry *entry, const char *name, const uint8_t *answer,
                  const uint32_t *numbers);

/* One call with all three memories on the heap, and all that it leaves. */
void check_call(const struct entry *entry, const char *name, const void *input, size_t input_len,
                size_t lent, struct wanted wanted);

/* The same call with the output memory and the answer memory in the middle of larger ones, whose
 * other bytes stay as they are. */
void check_guards(const struct entry *entry, const void *input, size_t input_len, size_t lent,
                  struct wanted wanted);

/* Refusal 10, before anything else, with nothing written, for answer memories of every length up to
 * 64 bytes but the right one. */
void check_answer_lengths(const struct entry *entry, const void *input, size_t input_len);

/* The same for this one length, at the start of an answer memory that would be long enough. */
void check_short_answer(const struct entry *entry, const void *input, size_t input_len,
                        size_t length);

/* NULL with length 0, for each of the three memories and for all: what nothing to be read gives,
 * and what an input that is to write something gives without output memory. */
void check_nulls(const struct entry *entry, const char *input, struct wanted empty,
                 struct wanted no_room);

/* Refusal 2 of texts of every length up to MOST_BYTES, with and without a line feed at the end, which
 * a scan that looks at several bytes in one step must look through to the last byte, and no further.
 * A line of letters without a fault of that kind gets the refusal other. */
#define MOST_BYTES 70
void check_bytes(const struct entry *entry, uint32_t other);

/* The checks of each entry, or of two that go together, and of the record that some share. */
void check_run(void);
void check_csv(void);
void check_blocks(void);
void check_record(void);
void check_writing(void);
void check_reading(void);
void check_turning(void);

#endif
