/*
 * The stack that the archive uses: `stack run SHEETS` for pavebox_run, `stack csv EXPORTS` for
 * pavebox_csv, `stack blocks PROGRAMS` for pavebox_blocks with K 8, `stack read SHEETS` for
 * pavebox_read, `stack write SHEETS` for pavebox_write with the record of each sheet, `stack to_sheet2
 * SHEETS` for pavebox_to_sheet2, `stack to_sheet1 SHEETS` for pavebox_to_sheet1. Each file that the
 * command line names is handed over on a stack of our own, painted with one byte. The deepest byte that
 * has changed tells how much was used. A byte may be written without a change, so each file is tried
 * with two paints. What a function that does nothing uses in the same place is taken off. Exit status 2:
 * the first word names no entry, or a file cannot be read.
 */
#define _GNU_SOURCE
#include "pavebox.h"

#include <stdio.h>
#include <stdlib.h>
#include <string.h>
#include <ucontext.h>

#define STACK_BYTES (1u << 20)

typedef uint32_t entry(const uint8_t *, size_t, uint8_t *, size_t, uint8_t *, size_t);
typedef uint32_t entry_with_keys(const uint8_t *, size_t, uint32_t, uint8_t *, size_t, uint8_t *,
                                 size_t);
typedef uint32_t writer(const struct pavebox_job *, uint8_t *, size_t, uint8_t *, size_t);
typedef uint32_t reader(const uint8_t *, size_t, struct pavebox_job *, uint8_t *, size_t);

static uint8_t stack[STACK_BYTES];
static uint8_t text[PAVEBOX_MOST_SHEET_BYTES + 1];
static uint8_t output[32768];
static uint8_t answer[PAVEBOX_ANSWER_BYTES];
static struct pavebox_job job;
static size_t length, answer_length;
static entry *volatile called;
static entry_with_keys *volatile called_with_keys;
static writer *volatile called_writer;
static reader *volatile called_reader;
static ucontext_t here, there;

static uint32_t nothing(const uint8_t *s, size_t s_len, uint8_t *o, size_t o_len, uint8_t *a,
                        size_t a_len)
{
    (void)s, (void)s_len, (void)o, (void)o_len, (void)a, (void)a_len;
    return 0;
}

static uint32_t nothing_with_keys(const uint8_t *s, size_t s_len, uint32_t keys, uint8_t *o,
                                  size_t o_len, uint8_t *a, size_t a_len)
{
    (void)s, (void)s_len, (void)keys, (void)o, (void)o_len, (void)a, (void)a_len;
    return 0;
}

static uint32_t nothing_written(const struct pavebox_job *j, uint8_t *o, size_t o_len, uint8_t *a,
                                size_t a_len)
{
    (void)j, (void)o, (void)o_len, (void)a, (void)a_len;
    return 0;
}

static uint32_t nothing_read(const uint8_t *s, size_t s_len, struct pavebox_job *j, uint8_t *a,
                             size_t a_len)
{
    (void)s, (void)s_len, (void)j, (void)a, (void)a_len;
    return 0;
}

static void call(void)
{
    called(text, length, output, sizeof output, answer, answer_length);
}

static void call_with_keys(void)
{
    called_with_keys(text, length, 8, output, sizeof output, answer, answer_length);
}

static void call_writer(void)
{
    called_writer(&job, output, sizeof output, answer, answer_length);
}

static void call_reader(void)
{
    called_reader(text, length, &job, answer, answer_length);
}

/* The bytes from the top of the painted stack down to the deepest one that a call has changed. */
static size_t depth(void (*function)(void), uint8_t paint)
{
    size_t place = 0;
    memset(stack, paint, STACK_BYTES);
    if (getcontext(&there) != 0)
        exit(2);
    there.uc_stack.ss_sp = stack;
    there.uc_stack.ss_size = STACK_BYTES;
    there.uc_link = &here;
    makecontext(&there, function, 0);
    if (swapcontext(&here, &there) != 0)
        exit(2);
    while (place < STACK_BYTES && stack[place] == paint)
        place++;
    return STACK_BYTES - place;
}

static size_t larger(size_t one, size_t other)
{
    return one > other ? one : other;
}

static size_t deepest(void (*function)(void))
{
    return larger(depth(function, 0xa5), depth(function, 0x5a));
}

/* What an entry uses more than a function that does nothing. */
static size_t used(entry *which)
{
    size_t bytes;
    called = which;
    bytes = deepest(call);
    called = nothing;
    return bytes - deepest(call);
}

static size_t used_by_blocks(void)
{
    size_t bytes;
    called_with_keys = pavebox_blocks;
    bytes = deepest(call_with_keys);
    called_with_keys = nothing_with_keys;
    return bytes - deepest(call_with_keys);
}

/* Of a sheet that is refused the record stays all 0, which is refused too. */
static size_t used_by_write(void)
{
    size_t bytes;
    memset(&job, 0, sizeof job);
    pavebox_read(text, length, &job, answer, answer_length);
    called_writer = pavebox_write;
    bytes = deepest(call_writer);
    called_writer = nothing_written;
    return bytes - deepest(call_writer);
}

static size_t used_by_read(void)
{
    size_t bytes;
    memset(&job, 0, sizeof job);
    called_reader = pavebox_read;
    bytes = deepest(call_reader);
    called_reader = nothing_read;
    return bytes - deepest(call_reader);
}

static size_t used_by_run(void)
{
    return used(pavebox_run);
}

static size_t used_by_csv(void)
{
    return used(pavebox_csv);
}

static size_t used_by_to_sheet2(void)
{
    return used(pavebox_to_sheet2);
}

static size_t used_by_to_sheet1(void)
{
    return used(pavebox_to_sheet1);
}

struct measured {
    const char *name;
    size_t answer_bytes;
    size_t (*used)(void);
};

/* The entry that the first word names. */
static const struct measured *find(const char *name)
{
    static const struct measured entries[] = {
        {"run", PAVEBOX_ANSWER_BYTES, used_by_run},
        {"csv", PAVEBOX_CSV_ANSWER_BYTES, used_by_csv},
        {"blocks", PAVEBOX_BLOCKS_ANSWER_BYTES, used_by_blocks},
        {"write", PAVEBOX_WRITE_ANSWER_BYTES, used_by_write},
        {"read", PAVEBOX_JOB_ANSWER_BYTES, used_by_read},
        {"to_sheet2", PAVEBOX_FORM_ANSWER_BYTES, used_by_to_sheet2},
        {"to_sheet1", PAVEBOX_FORM_ANSWER_BYTES, used_by_to_sheet1},
    };
    size_t place;
    for (place = 0; place < sizeof entries / sizeof entries[0]; place++)
        if (strcmp(name, entries[place].name) == 0)
            return &entries[place];
    fprintf(stderr, "stack: there is no entry '%s'\n", name);
    exit(2);
}

int main(int count, char **words)
{
    const struct measured *const measured = find(count > 1 ? words[1] : "");
    size_t most = 0;
    int place;
    answer_length = measured->answer_bytes;
    for (place = 2; place < count; place++) {
        FILE *file = fopen(words[place], "rb");
        if (file == NULL) {
            perror(words[place]);
            return 2;
        }
        length = fread(text, 1, sizeof text, file);
        fclose(file);
        most = larger(most, measured->used());
    }
    printf("%lu\n", (unsigned long)most);
    return 0;
}
