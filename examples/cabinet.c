/*
 * The cabinet's program: runs the sheet in the file that its command line names, and prints the
 * sent lines and then the seven numbers in words.
 *
 * Exit status: 0 if the sheet ran, 1 if it was refused, 2 if it could not be read or printed.
 */
#include "pavebox.h"

#include <stdio.h>

/* One byte more than a sheet may have, so that a longer one is refused and not cut. */
#define READ_BYTES (PAVEBOX_MOST_SHEET_BYTES + 1)
#define OUTPUT_BYTES 32768

static uint8_t sheet[READ_BYTES];
static uint8_t output[OUTPUT_BYTES];
static uint8_t answer[PAVEBOX_ANSWER_BYTES];

static const char *words(uint32_t ending)
{
    switch (ending) {
    case PAVEBOX_STOPPED: return "the low execution has stopped";
    case PAVEBOX_LETTERS_USED: return "all letters are used";
    case PAVEBOX_NO_ROOM: return "the output memory has no room for the next line";
    case PAVEBOX_SHEET_TOO_LONG: return "the sheet is too long";
    case PAVEBOX_BAD_BYTE: return "a forbidden byte, or no line feed at the end";
    case PAVEBOX_BAD_NAME: return "a name may not stand here, or the sheet ends early";
    case PAVEBOX_BAD_NUMBER: return "a number is malformed or beyond its limit";
    case PAVEBOX_BAD_KEY_ORDER: return "a key is not greater than the one before it";
    case PAVEBOX_BAD_COMMAND: return "no such command";
    case PAVEBOX_BAD_TARGET: return "a target exceeds the count of commands";
    case PAVEBOX_TOO_MANY: return "too many commands, messages or letters";
    case PAVEBOX_BAD_TURNS: return "no turns, or a letter that its form does not have";
    case PAVEBOX_BAD_OWNER: return "an owner other than A and B";
    default: return "the answer memory is not 28 bytes";
    }
}

static int is_ending(uint32_t number)
{
    return number == PAVEBOX_STOPPED || number == PAVEBOX_LETTERS_USED
           || number == PAVEBOX_NO_ROOM;
}

/* Reads the file into the sheet's memory. Returns 0 if that is not possible. */
static int read_sheet(const char *name, size_t *length)
{
    FILE *file = fopen(name, "rb");
    int good;
    if (file == NULL)
        return 0;
    *length = fread(sheet, 1, READ_BYTES, file);
    good = !ferror(file);
    fclose(file);
    return good;
}

static void print_numbers(const struct pavebox_answer *numbers)
{
    printf("%s %lu (%s)\n", is_ending(numbers->ending) ? "ending" : "refusal",
           (unsigned long)numbers->ending, words(numbers->ending));
    printf("line %lu\n", (unsigned long)numbers->line);
    printf("positions used %lu\n", (unsigned long)numbers->positions);
    printf("low steps %lu\n", (unsigned long)numbers->low_steps);
    printf("bytes written %lu\n", (unsigned long)numbers->written);
    printf("messages taken %lu\n", (unsigned long)numbers->taken);
    printf("clamped results %lu\n", (unsigned long)numbers->clamped);
}

/* Prints the sent lines and the numbers. Returns 0 if that is not possible. */
static int print_answer(const struct pavebox_answer *numbers)
{
    if (fwrite(output, 1, numbers->written, stdout) != numbers->written)
        return 0;
    print_numbers(numbers);
    return fflush(stdout) == 0 && !ferror(stdout);
}

int main(int count, char **arguments)
{
    struct pavebox_answer numbers;
    size_t length;
    uint32_t ending;
    if (count != 2) {
        fprintf(stderr, "usage: cabinet SHEET\n");
        return 2;
    }
    if (!read_sheet(arguments[1], &length)) {
        perror(arguments[1]);
        return 2;
    }
    ending = pavebox_run(sheet, length, output, OUTPUT_BYTES, answer, PAVEBOX_ANSWER_BYTES);
    numbers = pavebox_read_answer(answer);
    if (!print_answer(&numbers)) {
        perror("cabinet");
        return 2;
    }
    return is_ending(ending) ? 0 : 1;
}
