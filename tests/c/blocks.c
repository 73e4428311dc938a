/* The boundary of pavebox_blocks. */
#include "check.h"

#include <stdio.h>
#include <stdlib.h>
#include <string.h>

#define LENT PAVEBOX_MOST_BLOCKS_OUTPUT_BYTES

/* A program with a choice, of five lines, and its lines: 14 bytes, 8, 10 and 8. */
#define PROGRAM "if 2\nsend\nelse\nstop\nend\n"
#define LINES "do=ifzero 2 3\ndo=send\ndo=jump 4\ndo=stop\n"

/* The K that is given with each program. */
static uint32_t keys = 2;

static uint32_t call(const uint8_t *text, size_t text_len, uint8_t *output, size_t output_len,
                     uint8_t *answer, size_t answer_len)
{
    return pavebox_blocks(text, text_len, keys, output, output_len, answer, answer_len);
}

static void check_read(const char *name, const uint8_t *answer, const uint32_t *numbers)
{
    const struct pavebox_blocks_answer found = pavebox_read_blocks_answer(answer);
    const uint32_t three[] = {found.number, found.line, found.written};
    check_three(name, "line", three, numbers);
}

static const struct entry entry = {call, PAVEBOX_BLOCKS_ANSWER_BYTES / 4, check_read};

static void blocks(const char *name, const char *text, size_t lent, struct wanted wanted)
{
    check_call(&entry, name, text, strlen(text), lent, wanted);
}

/* Output memories that are too short for the lines, just long enough, and longer. */
static void check_output_lengths(void)
{
    static const size_t lengths[] = {0, 1, 13, 14, 15, 22, 32, 39, 40, 41, LENT};
    size_t place;
    for (place = 0; place < COUNT(lengths); place++) {
        char name[32];
        snprintf(name, sizeof name, "%lu bytes lent", (unsigned long)lengths[place]);
        blocks(name, PROGRAM, lengths[place],
               lengths[place] < 40 ? REFUSED(PAVEBOX_NO_ROOM_FOR_COMMANDS, 0) : written(LINES));
    }
}

/* A program that is cut off after each of its bytes: behind the end of a line it lacks its `end`,
 * elsewhere its last line feed. */
static void check_text_lengths(void)
{
    uint32_t lines = 0;
    size_t length;
    for (length = 0; length < strlen(PROGRAM); length++) {
        const int behind_line = length > 0 && PROGRAM[length - 1] == '\n';
        char name[32];
        lines += (uint32_t)behind_line;
        snprintf(name, sizeof name, "the first %lu bytes", (unsigned long)length);
        check_call(&entry, name, PROGRAM, length, LENT,
                   REFUSED(behind_line ? PAVEBOX_BAD_BLOCK : PAVEBOX_BAD_BYTE, lines + 1));
    }
}

/* K within its limit and beyond it, by little and by much. What is beyond comes before all else. */
static void check_keys(void)
{
    static const uint32_t beyond[] = {0, 9, 10, 16, 255, 256, 257, 0x10001u, 0x1000001u,
                                      0x7fffffffu, 0x80000001u, 0xffffffffu};
    size_t place;
    for (keys = 1; keys <= 8; keys++) {
        blocks("a lawful K", "drop 0\n", LENT, written("do=drop 0\n"));
        blocks("a lawful K, a key", "drop 7\n", LENT,
               keys == 8 ? written("do=drop 7\n") : REFUSED(PAVEBOX_BAD_NUMBER, 1));
    }
    for (place = 0; place < COUNT(beyond); place++) {
        keys = beyond[place];
        blocks("a K beyond its limit", PROGRAM, LENT, REFUSED(PAVEBOX_BAD_NUMBER, 0));
        blocks("the same, and a fault", "else\n\r", LENT, REFUSED(PAVEBOX_BAD_NUMBER, 0));
        blocks("the same, and nothing", "", 0, REFUSED(PAVEBOX_BAD_NUMBER, 0));
    }
    keys = 2;
}

/* Refusals whose fault stands as near to the end of the text's memory as it can. */
static void check_refusals(void)
{
    blocks("2, a space alone", " ", LENT, REFUSED(2, 1));
    blocks("2, a carriage return at the end", "send\r", LENT, REFUSED(2, 1));
    blocks("2, a forbidden byte at the end", "send\n\x80", LENT, REFUSED(2, 2));
    blocks("2, no line feed at the end", "send\nsend", LENT, REFUSED(2, 2));
    blocks("6, a line feed alone", "\n", LENT, REFUSED(6, 1));
    blocks("6, a space at the end", "send \n", LENT, REFUSED(6, 1));
    blocks("6, a part too few", "set 0\n", LENT, REFUSED(6, 1));
    blocks("6, no variable", "if\n", LENT, REFUSED(6, 1));
    blocks("6, a word that is cut off", "i\n", LENT, REFUSED(6, 1));
    blocks("6, a jump", "jump 0\n", LENT, REFUSED(6, 1));
    blocks("4, an empty part at the end", "set 0 \n", LENT, REFUSED(4, 1));
    blocks("4, an empty variable", "if \n", LENT, REFUSED(4, 1));
    blocks("4, a minus sign at the end", "set 0 -\n", LENT, REFUSED(4, 1));
    blocks("4, beyond the range", "set 0 2147483648\n", LENT, REFUSED(4, 1));
    blocks("4, a key beyond K", "send\nread 0 2\n", LENT, REFUSED(4, 2));
    blocks("51, an else", "else\n", LENT, REFUSED(51, 1));
    blocks("51, an else and a space", "else \n", LENT, REFUSED(51, 1));
    blocks("51, an end", "if 0\nend\nend\n", LENT, REFUSED(51, 3));
    blocks("51, a missing end", "while 0\n", LENT, REFUSED(51, 2));
}

/* Writes a line so many times, and gives the place behind it. */
static char *repeat(char *next, unsigned count, const char *line)
{
    while (count-- > 0)
        next += sprintf(next, "%s", line);
    return next;
}

/* Eight levels, and a ninth as each line that could open one. */
static void check_levels(void)
{
    static const char *const ninth[] = {"if 0\n", "while 1\n", "if\n", "if 9\n", "while 0 0\n"};
    static char text[200], lines[200];
    size_t place;
    repeat(repeat(text, 8, "if 0\n"), 8, "end\n");
    repeat(lines, 8, "do=ifzero 0 8\n");
    blocks("eight levels", text, LENT, written(lines));
    blocks("eight levels and a byte too little", text, strlen(lines) - 1,
           REFUSED(PAVEBOX_NO_ROOM_FOR_COMMANDS, 0));
    for (place = 0; place < COUNT(ninth); place++) {
        repeat(repeat(text, 8, "while 0\n"), 1, ninth[place]);
        blocks("a ninth level", text, LENT, REFUSED(PAVEBOX_TOO_DEEP, 9));
    }
    repeat(repeat(text, 8, "if 0\n"), 9, "end\n");
    blocks("an end too many", text, LENT, REFUSED(PAVEBOX_BAD_BLOCK, 17));
}

/* As many commands as there may be, each as long as it can be; and one more, of each kind. */
static void check_most_commands(void)
{
    static char text[2000], lines[LENT + 1];
    repeat(text, 64, "set 7 -2147483648\n");
    repeat(lines, 64, "do=set 7 -2147483648\n");
    check(strlen(lines) == LENT, "the longest lines", "length");
    blocks("the longest lines", text, LENT, written(lines));
    blocks("the longest lines and much memory", text, LENT + 1000, written(lines));
    blocks("the longest lines and a byte too little", text, LENT - 1,
           REFUSED(PAVEBOX_NO_ROOM_FOR_COMMANDS, 0));
    strcat(text, "send\n");
    blocks("65 commands", text, LENT + 1000, REFUSED(PAVEBOX_NO_ROOM_FOR_COMMANDS, 0));
    strcat(text, "nope\n");
    blocks("65 commands and a fault", text, LENT + 1000, REFUSED(PAVEBOX_BAD_COMMAND, 66));
    repeat(repeat(repeat(text, 1, "while 0\n"), 62, "send\n"), 1, "end\n");
    repeat(repeat(repeat(lines, 1, "do=ifzero 0 64\n"), 62, "do=send\n"), 1, "do=jump 0\n");
    blocks("64 commands with a jump back", text, LENT, written(lines));
    repeat(repeat(repeat(text, 1, "while 0\n"), 63, "send\n"), 1, "end\n");
    blocks("65 commands with a jump back", text, LENT, REFUSED(PAVEBOX_NO_ROOM_FOR_COMMANDS, 0));
    repeat(repeat(repeat(text, 1, "if 0\n"), 63, "send\n"), 1, "else\nend\n");
    blocks("65 commands with a jump", text, LENT, REFUSED(PAVEBOX_NO_ROOM_FOR_COMMANDS, 0));
}

/* A megabyte of one byte, with a line feed at its end: one long line, or empty ones. */
static void check_long_lines(uint8_t *text, size_t length)
{
    static const char bytes[] = {'s', ' ', '1', '\n'};
    size_t place;
    for (place = 0; place < COUNT(bytes); place++) {
        memset(text, bytes[place], length);
        text[length - 1] = '\n';
        check_call(&entry, "a megabyte", text, length, LENT, REFUSED(PAVEBOX_BAD_COMMAND, 1));
        memcpy(text, "set 0 ", 6);
        if (bytes[place] == '1')
            check_call(&entry, "a megabyte of digits", text, length, LENT,
                       REFUSED(PAVEBOX_BAD_NUMBER, 1));
    }
    /* A line of six bytes, empty ones, and a byte behind them. */
    text[length - 1] = 0;
    check_call(&entry, "a megabyte and a forbidden byte", text, length, LENT,
               REFUSED(PAVEBOX_BAD_BYTE, (uint32_t)length - 6));
}

/* A megabyte of lines: no line is left out, the last one neither. */
static void check_many_lines(uint8_t *text, size_t length)
{
    size_t place;
    for (place = 0; place < length; place++)
        text[place] = (uint8_t)"send\n"[place % 5];
    check_call(&entry, "a megabyte of lines", text, length, LENT,
               REFUSED(PAVEBOX_NO_ROOM_FOR_COMMANDS, 0));
    memcpy(text + length - 5, "else\n", 5);
    check_call(&entry, "a megabyte of lines, the last an else", text, length, LENT,
               REFUSED(PAVEBOX_BAD_BLOCK, (uint32_t)(length / 5)));
    memcpy(text + length - 5, "if 0\n", 5);
    check_call(&entry, "a megabyte of lines, the last an if", text, length, LENT,
               REFUSED(PAVEBOX_BAD_BLOCK, (uint32_t)(length / 5) + 1));
    for (place = 0; place < length; place += 10)
        memcpy(text + place, "if 0\nend\n\n", 10);
    check_call(&entry, "a megabyte of blocks and empty lines", text, length, LENT,
               REFUSED(PAVEBOX_BAD_COMMAND, 3));
}

static void check_long_texts(void)
{
    const size_t length = 1048570;
    uint8_t *text = memory(length);
    check_long_lines(text, length);
    check_many_lines(text, length);
    free(text);
}

void check_blocks(void)
{
    begin("pavebox_blocks");
    blocks("a program", PROGRAM, LENT, written(LINES));
    check_output_lengths();
    check_text_lengths();
    check_keys();
    check_refusals();
    check_bytes(&entry, PAVEBOX_BAD_COMMAND);
    check_levels();
    check_most_commands();
    check_long_texts();
    check_guards(&entry, PROGRAM, strlen(PROGRAM), 50, written(LINES));
    check_answer_lengths(&entry, PROGRAM, strlen(PROGRAM));
    check_nulls(&entry, PROGRAM, REFUSED(PAVEBOX_BAD_BYTE, 1),
                REFUSED(PAVEBOX_NO_ROOM_FOR_COMMANDS, 0));
}
