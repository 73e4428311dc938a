/* The boundary of pavebox_csv. */
#include "check.h"

#include <stdio.h>
#include <stdlib.h>
#include <string.h>

#define LENT PAVEBOX_MOST_CSV_OUTPUT_BYTES

/* An export of two messages, and their lines: 14 bytes and 10. */
#define EXPORT "2,5\r\n-40,7\r\n,300\r\n"
#define LINES "msg=2:-40,5:7\nmsg=5:300\n"

static void check_read(const char *name, const uint8_t *answer, const uint32_t *numbers)
{
    const struct pavebox_csv_answer found = pavebox_read_csv_answer(answer);
    const uint32_t three[] = {found.number, found.row, found.written};
    check_three(name, "row", three, numbers);
}

static const struct entry entry = {pavebox_csv, PAVEBOX_CSV_ANSWER_BYTES / 4, check_read};

static void csv(const char *name, const char *export, size_t lent, struct wanted wanted)
{
    check_call(&entry, name, export, strlen(export), lent, wanted);
}

/* Output memories that are too short for the lines, just long enough, and longer. */
static void check_output_lengths(void)
{
    static const size_t lengths[] = {0, 1, 13, 14, 15, 23, 24, 25, LENT};
    size_t place;
    for (place = 0; place < COUNT(lengths); place++) {
        char name[32];
        snprintf(name, sizeof name, "%lu bytes lent", (unsigned long)lengths[place]);
        csv(name, EXPORT, lengths[place],
            lengths[place] < 24 ? REFUSED(PAVEBOX_NO_ROOM_FOR_LINES, 0) : written(LINES));
        csv(name, "2,5\r\n", lengths[place], written(""));
    }
}

/* An export that is cut off after each of its bytes: behind the end of a row it is a shorter one,
 * elsewhere its last row is unfinished. */
static void check_export_lengths(void)
{
    static const char *const lines_of_rows[] = {"", "", "msg=2:-40,5:7\n", LINES};
    uint32_t rows = 0;
    size_t length;
    for (length = 0; length <= strlen(EXPORT); length++) {
        const int behind_row = length > 0 && EXPORT[length - 1] == '\n';
        char name[32];
        rows += (uint32_t)behind_row;
        snprintf(name, sizeof name, "the first %lu bytes", (unsigned long)length);
        check_call(&entry, name, EXPORT, length, LENT,
                   behind_row ? written(lines_of_rows[rows])
                              : REFUSED(PAVEBOX_BAD_ROW, rows + 1));
    }
}

/* Refusals whose fault stands as near to the end of the export's memory as it can. */
static void check_refusals(void)
{
    csv("41, a carriage return at the end", "0\r\n1\r", LENT, REFUSED(41, 2));
    csv("41, a line feed at the end", "0\r\n1\n", LENT, REFUSED(41, 2));
    csv("41, a carriage return alone", "\r", LENT, REFUSED(41, 1));
    csv("41, a line feed alone", "\n", LENT, REFUSED(41, 1));
    csv("41, a quote mark at the end", "0\r\n1\"", LENT, REFUSED(41, 2));
    csv("41, a comma at the end", "0,1\r\n1,", LENT, REFUSED(41, 2));
    csv("41, a field too many", "0\r\n,\r\n", LENT, REFUSED(41, 2));
    csv("41, a field too few", "0,1\r\n\r\n", LENT, REFUSED(41, 2));
    csv("42, no key", "\r\n", LENT, REFUSED(42, 1));
    csv("42, an empty key at the end", "0,\r\n", LENT, REFUSED(42, 1));
    csv("42, a key that does not rise", "0,0\r\n", LENT, REFUSED(42, 1));
    csv("42, a ninth key", "0,1,2,3,4,5,6,7,7\r\n", LENT, REFUSED(42, 1));
    csv("42, a minus sign at the end", "0\r\n-\r\n", LENT, REFUSED(42, 2));
    csv("42, beyond the range", "0,1\r\n,2147483648\r\n", LENT, REFUSED(42, 2));
}

/* As many messages as there may be, of so many fields, each with this text. Returns the length. */
static size_t write_export(char *export, unsigned keys, const char *field)
{
    char *next = export;
    unsigned row, key;
    for (row = 0; row < 33; row++) {
        for (key = 0; key < keys; key++) {
            if (key > 0)
                *next++ = ',';
            next += row == 0 ? sprintf(next, "%u", key) : sprintf(next, "%s", field);
        }
        next += sprintf(next, "\r\n");
    }
    return (size_t)(next - export);
}

/* The lines of 32 such rows of eight fields that are not empty. */
static void write_its_lines(char *lines, const char *field)
{
    char *next = lines;
    unsigned row, key;
    for (row = 0; row < 32; row++) {
        next += sprintf(next, "msg=");
        for (key = 0; key < 8; key++)
            next += sprintf(next, "%s%u:%s", key > 0 ? "," : "", key, field);
        next += sprintf(next, "\n");
    }
}

static void check_fullest_export(void)
{
    static char export[4000];
    static char lines[PAVEBOX_MOST_CSV_OUTPUT_BYTES + 1];
    const size_t length = write_export(export, 8, "-2147483648");
    write_its_lines(lines, "-2147483648");
    check(length == 3121 && strlen(lines) == LENT, "the fullest export", "lengths");
    csv("the fullest export", export, LENT, written(lines));
    csv("the fullest export and much memory", export, LENT + 1000, written(lines));
    csv("the fullest export and a byte too little", export, LENT - 1,
        REFUSED(PAVEBOX_NO_ROOM_FOR_LINES, 0));
    strcpy(export + length, "1");
    csv("the fullest export and a byte more", export, LENT, REFUSED(PAVEBOX_TOO_MANY, 34));
    write_export(export, 1, "");
    strcat(export, "\r");
    csv("empty rows and a byte more", export, LENT, REFUSED(PAVEBOX_TOO_MANY, 34));
}

/* A megabyte of one byte, behind a first row that is right: no part of it ends a row. */
static void check_long_exports(void)
{
    static const char bytes[] = {'1', ',', '\r', '\n', '"', 0};
    const size_t length = 1048576;
    uint8_t *export = memory(length);
    size_t place;
    for (place = 0; place < COUNT(bytes); place++) {
        memset(export, bytes[place], length);
        check_call(&entry, "a megabyte", export, length, LENT, REFUSED(PAVEBOX_BAD_ROW, 1));
        memcpy(export, "0\r\n", 3);
        check_call(&entry, "a megabyte behind a row", export, length, LENT,
                   REFUSED(PAVEBOX_BAD_ROW, 2));
    }
    free(export);
}

void check_csv(void)
{
    begin("pavebox_csv");
    check_output_lengths();
    check_export_lengths();
    check_refusals();
    check_fullest_export();
    check_long_exports();
    check_guards(&entry, EXPORT, strlen(EXPORT), 30, written(LINES));
    check_answer_lengths(&entry, EXPORT, strlen(EXPORT));
    check_nulls(&entry, EXPORT, REFUSED(PAVEBOX_BAD_ROW, 1),
                REFUSED(PAVEBOX_NO_ROOM_FOR_LINES, 0));
}
