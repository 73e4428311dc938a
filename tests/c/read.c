/* The boundary of pavebox_read. */
#include "check.h"
#include "record.h"

#include <stdio.h>
#include <stdlib.h>
#include <string.h>

static void check_read(const char *name, const uint8_t *answer, const uint32_t *numbers)
{
    const struct pavebox_job_answer found = pavebox_read_job_answer(answer);
    check(found.number == numbers[0], name, "number");
    check(found.line == numbers[1], name, "line");
}

/* A call that is refused, on a record of its own that stays as it is. There is no output memory. */
static uint32_t call(const uint8_t *sheet, size_t sheet_len, uint8_t *output, size_t output_len,
                     uint8_t *answer, size_t answer_len)
{
    uint8_t *job = memory(sizeof(struct pavebox_job));
    const uint32_t returned
        = pavebox_read(sheet, sheet_len, (struct pavebox_job *)job, answer, answer_len);
    (void)output, (void)output_len;
    check(is_filled(job, sizeof(struct pavebox_job)), "a refusal", "the record");
    free(job);
    return returned;
}

static const struct entry entry = {call, PAVEBOX_JOB_ANSWER_BYTES / 4, check_read};

/* One call with all three memories on the heap, and all that it leaves: the record is this one before
 * it, and that one after it. */
static void read_over(const char *name, const void *sheet, size_t sheet_len,
                      const struct pavebox_job *before, const struct pavebox_job *after,
                      uint32_t number, uint32_t line)
{
    const uint32_t numbers[] = {number, line};
    uint8_t *lent_sheet = copy(sheet, sheet_len);
    uint8_t *job = copy(before, sizeof *before);
    uint8_t *answer = memory(8);
    check(pavebox_read(lent_sheet, sheet_len, (struct pavebox_job *)job, answer, 8) == number,
          name, "return");
    check_answer(&entry, name, answer, numbers);
    check(same(lent_sheet, sheet, sheet_len), name, "the sheet has changed");
    check(same(job, after, sizeof *after), name, "the record");
    free(lent_sheet);
    free(job);
    free(answer);
}

/* A sheet that is accepted: of the record, only what its counts cover is set, over other bytes that
 * are all the same and over the fullest record of either form. */
static void opens(const char *name, const char *sheet, void (*put)(struct pavebox_job *job))
{
    static const int bytes[] = {0x5a, 0, 0xff, 1};
    struct pavebox_job before, after;
    size_t place;
    for (place = 0; place < COUNT(bytes); place++) {
        memset(&before, bytes[place], sizeof before);
        after = before;
        put(&after);
        read_over(name, sheet, strlen(sheet), &before, &after, 0, 0);
    }
    before = fullest(0x5a);
    after = before;
    put(&after);
    read_over(name, sheet, strlen(sheet), &before, &after, 0, 0);
    before = fullest_2(0x5a);
    after = before;
    put(&after);
    read_over(name, sheet, strlen(sheet), &before, &after, 0, 0);
}

/* A sheet that is refused: the record keeps every byte. */
static void refuses(const char *name, const void *sheet, size_t sheet_len, uint32_t number,
                    uint32_t line)
{
    struct pavebox_job before = sheet_a(0x5a);
    read_over(name, sheet, sheet_len, &before, &before, number, line);
    memset(&before, 0x5a, sizeof before);
    read_over(name, sheet, sheet_len, &before, &before, number, line);
}

static void refuses_text(const char *name, const char *sheet, uint32_t number, uint32_t line)
{
    refuses(name, sheet, strlen(sheet), number, line);
}

/* A message without entries between two that have some, none of which is at key 0. */
#define MESSAGES \
    "sheet=1\nkeys=8\nsecret=0:-2147483648\nsecret=7:2147483647\ndo=jump 1\n" \
    "msg=7:-1\nmsg=\nmsg=1:0,2:-2147483648,5:2147483647\nturns=HL\n"

static void put_messages(struct pavebox_job *job)
{
    put_head(job, 8);
    put_secret(job, 0, INT32_MIN);
    put_secret(job, 7, INT32_MAX);
    put_command(job, (struct pavebox_command){11, 0, 0, 0, 1, 0});
    put_message(job);
    put_entry(job, 7, -1);
    put_message(job);
    put_message(job);
    put_entry(job, 1, 0);
    put_entry(job, 2, INT32_MIN);
    put_entry(job, 5, INT32_MAX);
    put_letters(job, "HL");
}

/* A line for each of the words, with other operands than 0. */
#define WORDS \
    "sheet=1\nkeys=3\ndo=set 1 -5\ndo=add 2 3\ndo=sub 4 5\ndo=mul 6 7\ndo=div 1 4\n" \
    "do=read 5 1\ndo=has 6 2\ndo=put 2 7\ndo=drop 1\ndo=ifneg 3 15\ndo=ifzero 2 14\n" \
    "do=jump 9\ndo=receive\ndo=send\ndo=stop\nturns=L\n"

static void put_words(struct pavebox_job *job)
{
    static const struct pavebox_command commands[] = {
        {0, 1, 0, 0, 0, -5}, {1, 2, 3, 0, 0, 0}, {2, 4, 5, 0, 0, 0}, {3, 6, 7, 0, 0, 0},
        {4, 1, 4, 0, 0, 0}, {5, 5, 0, 1, 0, 0}, {6, 6, 0, 2, 0, 0}, {7, 7, 0, 2, 0, 0},
        {8, 0, 0, 1, 0, 0}, {9, 3, 0, 0, 15, 0}, {10, 2, 0, 0, 14, 0}, {11, 0, 0, 0, 9, 0},
        {12, 0, 0, 0, 0, 0}, {13, 0, 0, 0, 0, 0}, {14, 0, 0, 0, 0, 0}};
    size_t place;
    put_head(job, 3);
    for (place = 0; place < COUNT(commands); place++)
        put_command(job, commands[place]);
    put_letters(job, "L");
}

/* Owners that are not in the order of their letters, and turns of them alone. */
#define OWNERS \
    "sheet=2\nkeys=8\nsecret=0:-2147483648:B\nsecret=3:0:A\nsecret=7:2147483647:B\ndo=stop\n" \
    "msg=3:1\nturns=BAB\n"

static void put_owners(struct pavebox_job *job)
{
    put_head_2(job, 8);
    put_owned(job, 0, INT32_MIN, 66);
    put_owned(job, 3, 0, 65);
    put_owned(job, 7, INT32_MAX, 66);
    put_command(job, BARE(14));
    put_message(job);
    put_entry(job, 3, 1);
    put_letters(job, "BAB");
}

static void check_opened(void)
{
    static char text[TEXT_BYTES];
    struct pavebox_job job = fullest(0);
    spell(text, &job);
    opens("sheet A", SHEET_A, put_sheet_a);
    opens("the smallest sheet", SMALLEST, put_smallest);
    opens("messages", MESSAGES, put_messages);
    opens("each word", WORDS, put_words);
    opens("the fullest sheet", text, put_fullest);
    job = fullest_2(0);
    spell(text, &job);
    opens("two owners", TWO_OWNERS, put_two_owners);
    opens("owners in another order", OWNERS, put_owners);
    opens("the fullest sheet of form 2", text, put_fullest_2);
}

/* A sheet that is cut off after each of its bytes: in the middle of a line it has no line feed at
 * the end, after a line it ends early. */
static void check_sheet_lengths(const char *sheet)
{
    uint32_t line = 1;
    size_t length;
    for (length = 0; length < strlen(sheet); length++) {
        const int after_line = length > 0 && sheet[length - 1] == '\n';
        char name[48];
        line += (uint32_t)after_line;
        snprintf(name, sizeof name, "the first %lu bytes", (unsigned long)length);
        refuses(name, sheet, length, after_line ? PAVEBOX_BAD_NAME : PAVEBOX_BAD_BYTE, line);
    }
}

/* A refusal for each number, most with a whole sheet before it or behind it. */
static void check_refusals(void)
{
#define HEAD "sheet=1\nkeys=2\nsecret=1:300\n"
#define TAIL "turns=L\n"
    refuses_text("2, a forbidden byte behind a sheet", SHEET_A "\177", 2, 11);
    refuses_text("2, a tab", HEAD "do=stop\n\t" TAIL, 2, 5);
    refuses_text("3, a line behind a sheet", SHEET_A "\n", 3, 11);
    refuses_text("3, a sheet behind a sheet", SHEET_A SHEET_A, 3, 11);
    refuses_text("3, no command", HEAD TAIL, 3, 4);
    refuses_text("3, a name out of its order", HEAD "do=stop\nsecret=1:1\n" TAIL, 3, 5);
    refuses_text("4, form 3", "sheet=3\nkeys=1\ndo=stop\nturns=L\n", 4, 1);
    refuses_text("4, form 0", "sheet=0\nkeys=1\ndo=stop\nturns=L\n", 4, 1);
    refuses_text("4, no key", "sheet=1\nkeys=0\ndo=stop\nturns=L\n", 4, 2);
    refuses_text("4, nine keys", "sheet=1\nkeys=9\ndo=stop\nturns=L\n", 4, 2);
    refuses_text("4, an owner", "sheet=1\nkeys=2\nsecret=1:300:A\ndo=stop\nturns=L\n", 4, 3);
    refuses_text("4, a target", HEAD "do=jump 65\n" TAIL, 4, 4);
    refuses_text("4, a key", HEAD "do=stop\nmsg=0:1,2:1\n" TAIL, 4, 5);
    refuses_text("4, a value", HEAD "do=stop\nmsg=0:1,1:2147483648\n" TAIL, 4, 5);
    refuses_text("5, secrets", HEAD "secret=1:5\ndo=stop\n" TAIL, 5, 4);
    refuses_text("5, entries", HEAD "do=stop\nmsg=1:4,1:5\n" TAIL, 5, 5);
    refuses_text("6, a word", HEAD "do=stop\ndo=halt\n" TAIL, 6, 5);
    refuses_text("6, parts", HEAD "do=stop 0\n" TAIL, 6, 4);
    refuses_text("7, a target", HEAD "do=stop\ndo=jump 3\n" TAIL, 7, 5);
    refuses_text("9, no letter", HEAD "do=stop\nmsg=0:1\nturns=\n", 9, 6);
    refuses_text("9, a letter of another form", HEAD "do=stop\nmsg=0:1\nturns=LHLA\n", 9, 6);
#undef TAIL
#undef HEAD
}

/* What form 2 refuses in a secret line and in its turns, and what it shares with form 1. */
static void check_refusals_2(void)
{
#define HEAD "sheet=2\nkeys=2\n"
#define TAIL "do=stop\nturns=LAB\n"
    refuses_text("46, another letter", HEAD "secret=1:300:C\n" TAIL, 46, 3);
    refuses_text("46, no letter", HEAD "secret=1:300:\n" TAIL, 46, 3);
    refuses_text("46, a small letter", HEAD "secret=0:1:B\nsecret=1:300:a\n" TAIL, 46, 4);
    refuses_text("46, a third colon", HEAD "secret=1:300:A:B\n" TAIL, 46, 3);
    refuses_text("46 at the end", HEAD "secret=1:300:AB\n", 46, 3);
    refuses_text("4, a dummy before 46", HEAD "secret=1:x:C\n" TAIL, 4, 3);
    refuses_text("4, a key before 46", HEAD "secret=2:300:C\n" TAIL, 4, 3);
    refuses_text("4, no owner", HEAD "secret=1:300\n" TAIL, 4, 3);
    refuses_text("4, no colon before 5", HEAD "secret=1:300:A\nsecret=0:4\n" TAIL, 4, 4);
    refuses_text("5 before 46", HEAD "secret=1:300:A\nsecret=1:4:C\n" TAIL, 5, 4);
    refuses_text("4, nine keys", "sheet=2\nkeys=9\n" TAIL, 4, 2);
    refuses_text("4, a target", HEAD "do=jump 65\n" TAIL, 4, 3);
    refuses_text("7, a target", HEAD "do=jump 3\n" TAIL, 7, 3);
    refuses_text("9, H", HEAD "do=stop\nturns=LAH\n", 9, 4);
    refuses_text("3, a line behind a sheet", TWO_OWNERS "\n", 3, 14);
#undef TAIL
#undef HEAD
}

/* One thing more than a sheet of either form may have. */
static void check_one_more(struct pavebox_job (*full)(int byte))
{
    static char text[TEXT_BYTES];
    struct pavebox_job job = full('L');
    put_command(&job, BARE(PAVEBOX_WORD_STOP));
    spell(text, &job);
    refuses_text("8, a 65th command", text, 8, 75);
    job = full('L');
    spell(text, &job);
    strcpy(text + strlen(text) - 1, "L\n");
    refuses_text("8, a 1,025th letter", text, 8, 107);
    strcpy(strstr(text, "turns="), "msg=\nturns=L\n");
    refuses_text("8, a 33rd message", text, 8, 107);
}

/* Sheets that are longer than any that is accepted. */
static void check_long_sheets(void)
{
    const size_t most = PAVEBOX_MOST_SHEET_BYTES;
    uint8_t *feeds = memory(most + 1);
    memset(feeds, '\n', most + 1);
    refuses("3, 16,384 bytes", feeds, most, 3, 1);
    refuses("1, 16,385 bytes", feeds, most + 1, 1, 0);
    memcpy(feeds, SHEET_A, strlen(SHEET_A));
    refuses("3, 16,384 bytes, a sheet first", feeds, most, 3, 11);
    refuses("1, 16,385 bytes, a sheet first", feeds, most + 1, 1, 0);
    free(feeds);
}

static int is_ending(uint32_t number)
{
    return number == PAVEBOX_STOPPED || number == PAVEBOX_LETTERS_USED || number == PAVEBOX_NO_ROOM;
}

/* What pavebox_run says of a sheet, pavebox_read says too, and writing the record of one that is
 * accepted gives its bytes. */
static void check_as_run(const char *name, const char *sheet, size_t length)
{
    static uint8_t output[TEXT_BYTES];
    uint8_t run_answer[PAVEBOX_ANSWER_BYTES], answer[8];
    struct pavebox_job job;
    const uint32_t ending = pavebox_run((const uint8_t *)sheet, length, NULL, 0, run_answer,
                                        sizeof run_answer);
    if (!is_ending(ending)) {
        refuses(name, sheet, length, ending, pavebox_read_answer(run_answer).line);
        return;
    }
    memset(&job, 0x5a, sizeof job);
    check(pavebox_read((const uint8_t *)sheet, length, &job, answer, 8) == 0, name, "opened");
    check(pavebox_write(&job, output, length, answer, 8) == 0, name, "saved");
    check(pavebox_read_write_answer(answer).written == length, name, "bytes written");
    check(same(output, sheet, length), name, "the sheet");
}

/* Sheets near one that is accepted: each byte of it is replaced, doubled and left out. */
static void check_near_sheets(const char *sheet)
{
    static const char bytes[] = "\n 0129-:,=LHABdsx\177";
    const size_t length = strlen(sheet);
    static char near[TEXT_BYTES];
    size_t place, byte;
    for (place = 0; place < length; place++) {
        strcpy(near, sheet);
        for (byte = 0; byte < strlen(bytes); byte++) {
            near[place] = bytes[byte];
            check_as_run("a byte replaced", near, length);
        }
        strcpy(near + place + 1, sheet + place);
        near[place] = sheet[place];
        check_as_run("a byte doubled", near, length + 1);
        strcpy(near + place, sheet + place + 1);
        check_as_run("a byte left out", near, length - 1);
    }
}

/* The record and the answer in the middle of larger memories, whose other bytes stay as they are. The
 * record is aligned to 4 bytes and to no more, the answer to none. */
static void check_read_guards(void)
{
    const struct pavebox_job job = sheet_a(FILL);
    const uint32_t numbers[] = {0, 0};
    const size_t guard = 20, odd = 13;
    uint8_t *around = memory(guard + sizeof job + guard);
    uint8_t *answer = memory(odd + 8 + odd);
    check(pavebox_read((const uint8_t *)SHEET_A, strlen(SHEET_A),
                       (struct pavebox_job *)(around + guard), answer + odd, 8)
              == 0,
          "guards", "return");
    check_answer(&entry, "guards", answer + odd, numbers);
    check(same(around + guard, &job, sizeof job), "guards", "the record");
    check(is_filled(around, guard), "guards", "bytes before the record");
    check(is_filled(around + guard + sizeof job, guard), "guards", "bytes behind the record");
    check(is_filled(answer, odd), "guards", "bytes before the answer memory");
    check(is_filled(answer + odd + 8, odd), "guards", "bytes behind the answer memory");
    free(around);
    free(answer);
}

static void check_nulls_and_answers(void)
{
    const uint32_t empty[] = {PAVEBOX_BAD_BYTE, 1};
    uint8_t answer[8];
    check_answer_lengths(&entry, SHEET_A, strlen(SHEET_A));
    check_answer_lengths(&entry, "", 0);
    check_short_answer(&entry, SHEET_A, strlen(SHEET_A), 4);
    check_short_answer(&entry, SHEET_A, strlen(SHEET_A), 0);
    check(call(NULL, 0, NULL, 0, answer, 8) == PAVEBOX_BAD_BYTE, "no sheet", "return");
    check_answer(&entry, "no sheet", answer, empty);
    check(call(NULL, 0, NULL, 0, NULL, 0) == PAVEBOX_BAD_ANSWER, "no memory", "return");
    check(call((const uint8_t *)SHEET_A, strlen(SHEET_A), NULL, 0, NULL, 0) == PAVEBOX_BAD_ANSWER,
          "no answer memory", "return");
}

void check_reading(void)
{
    begin("pavebox_read");
    check_opened();
    check_sheet_lengths(SHEET_A);
    check_sheet_lengths(TWO_OWNERS);
    check_refusals();
    check_refusals_2();
    check_bytes(&entry, PAVEBOX_BAD_NAME);
    check_one_more(fullest);
    check_one_more(fullest_2);
    check_long_sheets();
    check_near_sheets(SHEET_A);
    check_near_sheets(SMALLEST);
    check_near_sheets(MESSAGES);
    check_near_sheets(WORDS);
    check_near_sheets(TWO_OWNERS);
    check_near_sheets(OWNERS);
    check_read_guards();
    check_nulls_and_answers();
}
