/* The boundary of pavebox_to_sheet2 and pavebox_to_sheet1. */
#include "check.h"
#include "record.h"

#include <stdio.h>
#include <stdlib.h>
#include <string.h>

#define LENT PAVEBOX_MOST_SHEET2_BYTES

/* Sheet A and the smallest sheet in form 2. */
#define SHEET_A_2 \
    "sheet=2\nkeys=2\nsecret=1:300:A\n" \
    "do=receive\ndo=read 0 1\ndo=put 1 0\ndo=send\ndo=stop\n" \
    "msg=0:1500,1:1480\nturns=LALALALALA\n"
#define SMALLEST_2 "sheet=2\nkeys=1\ndo=stop\nturns=L\n"

/* Every key is secret, and numbers and letters look like what is changed elsewhere. */
#define SECRETS \
    "sheet=1\nkeys=3\nsecret=0:-2147483648\nsecret=1:0\nsecret=2:1\n" \
    "do=receive\ndo=read 1 1\ndo=add 1 1\ndo=put 2 1\ndo=ifneg 1 5\ndo=send\ndo=jump 0\n" \
    "msg=0:1,1:-2,2:11\nmsg=\nmsg=1:1\nturns=HHLHLLLHHHLHLHLHLHLHLHL\n"
#define SECRETS_2 \
    "sheet=2\nkeys=3\nsecret=0:-2147483648:A\nsecret=1:0:A\nsecret=2:1:A\n" \
    "do=receive\ndo=read 1 1\ndo=add 1 1\ndo=put 2 1\ndo=ifneg 1 5\ndo=send\ndo=jump 0\n" \
    "msg=0:1,1:-2,2:11\nmsg=\nmsg=1:1\nturns=AALALLLAAALALALALALALAL\n"

/* What is B's: a secret without a turn, and turns without a secret. */
#define OWNER_B "sheet=2\nkeys=2\nsecret=0:5:A\nsecret=1:6:B\ndo=stop\nturns=LA\n"
#define TURN_B "sheet=2\nkeys=2\nsecret=0:5:A\nsecret=1:6:A\ndo=stop\nturns=LAB\n"

static void check_read(const char *name, const uint8_t *answer, const uint32_t *numbers)
{
    const struct pavebox_form_answer found = pavebox_read_form_answer(answer);
    const uint32_t three[] = {found.number, found.line, found.written};
    check_three(name, "line", three, numbers);
}

static const struct entry to_sheet1
    = {pavebox_to_sheet1, PAVEBOX_FORM_ANSWER_BYTES / 4, check_read};
static const struct entry to_sheet2
    = {pavebox_to_sheet2, PAVEBOX_FORM_ANSWER_BYTES / 4, check_read};

/* The entry for the form asked for. The checks behind it are of that one. */
static const struct entry *to_form(int form)
{
    begin(form == 2 ? "pavebox_to_sheet2" : "pavebox_to_sheet1");
    return form == 2 ? &to_sheet2 : &to_sheet1;
}

#define HAS_THE_FORM REFUSED(PAVEBOX_HAS_THE_FORM, 0)
#define CANNOT_GO_BACK REFUSED(PAVEBOX_CANNOT_GO_BACK, 0)
#define NO_ROOM REFUSED(PAVEBOX_NO_ROOM_FOR_FORM, 0)

/* A sheet to be turned into this form with so much memory. */
static void turn(int form, const char *name, const char *sheet, size_t lent, struct wanted wanted)
{
    check_call(to_form(form), name, sheet, strlen(sheet), lent, wanted);
}

/* A refusal that does not look at the output memory: with none of it and with enough. */
static void refuses(int form, const char *name, const char *sheet, struct wanted wanted)
{
    turn(form, name, sheet, 0, wanted);
    turn(form, name, sheet, LENT, wanted);
}

/* A sheet that neither entry can read. */
static void both_refuse(const char *name, const char *sheet, uint32_t number, uint32_t line)
{
    refuses(1, name, sheet, REFUSED(number, line));
    refuses(2, name, sheet, REFUSED(number, line));
}

/* The sheet of the one form and that of the other, each turned into the other: in just enough memory,
 * in more, and not in a byte less. Neither is turned into its own form. */
static void turns(const char *name, const char *old, const char *new)
{
    const char *const sheets[] = {NULL, old, new};
    int form;
    for (form = 1; form <= 2; form++) {
        const char *const wanted = sheets[form], *const sheet = sheets[3 - form];
        turn(form, name, sheet, strlen(wanted), written(wanted));
        turn(form, name, sheet, LENT + 1000, written(wanted));
        turn(form, name, sheet, strlen(wanted) - 1, NO_ROOM);
        turn(form, name, sheet, 0, NO_ROOM);
        refuses(form, name, wanted, HAS_THE_FORM);
    }
}

/* A sheet of form 2 with something of B's, which is turned into neither form. */
static void keeps(const char *name, const char *sheet)
{
    refuses(1, name, sheet, CANNOT_GO_BACK);
    refuses(2, name, sheet, HAS_THE_FORM);
}

static void check_constants(void)
{
    check(PAVEBOX_CANNOT_GO_BACK == 47 && PAVEBOX_HAS_THE_FORM == 48
              && PAVEBOX_NO_ROOM_FOR_FORM == 49,
          "refusals", "numbers");
    check(PAVEBOX_FORM_ANSWER_BYTES == 12, "PAVEBOX_FORM_ANSWER_BYTES", "bytes");
    check(PAVEBOX_MOST_SHEET2_BYTES == 6286, "PAVEBOX_MOST_SHEET2_BYTES", "bytes");
    check(PAVEBOX_MOST_SHEET1_BYTES == 6270, "PAVEBOX_MOST_SHEET1_BYTES", "bytes");
}

/* Output memories of every length, up to some that are longer than the sheet. */
static void check_output_lengths(int form, const char *sheet, const char *wanted)
{
    size_t lent;
    for (lent = 0; lent <= strlen(wanted) + 3; lent++) {
        char name[32];
        snprintf(name, sizeof name, "%lu bytes lent", (unsigned long)lent);
        turn(form, name, sheet, lent, lent < strlen(wanted) ? NO_ROOM : written(wanted));
    }
}

/* A sheet that is cut off after each of its bytes: in the middle of a line it has no line feed at
 * the end, after a line it ends early. Its first line is there, and its form does not count yet. */
static void check_sheet_lengths(const char *sheet)
{
    uint32_t line = 1;
    size_t length;
    int form;
    for (length = 0; length < strlen(sheet); length++) {
        const int after_line = length > 0 && sheet[length - 1] == '\n';
        char name[48];
        line += (uint32_t)after_line;
        snprintf(name, sizeof name, "the first %lu bytes", (unsigned long)length);
        for (form = 1; form <= 2; form++)
            check_call(to_form(form), name, sheet, length, LENT,
                       REFUSED(after_line ? PAVEBOX_BAD_NAME : PAVEBOX_BAD_BYTE, line));
    }
}

/* A refusal of reading for each number, in sheets of either form. It comes before 48, which the one or
 * the other entry would give, and before 47. */
static void check_refusals(void)
{
#define HEAD "sheet=1\nkeys=2\nsecret=1:300\n"
#define HEAD_2 "sheet=2\nkeys=2\nsecret=1:300:B\n"
    both_refuse("2, nothing", "", 2, 1);
    both_refuse("2, a forbidden byte at the end", SHEET_A "\177", 2, 11);
    both_refuse("2, no line feed", HEAD_2 "do=stop\nturns=LAB", 2, 5);
    both_refuse("3, a line behind a sheet", SHEET_A "\n", 3, 11);
    both_refuse("3, a line behind a sheet of form 2", SHEET_A_2 "\n", 3, 11);
    both_refuse("3, a sheet behind a sheet", SHEET_A SHEET_A_2, 3, 11);
    both_refuse("4, form 3", "sheet=3\nkeys=1\ndo=stop\nturns=L\n", 4, 1);
    both_refuse("4, form 0", "sheet=0\nkeys=1\ndo=stop\nturns=L\n", 4, 1);
    both_refuse("4, nine keys", "sheet=2\nkeys=9\ndo=stop\nturns=L\n", 4, 2);
    both_refuse("4, an owner in form 1", "sheet=1\nkeys=2\nsecret=1:300:A\ndo=stop\nturns=L\n", 4, 3);
    both_refuse("4, no owner", "sheet=2\nkeys=2\nsecret=1:300\ndo=stop\nturns=L\n", 4, 3);
    both_refuse("5, secrets", HEAD "secret=1:5\ndo=stop\nturns=L\n", 5, 4);
    both_refuse("5, entries", HEAD_2 "do=stop\nmsg=1:4,1:5\nturns=L\n", 5, 5);
    both_refuse("6, a word", HEAD "do=halt\nturns=L\n", 6, 4);
    both_refuse("7, a target", HEAD_2 "do=stop\ndo=jump 3\nturns=B\n", 7, 5);
    both_refuse("9, no letter", HEAD "do=stop\nturns=\n", 9, 5);
    both_refuse("9, A in form 1", HEAD "do=stop\nturns=LALA\n", 9, 5);
    both_refuse("9, H in form 2", HEAD_2 "do=stop\nturns=LABH\n", 9, 5);
    both_refuse("46, another letter", "sheet=2\nkeys=2\nsecret=1:300:C\ndo=stop\nturns=L\n", 46, 3);
    both_refuse("46, no letter", "sheet=2\nkeys=2\nsecret=1:300:\ndo=stop\nturns=L\n", 46, 3);
#undef HEAD_2
#undef HEAD
}

/* What is B's, alone and beside what is A's. 48 comes before 47. */
static void check_owner_b(void)
{
    keeps("two owners", TWO_OWNERS);
    keeps("an owner B", OWNER_B);
    keeps("a turn B", TURN_B);
    keeps("the first owner B", "sheet=2\nkeys=2\nsecret=0:5:B\nsecret=1:6:A\ndo=stop\nturns=LA\n");
    keeps("the first turn B", "sheet=2\nkeys=1\ndo=stop\nturns=BAL\n");
    keeps("an owner B and L alone", "sheet=2\nkeys=1\nsecret=0:0:B\ndo=stop\nturns=L\n");
    keeps("B alone", "sheet=2\nkeys=1\ndo=stop\nturns=B\n");
    turns("a number with the letter's byte", "sheet=1\nkeys=1\nsecret=0:66\ndo=stop\nturns=H\n",
          "sheet=2\nkeys=1\nsecret=0:66:A\ndo=stop\nturns=A\n");
}

/* Changes a record of form 1 into that of its sheet in form 2: three things together. */
static void put_form_2(struct pavebox_job *job)
{
    uint32_t place;
    job->form = 2;
    for (place = 0; place < job->secret_count; place++)
        job->secrets[place].owner = PAVEBOX_OWNER_A;
    for (place = 0; place < job->letter_count; place++)
        if (job->letters[place] == 'H')
            job->letters[place] = 'A';
}

/* The longest sheet of each form that can be turned, and each of its places that may be B's. */
static void check_fullest(void)
{
    static char old[TEXT_BYTES], new[TEXT_BYTES];
    struct pavebox_job job = fullest(0);
    uint32_t place;
    spell(old, &job);
    put_form_2(&job);
    spell(new, &job);
    check(strlen(old) == PAVEBOX_MOST_SHEET1_BYTES, "the fullest sheet", "length");
    check(strlen(new) == PAVEBOX_MOST_SHEET2_BYTES, "the fullest sheet of form 2", "length");
    turns("the fullest sheets", old, new);
    for (place = 0; place < job.secret_count; place++) {
        job.secrets[place].owner = PAVEBOX_OWNER_B;
        spell(new, &job);
        keeps("an owner of the fullest sheet", new);
        job.secrets[place].owner = PAVEBOX_OWNER_A;
    }
    for (place = 0; place < job.letter_count; place++) {
        const uint8_t letter = job.letters[place];
        job.letters[place] = 'B';
        spell(new, &job);
        turn(1, "a letter of the fullest sheet", new, LENT, CANNOT_GO_BACK);
        job.letters[place] = letter;
    }
    job = fullest_2(0);
    spell(new, &job);
    keeps("the fullest sheet of two owners", new);
}

/* One thing more than a sheet of either form may have. */
static void check_one_more(struct pavebox_job (*full)(int byte))
{
    static char text[TEXT_BYTES];
    struct pavebox_job job = full('L');
    put_command(&job, BARE(PAVEBOX_WORD_STOP));
    spell(text, &job);
    both_refuse("8, a 65th command", text, 8, 75);
    job = full('L');
    spell(text, &job);
    strcpy(text + strlen(text) - 1, "L\n");
    both_refuse("8, a 1,025th letter", text, 8, 107);
    strcpy(strstr(text, "turns="), "msg=\nturns=L\n");
    both_refuse("8, a 33rd message", text, 8, 107);
}

/* As many secrets as there may be keys, so that the two forms differ in length by 0 to 16 bytes. */
static void check_secret_counts(void)
{
    static char old[TEXT_BYTES], new[TEXT_BYTES];
    uint32_t count;
    for (count = 0; count <= 8; count++) {
        struct pavebox_job job = smallest(0);
        job.keys = 8;
        while (job.secret_count < count)
            put_secret(&job, job.secret_count, -1);
        put_letters(&job, "HHL");
        spell(old, &job);
        put_form_2(&job);
        spell(new, &job);
        check(strlen(new) == strlen(old) + 2 * count, "secrets", "lengths");
        turns("secrets", old, new);
    }
}

/* Sheets that are longer than any that is accepted, whatever stands in front. */
static void check_long_sheets(const char *sheet)
{
    static const size_t longer[] = {PAVEBOX_MOST_SHEET_BYTES + 1, 65536 + 113, 1048576};
    const size_t most = PAVEBOX_MOST_SHEET_BYTES;
    uint8_t *feeds = memory(1048576);
    size_t place;
    int form;
    memset(feeds, '\n', 1048576);
    memcpy(feeds, sheet, strlen(sheet));
    for (form = 1; form <= 2; form++) {
        check_call(to_form(form), "16,384 bytes", feeds, most, LENT, REFUSED(3, 11));
        for (place = 0; place < COUNT(longer); place++)
            check_call(to_form(form), "longer than a sheet", feeds, longer[place], LENT,
                       REFUSED(PAVEBOX_SHEET_TOO_LONG, 0));
    }
    free(feeds);
}

/* Two sheets run alike: the seven numbers and every byte of the output memory, on a memory of this
 * length. */
static void runs_alike(const char *name, const char *one, const char *other, size_t lent)
{
    uint8_t *left = memory(lent), *right = memory(lent);
    uint8_t *numbers = memory(PAVEBOX_ANSWER_BYTES), *others = memory(PAVEBOX_ANSWER_BYTES);
    const uint32_t ending = pavebox_run((const uint8_t *)one, strlen(one), left, lent, numbers,
                                        PAVEBOX_ANSWER_BYTES);
    begin("pavebox_run on both forms");
    check(pavebox_run((const uint8_t *)other, strlen(other), right, lent, others,
                      PAVEBOX_ANSWER_BYTES)
              == ending,
          name, "the ending in the other form");
    check(same(numbers, others, PAVEBOX_ANSWER_BYTES), name, "the seven numbers in the other form");
    check(same(left, right, lent), name, "the output memory in the other form");
    free(left);
    free(right);
    free(numbers);
    free(others);
}

static void run_alike(const char *name, const char *one, const char *other)
{
    static const size_t lengths[] = {0, 21, 33, 34, 45, 46, 92, 137, 138, 139, 32768};
    size_t place;
    for (place = 0; place < COUNT(lengths); place++)
        runs_alike(name, one, other, lengths[place]);
}

/* A sheet that is accepted, and its record: turned into the other form it is the sheet of the turned
 * record, unless something of it is B's. */
static void turns_as_record(const char *name, const char *sheet, struct pavebox_job *job)
{
    static char new[TEXT_BYTES], old[TEXT_BYTES];
    uint8_t answer[PAVEBOX_FORM_ANSWER_BYTES];
    uint32_t bytes;
    if (job->form == 1) {
        put_form_2(job);
        spell(new, job);
        turns(name, sheet, new);
        run_alike(name, sheet, new);
        return;
    }
    if (strstr(sheet, ":B\n") != NULL || strchr(strstr(sheet, "turns="), 'B') != NULL) {
        keeps(name, sheet);
        return;
    }
    bytes = (uint32_t)strlen(sheet) - 2 * job->secret_count;
    begin("pavebox_to_sheet1");
    check(pavebox_to_sheet1((const uint8_t *)sheet, strlen(sheet), (uint8_t *)old, bytes, answer,
                            sizeof answer)
              == PAVEBOX_WRITTEN,
          name, "going back");
    old[bytes] = '\0';
    turns(name, old, sheet);
    run_alike(name, old, sheet);
}

/* What pavebox_read says of a sheet that it refuses, both entries say too. */
static void check_as_read(const char *name, const char *sheet)
{
    uint8_t answer[PAVEBOX_JOB_ANSWER_BYTES];
    struct pavebox_job job;
    memset(&job, 0x5a, sizeof job);
    if (pavebox_read((const uint8_t *)sheet, strlen(sheet), &job, answer, sizeof answer) == 0) {
        turns_as_record(name, sheet, &job);
    } else {
        const struct pavebox_job_answer refused = pavebox_read_job_answer(answer);
        both_refuse(name, sheet, refused.number, refused.line);
    }
}

/* Sheets near one that is accepted: each byte of it is replaced, doubled and left out. */
static void check_near_sheets(const char *sheet)
{
    static const char bytes[] = "\n 0129-:,=LHABx\177";
    const size_t length = strlen(sheet);
    static char near[TEXT_BYTES];
    size_t place, byte;
    for (place = 0; place < length; place++) {
        for (byte = 0; byte < strlen(bytes); byte++) {
            strcpy(near, sheet);
            near[place] = bytes[byte];
            check_as_read("a byte replaced", near);
        }
        strcpy(near + place + 1, sheet + place);
        near[place] = sheet[place];
        check_as_read("a byte doubled", near);
        strcpy(near, sheet);
        strcpy(near + place, sheet + place + 1);
        check_as_read("a byte left out", near);
    }
}

/* Three numbers' memory of other lengths, and no memory at all, for sheets of every fate. */
static void check_nulls_and_answers(void)
{
    static const char *const sheets[] = {SHEET_A, SHEET_A_2, TWO_OWNERS, "sheet=3\n", ""};
    size_t place;
    int form;
    for (form = 1; form <= 2; form++) {
        for (place = 0; place < COUNT(sheets); place++) {
            check_answer_lengths(to_form(form), sheets[place], strlen(sheets[place]));
            check_short_answer(to_form(form), sheets[place], strlen(sheets[place]), 8);
            check_short_answer(to_form(form), sheets[place], strlen(sheets[place]), 0);
        }
        check_nulls(to_form(form), form == 2 ? SHEET_A : SHEET_A_2, REFUSED(PAVEBOX_BAD_BYTE, 1),
                    NO_ROOM);
        check_nulls(to_form(form), form == 2 ? SHEET_A_2 : SHEET_A, REFUSED(PAVEBOX_BAD_BYTE, 1),
                    HAS_THE_FORM);
    }
    check_nulls(to_form(1), TWO_OWNERS, REFUSED(PAVEBOX_BAD_BYTE, 1), CANNOT_GO_BACK);
}

static void check_all_guards(void)
{
    check_guards(to_form(2), SHEET_A, strlen(SHEET_A), 130, written(SHEET_A_2));
    check_guards(to_form(2), SHEET_A, strlen(SHEET_A), strlen(SHEET_A), NO_ROOM);
    check_guards(to_form(2), SHEET_A_2, strlen(SHEET_A_2), 130, HAS_THE_FORM);
    check_guards(to_form(1), SHEET_A_2, strlen(SHEET_A_2), 130, written(SHEET_A));
    check_guards(to_form(1), SHEET_A_2, strlen(SHEET_A_2), strlen(SHEET_A) - 1, NO_ROOM);
    check_guards(to_form(1), SHEET_A, strlen(SHEET_A), 130, HAS_THE_FORM);
    check_guards(to_form(1), TWO_OWNERS, strlen(TWO_OWNERS), 180, CANNOT_GO_BACK);
}

void check_turning(void)
{
    begin("turning");
    check_constants();
    turns("sheet A", SHEET_A, SHEET_A_2);
    turns("the smallest sheet", SMALLEST, SMALLEST_2);
    turns("secrets alone", SECRETS, SECRETS_2);
    run_alike("sheet A", SHEET_A, SHEET_A_2);
    run_alike("secrets alone", SECRETS, SECRETS_2);
    check_output_lengths(2, SHEET_A, SHEET_A_2);
    check_output_lengths(1, SHEET_A_2, SHEET_A);
    check_output_lengths(2, SECRETS, SECRETS_2);
    check_output_lengths(1, SECRETS_2, SECRETS);
    check_sheet_lengths(SHEET_A);
    check_sheet_lengths(SHEET_A_2);
    check_refusals();
    check_bytes(to_form(1), PAVEBOX_BAD_NAME);
    check_bytes(to_form(2), PAVEBOX_BAD_NAME);
    check_owner_b();
    check_fullest();
    check_one_more(fullest);
    check_one_more(fullest_2);
    check_secret_counts();
    check_long_sheets(SHEET_A);
    check_long_sheets(SHEET_A_2);
    check_near_sheets(SHEET_A);
    check_near_sheets(SHEET_A_2);
    check_near_sheets(SMALLEST);
    check_near_sheets(SMALLEST_2);
    check_near_sheets(SECRETS);
    check_near_sheets(SECRETS_2);
    check_near_sheets(TWO_OWNERS);
    check_near_sheets(OWNER_B);
    check_near_sheets(TURN_B);
    check_all_guards();
    check_nulls_and_answers();
}
