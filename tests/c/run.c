/* The boundary of pavebox_run. */
#include "check.h"
#include "record.h"

#include <stdio.h>
#include <stdlib.h>
#include <string.h>

#define LENT 32768u

/* A sheet that sends one line, of 34 bytes. */
#define SHEET \
    "sheet=1\nkeys=2\nsecret=1:-4\ndo=receive\ndo=set 7 12\ndo=put 0 7\ndo=send\n" \
    "msg=0:5,1:-6\nturns=LHLLL\n"
#define SENT "sent=0004 +0000000012 -0000000006\n"

/* A sheet of form 2 that is refused for an owner. */
#define BAD_OWNER "sheet=2\nkeys=2\nsecret=1:300:C\ndo=send\nturns=L\n"

/* The bytes of an answer of a host from before the seventh number. */
#define SIX_NUMBERS 24

static void check_read(const char *name, const uint8_t *answer, const uint32_t *numbers)
{
    const struct pavebox_answer found = pavebox_read_answer(answer);
    check(found.ending == numbers[0], name, "ending or refusal");
    check(found.line == numbers[1], name, "line");
    check(found.positions == numbers[2], name, "positions used");
    check(found.low_steps == numbers[3], name, "low steps");
    check(found.written == numbers[4], name, "bytes written");
    check(found.taken == numbers[5], name, "messages taken");
    check(found.clamped == numbers[6], name, "clamped results");
}

static const struct entry entry = {pavebox_run, PAVEBOX_ANSWER_BYTES / 4, check_read};

static void run(const char *name, const void *sheet, size_t sheet_len, size_t lent,
                struct wanted wanted)
{
    check_call(&entry, name, sheet, sheet_len, lent, wanted);
}

static void run_text(const char *name, const char *sheet, size_t lent, struct wanted wanted)
{
    run(name, sheet, strlen(sheet), lent, wanted);
}

#define WANTED(sent, a, b, c, d, e, f, g) ((struct wanted){sent, {a, b, c, d, e, f, g}})

/* Output memories with no room for the line, with just enough, and with more. */
static void check_output_lengths(void)
{
    static const size_t lengths[] = {0, 1, 33, 34, 35, LENT};
    size_t place;
    for (place = 0; place < COUNT(lengths); place++) {
        char name[32];
        snprintf(name, sizeof name, "%lu bytes lent", (unsigned long)lengths[place]);
        run_text(name, SHEET, lengths[place],
                 lengths[place] < 34 ? WANTED("", 32, 0, 4, 3, 0, 1, 0)
                                     : WANTED(SENT, 0, 0, 5, 4, 34, 1, 0));
    }
}

/* A sheet that is cut off after each of its bytes: in the middle of a line it has no line feed at
 * the end, after a line it ends early. */
static void check_sheet_lengths(const char *sheet)
{
    const size_t whole = strlen(sheet);
    uint32_t line = 1;
    size_t length;
    for (length = 0; length < whole; length++) {
        const int after_line = length > 0 && sheet[length - 1] == '\n';
        char name[48];
        line += (uint32_t)after_line;
        snprintf(name, sizeof name, "the first %lu bytes", (unsigned long)length);
        run(name, sheet, length, LENT,
            WANTED("", after_line ? PAVEBOX_BAD_NAME : PAVEBOX_BAD_BYTE, line, 0, 0, 0, 0, 0));
    }
}

/* Refusals whose fault stands as near to the end of the sheet's memory as it can. */
static void check_refusals(void)
{
#define HEAD "sheet=1\nkeys=1\n"
    run_text("2 at the end", HEAD "do=stop\nturns=L\n\177", LENT, WANTED("", 2, 5, 0, 0, 0, 0, 0));
    run_text("3 at the end", HEAD "do=stop\nturns=L\n\n", LENT, WANTED("", 3, 5, 0, 0, 0, 0, 0));
    run_text("4 at the end", HEAD "do=drop \n", LENT, WANTED("", 4, 3, 0, 0, 0, 0, 0));
    run_text("5 at the end", HEAD "do=stop\nmsg=0:1,0:\n", LENT, WANTED("", 5, 4, 0, 0, 0, 0, 0));
    run_text("6 at the end", HEAD "do=stop \n", LENT, WANTED("", 6, 3, 0, 0, 0, 0, 0));
    run_text("7 at the end", HEAD "do=jump 2\nturns=L\n", LENT, WANTED("", 7, 3, 0, 0, 0, 0, 0));
    run_text("9 at the end", HEAD "do=stop\nturns=\n", LENT, WANTED("", 9, 4, 0, 0, 0, 0, 0));
#undef HEAD
}

/* The largest sheet, and one byte more. No accepted sheet is that long. */
static void check_long_sheets(void)
{
    const size_t most = PAVEBOX_MOST_SHEET_BYTES;
    uint8_t *feeds = memory(most + 1);
    memset(feeds, '\n', most + 1);
    run("16,384 bytes", feeds, most, LENT, WANTED("", 3, 1, 0, 0, 0, 0, 0));
    run("16,385 bytes", feeds, most + 1, LENT, WANTED("", 1, 0, 0, 0, 0, 0, 0));
    memset(feeds, 'x', most);
    run("16,384 bytes without line feed", feeds, most, LENT, WANTED("", 2, 1, 0, 0, 0, 0, 0));
    free(feeds);
}

/* As many of everything as a sheet may have, and nearly each number as long as it may be. The
 * last three commands are a loop that takes a message and sends it. Returns the sheet's length. */
static size_t write_fullest_sheet(char *sheet, unsigned form)
{
    char *next = sheet;
    unsigned place, key;
    next += sprintf(next, "sheet=%u\nkeys=8\n", form);
    for (key = 0; key < 8; key++)
        next += sprintf(next, "secret=%u:-2147483648%s\n", key,
                        form == 1 ? "" : key < 4 ? ":A" : ":B");
    for (place = 0; place < 61; place++)
        next += sprintf(next, "do=set 7 -2147483648\n");
    next += sprintf(next, "do=receive\ndo=send\ndo=jump 61\n");
    for (place = 0; place < 32; place++) {
        next += sprintf(next, "msg=0:-2147483648");
        for (key = 1; key < 8; key++)
            next += sprintf(next, ",%u:-2147483648", key);
        next += sprintf(next, "\n");
    }
    next += sprintf(next, "turns=");
    for (place = 0; place < 1024; place++)
        *next++ = 'L';
    *next++ = '\n';
    return (size_t)(next - sheet);
}

/* What the fullest sheet sends: 32 messages, and lines without entries after them. */
static void write_its_lines(char *sent)
{
    char *next = sent;
    unsigned line, key;
    for (line = 0; line < 321; line++) {
        next += sprintf(next, "sent=%04u", 62 + 3 * line);
        for (key = 0; key < 8; key++)
            next += sprintf(next, " %s", line < 32 ? "-2147483648" : "...........");
        next += sprintf(next, "\n");
    }
}

static void check_fullest_sheet(unsigned form)
{
    static char sheet[PAVEBOX_MOST_SHEET_BYTES];
    static char sent[PAVEBOX_MOST_OUTPUT_BYTES + 1];
    size_t length = write_fullest_sheet(sheet, form);
    const uint32_t written = 321 * 106;
    write_its_lines(sent);
    run("the fullest sheet", sheet, length, written,
        WANTED(sent, 31, 0, 1024, 1024, written, 32, 0));
    run("the fullest sheet and much memory", sheet, length, PAVEBOX_MOST_OUTPUT_BYTES,
        WANTED(sent, 31, 0, 1024, 1024, written, 32, 0));
    sent[written - 106] = '\0';
    run("the fullest sheet and a byte too little", sheet, length, written - 1,
        WANTED(sent, 32, 0, 1022, 1022, written - 106, 32, 0));
    sheet[length - 1] = 'L';
    sheet[length++] = '\n';
    run("the fullest sheet and a letter too many", sheet, length, LENT,
        WANTED("", 8, 107, 0, 0, 0, 0, 0));
}

/* The seventh number, with each ending and with a refusal, and where it needs two bytes. */
static void check_clamped(void)
{
#define HEAD "sheet=1\nkeys=1\nsecret=0:0\n"
#define SUM "do=set 0 2147483647\ndo=add 0 0\ndo=put 0 0\ndo=send\n"
    static char sheet[PAVEBOX_MOST_SHEET_BYTES];
    char *next = sheet;
    unsigned place;
    run_text("a clamped sum", HEAD SUM "turns=LHLHLHL\n", LENT,
             WANTED("sent=0006 +2147483647\n", 0, 0, 7, 4, 22, 0, 1));
    run_text("a clamped sum and no room", HEAD SUM "turns=LHLHLHL\n", 21,
             WANTED("", 32, 0, 6, 3, 0, 0, 1));
    run_text("a clamped sum and no letter", HEAD SUM "turns=LHLHH\n", LENT,
             WANTED("", 31, 0, 5, 2, 0, 0, 1));
    run_text("a clamped sum and a bad letter", HEAD SUM "turns=LHLHLHLX\n", LENT,
             WANTED("", 9, 8, 0, 0, 0, 0, 0));
    run_text("a sum that is clamped in the high execution alone",
             HEAD "do=receive\ndo=read 0 0\ndo=add 0 0\ndo=put 0 0\ndo=send\n"
                  "msg=0:2147483647\nturns=LHLHLHLHL\n",
             LENT, WANTED("sent=0008 +2147483647\n", 0, 0, 9, 5, 22, 1, 0));
    next += sprintf(next, "%sdo=set 0 -2147483648\n", HEAD);
    for (place = 0; place < 62; place++)
        next += sprintf(next, "do=mul 0 0\n");
    next += sprintf(next, "do=jump 1\nturns=");
    for (place = 0; place < 1024; place++)
        *next++ = 'L';
    strcpy(next, "\n");
    run_text("1,007 clamped products", sheet, LENT, WANTED("", 31, 0, 1024, 1024, 0, 0, 1007));
#undef SUM
#undef HEAD
}

/* Three executions: A's column has A's entry and B's dummy, B's the reverse, and where the entries of
 * one owner differ, that owner's column alone does. */
static void check_two_owners(void)
{
#define SENT_BY_OWNERS(a, b) "sent=0018 +0000000007 " a " " b "\n"
#define RUN_OWNERS(name, msg, a, b, taken) \
    run_text(name, OWNERS_HEAD OWNERS_DO msg OWNERS_TURNS, LENT, \
             WANTED(SENT_BY_OWNERS(a, b), 0, 0, 19, 7, 46, taken, 0))
    RUN_OWNERS("two owners", OWNERS_MSG, "+0000000410", "+0000000320", 1);
    RUN_OWNERS("B's entry another", "msg=0:7,1:10,2:-20\n", "+0000000410", "+0000000280", 1);
    RUN_OWNERS("B's entry missing", "msg=0:7,1:10\n", "+0000000410", "+0000000300", 1);
    RUN_OWNERS("A's entry another", "msg=0:7,1:-10,2:20\n", "+0000000390", "+0000000320", 1);
    RUN_OWNERS("A's entry missing", "msg=0:7,2:20\n", "+0000000400", "+0000000320", 1);
    RUN_OWNERS("B's sum clamped", "msg=0:7,1:10,2:2147483647\n", "+0000000410", "+2147483647", 1);
    run_text("no line left", OWNERS_HEAD OWNERS_DO OWNERS_TURNS, LENT,
             WANTED("sent=0018 ........... +0000000000 +0000000000\n", 0, 0, 19, 7, 46, 0, 0));
    run_text("A without turns", OWNERS_HEAD OWNERS_DO OWNERS_MSG "turns=LBLBLBLBLBLBLB\n", LENT,
             WANTED("sent=0012 +0000000007 +0000000010 +0000000320\n", 0, 0, 13, 7, 46, 1, 0));
    run_text("B without turns", OWNERS_HEAD OWNERS_DO OWNERS_MSG "turns=LALALALALALALA\n", LENT,
             WANTED("sent=0012 +0000000007 +0000000410 +0000000020\n", 0, 0, 13, 7, 46, 1, 0));
    run_text("two owners, a byte too little", TWO_OWNERS, 45, WANTED("", 32, 0, 18, 6, 0, 1, 0));
    run_text("two owners, just enough", TWO_OWNERS, 46,
             WANTED(SENT_BY_OWNERS("+0000000410", "+0000000320"), 0, 0, 19, 7, 46, 1, 0));
#undef RUN_OWNERS
#undef SENT_BY_OWNERS
}

/* Each owner's execution counts its own calls, and waits at its own. */
static void check_own_calls(void)
{
#define HEAD "sheet=2\nkeys=2\nsecret=0:100:A\nsecret=1:200:B\n"
#define TWICE \
    "do=receive\ndo=read 0 0\ndo=add 0 0\ndo=read 1 1\ndo=add 1 1\ndo=receive\n" \
    "do=put 0 0\ndo=put 1 1\ndo=send\nmsg=0:11,1:21\nmsg=0:12,1:22\n"
    run_text("A late and B early", HEAD TWICE "turns=LBBBBBLLLLLAAAAAAAABBBLLL\n", LENT,
             WANTED("sent=0024 +0000000024 +0000000042\n", 0, 0, 25, 9, 34, 2, 0));
    run_text("B late and A early", HEAD TWICE "turns=LAAAAALLLLLBBBBBBBBAAALLL\n", LENT,
             WANTED("sent=0024 +0000000022 +0000000044\n", 0, 0, 25, 9, 34, 2, 0));
    run_text("both too early", HEAD TWICE "turns=ABABLLLLLLLLL\n", LENT,
             WANTED("sent=0012 +0000000012 +0000000022\n", 0, 0, 13, 9, 34, 2, 0));
    run_text("no turn of the low execution", HEAD TWICE "turns=AB\n", LENT,
             WANTED("", 31, 0, 2, 0, 0, 0, 0));
#undef TWICE
#undef HEAD
}

/* Refusals of secret lines by their form: what 46 is for, and what comes before it. */
#define REFUSED_AT(line, number) WANTED("", number, line, 0, 0, 0, 0, 0)
#define SECRET(name, form, secret, number) \
    run_text(name, "sheet=" form "\nkeys=2\nsecret=" secret "\ndo=stop\nturns=L\n", LENT, \
             REFUSED_AT(3, number))
#define SECOND(name, secret, number) \
    run_text(name, "sheet=2\nkeys=2\nsecret=1:300:A\nsecret=" secret "\ndo=stop\nturns=L\n", \
             LENT, REFUSED_AT(4, number))

static void check_owner_refusals(void)
{
    SECRET("another owner", "2", "1:300:C", PAVEBOX_BAD_OWNER);
    SECRET("the owner H", "2", "1:300:H", 46);
    SECRET("no owner", "2", "1:300:", 46);
    SECRET("a small owner", "2", "1:300:a", 46);
    SECRET("two letters", "2", "1:300:AB", 46);
    SECRET("a third colon", "2", "1:300:A:B", 46);
    SECRET("a colon behind the owner", "2", "1:300:A:", 46);
    SECRET("a space before the owner", "2", "1:300: A", 46);
    SECRET("the dummy before the owner", "2", "1:x:C", 4);
    SECRET("the key before the owner", "2", "2:300:C", 4);
    SECRET("one colon in form 2", "2", "1:300", 4);
    SECRET("no colon in form 2", "2", "1", 4);
    SECRET("an owner in form 1", "1", "1:300:A", 4);
    SECOND("the order before dummy and owner", "1:x:C", 5);
    SECOND("the order before the owner", "0:400:C", 5);
    SECOND("the colons before the order", "0:400", 4);
    run_text("46 at the end", "sheet=2\nkeys=1\nsecret=0:0:\n", LENT, REFUSED_AT(3, 46));
    run_text("46 in a later line",
             "sheet=2\nkeys=2\nsecret=0:1:B\nsecret=1:1:b\ndo=stop\nturns=L\n", LENT,
             REFUSED_AT(4, 46));
}

/* A form that there is none of, and letters of the other form. */
#define FORM(name, form, letters, line, number) \
    run_text(name, "sheet=" form "\nkeys=2\ndo=stop\nturns=" letters "\n", LENT, \
             REFUSED_AT(line, number))

static void check_form_refusals(void)
{
    FORM("form 0", "0", "L", 1, 4);
    FORM("form 3", "3", "L", 1, 4);
    FORM("form 12", "12", "L", 1, 4);
    FORM("H in form 2", "2", "LH", 4, 9);
    FORM("a small letter in form 2", "2", "LAb", 4, 9);
    FORM("no letter in form 2", "2", "", 4, 9);
    FORM("A in form 1", "1", "LA", 4, 9);
    FORM("B in form 1", "1", "LB", 4, 9);
}

void check_run(void)
{
    begin("pavebox_run");
    check_output_lengths();
    check_sheet_lengths(SHEET);
    check_sheet_lengths(TWO_OWNERS);
    check_refusals();
    check_bytes(&entry, PAVEBOX_BAD_NAME);
    check_long_sheets();
    check_fullest_sheet(1);
    check_fullest_sheet(2);
    check_clamped();
    check_two_owners();
    check_own_calls();
    check_owner_refusals();
    check_form_refusals();
    check_guards(&entry, SHEET, strlen(SHEET), 40, WANTED(SENT, 0, 0, 5, 4, 34, 1, 0));
    check_guards(&entry, BAD_OWNER, strlen(BAD_OWNER), 40, WANTED("", 46, 3, 0, 0, 0, 0, 0));
    check_answer_lengths(&entry, SHEET, strlen(SHEET));
    check_answer_lengths(&entry, BAD_OWNER, strlen(BAD_OWNER));
    check_short_answer(&entry, SHEET, strlen(SHEET), SIX_NUMBERS);
    check_nulls(&entry, SHEET, WANTED("", 2, 1, 0, 0, 0, 0, 0), WANTED("", 32, 0, 4, 3, 0, 1, 0));
    check_nulls(&entry, TWO_OWNERS, WANTED("", 2, 1, 0, 0, 0, 0, 0),
                WANTED("", 32, 0, 18, 6, 0, 1, 0));
}
