/* The boundary of pavebox_write. */
#include "check.h"
#include "record.h"

#include <stdio.h>
#include <stdlib.h>
#include <string.h>

#define LENT PAVEBOX_MOST_WRITE_OUTPUT_BYTES

/* The input is a record, whose length no entry is told. */
static uint32_t call(const uint8_t *job, size_t job_len, uint8_t *output, size_t output_len,
                     uint8_t *answer, size_t answer_len)
{
    (void)job_len;
    return pavebox_write((const struct pavebox_job *)job, output, output_len, answer, answer_len);
}

static void check_read(const char *name, const uint8_t *answer, const uint32_t *numbers)
{
    const struct pavebox_write_answer found = pavebox_read_write_answer(answer);
    check(found.number == numbers[0], name, "number");
    check(found.written == numbers[1], name, "bytes written");
}

static const struct entry entry = {call, PAVEBOX_WRITE_ANSWER_BYTES / 4, check_read};

#define BAD REFUSED(PAVEBOX_BAD_RECORD, 0)
#define NO_ROOM REFUSED(PAVEBOX_NO_ROOM_FOR_SHEET, 0)

static struct wanted saved(const char *sheet)
{
    struct wanted wanted = {sheet, {PAVEBOX_WRITTEN, 0, 0, 0, 0, 0, 0}};
    wanted.numbers[1] = (uint32_t)strlen(sheet);
    return wanted;
}

static void write_job(const char *name, const struct pavebox_job *job, size_t lent,
                      struct wanted wanted)
{
    check_call(&entry, name, job, sizeof *job, lent, wanted);
}

/* A record that is refused, whether or not memory is lent: 54 comes before 55. */
static void refuses(const char *name, const struct pavebox_job *job)
{
    write_job(name, job, 0, BAD);
    write_job(name, job, LENT, BAD);
}

/* A record that is written as its sheet, in just enough memory, and not in a byte less. */
static void saves(const char *name, const struct pavebox_job *job)
{
    static char text[TEXT_BYTES];
    const size_t length = (size_t)(spell(text, job) - text);
    write_job(name, job, length, saved(text));
    write_job(name, job, length - 1, NO_ROOM);
}

static void decides(const char *name, const struct pavebox_job *job, int accepted)
{
    if (accepted)
        saves(name, job);
    else
        refuses(name, job);
}

/* Whatever stands beyond the counts, the sheet is the same. */
static void check_beyond_counts(void)
{
    int byte;
    for (byte = 0; byte < 256; byte++) {
        struct pavebox_job job = sheet_a(byte);
        write_job("sheet A", &job, LENT, saved(SHEET_A));
        job = smallest(byte);
        write_job("the smallest record", &job, LENT, saved(SMALLEST));
        job = two_owners(byte);
        write_job("two owners", &job, LENT, saved(TWO_OWNERS));
    }
}

/* Output memories of every length, up to some that are longer than the sheet. */
static void check_output_lengths(struct pavebox_job job, const char *sheet)
{
    size_t lent;
    for (lent = 0; lent <= strlen(sheet) + 3; lent++) {
        char name[32];
        snprintf(name, sizeof name, "%lu bytes lent", (unsigned long)lent);
        write_job(name, &job, lent, lent < strlen(sheet) ? NO_ROOM : saved(sheet));
    }
}

/* Changes of a record, of sheet A's or of that of two owners, each alone. No memory is lent, so that
 * 55 says that it passes. */
#define CHANGED_OF(record, change, number) \
    do { \
        struct pavebox_job r = record; \
        change; \
        write_job(#change, &r, 0, REFUSED(number, 0)); \
    } while (0)
#define CHANGED(change, number) CHANGED_OF(sheet_a(0), change, number)
#define OWNED(change, number) CHANGED_OF(two_owners(0), change, number)

static void check_changes(void)
{
    CHANGED(r.keys = 0, 54);
    CHANGED(r.keys = 9, 54);
    CHANGED(r.keys = 1, 54);
    CHANGED(r.letter_count = 0, 54);
    CHANGED(r.letter_count = 1025, 54);
    CHANGED(r.command_count = 0, 54);
    CHANGED(r.message_count = 33, 54);
    CHANGED(r.letters[9] = 65, 54);
    CHANGED(r.letters[10] = 65, 55);
    CHANGED(r.commands[4].v = 5, 54);
    CHANGED(r.commands[5].v = 5, 55);
    CHANGED(r.secrets[0].owner = 65, 54);
    CHANGED(r.secrets[1].owner = 65, 55);
    CHANGED(r.messages[0].entries[1].key = 0, 54);
    CHANGED(r.messages[0].entries[2].key = 0, 55);
    CHANGED((r.commands[4].word = 11, r.commands[4].t = 5), 55);
    CHANGED((r.commands[4].word = 11, r.commands[4].t = 6), 54);
    CHANGED((r.commands[4].word = 11, r.commands[4].t = 64), 54);
    CHANGED((r.commands[4].word = 11, r.commands[4].t = 65), 54);
    CHANGED((r.commands[4].word = 11, r.commands[4].t = 5, r.command_count = 6), 55);
}

static void check_owned_changes(void)
{
    OWNED(r.secrets[0].owner = 66, 55);
    OWNED(r.secrets[1].owner = 65, 55);
    OWNED(r.secrets[0].owner = 0, 54);
    OWNED(r.secrets[1].owner = 0, 54);
    OWNED(r.secrets[0].owner = 67, 54);
    OWNED(r.secrets[1].owner = 72, 54);
    OWNED(r.secrets[1].owner = 76, 54);
    OWNED(r.secrets[1].owner = 98, 54);
    OWNED(r.secrets[2].owner = 0, 55);
    OWNED(r.letters[20] = 'A', 55);
    OWNED(r.letters[20] = 'L', 55);
    OWNED(r.letters[20] = 'H', 54);
    OWNED(r.letters[21] = 'H', 55);
    OWNED(r.letter_count = 0, 54);
    OWNED(r.keys = 2, 54);
    OWNED(r.keys = 8, 55);
    OWNED(r.keys = 9, 54);
    OWNED(r.keys = 16, 54);
    OWNED(r.secrets[1].key = 1, 54);
    OWNED((r.commands[6].word = 11, r.commands[6].t = 7), 55);
    OWNED((r.commands[6].word = 11, r.commands[6].t = 8), 54);
}

/* A record of one form with owners and letters of the other. Sheet A's has one secret. */
static void check_forms(void)
{
    struct pavebox_job job = sheet_a(0x5a);
    job.form = 2;
    refuses("form 2 without owner", &job);
    job.secrets[0].owner = PAVEBOX_OWNER_A;
    refuses("form 2 with letters of form 1", &job);
    memcpy(job.letters, "LALALALALA", 10);
    saves("form 2 with owner A", &job);
    job.secrets[0].owner = PAVEBOX_OWNER_B;
    memcpy(job.letters, "LBLBLALALA", 10);
    saves("form 2 with owner B", &job);
    job.secrets[0].owner = 0;
    refuses("form 2 with its letters, without owner", &job);
    job.form = 1;
    refuses("form 1 with letters of form 2", &job);
    memcpy(job.letters, "LHLHLHLHLH", 10);
    saves("form 1 again", &job);
    job.secrets[0].owner = PAVEBOX_OWNER_A;
    refuses("form 1 with owner A", &job);
    job = two_owners(0x5a);
    for (job.form = 0; job.form < 5; job.form++)
        decides("two owners in another form", &job, job.form == 2);
}

/* The numbers that sheet A's record has in what its counts cover, but those that may be any. Each
 * alone may be from one number to another, given that the others stay and that beyond the counts
 * every byte is 0x5a. A command without operands may have any word; one with key 1 and variable 0
 * may be read, has, put or drop. */
#define NUMBER(member, from, to) {#member, offsetof(struct pavebox_job, member), from, to}
#define NUMBERS_OF_BARE(place) \
    NUMBER(commands[place].word, 0, 14), NUMBER(commands[place].v, 0, 0), \
        NUMBER(commands[place].w, 0, 0), NUMBER(commands[place].k, 0, 0), \
        NUMBER(commands[place].t, 0, 0), NUMBER(commands[place].n, 0, 0)
#define NUMBERS_OF_KEYED(place) \
    NUMBER(commands[place].word, 5, 8), NUMBER(commands[place].v, 0, 7), \
        NUMBER(commands[place].w, 0, 0), NUMBER(commands[place].k, 0, 1), \
        NUMBER(commands[place].t, 0, 0), NUMBER(commands[place].n, 0, 0)
struct number {
    const char *name;
    size_t place;
    uint32_t from, to;
};
static const struct number numbers[] = {
    NUMBER(form, 1, 1), NUMBER(keys, 2, 8),
    NUMBER(secret_count, 0, 1), NUMBER(secrets[0].key, 0, 1), NUMBER(secrets[0].owner, 0, 0),
    NUMBER(command_count, 1, 5), NUMBERS_OF_BARE(0), NUMBERS_OF_KEYED(1), NUMBERS_OF_KEYED(2),
    NUMBERS_OF_BARE(3), NUMBERS_OF_BARE(4),
    NUMBER(message_count, 0, 1), NUMBER(messages[0].entry_count, 0, 2),
    NUMBER(messages[0].entries[0].key, 0, 0), NUMBER(messages[0].entries[1].key, 1, 1),
    NUMBER(letter_count, 1, 10),
};

/* The same of the record of two owners, for what its form or its secrets decide. */
static const struct number owned_numbers[] = {
    NUMBER(form, 2, 2), NUMBER(keys, 3, 8), NUMBER(secret_count, 0, 2),
    NUMBER(secrets[0].key, 0, 1), NUMBER(secrets[1].key, 2, 2),
    NUMBER(secrets[0].owner, 65, 66), NUMBER(secrets[1].owner, 65, 66),
    NUMBER(command_count, 1, 7), NUMBERS_OF_BARE(0), NUMBERS_OF_BARE(6),
    NUMBER(message_count, 0, 1), NUMBER(messages[0].entry_count, 0, 3),
    NUMBER(letter_count, 1, 21),
};

static void check_number(struct pavebox_job job, const struct number *number, uint32_t value)
{
    memcpy((uint8_t *)&job + number->place, &value, sizeof value);
    decides(number->name, &job, number->from <= value && value <= number->to);
}

/* Each of these numbers pushed out of its limits, by little and by much; where only its low bytes
 * are what they may be; and all small numbers. */
static void check_numbers(struct pavebox_job job, const struct number *number, size_t count)
{
    static const uint32_t values[] = {
        31, 32, 33, 63, 64, 65, 66, 67, 72, 76, 97, 127, 128, 255, 256, 257, 1023, 1024, 1025,
        65535, 65536, 0x7fffffffu, 0x80000000u, 0xaaaaaaabu, 0xfffffff8u, 0xfffffffeu,
        0xffffffffu};
    size_t place;
    for (; count > 0; count--, number++) {
        uint32_t value, old;
        memcpy(&old, (const uint8_t *)&job + number->place, sizeof old);
        for (value = 0; value <= 18; value++)
            check_number(job, number, value);
        for (place = 0; place < COUNT(values); place++)
            check_number(job, number, values[place]);
        for (place = 8; place < 32; place++)
            check_number(job, number, old + ((uint32_t)1 << place));
    }
}

/* Each letter of a record as each byte. Those of its form may stand there. */
static void check_letters(struct pavebox_job job, const char *letters)
{
    unsigned place, byte;
    for (place = 0; place < job.letter_count; place++) {
        const uint8_t old = job.letters[place];
        for (byte = 0; byte < 256; byte++) {
            job.letters[place] = (uint8_t)byte;
            decides("a letter", &job, byte > 0 && strchr(letters, (int)byte) != NULL);
        }
        job.letters[place] = old;
    }
}

/* Dummies, values and the n of set may be any, and have no more digits than they need. */
static void check_any_numbers(void)
{
    static const int32_t values[] = {
        0, 1, 9, 10, 11, 99, 100, 101, 999, 1000, 9999, 10000, 99999, 100000, 999999, 1000000,
        9999999, 10000000, 99999999, 100000000, 999999999, 1000000000, 1999999999, INT32_MAX};
    struct pavebox_job job = sheet_a(0x5a);
    size_t place;
    int sign;
    for (place = 0; place < COUNT(values); place++)
        for (sign = -1; sign <= 1; sign += 2) {
            job.secrets[0].dummy = sign * values[place];
            job.messages[0].entries[1].value = -sign * values[place];
            job.commands[0] = (struct pavebox_command){PAVEBOX_WORD_SET, 3, 0, 0, 0,
                                                       sign * values[place]};
            saves("a number", &job);
        }
    job.secrets[0].dummy = INT32_MIN;
    job.messages[0].entries[0].value = INT32_MIN;
    job.commands[0].n = INT32_MIN;
    saves("the least number", &job);
}

/* A record of eight keys and 64 commands whose last one this is. */
static struct pavebox_job with_command(struct pavebox_command command)
{
    struct pavebox_job job;
    memset(&job, 0x5a, sizeof job);
    put_head(&job, 8);
    while (job.command_count < 63)
        put_command(&job, BARE(PAVEBOX_WORD_STOP));
    put_command(&job, command);
    put_letters(&job, "H");
    return job;
}

/* The greatest operand of each kind there. */
static long long most(char letter)
{
    switch (letter) {
    case 't': return 64;
    case 'n': return INT32_MAX;
    default: return 7;
    }
}

/* One operand of a word, at its limits and beyond them. One that the word lacks has the limit 0. */
static void check_operand(struct pavebox_command command, char letter)
{
    static const long long beyond[] = {15, 16, 63, 65, 66, 255, 256, 257, 65536, INT32_MAX,
                                       0x80000000LL, 0xffffffffLL};
    const int has = strchr(operands_of(command.word), letter) != NULL;
    const long long limit = has ? most(letter) : 0;
    struct pavebox_job job;
    size_t place;
    long long value;
    for (value = 0; value <= 9; value++) {
        set_operand(&command, letter, value);
        job = with_command(command);
        decides("an operand", &job, value <= limit);
    }
    for (place = 0; place < COUNT(beyond); place++) {
        set_operand(&command, letter, beyond[place]);
        job = with_command(command);
        decides("an operand, by much", &job, beyond[place] <= limit || (letter == 'n' && has));
    }
}

/* Each word as its line. */
static void check_words(void)
{
    static const char *const lines[] = {
        "do=set 4 -90\n", "do=add 4 5\n", "do=sub 4 5\n", "do=mul 4 5\n", "do=div 4 5\n",
        "do=read 4 6\n", "do=has 4 6\n", "do=put 6 4\n", "do=drop 6\n", "do=ifneg 4 64\n",
        "do=ifzero 4 64\n", "do=jump 64\n", "do=receive\n", "do=send\n", "do=stop\n"};
    static char text[TEXT_BYTES];
    char *before = text + sprintf(text, "sheet=1\nkeys=8\n");
    uint32_t word, place;
    for (place = 0; place < 63; place++)
        before += sprintf(before, "do=stop\n");
    for (word = 0; word < COUNT(lines); word++) {
        const struct pavebox_command all = {word, 4, 5, 6, 64, -90};
        struct pavebox_command command = BARE(word);
        struct pavebox_job job;
        const char *letter;
        for (letter = operands_of(word); *letter != '\0'; letter++)
            set_operand(&command, *letter, operand(&all, *letter));
        job = with_command(command);
        sprintf(before, "%sturns=H\n", lines[word]);
        write_job(lines[word], &job, LENT, saved(text));
        for (letter = "vwktn"; *letter != '\0'; letter++)
            check_operand(command, *letter);
    }
}

/* Two keys of secrets, and of a message, over all pairs near their limits. */
static void check_key_order(void)
{
    uint32_t one, other;
    for (one = 0; one < 10; one++)
        for (other = 0; other < 10; other++) {
            struct pavebox_job job = smallest(0x5a);
            job.keys = 8;
            put_secret(&job, one, 1);
            put_secret(&job, other, -1);
            decides("two secrets", &job, one < other && other < 8);
            job.secret_count = 0;
            put_message(&job);
            put_message(&job);
            put_entry(&job, one, 1);
            put_entry(&job, other, -1);
            decides("two entries", &job, one < other && other < 8);
        }
    for (one = 1; one <= 8; one++) {
        struct pavebox_job job = smallest(0x5a);
        put_message(&job);
        for (other = 0; other < one; other++) {
            put_secret(&job, other, 0);
            put_entry(&job, other, 0);
        }
        job.keys = one;
        saves("as many secrets and entries as keys", &job);
        job.keys = one - 1;
        refuses("more secrets and entries than keys", &job);
    }
}

/* The fullest record of either form. That of form 2 takes all that any record takes. */
static void check_fullest(struct pavebox_job (*full)(int byte), size_t wanted_length)
{
    static char text[TEXT_BYTES];
    struct pavebox_job job = full(0x5a);
    const size_t length = (size_t)(spell(text, &job) - text);
    check(length == wanted_length, "the fullest record", "length");
    write_job("the fullest record", &job, length, saved(text));
    write_job("the fullest record and as much as any takes", &job, LENT, saved(text));
    write_job("the fullest record and much memory", &job, LENT + 1000, saved(text));
    write_job("the fullest record and a byte too little", &job, length - 1, NO_ROOM);
    write_job("the fullest record and no memory", &job, 0, NO_ROOM);
    job = full(0);
    write_job("the fullest record among zeros", &job, LENT, saved(text));
    job = full(0xff);
    write_job("the fullest record among ones", &job, LENT, saved(text));
}

/* One thing more than the fullest record has, of each kind: there are places for most of them. */
static void check_one_more(struct pavebox_job (*full)(int byte))
{
    struct pavebox_job job = full(0);
    job.keys = 9;
    refuses("nine keys", &job);
    put_owned(&job, 8, 0, job.secrets[0].owner);
    refuses("nine keys and secrets", &job);
    job.keys = 8;
    refuses("nine secrets", &job);
    job = full(0);
    put_command(&job, BARE(PAVEBOX_WORD_STOP));
    refuses("65 commands", &job);
    while (job.command_count < 256)
        put_command(&job, BARE(PAVEBOX_WORD_STOP));
    refuses("256 commands", &job);
    job = full(0);
    put_entry(&job, 8, 0);
    refuses("nine entries", &job);
    job = full('L');
    job.letter_count = 1025;
    refuses("1,025 letters", &job);
}

/* Each place of the fullest record alone, so that none is left untested. The owner and the letter are
 * of the other form. */
static void check_each_place(const struct pavebox_job whole, uint32_t owner, uint8_t letter)
{
    struct pavebox_job job = whole;
    unsigned place, key;
    for (key = 0; key < 8; key++) {
        job.secrets[key].key++;
        refuses("a key of a secret", &job);
        job.secrets[key].key = whole.secrets[key].key;
        job.secrets[key].owner = owner;
        refuses("an owner of a secret", &job);
        job.secrets[key].owner = whole.secrets[key].owner;
    }
    for (place = 0; place < 64; place++) {
        job.commands[place].word = 15;
        refuses("a word", &job);
        job.commands[place] = (struct pavebox_command){PAVEBOX_WORD_JUMP, 0, 0, 0, 65, 0};
        refuses("a target", &job);
        job.commands[place] = whole.commands[place];
    }
    for (place = 0; place < 32; place++) {
        job.messages[place].entry_count = 9;
        refuses("a count of entries", &job);
        job.messages[place].entry_count = 8;
        for (key = 0; key < 8; key++) {
            job.messages[place].entries[key].key++;
            refuses("a key of an entry", &job);
            job.messages[place].entries[key].key--;
        }
    }
    for (place = 0; place < 1024; place++) {
        job.letters[place] = letter;
        write_job("a letter of 1,024", &job, LENT, BAD);
        job.letters[place] = whole.letters[place];
    }
    check(same(&job, &whole, sizeof job), "each place", "put back");
}

/* Counts above the places, up to the greatest number: no place is looked at beyond the record. */
static void check_counts(struct pavebox_job (*full)(int byte))
{
    static const size_t counts[] = {
        offsetof(struct pavebox_job, keys), offsetof(struct pavebox_job, secret_count),
        offsetof(struct pavebox_job, command_count), offsetof(struct pavebox_job, message_count),
        offsetof(struct pavebox_job, messages[0].entry_count),
        offsetof(struct pavebox_job, messages[31].entry_count),
        offsetof(struct pavebox_job, letter_count)};
    static const uint32_t values[] = {1025, 11608, 65537, 0x08000001u, 0x0aaaaaabu, 0x10000001u,
                                      0x20000000u, 0x40000001u, 0x7fffffffu, 0x80000001u,
                                      0xc0000001u, 0xffffffffu};
    size_t count, place;
    for (count = 0; count < COUNT(counts); count++)
        for (place = 0; place < COUNT(values); place++) {
            struct pavebox_job job = full(0);
            memcpy((uint8_t *)&job + counts[count], &values[place], 4);
            refuses("a count of the fullest record", &job);
        }
}

static void check_same_bytes(void)
{
    int byte;
    for (byte = 0; byte < 256; byte++) {
        struct pavebox_job job;
        memset(&job, byte, sizeof job);
        refuses("the same byte everywhere", &job);
    }
}

/* The record in the middle of a larger memory, which stays as it is; aligned to 4 bytes, and to no
 * more. The bytes beside it are letters as well. */
static void check_record_guards(void)
{
    const size_t guard = 20, whole = 20 + sizeof(struct pavebox_job) + 20;
    const struct pavebox_job job = fullest('L');
    uint8_t *around = memory(whole), *before, answer[8];
    static uint8_t output[LENT];
    memset(around, 'L', whole);
    memcpy(around + guard, &job, sizeof job);
    before = copy(around, whole);
    check(call(around + guard, sizeof job, output, LENT, answer, 8) == 0, "guards", "return");
    check(same(around, before, whole), "guards", "the record and the memory around it");
    free(around);
    free(before);
}

static void check_nulls_and_answers(const struct pavebox_job good)
{
    struct pavebox_job bad = good;
    uint8_t answer[8];
    bad.form = 0;
    check_answer_lengths(&entry, &good, sizeof good);
    check_answer_lengths(&entry, &bad, sizeof bad);
    check_short_answer(&entry, &good, sizeof good, 4);
    check_short_answer(&entry, &good, sizeof good, 0);
    check(pavebox_write(&good, NULL, 0, answer, 8) == 55, "no output memory", "return");
    check_answer(&entry, "no output memory", answer, NO_ROOM.numbers);
    check(pavebox_write(&bad, NULL, 0, answer, 8) == 54, "54, no output memory", "return");
    check_answer(&entry, "54, no output memory", answer, BAD.numbers);
    check(pavebox_write(&good, NULL, 0, NULL, 0) == 10, "no memory", "return");
    check(pavebox_write(&bad, NULL, 0, NULL, 0) == 10, "54, no memory", "return");
}

void check_writing(void)
{
    const struct pavebox_job job = sheet_a(0x5a), owned = two_owners(0x5a);
    begin("pavebox_write");
    check_beyond_counts();
    check_output_lengths(job, SHEET_A);
    check_output_lengths(owned, TWO_OWNERS);
    check_changes();
    check_owned_changes();
    check_forms();
    check_numbers(job, numbers, COUNT(numbers));
    check_numbers(owned, owned_numbers, COUNT(owned_numbers));
    check_letters(sheet_a('L'), "LH");
    check_letters(two_owners('L'), "LAB");
    check_any_numbers();
    check_words();
    check_key_order();
    check_fullest(fullest, 6270);
    check_fullest(fullest_2, 6286);
    check_one_more(fullest);
    check_one_more(fullest_2);
    check_each_place(fullest(0x5a), PAVEBOX_OWNER_B, 'A');
    check_each_place(fullest_2(0x5a), 0, 'H');
    check_counts(fullest);
    check_counts(fullest_2);
    check_same_bytes();
    check_guards(&entry, &job, sizeof job, 130, saved(SHEET_A));
    check_guards(&entry, &owned, sizeof owned, 180, saved(TWO_OWNERS));
    check_record_guards();
    check_nulls_and_answers(smallest(0x5a));
    check_nulls_and_answers(owned);
}
