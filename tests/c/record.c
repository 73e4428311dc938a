/* The record that pavebox_write and pavebox_read share: its layout, and what comes back. */
#include "record.h"

#include "check.h"

#include <stdio.h>
#include <string.h>

void put_head(struct pavebox_job *job, uint32_t keys)
{
    job->form = 1;
    job->keys = keys;
    job->secret_count = 0;
    job->command_count = 0;
    job->message_count = 0;
    job->letter_count = 0;
}

void put_head_2(struct pavebox_job *job, uint32_t keys)
{
    put_head(job, keys);
    job->form = 2;
}

void put_secret(struct pavebox_job *job, uint32_t key, int32_t dummy)
{
    put_owned(job, key, dummy, 0);
}

void put_owned(struct pavebox_job *job, uint32_t key, int32_t dummy, uint32_t owner)
{
    struct pavebox_secret *secret = &job->secrets[job->secret_count++];
    secret->key = key;
    secret->dummy = dummy;
    secret->owner = owner;
}

void put_command(struct pavebox_job *job, struct pavebox_command command)
{
    job->commands[job->command_count++] = command;
}

void put_message(struct pavebox_job *job)
{
    job->messages[job->message_count++].entry_count = 0;
}

void put_entry(struct pavebox_job *job, uint32_t key, int32_t value)
{
    struct pavebox_message *message = &job->messages[job->message_count - 1];
    struct pavebox_entry *entry = &message->entries[message->entry_count++];
    entry->key = key;
    entry->value = value;
}

void put_letters(struct pavebox_job *job, const char *letters)
{
    for (; *letters != '\0'; letters++)
        job->letters[job->letter_count++] = (uint8_t)*letters;
}

void put_sheet_a(struct pavebox_job *job)
{
    put_head(job, 2);
    put_secret(job, 1, 300);
    put_command(job, BARE(12));
    put_command(job, (struct pavebox_command){5, 0, 0, 1, 0, 0});
    put_command(job, (struct pavebox_command){7, 0, 0, 1, 0, 0});
    put_command(job, BARE(13));
    put_command(job, BARE(14));
    put_message(job);
    put_entry(job, 0, 1500);
    put_entry(job, 1, 1480);
    put_letters(job, "LHLHLHLHLH");
}

void put_smallest(struct pavebox_job *job)
{
    put_head(job, 1);
    put_command(job, BARE(14));
    put_letters(job, "L");
}

void put_two_owners(struct pavebox_job *job)
{
    put_head_2(job, 3);
    put_owned(job, 1, 300, 65);
    put_owned(job, 2, 400, 66);
    put_command(job, BARE(12));
    put_command(job, (struct pavebox_command){5, 0, 0, 1, 0, 0});
    put_command(job, (struct pavebox_command){5, 1, 0, 2, 0, 0});
    put_command(job, (struct pavebox_command){1, 0, 1, 0, 0, 0});
    put_command(job, (struct pavebox_command){7, 0, 0, 1, 0, 0});
    put_command(job, (struct pavebox_command){7, 0, 0, 2, 0, 0});
    put_command(job, BARE(13));
    put_message(job);
    put_entry(job, 0, 7);
    put_entry(job, 1, 10);
    put_entry(job, 2, 20);
    put_letters(job, "LABLABLABLABLABLABLAB");
}

/* The commands and messages of the fullest record of either form. */
static void put_full_program(struct pavebox_job *job)
{
    uint32_t place, key;
    for (place = 0; place < 64; place++)
        put_command(job, (struct pavebox_command){0, 7, 0, 0, 0, INT32_MIN});
    for (place = 0; place < 32; place++) {
        put_message(job);
        for (key = 0; key < 8; key++)
            put_entry(job, key, INT32_MIN);
    }
}

void put_fullest(struct pavebox_job *job)
{
    uint32_t place, key;
    put_head(job, 8);
    for (key = 0; key < 8; key++)
        put_secret(job, key, INT32_MIN);
    put_full_program(job);
    for (place = 0; place < 512; place++)
        put_letters(job, "LH");
}

void put_fullest_2(struct pavebox_job *job)
{
    uint32_t place, key;
    put_head_2(job, 8);
    for (key = 0; key < 8; key++)
        put_owned(job, key, INT32_MIN, 65 + key % 2);
    put_full_program(job);
    for (place = 0; place < 256; place++)
        put_letters(job, "LABA");
}

/* What one of these puts, in memory of this byte. */
static struct pavebox_job filled(int byte, void (*put)(struct pavebox_job *job))
{
    struct pavebox_job job;
    memset(&job, byte, sizeof job);
    put(&job);
    return job;
}

struct pavebox_job sheet_a(int byte)
{
    return filled(byte, put_sheet_a);
}

struct pavebox_job smallest(int byte)
{
    return filled(byte, put_smallest);
}

struct pavebox_job two_owners(int byte)
{
    return filled(byte, put_two_owners);
}

struct pavebox_job fullest(int byte)
{
    return filled(byte, put_fullest);
}

struct pavebox_job fullest_2(int byte)
{
    return filled(byte, put_fullest_2);
}

/* The words by their numbers, in the order of document 01's table. */
static const struct {
    const char *name, *operands;
} words[] = {
    {"set", "vn"}, {"add", "vw"}, {"sub", "vw"}, {"mul", "vw"}, {"div", "vw"},
    {"read", "vk"}, {"has", "vk"}, {"put", "kv"}, {"drop", "k"}, {"ifneg", "vt"},
    {"ifzero", "vt"}, {"jump", "t"}, {"receive", ""}, {"send", ""}, {"stop", ""},
};

const char *operands_of(uint32_t word)
{
    return words[word].operands;
}

long long operand(const struct pavebox_command *command, char letter)
{
    switch (letter) {
    case 'v': return command->v;
    case 'w': return command->w;
    case 'k': return command->k;
    case 't': return command->t;
    default: return command->n;
    }
}

void set_operand(struct pavebox_command *command, char letter, long long value)
{
    switch (letter) {
    case 'v': command->v = (uint32_t)value; break;
    case 'w': command->w = (uint32_t)value; break;
    case 'k': command->k = (uint32_t)value; break;
    case 't': command->t = (uint32_t)value; break;
    default: command->n = (int32_t)value; break;
    }
}

char *spell_command(char *next, const struct pavebox_command *command)
{
    const char *letter;
    next += sprintf(next, "do=%s", words[command->word].name);
    for (letter = operands_of(command->word); *letter != '\0'; letter++)
        next += sprintf(next, " %lld", operand(command, *letter));
    return next + sprintf(next, "\n");
}

static char *spell_message(char *next, const struct pavebox_message *message)
{
    uint32_t place;
    next += sprintf(next, "msg=");
    for (place = 0; place < message->entry_count; place++)
        next += sprintf(next, "%s%lu:%ld", place > 0 ? "," : "",
                        (unsigned long)message->entries[place].key,
                        (long)message->entries[place].value);
    return next + sprintf(next, "\n");
}

/* A secret's line, with its owner in form 2. */
static char *spell_secret(char *next, uint32_t form, const struct pavebox_secret *secret)
{
    next += sprintf(next, "secret=%lu:%ld", (unsigned long)secret->key, (long)secret->dummy);
    if (form == 2)
        next += sprintf(next, ":%c", (int)secret->owner);
    return next + sprintf(next, "\n");
}

char *spell(char *text, const struct pavebox_job *job)
{
    char *next = text;
    uint32_t place;
    next += sprintf(next, "sheet=%lu\nkeys=%lu\n", (unsigned long)job->form,
                    (unsigned long)job->keys);
    for (place = 0; place < job->secret_count; place++)
        next = spell_secret(next, job->form, &job->secrets[place]);
    for (place = 0; place < job->command_count; place++)
        next = spell_command(next, &job->commands[place]);
    for (place = 0; place < job->message_count; place++)
        next = spell_message(next, &job->messages[place]);
    next += sprintf(next, "turns=");
    for (place = 0; place < job->letter_count; place++)
        *next++ = (char)job->letters[place];
    return next + sprintf(next, "\n");
}

/* Each number of the record and the last of each kind of place, where the layout has them. */
#define AT(member, place) {#member, offsetof(struct pavebox_job, member), place}
static const struct {
    const char *name;
    size_t found, wanted;
} layout[] = {
    AT(form, 0), AT(keys, 4), AT(secret_count, 8),
    AT(secrets, 12), AT(secrets[0].key, 12), AT(secrets[0].dummy, 16), AT(secrets[0].owner, 20),
    AT(secrets[1].key, 24), AT(secrets[15].owner, 200),
    AT(command_count, 204),
    AT(commands, 208), AT(commands[0].word, 208), AT(commands[0].v, 212), AT(commands[0].w, 216),
    AT(commands[0].k, 220), AT(commands[0].t, 224), AT(commands[0].n, 228),
    AT(commands[1].word, 232), AT(commands[63].n, 1740), AT(commands[255].n, 6348),
    AT(message_count, 6352),
    AT(messages, 6356), AT(messages[0].entry_count, 6356), AT(messages[0].entries, 6360),
    AT(messages[0].entries[0].key, 6360), AT(messages[0].entries[0].value, 6364),
    AT(messages[0].entries[1].key, 6368), AT(messages[0].entries[15].value, 6484),
    AT(messages[1].entry_count, 6488), AT(messages[31].entries[15].value, 10576),
    AT(letter_count, 10580),
    AT(letters, 10584), AT(letters[1023], 11607),
};

static void check_layout(void)
{
    const struct pavebox_job *job = NULL;
    size_t place;
    for (place = 0; place < COUNT(layout); place++)
        check(layout[place].found == layout[place].wanted, layout[place].name, "place");
    check(sizeof *job == 11608 && PAVEBOX_JOB_BYTES == 11608, "struct pavebox_job", "size");
    check(sizeof job->secrets[0] == 12, "struct pavebox_secret", "size");
    check(sizeof job->commands[0] == 24, "struct pavebox_command", "size");
    check(sizeof job->messages[0] == 132, "struct pavebox_message", "size");
    check(sizeof job->messages[0].entries[0] == 8, "struct pavebox_entry", "size");
    check(COUNT(job->secrets) == 16 && COUNT(job->messages[0].entries) == 16
              && PAVEBOX_KEY_PLACES == 16,
          "PAVEBOX_KEY_PLACES", "count");
    check(COUNT(job->commands) == 256 && PAVEBOX_COMMAND_PLACES == 256, "PAVEBOX_COMMAND_PLACES",
          "count");
    check(COUNT(job->messages) == 32 && PAVEBOX_MESSAGE_PLACES == 32, "PAVEBOX_MESSAGE_PLACES",
          "count");
    check(COUNT(job->letters) == 1024 && PAVEBOX_LETTER_PLACES == 1024, "PAVEBOX_LETTER_PLACES",
          "count");
}

/* The header's name of each word, by its number. */
static void check_words(void)
{
    static const uint32_t named[] = {
        PAVEBOX_WORD_SET, PAVEBOX_WORD_ADD, PAVEBOX_WORD_SUB, PAVEBOX_WORD_MUL, PAVEBOX_WORD_DIV,
        PAVEBOX_WORD_READ, PAVEBOX_WORD_HAS, PAVEBOX_WORD_PUT, PAVEBOX_WORD_DROP,
        PAVEBOX_WORD_IFNEG, PAVEBOX_WORD_IFZERO, PAVEBOX_WORD_JUMP, PAVEBOX_WORD_RECEIVE,
        PAVEBOX_WORD_SEND, PAVEBOX_WORD_STOP,
    };
    uint32_t word;
    check(COUNT(named) == 15 && COUNT(words) == 15, "words", "count");
    for (word = 0; word < COUNT(named); word++)
        check(named[word] == word, words[word].name, "number");
}

static void check_constants(void)
{
    check(PAVEBOX_BAD_RECORD == 54 && PAVEBOX_NO_ROOM_FOR_SHEET == 55 && PAVEBOX_BAD_OWNER == 46,
          "refusals", "numbers");
    check(PAVEBOX_OWNER_A == 65 && PAVEBOX_OWNER_B == 66, "owners", "numbers");
    check(PAVEBOX_WRITTEN == 0 && PAVEBOX_ACCEPTED == 0, "success", "number");
    check(PAVEBOX_WRITE_ANSWER_BYTES == 8 && PAVEBOX_JOB_ANSWER_BYTES == 8, "answers", "bytes");
    check(PAVEBOX_MOST_WRITE_OUTPUT_BYTES == 6286, "PAVEBOX_MOST_WRITE_OUTPUT_BYTES", "bytes");
}

/* Save, open, save again: the same record where it is opened over the same memory, the same bytes
 * where it is opened over any other. */
static void check_round(const char *name, const struct pavebox_job *job)
{
    static const int other[] = {0, 'L', 0xff};
    static uint8_t first[TEXT_BYTES], second[TEXT_BYTES];
    static char text[TEXT_BYTES];
    struct pavebox_job opened = *job;
    const size_t length = (size_t)(spell(text, job) - text);
    uint8_t answer[8];
    size_t place;
    check(pavebox_write(job, first, length, answer, 8) == 0, name, "saved");
    check(same(first, text, length), name, "the sheet");
    check(pavebox_read(first, length, &opened, answer, 8) == 0, name, "opened");
    check(same(&opened, job, sizeof opened), name, "the record, opened over itself");
    for (place = 0; place < COUNT(other); place++) {
        memset(&opened, other[place], sizeof opened);
        memset(second, 0, sizeof second);
        check(pavebox_read(first, length, &opened, answer, 8) == 0, name, "opened elsewhere");
        check(pavebox_write(&opened, second, sizeof second, answer, 8) == 0, name, "saved again");
        check(pavebox_read_number(answer + 4) == length, name, "bytes, saved again");
        check(same(first, second, length), name, "the sheet, saved again");
    }
}

/* A record with each of the words, and numbers of every width with either sign. */
static void put_varied(struct pavebox_job *job)
{
    static const char letters[] = "vwktn";
    uint32_t word, key;
    int32_t number = 7;
    const char *letter;
    put_head(job, 5);
    for (key = 1; key < 5; key += 2)
        put_secret(job, key, (int32_t)key - 4);
    for (word = 0; word < 15; word++) {
        struct pavebox_command command = BARE(word);
        for (letter = letters; *letter != '\0'; letter++)
            if (strchr(operands_of(word), *letter) != NULL)
                set_operand(&command, *letter, *letter == 't' ? 15 : letter - letters + 1);
        put_command(job, command);
    }
    for (key = 0; key < 10; key++) {
        put_message(job);
        put_entry(job, key / 4, number);
        put_entry(job, key / 4 + 1, -number);
        put_message(job);
        number = key < 8 ? number * 10 + 7 : INT32_MAX;
    }
    put_letters(job, "HHHHHLLL");
}

static void check_rounds(void)
{
    struct pavebox_job job = sheet_a(0x5a);
    check_round("sheet A", &job);
    job.secrets[0].dummy = -12;
    job.messages[0].entry_count = 1;
    check_round("sheet A, changed", &job);
    job.message_count = 0;
    job.secret_count = 0;
    check_round("sheet A without secret and message", &job);
    job = smallest(0x5a);
    check_round("the smallest record", &job);
    job = fullest(0x5a);
    check_round("the fullest record", &job);
    put_varied(&job);
    check_round("each word", &job);
}

/* The same of form 2, with each owner at each secret, and with letters of one execution alone. */
static void check_rounds_2(void)
{
    struct pavebox_job job = two_owners(0x5a);
    check_round("two owners", &job);
    job.secrets[0].owner = 66;
    check_round("owner B alone", &job);
    job.secrets[0].dummy = -12;
    job.secrets[1].owner = 65;
    check_round("owners the other way round", &job);
    job.message_count = 0;
    job.secret_count = 0;
    check_round("form 2 without secret and message", &job);
    memset(job.letters, 'B', job.letter_count);
    check_round("turns of B alone", &job);
    job = fullest_2(0x5a);
    check_round("the fullest record of form 2", &job);
    job = smallest(0x5a);
    job.form = 2;
    check_round("the smallest record of form 2", &job);
}

void check_record(void)
{
    begin("the record");
    check_layout();
    check_words();
    check_constants();
    check_rounds();
    check_rounds_2();
}
