/*
 * What the tests of the entries that take sheets and records share: records made place by place, and
 * their sheets.
 */
#ifndef RECORD_H
#define RECORD_H

#include "pavebox.h"

/* More than the sheet of any record that the tests make, and its end. */
#define TEXT_BYTES (PAVEBOX_MOST_WRITE_OUTPUT_BYTES + 1000u)

/* Document 01's sheet A, of 113 bytes, and the shortest sheet that is accepted, of 31. */
#define SHEET_A \
    "sheet=1\nkeys=2\nsecret=1:300\n" \
    "do=receive\ndo=read 0 1\ndo=put 1 0\ndo=send\ndo=stop\n" \
    "msg=0:1500,1:1480\nturns=LHLHLHLHLH\n"
#define SMALLEST "sheet=1\nkeys=1\ndo=stop\nturns=L\n"

/* A sheet of form 2, of 167 bytes, whose program adds the secrets of both owners, and its parts. */
#define OWNERS_HEAD "sheet=2\nkeys=3\nsecret=1:300:A\nsecret=2:400:B\n"
#define OWNERS_DO \
    "do=receive\ndo=read 0 1\ndo=read 1 2\ndo=add 0 1\ndo=put 1 0\ndo=put 2 0\ndo=send\n"
#define OWNERS_MSG "msg=0:7,1:10,2:20\n"
#define OWNERS_TURNS "turns=LABLABLABLABLABLABLAB\n"
#define TWO_OWNERS OWNERS_HEAD OWNERS_DO OWNERS_MSG OWNERS_TURNS

/* Each of these sets what its counts cover, and no byte more: that is what reading sets. The first
 * two make all counts 0, and the others put one thing more behind what is there. */
void put_head(struct pavebox_job *job, uint32_t keys);
void put_head_2(struct pavebox_job *job, uint32_t keys);
void put_secret(struct pavebox_job *job, uint32_t key, int32_t dummy);
void put_owned(struct pavebox_job *job, uint32_t key, int32_t dummy, uint32_t owner);
void put_command(struct pavebox_job *job, struct pavebox_command command);
void put_message(struct pavebox_job *job);
/* An entry of the last message. */
void put_entry(struct pavebox_job *job, uint32_t key, int32_t value);
void put_letters(struct pavebox_job *job, const char *letters);

/* A command of this word without operands. */
#define BARE(word) ((struct pavebox_command){word, 0, 0, 0, 0, 0})

/* The records of the sheets above. */
void put_sheet_a(struct pavebox_job *job);
void put_smallest(struct pavebox_job *job);
void put_two_owners(struct pavebox_job *job);

/* As many of everything as either form allows, and each number as long as it may be. */
void put_fullest(struct pavebox_job *job);
void put_fullest_2(struct pavebox_job *job);

/* The same records where every other byte of their memory is this one. */
struct pavebox_job sheet_a(int byte);
struct pavebox_job smallest(int byte);
struct pavebox_job two_owners(int byte);
struct pavebox_job fullest(int byte);
struct pavebox_job fullest_2(int byte);

/* The operands of each word, in the order of its line, as letters of "vwktn". */
const char *operands_of(uint32_t word);
long long operand(const struct pavebox_command *command, char letter);
void set_operand(struct pavebox_command *command, char letter, long long value);

/* A command's line, and the sheet of a record, by printf. Each returns the place behind it. */
char *spell_command(char *next, const struct pavebox_command *command);
char *spell(char *text, const struct pavebox_job *job);

#endif
