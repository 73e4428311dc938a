/*
 * The confidential run of one sheet: a low execution and a high one, or one for each of two owners of
 * secrets, and one message; the msg lines of a sheet out of the export of a belt log; its do lines out
 * of a program with blocks; a sheet opened as a record and saved from one; and a sheet of one form
 * turned into the other. Link with libpavebox.a. Where read-only memory is short, link with
 * -Wl,--gc-sections: then only what the called entries need is kept.
 *
 * A sheet has one of two forms, which its first line names. In form 1, sheet=1, the secrets have no
 * owners, and the letters of turns are L and H. In form 2, sheet=2, each secret has an owner, A or B,
 * and the letters are L, A and B: three executions. Every entry that takes a sheet or a record takes
 * both forms. docs/SHEETS.md says what they mean, docs/FORMS.md when one can be turned into the other.
 *
 * Stack, as measured on x86-64, in KB of 1,024 bytes: pavebox_run takes 20, pavebox_csv 7,
 * pavebox_blocks 7, pavebox_write 18, pavebox_read 40, pavebox_to_sheet2 18 and pavebox_to_sheet1 18.
 */
#ifndef PAVEBOX_H
#define PAVEBOX_H

#include <stddef.h>
#include <stdint.h>

#ifdef __cplusplus
extern "C" {
#endif

/* The answer memory has exactly this many bytes. */
#define PAVEBOX_ANSWER_BYTES 28u

/* A longer sheet is refused. A host that reads one byte more can tell that a sheet is longer. */
#define PAVEBOX_MOST_SHEET_BYTES 16384u

/* No run sends more than this: 1,024 lines of 106 bytes. With this much output memory, or more,
 * PAVEBOX_NO_ROOM never occurs. */
#define PAVEBOX_MOST_OUTPUT_BYTES 108544u

/* Endings: the sheet was accepted and ran. */
#define PAVEBOX_STOPPED 0u       /* the low execution has stopped */
#define PAVEBOX_LETTERS_USED 31u /* it has not, and all letters are used */
#define PAVEBOX_NO_ROOM 32u      /* it has not, and the output memory has no room for its line */

/* Refusals: nothing ran, and the output memory is untouched. */
#define PAVEBOX_SHEET_TOO_LONG 1u /* more than 16,384 bytes */
#define PAVEBOX_BAD_BYTE 2u       /* a forbidden byte, no line feed at the end, or an empty sheet */
#define PAVEBOX_BAD_NAME 3u       /* a name that may not stand here, no '=', or an early end */
#define PAVEBOX_BAD_NUMBER 4u     /* a malformed number, one beyond its limit, or a missing colon */
#define PAVEBOX_BAD_KEY_ORDER 5u  /* a key that is not greater than the one before it */
#define PAVEBOX_BAD_COMMAND 6u    /* an unknown command word, or a wrong count of parts */
#define PAVEBOX_BAD_TARGET 7u     /* a target that exceeds the count of commands */
#define PAVEBOX_TOO_MANY 8u       /* a 65th command, a 33rd message, a 1,025th byte of turns */
#define PAVEBOX_BAD_TURNS 9u      /* no turn, or a letter other than L and H, in form 2 other than
                                     L, A and B */
#define PAVEBOX_BAD_ANSWER 10u    /* the answer memory has another length than the entry's answer
                                     takes */
#define PAVEBOX_BAD_OWNER 46u     /* form 2: the owner of a secret is neither A nor B */

/*
 * Reads the sheet and runs it to its ending.
 *
 * sheet, sheet_len    the sheet's bytes, which are only read. Any bytes will do.
 * output, output_len  the output memory. The sent lines go to its start, one after the other;
 *                     behind them, and everywhere if the sheet is refused, it keeps its bytes.
 * answer, answer_len  the answer memory: 28 bytes for the seven numbers, see pavebox_read_answer.
 *
 * Returns the ending or the refusal, which is also the first of the seven numbers. If answer_len
 * is not 28 it returns PAVEBOX_BAD_ANSWER and writes nothing.
 *
 * Each pointer is to that many bytes; with a length of 0 it may be NULL. The three ranges do not
 * overlap. Both are the caller's duty. Alignment does not matter.
 */
uint32_t pavebox_run(const uint8_t *sheet, size_t sheet_len,
                     uint8_t *output, size_t output_len,
                     uint8_t *answer, size_t answer_len);

/* The seven numbers of an answer. After a refusal the last five are 0. */
struct pavebox_answer {
    uint32_t ending;    /* an ending or a refusal, as above */
    uint32_t line;      /* the line that is refused, from 1; 0 if there is none */
    uint32_t positions; /* letters of turns whose turns were taken */
    uint32_t low_steps; /* letters L among them */
    uint32_t written;   /* bytes of sent lines at the start of the output memory */
    uint32_t taken;     /* message lines taken */
    uint32_t clamped;   /* results of the low execution's add, sub, mul and div that were clamped */
};

/* One number from four bytes, low byte first. */
static inline uint32_t pavebox_read_number(const uint8_t *bytes)
{
    return (uint32_t)bytes[0] | (uint32_t)bytes[1] << 8 | (uint32_t)bytes[2] << 16
           | (uint32_t)bytes[3] << 24;
}

/* The seven numbers from the 28 bytes that pavebox_run has filled. It is of pavebox_run alone: each
 * other entry has a shorter answer, and a function of its own for it. */
static inline struct pavebox_answer pavebox_read_answer(const uint8_t *answer)
{
    struct pavebox_answer numbers;
    numbers.ending = pavebox_read_number(answer);
    numbers.line = pavebox_read_number(answer + 4);
    numbers.positions = pavebox_read_number(answer + 8);
    numbers.low_steps = pavebox_read_number(answer + 12);
    numbers.written = pavebox_read_number(answer + 16);
    numbers.taken = pavebox_read_number(answer + 20);
    numbers.clamped = pavebox_read_number(answer + 24);
    return numbers;
}

/* The answer memory of pavebox_csv has exactly this many bytes. */
#define PAVEBOX_CSV_ANSWER_BYTES 12u

/* No export gives more than this: 32 lines of 116 bytes. With this much output memory, or more,
 * PAVEBOX_NO_ROOM_FOR_LINES never occurs. */
#define PAVEBOX_MOST_CSV_OUTPUT_BYTES 3712u

/* The export was accepted, or the program, and its lines are in the output memory; or the record, and
 * its sheet is there; or the sheet, and it is there in its other form. */
#define PAVEBOX_WRITTEN 0u

/* Refusals of an export: the output memory is untouched. PAVEBOX_TOO_MANY (a 33rd message) and
 * PAVEBOX_BAD_ANSWER (the answer memory is not exactly 12 bytes) are further ones. */
#define PAVEBOX_BAD_ROW 41u           /* a quote mark, a bare carriage return or line feed, an
                                         unfinished last row, an empty export, or another count of
                                         fields than the first row has */
#define PAVEBOX_BAD_FIELD 42u         /* a bad number, or a key that does not rise */
#define PAVEBOX_NO_ROOM_FOR_LINES 43u /* the output memory is shorter than the lines */

/*
 * Makes a msg line of a sheet out of each row of an export but the first, which has the keys.
 *
 * log, log_len        the export's bytes, which are only read. Any bytes will do, and any number.
 * output, output_len  the output memory. The lines go to its start, one after the other; behind
 *                     them, and everywhere if the export is refused, it keeps its bytes.
 * answer, answer_len  the answer memory: 12 bytes for three numbers, see pavebox_read_csv_answer.
 *
 * Returns PAVEBOX_WRITTEN or the refusal, which is also the first of the three numbers. If
 * answer_len is not 12 it returns PAVEBOX_BAD_ANSWER and writes nothing.
 *
 * The caller's duties are those of pavebox_run.
 */
uint32_t pavebox_csv(const uint8_t *log, size_t log_len,
                     uint8_t *output, size_t output_len,
                     uint8_t *answer, size_t answer_len);

/* The three numbers of an answer of pavebox_csv. */
struct pavebox_csv_answer {
    uint32_t number;  /* PAVEBOX_WRITTEN or a refusal, as above */
    uint32_t row;     /* the row that is refused, from 1; 0 if there is none */
    uint32_t written; /* bytes of msg lines at the start of the output memory */
};

/* The three numbers from the 12 bytes that pavebox_csv has filled. */
static inline struct pavebox_csv_answer pavebox_read_csv_answer(const uint8_t *answer)
{
    struct pavebox_csv_answer numbers;
    numbers.number = pavebox_read_number(answer);
    numbers.row = pavebox_read_number(answer + 4);
    numbers.written = pavebox_read_number(answer + 8);
    return numbers;
}

/* The answer memory of pavebox_blocks has exactly this many bytes. */
#define PAVEBOX_BLOCKS_ANSWER_BYTES 12u

/* No program gives more than this: 64 lines of 21 bytes. With this much output memory, or more,
 * PAVEBOX_NO_ROOM_FOR_COMMANDS occurs for more than 64 commands only. */
#define PAVEBOX_MOST_BLOCKS_OUTPUT_BYTES 1344u

/* Refusals of a program: the output memory is untouched. PAVEBOX_BAD_BYTE, PAVEBOX_BAD_NUMBER (at line
 * 0: the count of keys), PAVEBOX_BAD_COMMAND and PAVEBOX_BAD_ANSWER (the answer memory is not exactly
 * 12 bytes) are further ones. Success is PAVEBOX_WRITTEN. */
#define PAVEBOX_BAD_BLOCK 51u            /* an else not directly in the first body of an if, an end
                                            outside blocks, or a missing end */
#define PAVEBOX_TOO_DEEP 52u             /* a ninth level of blocks */
#define PAVEBOX_NO_ROOM_FOR_COMMANDS 53u /* more than 64 commands, or the output memory is shorter
                                            than the lines */

/*
 * Makes the do lines of a sheet out of a program with blocks: if, else, while and end in place of
 * jumps.
 *
 * text, text_len      the program's bytes, which are only read. Any bytes will do, and any number.
 * keys                the count of keys of the sheet that the lines are for, from 1 to 8.
 * output, output_len  the output memory. The lines go to its start, one after the other; behind
 *                     them, and everywhere if the program is refused, it keeps its bytes.
 * answer, answer_len  the answer memory: 12 bytes for three numbers, see
 *                     pavebox_read_blocks_answer.
 *
 * Returns PAVEBOX_WRITTEN or the refusal, which is also the first of the three numbers. If
 * answer_len is not 12 it returns PAVEBOX_BAD_ANSWER and writes nothing.
 *
 * The caller's duties are those of pavebox_run.
 */
uint32_t pavebox_blocks(const uint8_t *text, size_t text_len, uint32_t keys,
                        uint8_t *output, size_t output_len,
                        uint8_t *answer, size_t answer_len);

/* The three numbers of an answer of pavebox_blocks. */
struct pavebox_blocks_answer {
    uint32_t number;  /* PAVEBOX_WRITTEN or a refusal, as above */
    uint32_t line;    /* the line that is refused, from 1; 0 if there is none. Of a line beyond
                         4,294,967,295 the low 32 bits */
    uint32_t written; /* bytes of do lines at the start of the output memory */
};

/* The three numbers from the 12 bytes that pavebox_blocks has filled. */
static inline struct pavebox_blocks_answer pavebox_read_blocks_answer(const uint8_t *answer)
{
    struct pavebox_blocks_answer numbers;
    numbers.number = pavebox_read_number(answer);
    numbers.line = pavebox_read_number(answer + 4);
    numbers.written = pavebox_read_number(answer + 8);
    return numbers;
}

/*
 * A job as a record: what the lines of a sheet say, as plain numbers, for a screen that shows and
 * changes them. pavebox_read makes it of a sheet, and pavebox_write makes a sheet of it.
 *
 * The counts say how much of it there is. Beyond them anything may stand: it is neither tested nor
 * written, and reading a sheet keeps it as it was. Within them every number that a sheet has a limit
 * for has the same limit here, an operand that a command's word lacks is 0, and so is the owner of a
 * secret in form 1. So a record says nothing that its sheet does not say, and an accepted sheet is
 * the only one of its record.
 *
 * The record holds both forms of sheets, whose limits are the same. It has places for more keys and
 * commands than they allow, so that its layout need not change. It has no padding.
 */
#define PAVEBOX_KEY_PLACES 16u      /* secrets, and entries of a message: at most K, 1 to 8 */
#define PAVEBOX_COMMAND_PLACES 256u /* 1 to 64 */
#define PAVEBOX_MESSAGE_PLACES 32u  /* none or more */
#define PAVEBOX_LETTER_PLACES 1024u /* 1 or more */
#define PAVEBOX_JOB_BYTES 11608u

/* The words of commands, and which of the operands v, w, k, t and n each has. */
#define PAVEBOX_WORD_SET 0u      /* v n */
#define PAVEBOX_WORD_ADD 1u      /* v w */
#define PAVEBOX_WORD_SUB 2u      /* v w */
#define PAVEBOX_WORD_MUL 3u      /* v w */
#define PAVEBOX_WORD_DIV 4u      /* v w */
#define PAVEBOX_WORD_READ 5u     /* v k */
#define PAVEBOX_WORD_HAS 6u      /* v k */
#define PAVEBOX_WORD_PUT 7u      /* k v */
#define PAVEBOX_WORD_DROP 8u     /* k */
#define PAVEBOX_WORD_IFNEG 9u    /* v t */
#define PAVEBOX_WORD_IFZERO 10u  /* v t */
#define PAVEBOX_WORD_JUMP 11u    /* t */
#define PAVEBOX_WORD_RECEIVE 12u /* none */
#define PAVEBOX_WORD_SEND 13u    /* none */
#define PAVEBOX_WORD_STOP 14u    /* none */

/* The owners of secrets in form 2: the bytes of their letters. */
#define PAVEBOX_OWNER_A 65u
#define PAVEBOX_OWNER_B 66u

/* A line secret=key:dummy, in form 2 secret=key:dummy:owner. */
struct pavebox_secret {
    uint32_t key;   /* below K, and greater than that of the secret before it */
    int32_t dummy;  /* any number */
    uint32_t owner; /* form 1: 0; form 2: PAVEBOX_OWNER_A or PAVEBOX_OWNER_B */
};

/* A line do=command. An operand that the word lacks is 0. */
struct pavebox_command {
    uint32_t word; /* as above */
    uint32_t v, w; /* variables, at most 7 */
    uint32_t k;    /* a key, below K */
    uint32_t t;    /* a target, at most the count of commands */
    int32_t n;     /* any number */
};

/* A part key:value of a line msg. */
struct pavebox_entry {
    uint32_t key;  /* below K, and greater than that of the entry before it */
    int32_t value; /* any number */
};

/* A line msg, with one entry for each of its parts. */
struct pavebox_message {
    uint32_t entry_count; /* at most K */
    struct pavebox_entry entries[PAVEBOX_KEY_PLACES];
};

struct pavebox_job {
    uint32_t form; /* the number behind sheet=, 1 or 2 */
    uint32_t keys; /* K, the number behind keys= */
    uint32_t secret_count;
    struct pavebox_secret secrets[PAVEBOX_KEY_PLACES];
    uint32_t command_count;
    struct pavebox_command commands[PAVEBOX_COMMAND_PLACES];
    uint32_t message_count;
    struct pavebox_message messages[PAVEBOX_MESSAGE_PLACES];
    uint32_t letter_count;
    uint8_t letters[PAVEBOX_LETTER_PLACES]; /* the bytes behind turns=; form 1: 'L' and 'H'; form 2:
                                               'L', 'A' and 'B' */
};

/* Does not compile where the record has another size. */
typedef char pavebox_job_size_check[sizeof(struct pavebox_job) == PAVEBOX_JOB_BYTES ? 1 : -1];

/* The answer memory of pavebox_write has exactly this many bytes. */
#define PAVEBOX_WRITE_ANSWER_BYTES 8u

/* No sheet that is written is longer: the longest of form 2 has so many bytes, that of form 1 has 16
 * less. With this much output memory, or more, PAVEBOX_NO_ROOM_FOR_SHEET never occurs. */
#define PAVEBOX_MOST_WRITE_OUTPUT_BYTES 6286u

/* Refusals of a record: the output memory is untouched. PAVEBOX_BAD_ANSWER (the answer memory is not
 * exactly 8 bytes) is a further one. Success is PAVEBOX_WRITTEN. */
#define PAVEBOX_BAD_RECORD 54u        /* a number or count outside its limits, an operand that should be
                                         0, an owner or a letter that the record's form does not have,
                                         keys that do not rise, or a target that exceeds the count of
                                         commands */
#define PAVEBOX_NO_ROOM_FOR_SHEET 55u /* the output memory is shorter than the sheet */

/*
 * Writes the sheet of a record.
 *
 * job                 the record, which is only read. Any numbers will do.
 * output, output_len  the output memory. The sheet goes to its start; behind it, and everywhere if
 *                     the record is refused, it keeps its bytes.
 * answer, answer_len  the answer memory: 8 bytes for two numbers, see pavebox_read_write_answer.
 *
 * Returns PAVEBOX_WRITTEN or the refusal, which is also the first of the two numbers. If answer_len
 * is not 8 it returns PAVEBOX_BAD_ANSWER and writes nothing.
 *
 * Reading what was written gives the same record in all that its counts cover.
 *
 * The caller's duties for both ranges are those of pavebox_run: each pointer is to that many bytes,
 * with a length of 0 it may be NULL, and alignment does not matter. job is never NULL and points to a
 * whole record, aligned to 4 bytes, each byte of which has been set, those beyond the counts too; it
 * does not overlap the ranges.
 */
uint32_t pavebox_write(const struct pavebox_job *job,
                       uint8_t *output, size_t output_len,
                       uint8_t *answer, size_t answer_len);

/* The two numbers of an answer of pavebox_write. */
struct pavebox_write_answer {
    uint32_t number;  /* PAVEBOX_WRITTEN or a refusal, as above */
    uint32_t written; /* bytes of the sheet at the start of the output memory */
};

/* The two numbers from the 8 bytes that pavebox_write has filled. */
static inline struct pavebox_write_answer pavebox_read_write_answer(const uint8_t *answer)
{
    struct pavebox_write_answer numbers;
    numbers.number = pavebox_read_number(answer);
    numbers.written = pavebox_read_number(answer + 4);
    return numbers;
}

/* The answer memory of pavebox_read has exactly this many bytes. */
#define PAVEBOX_JOB_ANSWER_BYTES 8u

/* The sheet was accepted, and its record is there. */
#define PAVEBOX_ACCEPTED 0u

/*
 * Reads a sheet into a record.
 *
 * sheet, sheet_len    the sheet's bytes, which are only read. Any bytes will do.
 * job                 the record. What its new counts do not cover keeps its bytes: places beyond a
 *                     count, and in a message the entries beyond its own. If the sheet is refused,
 *                     the whole record does.
 * answer, answer_len  the answer memory: 8 bytes for two numbers, see pavebox_read_job_answer.
 *
 * Returns PAVEBOX_ACCEPTED or the refusal, which is also the first of the two numbers; it and the
 * line are those that pavebox_run gives for the sheet. If answer_len is not 8 it returns
 * PAVEBOX_BAD_ANSWER and writes nothing, neither there nor in the record.
 *
 * Writing the record gives the bytes of the sheet.
 *
 * The caller's duties are those of pavebox_write. So before a record is read into for the first time
 * its bytes are set, to anything.
 */
uint32_t pavebox_read(const uint8_t *sheet, size_t sheet_len,
                      struct pavebox_job *job,
                      uint8_t *answer, size_t answer_len);

/* The two numbers of an answer of pavebox_read. */
struct pavebox_job_answer {
    uint32_t number; /* PAVEBOX_ACCEPTED or a refusal of the sheet */
    uint32_t line;   /* the line that is refused, from 1; 0 if there is none */
};

/* The two numbers from the 8 bytes that pavebox_read has filled. */
static inline struct pavebox_job_answer pavebox_read_job_answer(const uint8_t *answer)
{
    struct pavebox_job_answer numbers;
    numbers.number = pavebox_read_number(answer);
    numbers.line = pavebox_read_number(answer + 4);
    return numbers;
}

/* The answer memory of pavebox_to_sheet2 and that of pavebox_to_sheet1 have exactly this many bytes. */
#define PAVEBOX_FORM_ANSWER_BYTES 12u

/* No sheet that is turned into form 2, and none that is turned into form 1, is longer than this. With
 * so much output memory, or more, PAVEBOX_NO_ROOM_FOR_FORM never occurs. */
#define PAVEBOX_MOST_SHEET2_BYTES 6286u
#define PAVEBOX_MOST_SHEET1_BYTES 6270u

/* Refusals of a sheet that is to be turned: the output memory is untouched. Those of reading it, which
 * pavebox_run gives too, and PAVEBOX_BAD_ANSWER (the answer memory is not exactly 12 bytes) are further
 * ones, and come first; then these, in the order 48, 47, 49, all at line 0. Success is
 * PAVEBOX_WRITTEN. */
#define PAVEBOX_CANNOT_GO_BACK 47u   /* pavebox_to_sheet1 only: a secret has the owner B, or a turn is
                                        B's, which form 1 cannot say */
#define PAVEBOX_HAS_THE_FORM 48u     /* the sheet already has the form asked for */
#define PAVEBOX_NO_ROOM_FOR_FORM 49u /* the output memory is shorter than the sheet in its other form */

/*
 * Turns a sheet of form 1 into one of form 2: the first line becomes sheet=2, each secret gets the
 * owner A, so that its line gains :A, and each H of the turns becomes A. All other lines keep their
 * bytes.
 *
 * sheet, sheet_len    the sheet's bytes, which are only read. Any bytes will do.
 * output, output_len  the output memory. The turned sheet goes to its start; behind it, and everywhere
 *                     if the sheet is refused, it keeps its bytes.
 * answer, answer_len  the answer memory: 12 bytes for three numbers, see pavebox_read_form_answer.
 *
 * Returns PAVEBOX_WRITTEN or the refusal, which is also the first of the three numbers. If
 * answer_len is not 12 it returns PAVEBOX_BAD_ANSWER and writes nothing.
 *
 * On the same output memory pavebox_run gives the turned sheet the same seven numbers and leaves the
 * same bytes, and pavebox_to_sheet1 gives the first bytes back.
 *
 * The caller's duties are those of pavebox_run. So the output memory is not the sheet's own.
 */
uint32_t pavebox_to_sheet2(const uint8_t *sheet, size_t sheet_len,
                           uint8_t *output, size_t output_len,
                           uint8_t *answer, size_t answer_len);

/*
 * Turns a sheet of form 2 back into one of form 1: the first line becomes sheet=1, each secret's line
 * loses its :A, and each A of the turns becomes H. What is B's has no place in form 1, and gets
 * PAVEBOX_CANNOT_GO_BACK. All else is as above, and pavebox_to_sheet2 gives the first bytes back.
 */
uint32_t pavebox_to_sheet1(const uint8_t *sheet, size_t sheet_len,
                           uint8_t *output, size_t output_len,
                           uint8_t *answer, size_t answer_len);

/* The three numbers of an answer of pavebox_to_sheet2 or of pavebox_to_sheet1. */
struct pavebox_form_answer {
    uint32_t number;  /* PAVEBOX_WRITTEN or a refusal, as above */
    uint32_t line;    /* the line that is refused, from 1; 0 if there is none */
    uint32_t written; /* bytes of the turned sheet at the start of the output memory */
};

/* The three numbers from the 12 bytes that one of the two has filled. */
static inline struct pavebox_form_answer pavebox_read_form_answer(const uint8_t *answer)
{
    struct pavebox_form_answer numbers;
    numbers.number = pavebox_read_number(answer);
    numbers.line = pavebox_read_number(answer + 4);
    numbers.written = pavebox_read_number(answer + 8);
    return numbers;
}

#ifdef __cplusplus
}
#endif

#endif
