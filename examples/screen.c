/*
 * The planner's screen: opens the sheet in the file that its command line names, or on standard
 * input, as a record, changes a dummy, and prints the sheet that is saved from the record. What it
 * has to say goes to standard error.
 *
 * Exit status: 0 if the sheet was saved, 1 if it was refused, 2 if it could not be read or printed.
 */
#include "pavebox.h"

#include <stdio.h>

/* One byte more than a sheet may have, so that a longer one is refused and not cut. */
#define READ_BYTES (PAVEBOX_MOST_SHEET_BYTES + 1)

static uint8_t sheet[READ_BYTES];
static uint8_t saved[PAVEBOX_MOST_WRITE_OUTPUT_BYTES];
/* What the screen holds. All its bytes are 0 at first, as a static object's are. */
static struct pavebox_job job;

/* Reads the named file, or standard input. Returns 0 if that is not possible. */
static int read_sheet(const char *name, size_t *length)
{
    FILE *file = name == NULL ? stdin : fopen(name, "rb");
    int good;
    if (file == NULL)
        return 0;
    *length = fread(sheet, 1, READ_BYTES, file);
    good = !ferror(file);
    if (file != stdin)
        fclose(file);
    return good;
}

/* Makes the record of the sheet. If it is refused, says so: the record is as before. */
static int open_job(size_t length)
{
    uint8_t answer[PAVEBOX_JOB_ANSWER_BYTES];
    struct pavebox_job_answer numbers;
    pavebox_read(sheet, length, &job, answer, sizeof answer);
    numbers = pavebox_read_job_answer(answer);
    if (numbers.number == PAVEBOX_ACCEPTED)
        return 1;
    fprintf(stderr, "screen: not opened: refusal %lu at line %lu\n",
            (unsigned long)numbers.number, (unsigned long)numbers.line);
    return 0;
}

/* Makes the sheet of the record. If it is refused, says so: no byte was written. */
static int save_job(size_t *length)
{
    uint8_t answer[PAVEBOX_WRITE_ANSWER_BYTES];
    struct pavebox_write_answer numbers;
    pavebox_write(&job, saved, sizeof saved, answer, sizeof answer);
    numbers = pavebox_read_write_answer(answer);
    *length = numbers.written;
    if (numbers.number == PAVEBOX_WRITTEN)
        return 1;
    fprintf(stderr, "screen: not saved: refusal %lu\n", (unsigned long)numbers.number);
    return 0;
}

/* A slip of the planner, and how it is mended: the first secret is given a key that the sheet does
 * not have. Saving refuses it, so the screen takes the old key back. */
static void slip(struct pavebox_secret *secret)
{
    const uint32_t key = secret->key;
    size_t length;
    secret->key = job.keys;
    if (!save_job(&length)) {
        secret->key = key;
        fprintf(stderr, "screen: the secret stays at key %lu\n", (unsigned long)key);
    }
}

/* What the planner has come for: the first secret gets another dummy. */
static void change(struct pavebox_secret *secret)
{
    const int32_t dummy = 310;
    fprintf(stderr, "screen: the dummy at key %lu", (unsigned long)secret->key);
    if (job.form == 2)
        fprintf(stderr, ", of owner %s,", secret->owner == PAVEBOX_OWNER_A ? "A" : "B");
    fprintf(stderr, " was %ld and is %ld\n", (long)secret->dummy, (long)dummy);
    secret->dummy = dummy;
}

int main(int count, char **arguments)
{
    const char *name = count > 1 ? arguments[1] : NULL;
    size_t length;
    if (count > 2) {
        fprintf(stderr, "usage: screen [SHEET]\n");
        return 2;
    }
    if (!read_sheet(name, &length)) {
        perror(name == NULL ? "screen" : name);
        return 2;
    }
    if (!open_job(length))
        return 1;
    if (job.secret_count > 0) {
        slip(&job.secrets[0]);
        change(&job.secrets[0]);
    }
    if (!save_job(&length))
        return 1;
    if (fwrite(saved, 1, length, stdout) != length || fflush(stdout) != 0) {
        perror("screen");
        return 2;
    }
    return 0;
}
