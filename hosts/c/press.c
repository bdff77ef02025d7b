/*
 * A host for the recipe runner: loads a recipe's table from a file, runs it
 * slice by slice and prints what happened.
 *
 *     press [-s STATEFILE] [-n SLICES] TABLE
 *     press -c TABLE...
 *
 * A slice is one recipe_run call: SLICE_STEPS steps, fewer where the log fills.
 * -s saves the state after each slice and resumes from the file if it is there.
 * -n stops after so many slices. Of a run that ends stuck, standard error has
 * who waits for whom.
 *
 * -c runs nothing: it checks a batch of tables in one recipe_check_all call and
 * prints a line for each.
 */
#define _POSIX_C_SOURCE 200112L

#include "recipe_runner.h"

#include <errno.h>
#include <inttypes.h>
#include <stdio.h>
#include <stdlib.h>
#include <string.h>
#include <unistd.h>

enum { SLICE_STEPS = 100, LOG_RECORDS = 4 };

enum exit_status {
    EXIT_FINISHED = 0,
    EXIT_REFUSED = 1,
    EXIT_TROUBLE = 2, /* usage, input or output */
    EXIT_UNFINISHED = 3
};

/* Table and state have one byte more than they may, and a batch one table more:
   a file that is too long, or one too many, is then refused by the runner, with
   its number. */
enum {
    TABLE_ROOM = RECIPE_TABLE_MOST_BYTES + 1,
    STATE_ROOM = RECIPE_STATE_BYTES + 1,
    BATCH_ROOM = RECIPE_BATCH_MOST_RECIPES + 1
};

struct press {
    const char *table_file;
    const char *state_file; /* NULL: do not save */
    unsigned long slices;   /* 0: until the run ends */
    int check_only;
    uint64_t steps;
    size_t table_len;
    size_t state_len;
    uint8_t table[TABLE_ROOM];
    uint8_t state[STATE_ROOM];
    uint8_t log[LOG_RECORDS * RECIPE_RECORD_BYTES];
};

/* The tables of a batch, one directly after the other. */
struct batch {
    size_t count;
    size_t recipes_len;
    uint8_t recipes[BATCH_ROOM * TABLE_ROOM];
    uint8_t lengths[BATCH_ROOM * RECIPE_LENGTH_BYTES];
    uint8_t outcomes[BATCH_ROOM * RECIPE_OUTCOME_BYTES];
};

static int trouble(const char *what)
{
    fprintf(stderr, "press: %s: %s\n", what, strerror(errno));
    return EXIT_TROUBLE;
}

static int usage(void)
{
    fputs("usage: press [-s STATEFILE] [-n SLICES] TABLE\n"
          "       press -c TABLE...\n",
          stderr);
    return EXIT_TROUBLE;
}

/* Read at most `size` bytes. 0, or -1 with errno set. */
static int read_file(const char *path, uint8_t *bytes, size_t size, size_t *len)
{
    FILE *file = fopen(path, "rb");
    int error;

    if (file == NULL)
        return -1;
    *len = fread(bytes, 1, size, file);
    error = ferror(file) ? errno : 0;
    fclose(file);
    errno = error;
    return error == 0 ? 0 : -1;
}

/* Write and bring to disk: a rename that gets there before the content would
   leave an empty state after a power cut. */
static int write_file(const char *path, const uint8_t *bytes, size_t len)
{
    FILE *file = fopen(path, "wb");
    int written;

    if (file == NULL)
        return -1;
    written = fwrite(bytes, 1, len, file) == len && fflush(file) == 0 &&
              fsync(fileno(file)) == 0;
    return fclose(file) == 0 && written ? 0 : -1;
}

/* The state file is the old state or the new one at any time, never a part. */
static int save_state(const struct press *press)
{
    static const char suffix[] = ".tmp";
    size_t len = strlen(press->state_file);
    char *temporary = malloc(len + sizeof suffix);
    int result = -1;
    int error;

    if (temporary == NULL)
        return -1;
    memcpy(temporary, press->state_file, len);
    memcpy(temporary + len, suffix, sizeof suffix);
    if (write_file(temporary, press->state, press->state_len) == 0)
        result = rename(temporary, press->state_file);
    error = errno;
    if (result != 0)
        remove(temporary);
    free(temporary);
    errno = error;
    return result;
}

static unsigned task_number(const uint8_t *bytes)
{
    return bytes[0] | (unsigned)bytes[1] << 8;
}

static uint32_t word_at(const uint8_t *bytes)
{
    return (uint32_t)bytes[0] | (uint32_t)bytes[1] << 8 |
           (uint32_t)bytes[2] << 16 | (uint32_t)bytes[3] << 24;
}

static void put_word(uint8_t *bytes, uint32_t word)
{
    bytes[0] = (uint8_t)word;
    bytes[1] = (uint8_t)(word >> 8);
    bytes[2] = (uint8_t)(word >> 16);
    bytes[3] = (uint8_t)(word >> 24);
}

static int32_t record_value(const uint8_t *record)
{
    uint32_t bits = word_at(record + 4);
    int32_t value;

    /* A cast of the upper half would be up to the compiler. */
    memcpy(&value, &bits, sizeof value);
    return value;
}

static const char *kind_word(uint8_t kind)
{
    switch (kind) {
    case RECIPE_LOG_SPAWNED: return "spawned";
    case RECIPE_LOG_TAKEN: return "taken";
    case RECIPE_LOG_GAVE: return "gave";
    case RECIPE_LOG_WAITS: return "waits";
    case RECIPE_LOG_TURNED: return "turned";
    case RECIPE_LOG_ENDED: return "ended";
    case RECIPE_LOG_VALVE: return "valve";
    default: return "unknown";
    }
}

static const char *ending_word(uint32_t number)
{
    switch (number) {
    case RECIPE_FINISHED: return "finished";
    case RECIPE_PAUSED: return "paused";
    case RECIPE_STUCK: return "stuck";
    case RECIPE_TASKS: return "tasks";
    case RECIPE_SPENT: return "spent";
    case RECIPE_LOGFULL: return "logfull";
    case RECIPE_NOVALUE: return "novalue";
    default: return "unknown";
    }
}

static void print_log(const uint8_t *log, uint32_t records)
{
    uint32_t i;

    for (i = 0; i < records; i++) {
        const uint8_t *record = log + (size_t)i * RECIPE_RECORD_BYTES;

        printf("%s %u %u %" PRId32 "\n", kind_word(record[0]),
               task_number(record + 2), (unsigned)record[1],
               record_value(record));
    }
}

/* Whether all that was printed is out. */
static int flushed(void)
{
    return fflush(stdout) == 0 && !ferror(stdout);
}

static void print_refusal(uint32_t number, uint32_t place)
{
    printf("refused %" PRIu32 " %" PRIu32 "\n", number, place);
}

static int refused(uint32_t number, uint32_t place)
{
    print_refusal(number, place);
    return flushed() ? EXIT_REFUSED : trouble("output");
}

/* The numbers between the endings 5 and 24. */
static int is_refusal(uint32_t number)
{
    return number >= RECIPE_TABLE_LENGTH && number <= RECIPE_STATE_NUMBERS;
}

/* What the last task of a chain does. */
static const char *end_words(uint32_t end)
{
    switch (end) {
    case RECIPE_END_CIRCLE: return "was named before: a circle";
    case RECIPE_END_NEVER_ISSUED: return "waits for a number never issued";
    case RECIPE_END_GUARD: return "waits at an untrue guard";
    default: return "unknown";
    }
}

/* Tell who waits for whom, a line for each number of the chain. */
static void tell_chain(const struct press *press)
{
    uint8_t chain[RECIPE_CHAIN_BYTES];
    struct recipe_explained explained =
        recipe_why_stuck(press->table, press->table_len, press->state,
                         press->state_len, chain, sizeof chain);
    uint32_t i;

    for (i = 0; i < explained.count; i++) {
        unsigned task = task_number(chain + 2 * i);

        if (i + 1 < explained.count)
            fprintf(stderr, "press: task %u waits for task %u\n", task,
                    task_number(chain + 2 * (i + 1)));
        else
            fprintf(stderr, "press: task %u %s\n", task,
                    end_words(explained.end));
    }
}

static int ended(const struct press *press, const struct recipe_answer *answer)
{
    printf("%s %" PRIu64 "\n", ending_word(answer->number), press->steps);
    if (!flushed())
        return trouble("output");
    if (answer->number == RECIPE_NOVALUE)
        fprintf(stderr, "press: record %" PRIu32 " divides by 0\n",
                answer->place);
    if (answer->number == RECIPE_STUCK)
        tell_chain(press);
    return answer->number == RECIPE_FINISHED ? EXIT_FINISHED : EXIT_UNFINISHED;
}

/* Take the state from its file, or a fresh one where there is no such file. */
static int begin(struct press *press)
{
    struct recipe_started started;

    if (press->state_file != NULL) {
        if (read_file(press->state_file, press->state, sizeof press->state,
                      &press->state_len) == 0)
            return 0;
        if (errno != ENOENT)
            return trouble(press->state_file);
    }
    press->state_len = RECIPE_STATE_BYTES;
    started = recipe_start(press->table, press->table_len, press->state,
                           press->state_len);
    if (started.number != RECIPE_ACCEPTED)
        return refused(started.number, started.place);
    return 0;
}

/* One slice. The log goes out before the state is saved: after a power cut
   between the two a record is told twice, but none is lost. */
static int run_slice(struct press *press, struct recipe_answer *answer)
{
    *answer = recipe_run(press->table, press->table_len, press->state,
                         press->state_len, SLICE_STEPS, press->log,
                         sizeof press->log);
    if (is_refusal(answer->number))
        return refused(answer->number, answer->place);
    press->steps += answer->steps;
    print_log(press->log, answer->records);
    if (!flushed())
        return trouble("output");
    if (press->state_file != NULL && save_state(press) != 0)
        return trouble(press->state_file);
    return 0;
}

/* A full log is a pause too: the next slice has an empty one. */
static int may_go_on(uint32_t number)
{
    return number == RECIPE_PAUSED || number == RECIPE_LOGFULL;
}

static int run(struct press *press)
{
    struct recipe_answer answer;
    unsigned long slice = 0;
    int status;

    do {
        status = run_slice(press, &answer);
        if (status != 0)
            return status;
        slice++;
    } while (may_go_on(answer.number) && slice != press->slices);
    return ended(press, &answer);
}

/* Append the table of a file. 0, or -1 with errno set. */
static int append_table(struct batch *batch, const char *path)
{
    size_t len;

    if (read_file(path, batch->recipes + batch->recipes_len, TABLE_ROOM,
                  &len) != 0)
        return -1;
    put_word(batch->lengths + batch->count * RECIPE_LENGTH_BYTES,
             (uint32_t)len);
    batch->recipes_len += len;
    batch->count++;
    return 0;
}

static int print_outcomes(const struct batch *batch, char **files)
{
    int status = EXIT_FINISHED;
    size_t i;

    for (i = 0; i < batch->count; i++) {
        const uint8_t *outcome = batch->outcomes + i * RECIPE_OUTCOME_BYTES;
        uint32_t number = word_at(outcome);

        printf("%s: ", files[i]);
        if (number == RECIPE_ACCEPTED) {
            puts("accepted");
        } else {
            print_refusal(number, word_at(outcome + 4));
            status = EXIT_REFUSED;
        }
    }
    return flushed() ? status : trouble("output");
}

/* Of too many files those that fit are enough to be refused. */
static int check(char **files, size_t count)
{
    static struct batch batch;
    uint32_t number;

    while (batch.count < count && batch.count < BATCH_ROOM) {
        if (append_table(&batch, files[batch.count]) != 0)
            return trouble(files[batch.count]);
    }
    number = recipe_check_all(batch.recipes, batch.recipes_len, batch.lengths,
                              batch.count * RECIPE_LENGTH_BYTES, batch.outcomes,
                              batch.count * RECIPE_OUTCOME_BYTES);
    if (number != RECIPE_ACCEPTED)
        return refused(number, 0);
    return print_outcomes(&batch, files);
}

/* A whole number from 1; anything else gives 0. */
static unsigned long count_of(const char *text)
{
    char *end;
    unsigned long count;

    if (text[0] < '0' || text[0] > '9')
        return 0;
    errno = 0;
    count = strtoul(text, &end, 10);
    return errno == 0 && *end == '\0' ? count : 0;
}

static int read_arguments(struct press *press, int argc, char **argv)
{
    int option;

    while ((option = getopt(argc, argv, "cs:n:")) != -1) {
        switch (option) {
        case 'c':
            press->check_only = 1;
            break;
        case 's':
            press->state_file = optarg;
            break;
        case 'n':
            press->slices = count_of(optarg);
            if (press->slices == 0)
                return usage();
            break;
        default:
            return usage();
        }
    }
    return 0;
}

static int run_table(struct press *press)
{
    int status;

    if (read_file(press->table_file, press->table, sizeof press->table,
                  &press->table_len) != 0)
        return trouble(press->table_file);
    status = begin(press);
    return status != 0 ? status : run(press);
}

int main(int argc, char **argv)
{
    static struct press press;
    int status = read_arguments(&press, argc, argv);
    int files = argc - optind;

    if (status != 0)
        return status;
    if (press.check_only) {
        if (files < 1 || press.state_file != NULL || press.slices != 0)
            return usage();
        return check(argv + optind, (size_t)files);
    }
    if (files != 1)
        return usage();
    press.table_file = argv[optind];
    return run_table(&press);
}
