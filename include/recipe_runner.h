/*
 * The recipe runner of the press controller: C interface.
 *
 * Four calls. recipe_start checks a recipe's table and writes a fresh state;
 * recipe_run takes steps from a state and writes what happened into a log;
 * recipe_why_stuck writes who waits for whom where a run is stuck;
 * recipe_check_all checks a batch of recipes. Tasks are scheduled round robin
 * from one ready queue: a task runs until it yields (suspend), waits (await,
 * guard) or ends. Valves, clocks and sensors are the host's business.
 *
 * Buffers
 *   Each buffer is a pointer and a length in bytes, lent for the call only.
 *   - That many bytes must be there. No alignment is asked. A null pointer is
 *     for length 0 alone: measured, with the archive as built here, it is an
 *     empty buffer in each call.
 *   - The buffers of one call must not overlap.
 *   - Any length and any content is allowed: what breaks a rule is refused.
 *   - A refused call changes no buffer.
 *   - Fields of several bytes are little-endian.
 *
 * Threads
 *   The library keeps no state of its own and allocates nothing. Calls on
 *   different states are independent, and so are checks of batches. What a call
 *   writes must not be used by another at once: one state and its log, a chain,
 *   outcomes. What a call only reads, calls may share, and nobody may write it
 *   during a call: the table, the state of recipe_why_stuck, and a batch's
 *   recipes and lengths.
 *
 * Stack
 *   Have 16,384 bytes of stack free for each call, whatever the table
 *   holds. Measured on x86-64: at most 15,367 bytes in recipe_run, 3,399 in
 *   recipe_start, 15,479 in recipe_why_stuck and 3,367 in recipe_check_all,
 *   rounded up here to the next 4 KiB.
 *
 * What the archive needs
 *   An x86-64 processor at the level x86-64-v2 (SSE up to 4.2), called by the
 *   System V convention: at a call the stack is aligned to 16 bytes, as every
 *   C compiler does; a caller in assembly, or one that switches stacks, has to.
 *   The level is not looked at when it runs. From the C library memcpy and
 *   memset. It has no data that is written (constants alone, in .rodata), is
 *   position-independent and, as built here, uses no red zone.
 *   docs/INTEGRATION.md has the other targets of the toolchain.
 *
 * Formats
 *   docs/FORMAT.md has the table, the state, the log and the order of the
 *   tests, byte by byte.
 */
#ifndef RECIPE_RUNNER_H
#define RECIPE_RUNNER_H

#include <stddef.h>
#include <stdint.h>

#ifdef __cplusplus
extern "C" {
#endif

/* The version of this header and of the archive that it declares. CHANGELOG.md
   says what a host has to change from one to the next. */
#define RECIPE_RUNNER_VERSION "0.9.0"

/* Size of a record of the table, of the state and of the log. */
#define RECIPE_RECORD_BYTES 8

/* Size of a state: always exactly this. */
#define RECIPE_STATE_BYTES 776

/* Where a state has what, in bytes from its first on, for hosts that read it or
   write a variable. See "A state" below. */
#define RECIPE_STATE_ISSUED_AT 0 /* 2 bytes: the highest task number issued */
#define RECIPE_STATE_LIVE_AT 2   /* 1 byte: how many tasks are live, 0 to 32 */
#define RECIPE_STATE_ACTIVE_AT 3 /* 1 byte: 1 if the first task is active */
#define RECIPE_STATE_TASKS_AT 8  /* 32 times RECIPE_TASK_BYTES */
#define RECIPE_STATE_VARIABLES_AT 520 /* 64 times RECIPE_VARIABLE_BYTES */

/* Size of a task and of a variable in a state. */
#define RECIPE_TASK_BYTES 16
#define RECIPE_VARIABLE_BYTES 4

/* Where a task has what, in bytes from its first on. */
#define RECIPE_TASK_NUMBER_AT 0    /* 2 bytes */
#define RECIPE_TASK_PLACE_AT 2     /* 2 bytes: its next statement's index */
#define RECIPE_TASK_PARAMETER_AT 4 /* 4 bytes, signed */
#define RECIPE_TASK_SPAWNER_AT 8   /* 2 bytes: who started it, a task's number,
                                      0 for task 1 */
#define RECIPE_TASK_TAKEN_AT 12    /* 4 bytes, unsigned: the times taken up */

/* The longest table: 4,096 records. The shortest has one. */
#define RECIPE_TABLE_MOST_BYTES 32768

/* Size of a chain: always exactly this. Two bytes for each of 32 tasks, and two
   for the number that closes a circle. */
#define RECIPE_CHAIN_BYTES 66

/* The most recipes of a batch. It may have none. */
#define RECIPE_BATCH_MOST_RECIPES 64

/* Size of a recipe's length in the list of a batch. */
#define RECIPE_LENGTH_BYTES 4

/* Size of a recipe's outcome: number and place, 4 bytes each. */
#define RECIPE_OUTCOME_BYTES 8

/* The number of each call: accepted (0), an ending (0-5, 24) or a refusal
   (11-17, 21-23, 25, 26). */
enum recipe_number {
    /* recipe_start: the table is accepted and the fresh state written.
       recipe_why_stuck: the state is stuck and the chain written.
       recipe_check_all: each recipe is checked and its outcome written, in
       which this number says that the recipe is accepted. */
    RECIPE_ACCEPTED = 0,

    /* recipe_run: endings. State and log are as after the steps counted. */
    RECIPE_FINISHED = 0, /* no task is left */
    RECIPE_PAUSED = 1,   /* the budget is used up: run again to go on */
    RECIPE_STUCK = 2,    /* every task waits for a number that is not done or
                            for an untrue guard */
    RECIPE_TASKS = 3,    /* next is a spawn and 32 tasks are live */
    RECIPE_SPENT = 4,    /* next is a spawn and number 65,535 is issued */
    RECIPE_LOGFULL = 5,  /* the next step's record has no room: run again */
    RECIPE_NOVALUE = 24, /* next is a set, an if, a while or a spawn, and its
                            expression has no value, as a divisor is 0; place
                            is the statement's index in the table */

    /* Refusals of the table; place is the faulty record's index. */
    RECIPE_TABLE_LENGTH = 11, /* 0, no multiple of 8, or too long; place 0 */
    RECIPE_TABLE_KIND = 12,   /* another kind was due */
    RECIPE_TABLE_SPAN = 13,
    RECIPE_TABLE_NAME = 14,
    RECIPE_TABLE_VALUE = 15,
    RECIPE_TABLE_DEPTH = 16, /* deeper than 16 */
    RECIPE_TABLE_SPAWN = 17, /* a spawn names no procedure of the table */

    /* Refusals of the state, once the table has passed. */
    RECIPE_STATE_LENGTH = 21, /* not RECIPE_STATE_BYTES; place 0 */
    RECIPE_STATE_RECORD = 22, /* place is the faulty state record's index */
    RECIPE_STATE_NUMBERS = 23, /* more live tasks than numbers issued; such a
                                  state breaks a rule of 22, which comes
                                  first */

    /* Refusal of recipe_why_stuck, once table and state have passed. */
    RECIPE_NOT_STUCK = 25, /* the state is not stuck, or the chain is not of
                              RECIPE_CHAIN_BYTES; place 0 */

    /* Refusal of recipe_check_all, before any recipe is looked at. */
    RECIPE_BATCH_LENGTHS = 26 /* the list's bytes are no multiple of 4, or name
                                 more than 64 recipes, or do not add up to the
                                 recipes' bytes, or the outcomes are not of
                                 RECIPE_OUTCOME_BYTES a recipe */
};

/* Byte 0 of a log record. */
enum recipe_log_kind {
    RECIPE_LOG_SPAWNED = 1, /* value: the new task's number */
    RECIPE_LOG_TAKEN = 2,   /* became active from the ready queue's front */
    RECIPE_LOG_GAVE = 3,    /* yielded by suspend */
    RECIPE_LOG_WAITS = 4,   /* reached an await; value: the number awaited, 0
                               too; or a guard; value: 0 */
    RECIPE_LOG_TURNED = 5,  /* still waits, turned to the ready queue's back;
                               value: the number awaited, 0 at a guard */
    RECIPE_LOG_ENDED = 6,
    RECIPE_LOG_VALVE = 7    /* set a valve; value: what was set */
};

/* The `end` of recipe_why_stuck: what the chain ends in. 0 when refused. */
enum recipe_end {
    RECIPE_END_CIRCLE = 1,       /* a task named earlier; its number is written
                                    again, and the tasks from its first place
                                    on wait in a circle */
    RECIPE_END_NEVER_ISSUED = 2, /* a task that waits for a number never issued,
                                    which is not 0; it is not written */
    RECIPE_END_GUARD = 3         /* a task at an untrue guard */
};

/* What recipe_start returns. */
struct recipe_started {
    uint32_t number; /* RECIPE_ACCEPTED or a refusal, 11-17 or 21 */
    uint32_t place;  /* the faulty record; 0 where none is named */
};

/* What recipe_run returns. */
struct recipe_answer {
    uint32_t number;  /* an ending or a refusal */
    uint32_t steps;   /* steps taken: at most the budget, 0 when refused */
    uint32_t records; /* log records written: 0 when refused */
    uint32_t place;   /* the faulty record, or the statement of RECIPE_NOVALUE;
                         0 where none is named */
};

/* What recipe_why_stuck returns. */
struct recipe_explained {
    uint32_t number; /* RECIPE_ACCEPTED or a refusal, 11-17, 21-23 or 25 */
    uint32_t count;  /* task numbers written, 1 to 33: 0 when refused */
    uint32_t end;    /* enum recipe_end: 0 when refused */
    uint32_t place;  /* the faulty record; 0 where none is named */
};

/*
 * A state: 97 records of RECIPE_RECORD_BYTES.
 *
 * Record 0       bytes 0-1 the highest task number issued, 1 to 65,535; byte 2
 *                the live tasks; byte 3 is 1 if one is active, else 0; bytes
 *                4-7 zero.
 * Records 1-64   two for each live task, the active one first if any, then the
 *                ready queue from its front. A task's first record: bytes 0-1
 *                its number, 2-3 the index of its next statement, or of the
 *                record after its procedure's last, 4-7 its parameter. Its
 *                second, directly behind: bytes 0-1 the spawner's number, 0 for
 *                task 1 and from 1 to one below its own for others, 2-3 zero,
 *                4-7 the times taken up. Unused ones are all zero.
 * Records 65-96  variables 0 to 63, 4 bytes each, of any content.
 *
 * The spawner is the task whose spawn started the task; it may have ended. The
 * times taken up are how often the task became active from the ready queue's
 * front (RECIPE_LOG_TAKEN); being turned does not count, nor does the start of
 * task 1. They stay at 4,294,967,295 once they are there.
 *
 * Reading a state is safe at any time between calls. Of it a host writes only
 * variables.
 */

/*
 * Check a table and write a fresh state: the main task, active at its first
 * statement, every variable 0.
 *
 * table, table_len  the recipe: records of RECIPE_RECORD_BYTES, no header, at
 *                   most RECIPE_TABLE_MOST_BYTES. Byte 0 is the kind, byte 1
 *                   the name, bytes 2-3 the span, bytes 4-7 the value. Only
 *                   read.
 * state, state_len  where the state goes, RECIPE_STATE_BYTES bytes. The old
 *                   content does not matter; all of it is written when
 *                   accepted, nothing when refused.
 *
 * Refusals: the table's, then RECIPE_STATE_LENGTH.
 */
struct recipe_started recipe_start(const uint8_t *table, size_t table_len,
                                   uint8_t *state, size_t state_len);

/*
 * Take steps from a state, at most `budget`, and log them.
 *
 * table, table_len  the recipe as given to recipe_start. Only read. It is
 *                   checked anew by each call. Give a state the same table
 *                   each time: another one is not noticed as such.
 * state, state_len  RECIPE_STATE_BYTES bytes, from recipe_start or an earlier
 *                   recipe_run. It holds all there is to a run, so it can be
 *                   saved, copied and gone on from. Replaced by the state
 *                   after the steps taken.
 * budget            0 to 4,294,967,295 steps. Bounds the time of a call.
 * log, log_len      where the log goes, from its first byte, in each call.
 *                   Any length; each record takes RECIPE_RECORD_BYTES. Old
 *                   content does not matter, and bytes past the last record
 *                   written keep it.
 *
 * A log record: byte 0 the kind (enum recipe_log_kind), byte 1 the valve for
 * RECIPE_LOG_VALVE and 0 in others, bytes 2-3 the number of the task acting,
 * bytes 4-7 a signed value, two's complement, 0 where none is named.
 *
 * After RECIPE_PAUSED or RECIPE_LOGFULL another call goes on where this one
 * stopped: the calls together do what one with a longer budget and log does.
 * A log of at least one record gets on each time. After the other endings a
 * further call with the same state takes no step.
 *
 * A host brings a sensor's reading in by writing its variable between calls:
 * variable n, 0 to 63, is the RECIPE_VARIABLE_BYTES of the state from
 * RECIPE_STATE_VARIABLES_AT + RECIPE_VARIABLE_BYTES * n on, of any content. A
 * guard is tested anew at each try: a task at one goes on when it is tried with
 * the reading that it waits for, after RECIPE_STUCK too.
 *
 * An await is over when its task is tried and the number in the variable is
 * done: it was issued and its task has ended, or it is 0. So a variable left at
 * 0, or written so by the host, names no task, and its await passes. Any other
 * number never issued holds the waiter.
 *
 * A quotient by 0 has no value, nor has an expression with an operand that has
 * none. A set, an if, a while or a spawn that needs it is not done: no variable
 * and no valve changes, and the call ends with RECIPE_NOVALUE. So does every
 * further call with a budget, at the same statement, until the host writes
 * another value into a variable that the divisor reads, or starts anew. A guard
 * without a value is untrue.
 *
 * Before each step the endings are tried in the order finished, stuck, paused,
 * novalue, tasks, spent, logfull. Refusals: the table's, then the state's.
 */
struct recipe_answer recipe_run(const uint8_t *table, size_t table_len,
                                uint8_t *state, size_t state_len,
                                uint32_t budget, uint8_t *log, size_t log_len);

/*
 * Tell why a state is stuck: who waits for whom. A state is stuck where no task
 * is active, some are queued and none is ready, as after RECIPE_STUCK.
 *
 * table, table_len  the recipe as given to recipe_start. Only read.
 * state, state_len  RECIPE_STATE_BYTES bytes, from recipe_run. Only read.
 * chain, chain_len  where the chain goes, RECIPE_CHAIN_BYTES bytes: task
 *                   numbers of 2 bytes each, from the first byte on. Old
 *                   content does not matter, and bytes past the last number
 *                   written keep it.
 *
 * The first number is the task at the front of the ready queue. Each task waits
 * for the one after it, whose number is in the variable or parameter that it
 * awaits. `end` says why the chain goes no further. No number is written twice
 * but the one that closes a circle. A guard without a value is untrue.
 *
 * The chain holds for the state as it is: once the host has written a variable
 * that a guard or an await reads, ask again.
 *
 * Refusals: the table's, then the state's, then RECIPE_NOT_STUCK.
 */
struct recipe_explained recipe_why_stuck(const uint8_t *table,
                                         size_t table_len,
                                         const uint8_t *state,
                                         size_t state_len, uint8_t *chain,
                                         size_t chain_len);

/*
 * Check a batch of recipes: for each in turn, what recipe_start gives for it
 * alone with a state of RECIPE_STATE_BYTES.
 *
 * recipes, recipes_len    the tables, one directly after the other, as
 *                         recipe_start takes them. Only read.
 * lengths, lengths_len    each table's length in bytes, RECIPE_LENGTH_BYTES
 *                         unsigned, in the tables' order: at most
 *                         RECIPE_BATCH_MOST_RECIPES. They add up to
 *                         recipes_len. Only read.
 * outcomes, outcomes_len  where the outcomes go, exactly RECIPE_OUTCOME_BYTES a
 *                         recipe. Old content does not matter; all of it is
 *                         written unless the call is refused.
 *
 * An outcome: bytes 0-3 the number, RECIPE_ACCEPTED or a refusal, 11-17; bytes
 * 4-7 the place, the faulty record's index in its own table, 0 where none is
 * named. A table of a length that recipe_start refuses has RECIPE_TABLE_LENGTH
 * as its outcome and does not keep the others from being checked.
 *
 * Gives RECIPE_ACCEPTED when all outcomes are written, whatever they say, and
 * names no place. No recipes, no lengths and no outcomes are accepted. Refusal:
 * RECIPE_BATCH_LENGTHS.
 */
uint32_t recipe_check_all(const uint8_t *recipes, size_t recipes_len,
                          const uint8_t *lengths, size_t lengths_len,
                          uint8_t *outcomes, size_t outcomes_len);

#ifdef __cplusplus
}
#endif

#endif
