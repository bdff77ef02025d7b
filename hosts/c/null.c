/*
 * Tests what the calls do with null pointers of length 0, as the header says: as
 * with empty buffers.
 */
#include "recipe_runner.h"

#include <stdio.h>
#include <string.h>

/* A main task that sets valve 0 to 1. */
static const uint8_t TABLE[] = {
    1, 0, 2, 0, 0, 0, 0, 0, /* procedure */
    3, 0, 1, 0, 0, 0, 0, 0, /* set */
    9, 0, 0, 0, 1, 0, 0, 0  /* constant */
};

static int failed;

static void check(const char *what, uint32_t expected, uint32_t found)
{
    int good = expected == found;

    printf("%s %s: %lu\n", good ? "ok  " : "FAIL", what, (unsigned long)found);
    failed |= !good;
}

static void check_starts(uint8_t *state)
{
    check("start, no table", RECIPE_TABLE_LENGTH,
          recipe_start(NULL, 0, state, RECIPE_STATE_BYTES).number);
    check("start, no state", RECIPE_STATE_LENGTH,
          recipe_start(TABLE, sizeof TABLE, NULL, 0).number);
    check("start, neither", RECIPE_TABLE_LENGTH,
          recipe_start(NULL, 0, NULL, 0).number);
    check("start", RECIPE_ACCEPTED,
          recipe_start(TABLE, sizeof TABLE, state, RECIPE_STATE_BYTES).number);
}

static void check_runs(uint8_t *state)
{
    uint8_t log[2 * RECIPE_RECORD_BYTES];

    check("run, no table", RECIPE_TABLE_LENGTH,
          recipe_run(NULL, 0, state, RECIPE_STATE_BYTES, 9, log, sizeof log)
              .number);
    check("run, no state", RECIPE_STATE_LENGTH,
          recipe_run(TABLE, sizeof TABLE, NULL, 0, 9, log, sizeof log).number);
    check("run, no log", RECIPE_LOGFULL,
          recipe_run(TABLE, sizeof TABLE, state, RECIPE_STATE_BYTES, 9, NULL, 0)
              .number);
    check("run", RECIPE_FINISHED,
          recipe_run(TABLE, sizeof TABLE, state, RECIPE_STATE_BYTES, 9, log,
                     sizeof log)
              .number);
}

static void check_others(const uint8_t *state)
{
    const uint8_t lengths[RECIPE_LENGTH_BYTES] = {0};
    uint8_t outcome[RECIPE_OUTCOME_BYTES] = {0};

    check("why_stuck, no chain", RECIPE_NOT_STUCK,
          recipe_why_stuck(TABLE, sizeof TABLE, state, RECIPE_STATE_BYTES, NULL,
                           0)
              .number);
    check("why_stuck, nothing", RECIPE_TABLE_LENGTH,
          recipe_why_stuck(NULL, 0, NULL, 0, NULL, 0).number);
    check("check_all, nothing", RECIPE_ACCEPTED,
          recipe_check_all(NULL, 0, NULL, 0, NULL, 0));
    check("check_all, one of no bytes", RECIPE_ACCEPTED,
          recipe_check_all(NULL, 0, lengths, sizeof lengths, outcome,
                           sizeof outcome));
    check("its outcome", RECIPE_TABLE_LENGTH, outcome[0]);
}

int main(void)
{
    uint8_t state[RECIPE_STATE_BYTES];

    memset(state, 0, sizeof state);
    check_starts(state);
    check_runs(state);
    check_others(state);
    return failed;
}
