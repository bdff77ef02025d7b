/*
 * Tests of recipe_check_all with batches at the edges of the rules, which the
 * host does not make. Prints a line for each, as test.sh does; the exit status
 * is 1 if one fails.
 *
 * Each buffer has exactly its length, so that a memory checker notices a byte
 * touched beyond it, and an odd address, as no alignment is asked.
 */
#include "recipe_runner.h"

#include <stdio.h>
#include <stdlib.h>
#include <string.h>

enum {
    MOST = RECIPE_BATCH_MOST_RECIPES,
    ONE_SKIP = 2 * RECIPE_RECORD_BYTES, /* length of a table with one skip */
    OLD = 0xa5                          /* what the outcomes held before */
};

/* A batch: what its list says, and how long its buffers are. */
struct batch {
    const char *what;
    uint32_t lengths[MOST + 1];
    size_t count;
    size_t recipes_len;
    size_t lengths_len;
    size_t outcomes_len;
};

static int failed;

static uint8_t *lend(size_t len)
{
    uint8_t *bytes = malloc(len + 1);

    if (bytes == NULL) {
        fputs("batch: no memory\n", stderr);
        exit(2);
    }
    memset(bytes + 1, OLD, len);
    return bytes + 1;
}

static void give_back(uint8_t *bytes)
{
    free(bytes - 1);
}

static void check(const char *what, int holds)
{
    printf("%s %s\n", holds ? "ok  " : "FAIL", what);
    failed |= !holds;
}

static void put_word(uint8_t *bytes, uint32_t word)
{
    int i;

    for (i = 0; i < 4; i++)
        bytes[i] = (uint8_t)(word >> 8 * i);
}

/* As many bytes of tables with one skip as are asked for. */
static uint8_t *lend_recipes(size_t len)
{
    static const uint8_t one_skip[ONE_SKIP] = {1, 0, 1, 0, 0, 0, 0, 0, 2};
    uint8_t *recipes = lend(len);
    size_t i;

    for (i = 0; i < len; i++)
        recipes[i] = one_skip[i % ONE_SKIP];
    return recipes;
}

static uint8_t *lend_lengths(const struct batch *batch)
{
    uint8_t list[(MOST + 2) * RECIPE_LENGTH_BYTES] = {0};
    uint8_t *lengths = lend(batch->lengths_len);
    size_t i;

    for (i = 0; i < batch->count; i++)
        put_word(list + i * RECIPE_LENGTH_BYTES, batch->lengths[i]);
    memcpy(lengths, list, batch->lengths_len);
    return lengths;
}

/* What recipe_start gives for each recipe alone, as outcomes. */
static uint8_t *outcomes_alone(const struct batch *batch,
                               const uint8_t *recipes)
{
    uint8_t *outcomes = lend(batch->outcomes_len);
    uint8_t state[RECIPE_STATE_BYTES];
    size_t i;

    for (i = 0; i < batch->count; i++) {
        uint8_t *outcome = outcomes + i * RECIPE_OUTCOME_BYTES;
        struct recipe_started started =
            recipe_start(recipes, batch->lengths[i], state, sizeof state);

        put_word(outcome, started.number);
        put_word(outcome + 4, started.place);
        recipes += batch->lengths[i];
    }
    return outcomes;
}

/* Whether a batch gives the number, with outcomes as alone or as they were. */
static void check_batch(const struct batch *batch, uint32_t number)
{
    uint8_t *recipes = lend_recipes(batch->recipes_len);
    uint8_t *lengths = lend_lengths(batch);
    uint8_t *outcomes = lend(batch->outcomes_len);
    uint8_t *due = number == RECIPE_ACCEPTED ? outcomes_alone(batch, recipes)
                                             : lend(batch->outcomes_len);
    uint32_t given = recipe_check_all(recipes, batch->recipes_len, lengths,
                                      batch->lengths_len, outcomes,
                                      batch->outcomes_len);

    check(batch->what, given == number &&
                           memcmp(outcomes, due, batch->outcomes_len) == 0);
    give_back(recipes);
    give_back(lengths);
    give_back(outcomes);
    give_back(due);
}

/* Accepted as such, whatever the outcomes. */
static void test_accepted(void)
{
    static const struct batch batches[] = {
        {"no recipes", {0}, 0, 0, 0, 0},
        {"one recipe", {ONE_SKIP}, 1, ONE_SKIP, 4, 8},
        {"one recipe of no bytes", {0}, 1, 0, 4, 8},
        {"recipes of no bytes beside another", {0, ONE_SKIP, 0}, 3, ONE_SKIP,
         12, 24},
        {"lengths that are no multiple of 8", {4, 20, 8}, 3, 32, 12, 24},
        {"a recipe of the most bytes", {RECIPE_TABLE_MOST_BYTES, ONE_SKIP}, 2,
         RECIPE_TABLE_MOST_BYTES + ONE_SKIP, 8, 16},
        {"a recipe too long", {RECIPE_TABLE_MOST_BYTES + 8, ONE_SKIP - 8}, 2,
         RECIPE_TABLE_MOST_BYTES + ONE_SKIP, 8, 16},
        {"faults at the first record", {8, 16, 8}, 3, 32, 12, 24},
        {"a fault at the third record", {24, 8}, 2, 32, 8, 16},
    };
    size_t i;

    for (i = 0; i < sizeof batches / sizeof batches[0]; i++)
        check_batch(&batches[i], RECIPE_ACCEPTED);
}

static void test_refused(void)
{
    static const struct batch batches[] = {
        {"no recipes, a byte of them", {0}, 0, 1, 0, 0},
        {"no recipes, space for an outcome", {0}, 0, 0, 0, 8},
        {"a list a byte short", {ONE_SKIP}, 1, ONE_SKIP, 3, 8},
        {"a list a byte too long", {ONE_SKIP}, 1, ONE_SKIP, 5, 8},
        {"a length too few", {ONE_SKIP, ONE_SKIP}, 2, 2 * ONE_SKIP, 4, 8},
        {"a sum one too small", {ONE_SKIP - 1}, 1, ONE_SKIP, 4, 8},
        {"a sum one too large", {ONE_SKIP + 1}, 1, ONE_SKIP, 4, 8},
        {"no space", {ONE_SKIP}, 1, ONE_SKIP, 4, 0},
        {"space a byte short", {ONE_SKIP}, 1, ONE_SKIP, 4, 7},
        {"space a byte too long", {ONE_SKIP}, 1, ONE_SKIP, 4, 9},
        {"space for an outcome more", {ONE_SKIP}, 1, ONE_SKIP, 4, 16},
    };
    size_t i;

    for (i = 0; i < sizeof batches / sizeof batches[0]; i++)
        check_batch(&batches[i], RECIPE_BATCH_LENGTHS);
}

/* Sums that are the recipes' bytes only where a word wraps. */
static void test_sums_past_a_word(void)
{
    struct batch two = {"two lengths past 2^32", {0}, 2, ONE_SKIP, 8, 16};
    struct batch all = {"64 lengths of 2^31", {0}, MOST, 0, 4 * MOST, 8 * MOST};
    size_t i;

    two.lengths[0] = UINT32_MAX;
    two.lengths[1] = ONE_SKIP + 1;
    check_batch(&two, RECIPE_BATCH_LENGTHS);
    for (i = 0; i < MOST; i++)
        all.lengths[i] = (uint32_t)1 << 31;
    check_batch(&all, RECIPE_BATCH_LENGTHS);
}

static void test_most_recipes(void)
{
    struct batch batch = {"64 recipes", {0}, MOST, MOST * ONE_SKIP, 4 * MOST,
                          8 * MOST};
    size_t i;

    for (i = 0; i <= MOST; i++)
        batch.lengths[i] = ONE_SKIP;
    check_batch(&batch, RECIPE_ACCEPTED);
    batch.what = "65 recipes";
    batch.count++;
    batch.recipes_len += ONE_SKIP;
    batch.lengths_len += 4;
    batch.outcomes_len += 8;
    check_batch(&batch, RECIPE_BATCH_LENGTHS);
}

int main(void)
{
    test_accepted();
    test_refused();
    test_sums_past_a_word();
    test_most_recipes();
    return failed;
}
