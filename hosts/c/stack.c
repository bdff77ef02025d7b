/*
 * How much stack the runner's calls take.
 *
 * Each call runs in a thread whose stack is a buffer painted before; the lowest
 * byte that changed says how deep the call went. The tables are those that
 * nest as deep as the rules allow, have as many records as they allow, leave as
 * many tasks in a circle, or are refused only for being too deep; a batch has
 * as many of one table as they allow. Bytes are counted from the caller's frame.
 */
#define _POSIX_C_SOURCE 200112L

#include "recipe_runner.h"

#include <pthread.h>
#include <stdio.h>
#include <stdlib.h>
#include <string.h>

enum {
    STACK_SIZE = 1 << 20,
    STACK_ALIGNMENT = 1 << 12,
    RECORDS = RECIPE_TABLE_MOST_BYTES / RECIPE_RECORD_BYTES,
    RECIPES = RECIPE_BATCH_MOST_RECIPES,
    MOST_DEPTH = 16,
    BUDGET = 10000
};

/* The table's kinds that are used here. */
enum kind {
    PROCEDURE = 1, SKIP = 2, SET = 3, IF = 4, WHILE = 5, SPAWN = 6, AWAIT = 8,
    CONSTANT = 9, VARIABLE = 10, TWO_OPERANDS = 11, ONE_OPERAND = 12, GUARD = 13
};

/* Which operand of an expression holds the next one. */
enum lean { SOLE, FIRST, SECOND };

/* The runner's calls, and what is printed for them. */
enum callee { START, RUN, WHY_STUCK, CHECK_ALL, CALLEES };
static const char *const callee_word[CALLEES] = {"start", "run", "why",
                                                 "check"};

struct call {
    enum callee callee;
    uint32_t number;
    size_t bytes;
};

static uint8_t table[RECIPE_TABLE_MOST_BYTES];
static size_t records; /* how many of them the table has so far */
static uint8_t state[RECIPE_STATE_BYTES];
static uint8_t logged[RECIPE_TABLE_MOST_BYTES];
static uint8_t chain[RECIPE_CHAIN_BYTES];
static uint8_t recipes[RECIPES * RECIPE_TABLE_MOST_BYTES];
static uint8_t lengths[RECIPES * RECIPE_LENGTH_BYTES];
static uint8_t outcomes[RECIPES * RECIPE_OUTCOME_BYTES];

static uint8_t *stack;
static uint8_t paint;
static size_t most[CALLEES];

static void give_up(const char *what)
{
    fprintf(stderr, "stack: %s\n", what);
    exit(2);
}

static void set_span(size_t record, size_t span)
{
    table[record * RECIPE_RECORD_BYTES + 2] = (uint8_t)(span & 255);
    table[record * RECIPE_RECORD_BYTES + 3] = (uint8_t)(span >> 8);
}

/* Append a record that encloses nothing so far; its index. */
static size_t append(enum kind kind, uint8_t name, uint8_t value)
{
    uint8_t *record = table + records * RECIPE_RECORD_BYTES;

    if (records == RECORDS)
        give_up("the table is full");
    memset(record, 0, RECIPE_RECORD_BYTES);
    record[0] = (uint8_t)kind;
    record[1] = name;
    record[4] = value;
    return records++;
}

/* Let a record enclose all that was appended after it. */
static void enclose(size_t record)
{
    set_span(record, records - record - 1);
}

/* An expression with operators down to `deepest`, true if its constants are 1
   and untrue if they are 0. */
static void append_expression(uint8_t constant, int depth, int deepest,
                              enum lean lean)
{
    static const uint8_t negation = 0, or_operator = 7;
    size_t at;

    if (depth >= deepest) {
        append(CONSTANT, 0, constant);
        return;
    }
    at = lean == SOLE ? append(ONE_OPERAND, negation, 0)
                      : append(TWO_OPERANDS, or_operator, 0);
    if (lean == SECOND)
        append(CONSTANT, 0, constant);
    append_expression(constant, depth + 1, deepest, lean);
    if (lean == FIRST)
        append(CONSTANT, 0, constant);
    enclose(at);
}

/* Ifs and whiles in one another, a statement at depth `last` in the innermost;
   every expression goes down to `deepest`. */
struct nest {
    enum kind innermost;
    uint8_t constant; /* of the innermost statement's expression */
    int last;
    int deepest;
    enum lean lean;
};

static void append_nest(const struct nest *nest, int depth)
{
    int inside = depth == nest->last;
    size_t at;

    if (depth >= nest->deepest) {
        append(SKIP, 0, 0);
        return;
    }
    at = append(inside ? nest->innermost : depth % 2 == 0 ? IF : WHILE, 0, 0);
    append_expression(inside ? nest->constant : 1, depth + 1, nest->deepest,
                      nest->lean);
    if (depth < nest->last)
        append_nest(nest, depth + 1);
    enclose(at);
}

static void fill_with_procedures(void)
{
    while (records < RECORDS)
        append(PROCEDURE, 0, 0);
}

/* The table as it is, over and over. */
static void fill_batch(void)
{
    size_t len = records * RECIPE_RECORD_BYTES;
    size_t i;

    for (i = 0; i < RECIPES; i++) {
        uint8_t *length = lengths + i * RECIPE_LENGTH_BYTES;

        memcpy(recipes + i * len, table, len);
        length[0] = (uint8_t)(len & 255);
        length[1] = (uint8_t)(len >> 8);
    }
}

static size_t untouched_bytes(void)
{
    size_t i = 0;

    while (i < STACK_SIZE && stack[i] == paint)
        i++;
    return i;
}

static uint32_t number_of(enum callee callee)
{
    size_t table_len = records * RECIPE_RECORD_BYTES;

    switch (callee) {
    case START:
        return recipe_start(table, table_len, state, sizeof state).number;
    case RUN:
        return recipe_run(table, table_len, state, sizeof state, BUDGET, logged,
                          sizeof logged).number;
    case WHY_STUCK:
        return recipe_why_stuck(table, table_len, state, sizeof state, chain,
                                sizeof chain).number;
    default:
        return recipe_check_all(recipes, RECIPES * table_len, lengths,
                                sizeof lengths, outcomes, sizeof outcomes);
    }
}

/* Runs on the painted stack. */
static void *measured_call(void *argument)
{
    struct call *call = argument;
    volatile uint8_t here = 0;
    uintptr_t deepest;

    call->number = number_of(call->callee);
    deepest = (uintptr_t)stack + untouched_bytes();
    call->bytes = (size_t)((uintptr_t)&here - deepest);
    return NULL;
}

static void on_painted_stack(struct call *call)
{
    pthread_attr_t attributes;
    pthread_t thread;

    memset(stack, paint, STACK_SIZE);
    if (pthread_attr_init(&attributes) != 0 ||
        pthread_attr_setstack(&attributes, stack, STACK_SIZE) != 0 ||
        pthread_create(&thread, &attributes, measured_call, call) != 0 ||
        pthread_join(thread, NULL) != 0 ||
        pthread_attr_destroy(&attributes) != 0)
        give_up("no thread");
}

/* Two colours: a byte that the call writes may have one of them by chance. */
static struct call measure(enum callee callee)
{
    struct call first = {callee, 0, 0}, second = {callee, 0, 0};
    uint8_t before[RECIPE_STATE_BYTES];

    fill_batch();
    memcpy(before, state, sizeof state);
    paint = 0xa5;
    on_painted_stack(&first);
    memcpy(state, before, sizeof state);
    paint = 0x5a;
    on_painted_stack(&second);
    return first.bytes > second.bytes ? first : second;
}

/* Measure the calls with the table as it is, each with the state that the one
   before left, and begin a new table. */
static void report(const char *shape)
{
    int callee;

    printf("%-38s", shape);
    for (callee = START; callee < CALLEES; callee++) {
        struct call call = measure((enum callee)callee);

        printf("  %s %2u %6zu", callee_word[callee], (unsigned)call.number,
               call.bytes);
        if (call.bytes > most[callee])
            most[callee] = call.bytes;
    }
    putchar('\n');
    records = 0;
}

static const char *nest_word(const struct nest *nest)
{
    if (nest->innermost != GUARD)
        return "statements";
    return nest->constant == 0 ? "untrue guard" : "guard";
}

static void report_nest(struct nest nest)
{
    static const char *const operand[] = {"sole", "first", "second"};
    char shape[64];
    size_t main_procedure = append(PROCEDURE, 0, 0);

    append_nest(&nest, 1);
    enclose(main_procedure);
    fill_with_procedures();
    snprintf(shape, sizeof shape, "%s to %d, all to %d, %s", nest_word(&nest),
             nest.last, nest.deepest, operand[nest.lean]);
    report(shape);
}

static void report_sets(enum lean lean)
{
    int last;

    for (last = 1; last <= MOST_DEPTH; last++)
        report_nest((struct nest){SET, 1, last, MOST_DEPTH, lean});
    report_nest((struct nest){SET, 1, 1, MOST_DEPTH + 1, lean});
    report_nest((struct nest){SET, 1, MOST_DEPTH + 1, MOST_DEPTH + 1, lean});
    report_nest((struct nest){SET, 1, 1, RECORDS / 3, lean});
}

/* Guards that are passed, and guards that leave the run stuck. */
static void report_guards(enum lean lean)
{
    uint8_t truth;

    for (truth = 0; truth <= 1; truth++) {
        report_nest((struct nest){GUARD, truth, 1, MOST_DEPTH, lean});
        report_nest((struct nest){GUARD, truth, MOST_DEPTH - 1, MOST_DEPTH,
                                  lean});
    }
}

static void report_nests(void)
{
    int lean;

    for (lean = SOLE; lean <= SECOND; lean++) {
        report_sets((enum lean)lean);
        report_guards((enum lean)lean);
    }
}

/* As many statements as fit, side by side, each with its expression if any. */
static void report_row(enum kind kind, const char *shape)
{
    size_t main_procedure = append(PROCEDURE, 0, 0);

    while (records + 2 <= RECORDS) {
        append(kind, 0, 0);
        if (kind == SKIP)
            continue;
        append(CONSTANT, 0, 1);
        enclose(records - 2);
    }
    enclose(main_procedure);
    fill_with_procedures();
    report(shape);
}

/* Whiles in one another, as many as a table of full length holds: refused, and
   that must not cost more stack than the first depth too many. */
static void report_too_deep(void)
{
    size_t i;

    while (records + 2 <= RECORDS) {
        append(records == 0 ? PROCEDURE : WHILE, 0, 0);
        if (records > 1)
            append(CONSTANT, 0, 1);
    }
    enclose(0);
    for (i = 1; i < records; i += 2)
        enclose(i);
    report("whiles nested to depth 2,047");
}

/* Main spawns until 32 tasks are live. */
static void report_spawns(void)
{
    size_t main_procedure = append(PROCEDURE, 0, 0);
    size_t loop = append(WHILE, 0, 0);

    append(CONSTANT, 0, 1);
    append(SPAWN, 8, 1);
    append(CONSTANT, 0, 0);
    enclose(records - 2);
    enclose(loop);
    enclose(main_procedure);
    fill_with_procedures();
    report("32 live tasks");
}

/* 32 tasks in a circle: each awaits its parameter, the number of the task
   spawned before it, and main the last of them. */
static void report_circle(void)
{
    static const uint8_t less = 4, last = 8, parameter = 64;
    size_t main_procedure = append(PROCEDURE, 0, 0);
    size_t loop, test;

    append(SET, last, 0);
    append(CONSTANT, 0, 1);
    enclose(records - 2);
    loop = append(WHILE, 0, 0);
    test = append(TWO_OPERANDS, less, 0);
    append(VARIABLE, last, 0);
    append(CONSTANT, 0, 32);
    enclose(test);
    append(SPAWN, last, 1);
    append(VARIABLE, last, 0);
    enclose(records - 2);
    enclose(loop);
    append(AWAIT, last, 0);
    enclose(main_procedure);
    append(PROCEDURE, 0, 0);
    append(AWAIT, parameter, 0);
    enclose(records - 2);
    fill_with_procedures();
    report("a circle of 32 tasks");
}

/* The largest of the calls' sizes, to the next 4 KiB. */
static size_t rounded(void)
{
    size_t largest = 0;
    int callee;

    for (callee = START; callee < CALLEES; callee++)
        largest = most[callee] > largest ? most[callee] : largest;
    return (largest + 4095) / 4096 * 4096;
}

int main(void)
{
    void *memory;
    int callee;

    if (posix_memalign(&memory, STACK_ALIGNMENT, STACK_SIZE) != 0)
        give_up("no memory");
    stack = memory;

    /* The first calls also pay for the dynamic linker; leave them out. */
    append(PROCEDURE, 0, 0);
    for (callee = START; callee < CALLEES; callee++)
        measure((enum callee)callee);
    records = 0;

    puts("table: each call's number and bytes of stack");
    report_nests();
    fill_with_procedures();
    report("4,096 procedures");
    report_row(SKIP, "a row of skips");
    report_row(SET, "a row of sets");
    report_row(IF, "a row of ifs without a body");
    report_row(GUARD, "a row of guards");
    report_too_deep();
    report_spawns();
    report_circle();

    printf("at most: start %zu, run %zu, why %zu, check %zu; "
           "to the next 4 KiB: %zu\n",
           most[START], most[RUN], most[WHY_STUCK], most[CHECK_ALL], rounded());
    free(memory);
    return 0;
}
