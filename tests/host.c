/*
 * A host of the library in C: translates a program, prints its word as the label has it, runs the program and the word, and prints the
 * counts of both. Then the same from a list, a table run twice, a budget cut in two, a run that is full, names in primes, values and the
 * tidy form, registers of unequal length, reports, listings, the LOOP-only setting, and refusals. What it writes is held to
 * host-expected.txt.
 */
#include <inttypes.h>
#include <stdio.h>
#include <string.h>

#include "mudzkvopi.h"

#define REGISTERS 64
#define CAPACITY 1024

static const char adder[] = "loop X1\nX0 <- X0 + 1\nendloop X1\n";
static const char adder_in_primes[] = "loop X'\nX <- X0 + 1\nendloop X1\n";

static uint8_t word[MUDZKVOPI_MAX_WORD];
static uint8_t store[REGISTERS * CAPACITY];
static uint16_t lengths[REGISTERS];
static uint16_t capacities[REGISTERS];

static const char *name(uint64_t result)
{
    switch (MUDZKVOPI_WHAT(result)) {
    case MUDZKVOPI_DONE:
        return "done";
    case MUDZKVOPI_HALTED:
        return "halted";
    case MUDZKVOPI_STRAYED:
        return "strayed";
    case MUDZKVOPI_SPENT:
        return "spent";
    case MUDZKVOPI_FULL:
        return "full";
    case MUDZKVOPI_UNTIDY:
        return "untidy";
    default:
        return "refused";
    }
}

static void print_result(const char *call, uint64_t result)
{
    if (MUDZKVOPI_WHAT(result) == MUDZKVOPI_REFUSED)
        printf("%s: refused %" PRIu32 " %" PRIu32 "\n", call, MUDZKVOPI_RULE(result), MUDZKVOPI_PLACE(result));
    else if (MUDZKVOPI_WHAT(result) == MUDZKVOPI_DONE)
        printf("%s: done %" PRIu32 " %" PRIu32 "\n", call, MUDZKVOPI_HIGH(result), MUDZKVOPI_LOW(result));
    else if (MUDZKVOPI_WHAT(result) == MUDZKVOPI_UNTIDY)
        printf("%s: untidy\n", call);
    else
        printf("%s: %s after %" PRIu32 " steps\n", call, name(result), MUDZKVOPI_STEPS(result));
}

static uint64_t translate_as(uint32_t form, const char *text, size_t room)
{
    return mudzkvopi_translate(MUDZKVOPI_ANY, form, (const uint8_t *)text, strlen(text), word, room);
}

static uint64_t translate(const char *text)
{
    return translate_as(MUDZKVOPI_PLAIN, text, sizeof word);
}

/* A fresh state with one value, and one capacity for all variables. */
static void fresh_state(uint32_t *state, uint32_t capacity, uint32_t variable, uint32_t value)
{
    memset(state, 0, MUDZKVOPI_STATE_NUMBERS * sizeof *state);
    for (size_t i = 0; i <= MUDZKVOPI_MAX_INDEX; i++)
        state[MUDZKVOPI_STATE_CAPACITIES + i] = capacity;
    state[MUDZKVOPI_STATE_LINE] = 1;
    state[MUDZKVOPI_STATE_VALUES + variable] = value;
}

static uint64_t run_adder(uint32_t *state, size_t numbers, uint32_t budget)
{
    return mudzkvopi_run_source(MUDZKVOPI_ANY, (const uint8_t *)adder, strlen(adder), state, numbers, budget);
}

/* The capacities of all registers. */
static void set_capacities(uint32_t capacity)
{
    for (size_t r = 0; r < REGISTERS; r++)
        capacities[r] = (uint16_t)capacity;
}

/* A machine of one capacity, whose registers are empty, but for the one of a variable. */
static void fresh_machine(uint32_t capacity, uint32_t variable, uint32_t value)
{
    set_capacities(capacity);
    memset(store, 0, sizeof store);
    memset(lengths, 0, sizeof lengths);
    memset(store + variable * capacity, '1', value);
    lengths[variable] = (uint16_t)value;
}

static void run_both(const char *text, uint32_t capacity, uint32_t variable, uint32_t value)
{
    uint64_t translated = translate(text);
    uint32_t state[MUDZKVOPI_STATE_NUMBERS];
    int32_t place = 1;
    uint32_t steps = 0;
    uint64_t result;

    fresh_state(state, capacity, variable, value);
    result = mudzkvopi_run_source(MUDZKVOPI_ANY, (const uint8_t *)text, strlen(text), state, MUDZKVOPI_STATE_NUMBERS, 100000);
    print_result("source", result);
    printf("X0 is %" PRIu32 "\n", state[MUDZKVOPI_STATE_VALUES]);

    fresh_machine(capacity, variable, value);
    result = mudzkvopi_run_word(capacities, REGISTERS, store, REGISTERS * (size_t)capacity, lengths, REGISTERS, &place, &steps, word,
        MUDZKVOPI_LOW(translated), 1000000);
    print_result("word", result);
    printf("register 1 has %u symbols, place %" PRId32 ", %" PRIu32 " steps\n", (unsigned)lengths[0], place, steps);
}

/* The label of the adder, and its two runs of document 01. */
static void label(void)
{
    uint64_t translated = translate(adder);

    print_result("translate", translated);
    printf("%.*s\n", (int)MUDZKVOPI_LOW(translated), (const char *)word);
    run_both(adder, CAPACITY, 1, 3);
    run_both(adder, CAPACITY, 1, 0);
}

/* The adder from a text that spells it: its list, the text that is written for that, and the same word from the list. */
static void from_list(const char *spelled)
{
    uint8_t list[MUDZKVOPI_MAX_LIST];
    uint8_t text[MUDZKVOPI_MAX_TEXT];
    uint64_t read = mudzkvopi_read_program(MUDZKVOPI_ANY, (const uint8_t *)spelled, strlen(spelled), list, sizeof list);
    size_t numbers = 3 * (size_t)MUDZKVOPI_LOW(read);
    uint64_t written = mudzkvopi_write_program(MUDZKVOPI_ANY, list, numbers, text, sizeof text);
    uint32_t state[MUDZKVOPI_STATE_NUMBERS];

    print_result("read_program", read);
    print_result("write_program", written);
    printf("%s text\n", memcmp(text, adder, strlen(adder)) == 0 ? "the adder's" : "another");
    print_result("translate_list", mudzkvopi_translate_list(MUDZKVOPI_ANY, MUDZKVOPI_PLAIN, list, numbers, word, sizeof word));
    fresh_state(state, CAPACITY, 1, 3);
    print_result("run_source_list", mudzkvopi_run_source_list(MUDZKVOPI_ANY, list, numbers, state, MUDZKVOPI_STATE_NUMBERS, 100000));
}

/* A word as instructions, and back. */
static void instructions(void)
{
    static uint8_t kinds[MUDZKVOPI_MAX_INSTRUCTIONS];
    static uint32_t operands[MUDZKVOPI_MAX_INSTRUCTIONS];
    uint8_t back[sizeof "11#####1#"] = { 0 };
    uint64_t read = mudzkvopi_read_word(
        (const uint8_t *)"11#####1#", 9, kinds, MUDZKVOPI_MAX_INSTRUCTIONS, operands, MUDZKVOPI_MAX_INSTRUCTIONS);

    print_result("read_word", read);
    printf("kind %u operand %" PRIu32 ", kind %u operand %" PRIu32 "\n", (unsigned)kinds[0], operands[0], (unsigned)kinds[1], operands[1]);
    print_result("write_word", mudzkvopi_write_word(kinds, MUDZKVOPI_LOW(read), operands, MUDZKVOPI_LOW(read), back, 9));
    printf("%s\n", (const char *)back);
}

/* A word read once, and its table run for two values. */
static void table(void)
{
    static uint8_t kinds[MUDZKVOPI_MAX_INSTRUCTIONS];
    static uint32_t operands[MUDZKVOPI_MAX_INSTRUCTIONS];
    size_t symbols = MUDZKVOPI_LOW(translate(adder));
    size_t count = MUDZKVOPI_LOW(
        mudzkvopi_read_word(word, symbols, kinds, MUDZKVOPI_MAX_INSTRUCTIONS, operands, MUDZKVOPI_MAX_INSTRUCTIONS));

    for (uint32_t value = 3; value < 5; value++) {
        int32_t place = 1;
        uint32_t steps = 0;
        fresh_machine(CAPACITY, 1, value);
        print_result("table", mudzkvopi_run_table(
            capacities, REGISTERS, store, sizeof store, lengths, REGISTERS, &place, &steps, kinds, count, operands, count, 1000000));
        printf("register 1 has %u symbols, place %" PRId32 ", %" PRIu32 " steps\n", (unsigned)lengths[0], place, steps);
    }
}

/* A budget cut in two: the state goes on from where the first call left it. */
static void cut_in_two(void)
{
    uint32_t state[MUDZKVOPI_STATE_NUMBERS];

    fresh_state(state, CAPACITY, 1, 3);
    print_result("first 4", run_adder(state, MUDZKVOPI_STATE_NUMBERS, 4));
    print_result("the rest", run_adder(state, MUDZKVOPI_STATE_NUMBERS, 100000));
    printf("%" PRIu32 " steps, X0 is %" PRIu32 "\n", state[MUDZKVOPI_STATE_STEPS], state[MUDZKVOPI_STATE_VALUES]);
}

/* The adder's word in a form, run from X1 = 3, and its value. */
static void value(uint32_t form)
{
    uint64_t translated = translate_as(form, adder, sizeof word);
    int32_t place = 1;
    uint32_t steps = 0;
    uint64_t result;

    printf("form %" PRIu32 "\n", form);
    print_result("translate", translated);
    printf("%.*s\n", (int)MUDZKVOPI_LOW(translated), (const char *)word);
    fresh_machine(CAPACITY, 1, 3);
    print_result("word", mudzkvopi_run_word(capacities, REGISTERS, store, sizeof store, lengths, REGISTERS, &place, &steps, word,
        MUDZKVOPI_LOW(translated), 1000000));
    result = mudzkvopi_value(capacities, REGISTERS, store, sizeof store, lengths, REGISTERS);
    print_result("value", result);
    if (MUDZKVOPI_WHAT(result) == MUDZKVOPI_DONE)
        printf("%.*s\n", (int)MUDZKVOPI_LOW(result), (const char *)store);
}

/*
 * A copy of X0, whose register has 5, into X1, whose register has 3, from a value and 2: the source in one run, the word in two of 10 steps
 * and the rest; and the value of what it leaves. The scratch register has 5.
 */
static void unequal(uint32_t x0)
{
    static const char copy[] = "X1 <- X0\n";
    static const uint16_t three[] = { 5, 3, 5 };
    uint64_t translated = translate(copy);
    uint32_t state[MUDZKVOPI_STATE_NUMBERS] = { 5, 3 };
    uint8_t small[13] = { 0 };
    uint16_t held[] = { (uint16_t)x0, 2, 0 };
    int32_t place = 1;
    uint32_t steps = 0;

    state[MUDZKVOPI_STATE_LINE] = 1;
    state[MUDZKVOPI_STATE_VALUES] = x0;
    state[MUDZKVOPI_STATE_VALUES + 1] = 2;
    print_result("source", mudzkvopi_run_source(
        MUDZKVOPI_ANY, (const uint8_t *)copy, strlen(copy), state, MUDZKVOPI_STATE_NUMBERS, 100000));
    printf("X1 is %" PRIu32 "\n", state[MUDZKVOPI_STATE_VALUES + 1]);
    memset(small, '1', x0);
    memset(small + 5, '1', 2);
    print_result("first 10", mudzkvopi_run_word(three, 3, small, 13, held, 3, &place, &steps, word, MUDZKVOPI_LOW(translated), 10));
    print_result("the rest", mudzkvopi_run_word(three, 3, small, 13, held, 3, &place, &steps, word, MUDZKVOPI_LOW(translated), 1000));
    printf("registers of %u, %u and %u, place %" PRId32 ", %" PRIu32 " steps\n", (unsigned)held[0], (unsigned)held[1], (unsigned)held[2],
        place, steps);
    print_result("value", mudzkvopi_value(three, 3, small, 13, held, 3));
}

static void report(const char *text, const char *sheet, size_t registers, size_t room)
{
    static uint8_t out[MUDZKVOPI_MAX_REPORT];
    uint64_t result = mudzkvopi_report_on(
        (const uint8_t *)text, strlen(text), (const uint8_t *)sheet, strlen(sheet), capacities, registers, out, room);

    print_result("report_on", result);
    if (MUDZKVOPI_WHAT(result) == MUDZKVOPI_DONE)
        printf("%.*s", (int)MUDZKVOPI_LOW(result), (const char *)out);
}

/* Reports: of the run tool's registers; of a short X0; and what is refused, which is printed, but for an output without room. */
static void reports(void)
{
    set_capacities(CAPACITY);
    report(adder, "X1\n3\n0\n", REGISTERS, MUDZKVOPI_MAX_REPORT);
    set_capacities(5);
    capacities[0] = 3;
    report(adder, "X1\n3\n4\n", REGISTERS, MUDZKVOPI_MAX_REPORT);
    report("X0 <- X1\n", "X0 X1\n2 3\n2 4\n", REGISTERS, MUDZKVOPI_MAX_REPORT);
    report("X0 <- X1\n", "X0 X1\n2 3\n4 2\n", REGISTERS, MUDZKVOPI_MAX_REPORT);
    report("X0 <- X1\n", "X0 X1\n2 3\n", REGISTERS - 1, MUDZKVOPI_MAX_REPORT);
    capacities[2] = 4;
    report("X0 <- X1\n", "X0 X1\n2 3\n", REGISTERS, MUDZKVOPI_MAX_REPORT);
    report("X0 <- X1\n", "X0 X1\n2 3\n", REGISTERS, 13);
    report("X0 <- X1\n", "X0 X1\n2 3\n", REGISTERS, 12);
}

static uint64_t translate_listing(const char *text, size_t room)
{
    return mudzkvopi_translate_listing((const uint8_t *)text, strlen(text), word, room);
}

/*
 * A listing that moves register 2 to the end of register 1: its word, and a run of that from # and 1#. Then the empty listing, one without
 * room, which leaves the word as it was, and what else is refused.
 */
static void listings(void)
{
    static const char moves[] = "P1 3\nScd 3 7 7\nP1 1\nP1 3\nScd 3 7 7\nP# 1\nScd 2 3 6\n";
    static char many[5 * (MUDZKVOPI_MAX_LISTING_LINES + 1) + 1];
    uint64_t translated = translate_listing(moves, sizeof word);
    int32_t place = 1;
    uint32_t steps = 0;

    print_result("translate_listing", translated);
    printf("%.*s\n", (int)MUDZKVOPI_LOW(translated), (const char *)word);
    fresh_machine(CAPACITY, 1, 1);
    store[0] = store[CAPACITY + 1] = '#';
    lengths[0] = 1;
    lengths[1] = 2;
    print_result("word", mudzkvopi_run_word(capacities, REGISTERS, store, sizeof store, lengths, REGISTERS, &place, &steps, word,
        MUDZKVOPI_LOW(translated), 1000000));
    printf("register 1 has %.*s, registers 2 and 3 have %u and %u symbols, place %" PRId32 "\n", (int)lengths[0], (const char *)store,
        (unsigned)lengths[1], (unsigned)lengths[2], place);
    memset(word, '?', 4);
    print_result("no room for the word of an empty listing", translate_listing("", 3));
    printf("%.4s\n", (const char *)word);
    print_result("an empty listing", translate_listing("", 4));
    printf("%.4s\n", (const char *)word);
    for (size_t i = 0; i <= MUDZKVOPI_MAX_LISTING_LINES; i++)
        memcpy(many + 5 * i, "P1 1\n", 5);
    print_result("257 lines", translate_listing(many, sizeof word));
    many[5 * MUDZKVOPI_MAX_LISTING_LINES] = 0;
    print_result("256 lines", translate_listing(many, sizeof word));
    print_result("no last LF", translate_listing("P1 1\nP# 2", sizeof word));
    print_result("register 65", translate_listing("P1 64\nP1 65\n", sizeof word));
    print_result("target 0", translate_listing("P1 1\nScd 1 0 1\n", sizeof word));
    print_result("the line after the last", translate_listing("P1 1\nScd 1 3 3\n", sizeof word));
    print_result("one line more", translate_listing("P1 1\nScd 1 1 4\n", sizeof word));
}

/*
 * Every call that is given a program, under a setting: a program with a `while` in its second line, as text and as list, and what became
 * of the lent memory; then a LOOP program.
 */
static void lesson(uint32_t setting)
{
    static const char text[] = "loop X1\nwhile X0 != 0\nX0 <- 0\nendwhile X0 != 0\nendloop X1\n";
    static const uint8_t list[] = { 4, 1, 0, 6, 0, 0, 1, 0, 0, 7, 0, 0, 5, 1, 0 };
    const uint8_t *bytes = (const uint8_t *)text;
    uint8_t out[512], untouched[sizeof out];
    uint32_t first[MUDZKVOPI_STATE_NUMBERS], second[MUDZKVOPI_STATE_NUMBERS], fresh[MUDZKVOPI_STATE_NUMBERS];
    int same;

    memset(out, '?', sizeof out);
    memset(untouched, '?', sizeof untouched);
    fresh_state(first, CAPACITY, 1, 3);
    fresh_state(second, CAPACITY, 1, 3);
    fresh_state(fresh, CAPACITY, 1, 3);
    printf("setting %" PRIu32 "\n", setting);
    print_result("read_program", mudzkvopi_read_program(setting, bytes, strlen(text), out, sizeof out));
    print_result("write_program", mudzkvopi_write_program(setting, list, sizeof list, out, sizeof out));
    print_result("translate", mudzkvopi_translate(setting, MUDZKVOPI_PLAIN, bytes, strlen(text), out, sizeof out));
    print_result("translate, tidy", mudzkvopi_translate(setting, MUDZKVOPI_TIDY, bytes, strlen(text), out, sizeof out));
    print_result("translate_list", mudzkvopi_translate_list(setting, MUDZKVOPI_PLAIN, list, sizeof list, out, sizeof out));
    print_result("translate_list, tidy", mudzkvopi_translate_list(setting, MUDZKVOPI_TIDY, list, sizeof list, out, sizeof out));
    print_result("run_source", mudzkvopi_run_source(setting, bytes, strlen(text), first, MUDZKVOPI_STATE_NUMBERS, 100000));
    print_result("run_source_list", mudzkvopi_run_source_list(setting, list, sizeof list, second, MUDZKVOPI_STATE_NUMBERS, 100000));
    same = memcmp(out, untouched, sizeof out) == 0 && memcmp(first, fresh, sizeof fresh) == 0 && memcmp(second, fresh, sizeof fresh) == 0;
    printf("%s\n", same ? "all that was lent is as it was" : "what was lent is written");
    print_result("a LOOP program", mudzkvopi_translate(setting, MUDZKVOPI_PLAIN, (const uint8_t *)adder, strlen(adder), out, sizeof out));
}

static void refusals(void)
{
    uint32_t state[MUDZKVOPI_STATE_NUMBERS];
    int32_t place = 1;
    uint32_t steps = 0;

    print_result("index 32", translate("X0 <- 0\nX32 <- 0\n"));
    print_result("a prime after a digit", translate("X0 <- 0\nX3' <- 0\n"));
    print_result("left open", translate("loop X1\n"));
    print_result("no room", translate_as(MUDZKVOPI_PLAIN, adder, 82));
    print_result("room for the plain word", translate_as(MUDZKVOPI_PLAIN, adder, 100));
    print_result("no room for the tidy word", translate_as(MUDZKVOPI_TIDY, adder, 100));
    fresh_state(state, CAPACITY, 2, 1);
    print_result("a value too many", run_adder(state, MUDZKVOPI_STATE_NUMBERS, 1));
    print_result("81 numbers", run_adder(state, MUDZKVOPI_STATE_NUMBERS - 1, 1));
    fresh_machine(CAPACITY, 0, 1);
    print_result("value of a short store", mudzkvopi_value(capacities, 2, store, CAPACITY, lengths, 2));
    print_result("short store", mudzkvopi_run_word(
        capacities, 2, store, CAPACITY, lengths, 2, &place, &steps, (const uint8_t *)"1#", 2, 1));
    print_result("no register", mudzkvopi_run_word(
        capacities, 2, store, 2 * CAPACITY, lengths, 2, &place, &steps, (const uint8_t *)"1#111#", 6, 1));
    print_result("no register in a table", mudzkvopi_run_table(
        capacities, 2, store, 2 * CAPACITY, lengths, 2, &place, &steps, (const uint8_t[]){ 1, 1 }, 2, (const uint32_t[]){ 1, 3 }, 2, 1));
    print_result("an operand too few", mudzkvopi_run_table(
        capacities, 2, store, 2 * CAPACITY, lengths, 2, &place, &steps, (const uint8_t[]){ 1, 1 }, 2, (const uint32_t[]){ 1 }, 1, 1));
    capacities[1] = CAPACITY + 1;
    print_result("a capacity of 1025", mudzkvopi_value(capacities, 2, store, 2 * CAPACITY + 1, lengths, 2));
    state[MUDZKVOPI_STATE_VALUES + 2] = 0;
    state[MUDZKVOPI_STATE_CAPACITIES + 1] = CAPACITY + 1;
    print_result("a variable's of 1025", run_adder(state, MUDZKVOPI_STATE_NUMBERS, 1));
    printf("place %" PRId32 ", %" PRIu32 " steps, register 1 has %u symbols\n", place, steps, (unsigned)lengths[0]);
}

int main(void)
{
    if (mudzkvopi_version() != MUDZKVOPI_VERSION) {
        printf("the library has version %" PRIu32 ", and the header %d\n", mudzkvopi_version(), MUDZKVOPI_VERSION);
        return 1;
    }
    label();
    from_list(adder);
    instructions();
    table();
    cut_in_two();
    run_both("X0 <- X0 + 1\n", 2, 0, 2);
    from_list(adder_in_primes);
    run_both(adder_in_primes, CAPACITY, 1, 3);
    value(MUDZKVOPI_PLAIN);
    value(MUDZKVOPI_TIDY);
    value(7); /* counts as plain */
    unequal(3);
    unequal(4);
    reports();
    listings();
    lesson(MUDZKVOPI_ANY);
    lesson(MUDZKVOPI_LOOP_ONLY);
    lesson(7); /* counts as LOOP-only */
    refusals();
    return 0;
}
