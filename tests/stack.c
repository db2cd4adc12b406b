/*
 * The stack that each entry takes, held to what the header promises: it is called on a thread whose stack was painted, and the bytes that
 * are no longer paint are counted, less the same count for an entry that does nothing. The inputs are the deepest and longest that are
 * accepted: 16 loops around 480 copies, and its tidy word of 312,067 symbols; for a report 16 loops around 90 too, whose word has room in
 * its buffer; and the listing of 256 lines whose word has 414,212 symbols.
 */
#define _GNU_SOURCE
#include <pthread.h>
#include <stdio.h>
#include <stdlib.h>
#include <string.h>

#include "mudzkvopi.h"

#define STACK (1 << 20)
#define PAINT 0xa5

static char text[MUDZKVOPI_MAX_TEXT], shorter[MUDZKVOPI_MAX_TEXT], listing[MUDZKVOPI_MAX_TEXT];
static size_t text_len, shorter_len, listing_len;
static uint8_t word[MUDZKVOPI_MAX_WORD], back[MUDZKVOPI_MAX_WORD];
static size_t word_len, count;
static uint8_t list[MUDZKVOPI_MAX_LIST], kinds[MUDZKVOPI_MAX_INSTRUCTIONS], bytes[MUDZKVOPI_MAX_TEXT];
static uint32_t operands[MUDZKVOPI_MAX_INSTRUCTIONS], state[MUDZKVOPI_STATE_NUMBERS];
static uint8_t store[64 * 1024];
static uint16_t lengths[64], capacities[64];
static uint8_t report[MUDZKVOPI_MAX_REPORT];
static int32_t place = 1;
static uint32_t steps;

static void version(void) { mudzkvopi_version(); }
static void read_program(void) { mudzkvopi_read_program(MUDZKVOPI_ANY, (uint8_t *)text, text_len, list, sizeof list); }
static void write_program(void) { mudzkvopi_write_program(MUDZKVOPI_ANY, list, sizeof list, bytes, sizeof bytes); }
static void translate(void)
{
    mudzkvopi_translate(MUDZKVOPI_ANY, MUDZKVOPI_PLAIN, (uint8_t *)text, text_len, word, sizeof word);
    word_len = MUDZKVOPI_LOW(mudzkvopi_translate(MUDZKVOPI_ANY, MUDZKVOPI_TIDY, (uint8_t *)text, text_len, word, sizeof word));
}
static void translate_list(void)
{
    mudzkvopi_translate_list(MUDZKVOPI_ANY, MUDZKVOPI_PLAIN, list, sizeof list, word, sizeof word);
    mudzkvopi_translate_list(MUDZKVOPI_ANY, MUDZKVOPI_TIDY, list, sizeof list, word, sizeof word);
}
static void translate_listing(void) { mudzkvopi_translate_listing((uint8_t *)listing, listing_len, back, sizeof back); }
static void run_source(void)
{
    mudzkvopi_run_source(MUDZKVOPI_ANY, (uint8_t *)text, text_len, state, MUDZKVOPI_STATE_NUMBERS, 1000);
}
static void run_source_list(void)
{
    mudzkvopi_run_source_list(MUDZKVOPI_ANY, list, sizeof list, state, MUDZKVOPI_STATE_NUMBERS, 1000);
}
static void read_word(void)
{
    count = MUDZKVOPI_LOW(mudzkvopi_read_word(word, word_len, kinds, sizeof kinds, operands, MUDZKVOPI_MAX_INSTRUCTIONS));
}
static void write_word(void) { mudzkvopi_write_word(kinds, count, operands, count, back, sizeof back); }
/* A run goes on lengths where all registers hold 1s, and else on the store: the last register holds a # the second time. */
static void on_both(void (*run)(void))
{
    run();
    store[63 * 1024] = '#';
    lengths[63] = 1;
    place = 1;
    run();
    store[63 * 1024] = 0;
    lengths[63] = 0;
}
static void word_run(void) { mudzkvopi_run_word(capacities, 64, store, sizeof store, lengths, 64, &place, &steps, word, word_len, 1000); }
static void run_word(void) { on_both(word_run); }
static void table_run(void)
{
    mudzkvopi_run_table(capacities, 64, store, sizeof store, lengths, 64, &place, &steps, kinds, count, operands, count, 1000);
}
static void run_table(void) { on_both(table_run); }
static void report_on(void)
{
    static const char sheet[] = "X31\n5\n1024\n";

    mudzkvopi_report_on((uint8_t *)text, text_len, (const uint8_t *)sheet, sizeof sheet - 1, capacities, 64, report, sizeof report);
    mudzkvopi_report_on((uint8_t *)shorter, shorter_len, (const uint8_t *)sheet, sizeof sheet - 1, capacities, 64, report, sizeof report);
}
static void value(void) { mudzkvopi_value(capacities, 64, store, sizeof store, lengths, 64); }

static void *call(void *entry)
{
    ((void (*)(void))entry)();
    return NULL;
}

static size_t stack_of(void (*entry)(void))
{
    static _Alignas(4096) unsigned char stack[STACK];
    pthread_attr_t attributes;
    pthread_t thread;
    size_t unused = 0;

    memset(stack, PAINT, sizeof stack);
    pthread_attr_init(&attributes);
    pthread_attr_setstack(&attributes, stack, sizeof stack);
    if (pthread_create(&thread, &attributes, call, (void *)entry) != 0)
        exit(1);
    pthread_join(thread, NULL);
    while (unused < sizeof stack && stack[unused] == PAINT)
        unused++;
    return sizeof stack - unused;
}

/* 16 loops around so many copies; the length. */
static size_t nested(char *into, int copies)
{
    size_t len = 0;

    for (int i = 0; i < 16; i++)
        len += (size_t)sprintf(into + len, "loop X31\n");
    for (int i = 0; i < copies; i++)
        len += (size_t)sprintf(into + len, "X31 <- X30\n");
    for (int i = 0; i < 16; i++)
        len += (size_t)sprintf(into + len, "endloop X31\n");
    return len;
}

/* As many lines as a listing may have, each with the further of the first line and of the one after the last; the length. */
static size_t scanning(char *into)
{
    size_t len = 0;

    for (int i = 1; i <= MUDZKVOPI_MAX_LISTING_LINES; i++) {
        int target = i <= MUDZKVOPI_MAX_LISTING_LINES / 2 ? MUDZKVOPI_MAX_LISTING_LINES + 1 : 1;
        len += (size_t)sprintf(into + len, "Scd 64 %d %d\n", target, target);
    }
    return len;
}

int main(void)
{
    struct { const char *name; void (*entry)(void); size_t most; } entries[] = {
        { "read_program", read_program, MUDZKVOPI_STACK_READ_PROGRAM },
        { "write_program", write_program, MUDZKVOPI_STACK_WRITE_PROGRAM },
        { "translate", translate, MUDZKVOPI_STACK_TRANSLATE },
        { "translate_list", translate_list, MUDZKVOPI_STACK_TRANSLATE_LIST },
        { "translate_listing", translate_listing, MUDZKVOPI_STACK_TRANSLATE_LISTING },
        { "run_source", run_source, MUDZKVOPI_STACK_RUN_SOURCE },
        { "run_source_list", run_source_list, MUDZKVOPI_STACK_RUN_SOURCE_LIST },
        { "read_word", read_word, MUDZKVOPI_STACK_READ_WORD },
        { "write_word", write_word, MUDZKVOPI_STACK_WRITE_WORD },
        { "run_word", run_word, MUDZKVOPI_STACK_RUN_WORD },
        { "run_table", run_table, MUDZKVOPI_STACK_RUN_TABLE },
        { "value", value, MUDZKVOPI_STACK_VALUE },
        { "report_on", report_on, MUDZKVOPI_STACK_REPORT_ON },
    };
    int too_much = 0;
    size_t base = stack_of(version);

    text_len = nested(text, 480);
    shorter_len = nested(shorter, 90);
    listing_len = scanning(listing);
    for (int i = 0; i < 32; i++)
        state[MUDZKVOPI_STATE_CAPACITIES + i] = 1024;
    for (int r = 0; r < 64; r++)
        capacities[r] = 1024;
    state[MUDZKVOPI_STATE_LINE] = 1;
    state[MUDZKVOPI_STATE_VALUES + 31] = 5;
    for (size_t i = 0; i < sizeof entries / sizeof *entries; i++) {
        size_t bytes = stack_of(entries[i].entry) - base;
        printf("%-17s %6zu bytes, of %6zu in the header\n", entries[i].name, bytes, entries[i].most);
        too_much |= bytes > entries[i].most;
    }
    return too_much;
}
