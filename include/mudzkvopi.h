/*
 * mudzkvopi.h: LOOP/WHILE programs, scan-and-delete listings, their 1# words, and runs. Version 6.
 *
 * A host that translates a program, runs its word and shows its value (the tests compile and run
 * it):
 *
 *     #include <stdio.h>
 *     #include <string.h>
 *     #include "mudzkvopi.h"
 *
 *     int main(void)
 *     {
 *         const char *text = "loop X1\nX0 <- X0 + 1\nendloop X1\n"; // K = 2: X0 and X1
 *         static uint8_t word[1024], store[19 * 64];  // K + 17 registers of 64 symbols
 *         uint16_t capacities[19];
 *         uint16_t lengths[19] = { 0, 3 };            // X1 is register 2, and is to be 3
 *         int32_t place = 1;
 *         uint32_t steps = 0;
 *         uint64_t r = mudzkvopi_translate(MUDZKVOPI_ANY, MUDZKVOPI_TIDY, (const uint8_t *)text,
 *                                          strlen(text), word, sizeof word);
 *
 *         if (MUDZKVOPI_WHAT(r) == MUDZKVOPI_REFUSED) {
 *             printf("refused %u %u\n", MUDZKVOPI_RULE(r), MUDZKVOPI_PLACE(r));
 *             return 1;
 *         }
 *         for (int i = 0; i < 19; i++)
 *             capacities[i] = 64;
 *         memset(store + 64, '1', 3);                 // "111" in register 2
 *         r = mudzkvopi_run_word(capacities, 19, store, sizeof store, lengths, 19, &place, &steps,
 *                                word, MUDZKVOPI_LOW(r), 1000000);
 *         if (MUDZKVOPI_WHAT(r) != MUDZKVOPI_HALTED) {
 *             printf("stopped after %u steps\n", MUDZKVOPI_STEPS(r));
 *             return 1;
 *         }
 *         printf("halted after %u steps, ", MUDZKVOPI_STEPS(r));
 *         r = mudzkvopi_value(capacities, 19, store, sizeof store, lengths, 19);
 *         if (MUDZKVOPI_WHAT(r) == MUDZKVOPI_DONE)
 *             printf("value %u\n", MUDZKVOPI_LOW(r));
 *         else
 *             printf("untidy\n");
 *         return 0;
 *     }
 *
 * It prints: halted after 45 steps, value 3
 *
 * Link with libhost.a (x86-64, C99 or C++), which itself needs memcpy and memset and nothing else.
 * Every call checks what it is given, ends, and is proved to answer by the definitions in
 * crates/theory/specs/ and, for listings, crates/listing/specs/; no proof covers this header. There
 * is no state between calls, no allocation, no global and no file: calls may run in any threads at
 * the same time, as long as no two of them are lent the same memory.
 *
 * Memory that you lend. A slice is a pointer and the number of its elements (not bytes). A pointer
 * is never NULL, also where its number is 0, and is aligned for its type. A slice that a call may
 * write (one without `const`) overlaps no other argument of the call. On a refusal nothing that was
 * lent has changed; else the result stands at the start of its slice, and the elements after the
 * result are as they were.
 *
 * In 64 KB. A program of K variables (HIGH of mudzkvopi_read_program) has a word that names no
 * register above K + 17, in either form (claims WordsFit and TidyWordsFit), so a machine of that
 * many is enough for it. In bytes:
 *
 *     a text of n bytes, or a word of n symbols          n
 *     a program's list of n commands                     3 * n
 *     a source state                                     328
 *     a machine: store, capacities and lengths           the sum of the capacities + (K + 17) * 4
 *     a table of n instructions: kinds and operands      5 * n
 *
 * With 3 variables and capacities of 1024 a machine is 20560 bytes; 1000 instructions are 5000; and
 * with a text of 1024, a word of 8192, a state, and 8192 of stack for translating, all is 43296.
 * HIGH and LOW of mudzkvopi_translate are the instructions and the symbols of the word. Once it is
 * read into a table the word need not be kept: mudzkvopi_run_table takes little stack.
 *
 * Capacities. Each register has its own, and so has each variable: that of its register. The word
 * of a program of K variables has these in registers 1 to K. Behind them stand the scratch
 * register, K + 1, which it names if there is a loop or a copy between two variables, and the
 * counters, from K + 2 on, one for each depth of loops inside loops. As long as each of these that
 * the word names has at least the largest capacity of a variable (rule 21), and neither run is
 * SPENT, the source is FULL exactly when its word is (claim FullTogether); with a shorter one the
 * word may be FULL alone. A register that the word doesn't name may have a capacity of 1.
 */
#ifndef MUDZKVOPI_H
#define MUDZKVOPI_H

#include <stddef.h>
#include <stdint.h>

#ifdef __cplusplus
extern "C" {
#endif

#define MUDZKVOPI_VERSION 6

/*
 * Stack, in bytes, for each call. These are measured, not proved: tests/stack.c calls each with the
 * deepest and longest program that is accepted and its word, or with the listing of the longest
 * word, and the tests fail where a call takes more. mudzkvopi_run_word reads the word into its own
 * stack; mudzkvopi_run_table copies nothing; mudzkvopi_report_on has the word and a machine of its
 * own there.
 */
#define MUDZKVOPI_STACK_READ_PROGRAM 4096
#define MUDZKVOPI_STACK_WRITE_PROGRAM 1024
#define MUDZKVOPI_STACK_TRANSLATE 8192
#define MUDZKVOPI_STACK_TRANSLATE_LIST 6144
#define MUDZKVOPI_STACK_TRANSLATE_LISTING 8192
#define MUDZKVOPI_STACK_RUN_SOURCE 6144
#define MUDZKVOPI_STACK_RUN_SOURCE_LIST 4096
#define MUDZKVOPI_STACK_READ_WORD 1024
#define MUDZKVOPI_STACK_WRITE_WORD 1024
#define MUDZKVOPI_STACK_RUN_WORD 46080
#define MUDZKVOPI_STACK_RUN_TABLE 4096
#define MUDZKVOPI_STACK_VALUE 1024
#define MUDZKVOPI_STACK_REPORT_ON 131072

/*
 * Results. A call answers with one number: bits 56 to 63 say what came of it, and the other bits go
 * by that.
 *
 *   MUDZKVOPI_DONE      bits 32 to 47: MUDZKVOPI_HIGH, bits 0 to 31: MUDZKVOPI_LOW, two counts
 *                       that each call below names
 *   HALTED .. FULL      a run ended so; bits 0 to 31: MUDZKVOPI_STEPS, the steps of this call
 *   MUDZKVOPI_UNTIDY    a halted word has no value; there is nothing else to tell
 *   MUDZKVOPI_REFUSED   bits 32 to 47: MUDZKVOPI_RULE, the number of the rule, bits 0 to 31:
 *                       MUDZKVOPI_PLACE, where it applies
 *
 * All bits that are not named are 0.
 */
#define MUDZKVOPI_WHAT(result) ((uint32_t)((uint64_t)(result) >> 56))
#define MUDZKVOPI_HIGH(result) ((uint32_t)((uint64_t)(result) >> 32) & 0xffffu)
#define MUDZKVOPI_LOW(result) ((uint32_t)(uint64_t)(result))
#define MUDZKVOPI_STEPS(result) MUDZKVOPI_LOW(result)
#define MUDZKVOPI_RULE(result) MUDZKVOPI_HIGH(result)
#define MUDZKVOPI_PLACE(result) MUDZKVOPI_LOW(result)

enum mudzkvopi_what {
    MUDZKVOPI_DONE = 0,
    MUDZKVOPI_HALTED = 1,  /* the run came to the line, or the place, after the last */
    MUDZKVOPI_STRAYED = 2, /* words only: the run is at any other place outside the word */
    MUDZKVOPI_SPENT = 3,   /* the budget is used up, or the count of steps stands at 4294967295 */
    MUDZKVOPI_FULL = 4,    /* the next step, which isn't done, would put more into a register or a
                              variable than its capacity */
    MUDZKVOPI_UNTIDY = 5,  /* mudzkvopi_value only: a register other than the first isn't empty */
    MUDZKVOPI_REFUSED = 255
};

/*
 * Rules, and their places. Each call below lists its rules in the order in which it checks them,
 * and answers with the first that applies. "1, 2, 3; each line by 4, 5, 20, 6, 7; 8; 19" says: the
 * whole text by 1, 2 and 3; then line after line, each by 4, 5, 20, 6 and 7 before the next one is
 * looked at; then 8, and last 19. Lines count from 1, and the commands of a list are its lines. 20
 * applies under the setting MUDZKVOPI_LOOP_ONLY alone. 16 to 18 and 21 are those of a report, which
 * prints them, as the run tool does: no call answers with them. 22 is that of a listing, for which
 * 3 and 4 have a limit and spellings of their own.
 */
enum mudzkvopi_rule {
    MUDZKVOPI_TEXT_TOO_LONG = 1,   /* the text is over 16384 bytes (place 0) */
    MUDZKVOPI_NO_LAST_LF = 2,      /* the text has bytes and its last isn't LF (the last line) */
    MUDZKVOPI_TOO_MANY_LINES = 3,  /* there are more than 512 lines (513); of a listing more than
                                      256 (257) */
    MUDZKVOPI_NO_COMMAND = 4,      /* a line is none of the spellings, such as one with X3' or X07;
                                      a list's command is none, or is cut short; a listing's line is
                                      none of its own, such as P1 65 or Scd 1 01 1 (the line) */
    MUDZKVOPI_INDEX_TOO_HIGH = 5,  /* an index is above 31, in digits or in primes (the line) */
    MUDZKVOPI_TOO_DEEP = 6,        /* a pair opens with 16 open (the line) */
    MUDZKVOPI_NO_MATCH = 7,        /* a closing line doesn't match the innermost open pair, or none
                                      is open (the line) */
    MUDZKVOPI_LEFT_OPEN = 8,       /* a pair is left open (the innermost opening line) */
    MUDZKVOPI_BAD_STATE = 9,       /* a source state isn't one of the program's, by the capacities
                                      of the variables below K, or doesn't have 82 numbers (0) */
    MUDZKVOPI_BAD_MACHINE = 10,    /* a machine's registers or a capacity are outside the limits, or
                                      its store or lengths aren't as laid down below (0) */
    MUDZKVOPI_WORD_SIZE = 11,      /* the word is empty or above 600000 bytes (0) */
    MUDZKVOPI_NO_SYMBOL = 12,      /* a byte is neither '1' nor '#' (the first such, from 0) */
    MUDZKVOPI_NO_INSTRUCTION = 13, /* the word starts with '#', has a sixth '#' running, or ends in
                                      '1' (0, that '#', the length) */
    MUDZKVOPI_TOO_MANY = 14,       /* more than 8192 instructions (the next one's start) */
    MUDZKVOPI_NO_REGISTER = 15,    /* an add or cases names a register that the machine lacks (the
                                      start of the first such) */
    MUDZKVOPI_SHEET_SHAPE = 16,    /* a sheet is empty, too long or doesn't end in LF (0); a line
                                      has the wrong shape or count, such as a name X3', or a value
                                      in primes (the line) */
    MUDZKVOPI_SHEET_NAME = 17,     /* a name isn't one of the program's variables, or comes twice,
                                      such as X1 and X' (the line) */
    MUDZKVOPI_SHEET_VALUE = 18,    /* a value is above the capacity of its variable (the line) */
    MUDZKVOPI_NO_ROOM = 19,        /* a lent output is shorter than the result (0) */
    MUDZKVOPI_NO_WHILE = 20,       /* a `while` or `endwhile` line under the setting
                                      MUDZKVOPI_LOOP_ONLY (the line) */
    MUDZKVOPI_SHORT_REGISTER = 21, /* a scratch or counter register that the word names has less
                                      capacity than the largest of a variable (0) */
    MUDZKVOPI_NO_TARGET = 22       /* a target of a listing's line is outside 1 to the number of
                                      lines plus 1 (the line) */
};

/* Limits. An output of the size given here has room for every result. */
#define MUDZKVOPI_MAX_TEXT 16384        /* bytes of a program's text, or of a listing's */
#define MUDZKVOPI_MAX_LINES 512         /* lines, or commands */
#define MUDZKVOPI_MAX_LISTING_LINES 256 /* lines of a listing */
#define MUDZKVOPI_MAX_INDEX 31          /* of a variable */
#define MUDZKVOPI_MAX_OPEN 16           /* pairs open together */
#define MUDZKVOPI_MAX_LIST 1536         /* numbers of a program's list */
#define MUDZKVOPI_MAX_WORD 600000       /* symbols of a word; no program's or listing's is longer */
#define MUDZKVOPI_MAX_INSTRUCTIONS 8192 /* of a word */
#define MUDZKVOPI_MAX_REGISTERS 64      /* of a machine */
#define MUDZKVOPI_MAX_CAPACITY 1024     /* symbols in a register, or the value of a variable */
#define MUDZKVOPI_MAX_STORE 65536       /* bytes of a machine's store */
#define MUDZKVOPI_MAX_SHEET 4096        /* bytes of a sheet */
#define MUDZKVOPI_MAX_REPORT 147467     /* bytes of a report; none is longer */

/* The version of the library that is linked: MUDZKVOPI_VERSION, if it is the one of this header. */
uint32_t mudzkvopi_version(void);

/*
 * Programs. A text has one command a line, each line ended by LF, or is empty. A list has three
 * numbers a command: the kind, the index of the variable, and the source's index of a copy, else 0.
 * Kinds: 1 X3 <- 0, 2 X3 <- X3 + 1, 3 X3 <- X5, 4 loop X3, 5 endloop X3, 6 while X3 != 0, 7
 * endwhile X3 != 0.
 *
 * Names. Wherever a text is read, the index of a name may be spelled in digits, without a leading
 * zero, or in as many primes, which are bytes of 39: X3 or X''', and X0 or X. X3' is neither. The
 * names in one line, and in the two lines of a pair, may be spelled differently: they are compared
 * by index, and X3 <- X''' + 1 is an increment. A text that is written always has its names in
 * digits. So a text that is read and written again is the same if it was in digits, and else
 * another, which may be longer: X becomes X0. A sheet's names may have either spelling too, and its
 * values are in digits.
 */

/*
 * The setting of a lesson, which every call that is given a program takes first. Under
 * MUDZKVOPI_LOOP_ONLY a `while` or `endwhile` line is refused (rule 20); a program that has none is
 * answered as under MUDZKVOPI_ANY. A number other than these two counts as MUDZKVOPI_LOOP_ONLY: a
 * set that is told something it doesn't know stays on the strict side. Every program accepted under
 * MUDZKVOPI_LOOP_ONLY halts from all starting values on unlimited registers, and so does its word
 * (claim LoopProgramsHalt); a run here may still end as SPENT or FULL.
 */
#define MUDZKVOPI_ANY 0
#define MUDZKVOPI_LOOP_ONLY 1

/*
 * Reads a text into a list. DONE: HIGH the variables (the highest index plus 1, or 0), LOW the
 * commands. Rules 1, 2, 3; each line by 4, 5, 20, 6, 7; 8; 19.
 */
uint64_t mudzkvopi_read_program(
    uint32_t setting, const uint8_t *text, size_t text_len, uint8_t *list, size_t list_len);

/*
 * Writes a list as a text, names in digits. DONE: LOW the bytes. Rules 3; each line by 4, 5, 20, 6,
 * 7; 8; 19.
 */
uint64_t mudzkvopi_write_program(
    uint32_t setting, const uint8_t *list, size_t list_len, uint8_t *text, size_t text_len);

/*
 * The form of a program's word. When the plain word has halted, X1 and the later variables may
 * still hold something, and then it has no value (see mudzkvopi_value). The tidy word is the plain
 * word with clears of registers 2 to K behind it, in rising order; with K of 0 or 1 it is the plain
 * word. On a fresh machine without limits it halts exactly when its program does, after the plain
 * word's steps and 2 * v + 2 for each cleared register that held v, and then always has a value: as
 * many '1' as X0, none if K is 0 (claim TidyDemandOfPrograms). So it has after a run here that
 * ended as HALTED (claim TidyValue). A number other than these two counts as MUDZKVOPI_PLAIN.
 */
#define MUDZKVOPI_PLAIN 0
#define MUDZKVOPI_TIDY 1

/*
 * Translates a program into its word of that form. DONE: HIGH its instructions, LOW its symbols.
 * Rules 1, 2, 3; each line by 4, 5, 20, 6, 7; 8; 19, against the symbols of that form. A list: 3;
 * each line by 4, 5, 20, 6, 7; 8; 19.
 */
uint64_t mudzkvopi_translate(
    uint32_t setting, uint32_t form, const uint8_t *text, size_t text_len, uint8_t *word,
    size_t word_len);
uint64_t mudzkvopi_translate_list(
    uint32_t setting, uint32_t form, const uint8_t *list, size_t list_len, uint8_t *word,
    size_t word_len);

/*
 * Listings of the 1963 register machine. Each line of a text is "P1 n", "P# n" or "Scd n e f", with
 * single blanks, and ends in LF; the text may be empty. The register n is 1 to 64, and no number
 * has a leading zero. P1 and P# append '1' and '#' to register n. Scd goes to the next line where
 * register n is empty; else it deletes the first symbol, and goes to line e if that was '1' and to
 * line f if it was '#'. The line after the last is halted, and may be a target. The word begins
 * with 1###, as a program's does; then it has an append for each P line, and for each Scd cases on
 * n, 3 forward, and two transfers to the targets. On unlimited registers with equal contents a
 * listing halts exactly when its word does, with the same symbols in all registers, and the word's
 * steps are 1, and 1 for each P line done and 2 for each Scd done (claim DemandOfAccepted). A
 * machine of 64 registers takes every listing's word (claim ListingWordsFit). No call runs the
 * listing itself: mudzkvopi_run_word runs its word.
 */

/*
 * Translates a listing into its word. It takes no setting and no form. DONE: HIGH its instructions,
 * LOW its symbols. Rules 1, 2, 3; each line by 4, 22; 19.
 */
uint64_t mudzkvopi_translate_listing(
    const uint8_t *text, size_t text_len, uint8_t *word, size_t word_len);

/*
 * Runs of a program. A state is 82 numbers. A fresh state has capacities of 1 to 1024 for the
 * program's K variables, line 1, the values of these to start from, each at most its variable's
 * capacity, and 0 for all else, the values from K on too; capacities from K on may be anything, and
 * stay as they are. A run leaves the state from which a later call goes on. A copy that is too long
 * for its target ends it as FULL, and the target keeps its value; the word, by then, has cleared
 * the target and filled it.
 */
#define MUDZKVOPI_STATE_NUMBERS 82
#define MUDZKVOPI_STATE_CAPACITIES 0 /* 32 of them: the most that variable i may hold at i */
#define MUDZKVOPI_STATE_LINE 32      /* the line that comes next */
#define MUDZKVOPI_STATE_STEPS 33     /* the steps of all runs so far */
#define MUDZKVOPI_STATE_VALUES 34    /* 32 of them: variable i at 34 + i */
#define MUDZKVOPI_STATE_PASSES 66    /* 16 of them: passes left of the loop inside so many others */

/*
 * Runs at most `budget` steps. HALTED, SPENT or FULL. Rules 1, 2, 3; each line by 4, 5, 20, 6, 7;
 * 8; 9. A list: 3; each line by 4, 5, 20, 6, 7; 8; 9.
 */
uint64_t mudzkvopi_run_source(
    uint32_t setting, const uint8_t *text, size_t text_len, uint32_t *state, size_t state_len,
    uint32_t budget);
uint64_t mudzkvopi_run_source_list(
    uint32_t setting, const uint8_t *list, size_t list_len, uint32_t *state, size_t state_len,
    uint32_t budget);

/*
 * Words. An instruction is n times '1' and then 1 to 5 times '#'. As numbers it has a kind, the
 * times of '#', and an operand, n: 1 append '1' to register n, 2 append '#' to it, 3 go n places
 * forward, 4 go n places backward, 5 cases on register n.
 */

/* Reads a word into kinds and operands. DONE: LOW the instructions. Rules 11, 12, 13, 14, 19. */
uint64_t mudzkvopi_read_word(
    const uint8_t *word, size_t word_len, uint8_t *kinds, size_t kinds_len, uint32_t *operands,
    size_t operands_len);

/*
 * Writes kinds and operands as a word. DONE: LOW the symbols. Rules 11, 13, 14, 19, in this order,
 * whose places here are instructions, from 0. 11: both slices are empty, or all kinds and operands,
 * faulty ones too, sum above 600000. 13: a kind is outside 1 to 5 or an operand is 0; where one
 * slice is shorter, what it lacks counts as 0, and so is 13 too.
 */
uint64_t mudzkvopi_write_word(
    const uint8_t *kinds, size_t kinds_len, const uint32_t *operands, size_t operands_len,
    uint8_t *word, size_t word_len);

/*
 * Runs a word on a machine, at most `budget` steps. A machine has 1 to 64 registers, as many as
 * there are capacities, each of 1 to 1024 symbols. The places of the registers follow one another
 * in the store, from byte 0, each as long as its register's capacity: the symbols, '1' and '#', and
 * bytes of 0 after them. The store is exactly the sum of the capacities, and `lengths` has the
 * number of symbols of each register. Variable i of a program is register i + 1, a value is so many
 * '1', and all other registers are empty at the start. `place` is the place of the next
 * instruction, 1 at the start, and any value is allowed; `steps` counts the steps of all runs so
 * far. HALTED, STRAYED, SPENT or FULL. Rules 10, 11, 12, 13, 14, 15.
 */
uint64_t mudzkvopi_run_word(
    const uint16_t *capacities, size_t capacities_len, uint8_t *store, size_t store_len,
    uint16_t *lengths, size_t lengths_len, int32_t *place, uint32_t *steps, const uint8_t *word,
    size_t word_len, uint32_t budget);

/*
 * The same for a word that was read into kinds and operands, which are run as they are lent: for
 * firmware that has little memory, or runs one word often. Rules 10, 11, 13, 14, 15: 11 and 13 mean
 * what they mean for mudzkvopi_write_word, and places are instructions, from 0.
 */
uint64_t mudzkvopi_run_table(
    const uint16_t *capacities, size_t capacities_len, uint8_t *store, size_t store_len,
    uint16_t *lengths, size_t lengths_len, int32_t *place, uint32_t *steps, const uint8_t *kinds,
    size_t kinds_len, const uint32_t *operands, size_t operands_len, uint32_t budget);

/*
 * The value of a halted word, from the machine as its run left it. DONE: every register but the
 * first is empty; LOW is the length of the value, whose symbols are the first LOW bytes of the
 * store. UNTIDY: another register holds a symbol, '1' or '#'. The call is told nothing of the
 * place: look at the run's end first, for only a word that is HALTED has a value. Rule 10.
 */
uint64_t mudzkvopi_value(
    const uint16_t *capacities, size_t capacities_len, const uint8_t *store, size_t store_len,
    const uint16_t *lengths, size_t lengths_len);

/*
 * Runs a program and its plain word for each line of values of a sheet, on machines of 64 registers
 * of the given capacities, and writes what the run tool prints; with 64 times 1024 it is the run
 * tool's report. The budgets are the run tool's too: 100000 steps of a source and 1000000 of a
 * word. DONE: LOW the bytes that were written, which are a header and a line for each run, or
 * "refused", the rule and the place with single blanks, and LF. The rules that are printed so: 1,
 * 2, 3; each line by 4, 5, 6, 7; 8; 10, if there aren't exactly 64 capacities, each of 1 to 1024;
 * 21; 16, 17 and 18 of the sheet, line by line; 19, if the word has more than 65536 symbols. The
 * call itself is REFUSED only where the output is shorter than what is to be written (19).
 */
uint64_t mudzkvopi_report_on(
    const uint8_t *text, size_t text_len, const uint8_t *sheet, size_t sheet_len,
    const uint16_t *capacities, size_t capacities_len, uint8_t *out, size_t out_len);

#ifdef __cplusplus
}
#endif

#endif
