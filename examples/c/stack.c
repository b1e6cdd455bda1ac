/* Measures the stack that each call, finish_round, sizes, entry and the listing take, at the greatest sizes: 64 elements, 64 states, 16 propositions and eight formulas of 255 bytes.
   A call runs on a stack of its own whose bytes were all set to one value; those that have another value after it were written. What
   running nothing takes there is subtracted. Each call is measured with two values, and the greater figure is printed. Bytes that a call
   sets aside and never writes are not seen, unless it writes below them.

   From the repository's root, after `tools/archive`:

       cc -O2 -Wall -Wextra -Werror -Iinclude examples/c/stack.c target/staticlib/libexports.a -o target/stack
       target/stack */
#define _XOPEN_SOURCE 700
#include <stdio.h>
#include <stdlib.h>
#include <string.h>
#include <ucontext.h>

#include "koelchair.h"

enum {
    ELEMENTS = KOELCHAIR_ELEMENTS_MOST,
    STATES = KOELCHAIR_STATES_MOST,
    PROPOSITIONS = KOELCHAIR_PROPOSITIONS_MOST,
    FORMULAS = KOELCHAIR_FORMULAS_MOST,
    FORMULA_LENGTH = KOELCHAIR_FORMULA_MOST,
    PARTS = 3 + FORMULAS
};

static uint8_t case_bytes[KOELCHAIR_CASE_MOST];
static size_t case_length;
static uint8_t store[KOELCHAIR_STORE_LENGTH], first[KOELCHAIR_TABLE_LENGTH], second[KOELCHAIR_TABLE_LENGTH], table[KOELCHAIR_TABLE_LENGTH];
static uint8_t text[KOELCHAIR_LISTING_LENGTH], out[KOELCHAIR_WRITTEN_MOST];
static koelchair_standing standing;
static uint8_t formula;
static koelchair_answer answer;

#define LENT standing, store, sizeof store, first, sizeof first, second, sizeof second

/* ---- the case */

static void put(uint8_t byte)
{
    case_bytes[case_length++] = byte;
}

/* The directory's pair of a part that starts here. */
static void begin(int part, size_t length)
{
    uint8_t pair[4] = {(uint8_t)case_length, (uint8_t)(case_length >> 8), (uint8_t)length, (uint8_t)(length >> 8)};
    memcpy(case_bytes + 1 + 4 * part, pair, sizeof pair);
}

/* The subsets of six things. */
static void put_lattice(void)
{
    begin(0, 1 + ELEMENTS + ELEMENTS * ELEMENTS);
    put(ELEMENTS);
    for (int i = 0; i < ELEMENTS; i++)
        put((uint8_t)(ELEMENTS - 1 - i));
    for (int i = 0; i < ELEMENTS; i++)
        for (int j = 0; j < ELEMENTS; j++)
            put((i & j) == i);
}

static void put_model(int part)
{
    size_t values = STATES + STATES * PROPOSITIONS + STATES * STATES;
    begin(part, 2 + values);
    put(STATES);
    put(PROPOSITIONS);
    for (size_t i = 0; i < values; i++)
        put((uint8_t)((i * 7 + (size_t)part * i / 5) % ELEMENTS));
}

/* A formula of FORMULA_LENGTH bytes: its front, its middle over and over, its back. A code c is written as the character '0' + c, so AX is
   '7', EX '8', and the fixpoints are '9' and ':'. */
static void put_formula(int number, const char *front, const char *middle, const char *back)
{
    size_t f = strlen(front), m = strlen(middle), b = FORMULA_LENGTH - strlen(back);
    begin(3 + number, FORMULA_LENGTH);
    for (size_t i = 0; i < FORMULA_LENGTH; i++)
        put((uint8_t)((i < f ? front[i] : i < b ? middle[(i - f) % m] : back[i - b]) - '0'));
}

static void make_case(void)
{
    /* AX, EX, or and and as deep as 255 bytes allow, bare and within fixpoints */
    static const char *const shapes[FORMULAS][3] = {
        {"", "7", "1"}, {"", "8", "20"}, {"", "51", "0"}, {"", "60", "1"},
        {"999", "7", "1"}, {":::", "8", "42"}, {"9:9", "61", "40"}, {"7:", "7", "40"},
    };
    case_bytes[0] = PARTS;
    case_length = 1 + 4 * PARTS;
    put_lattice();
    put_model(1);
    put_model(2);
    for (int i = 0; i < FORMULAS; i++)
        put_formula(i, shapes[i][0], shapes[i][1], shapes[i][2]);
}

/* ---- the calls */

static void nothing(void)
{
    answer.kind = KOELCHAIR_OPENED;
}

static void open_case(void)
{
    koelchair_moved moved = koelchair_open(standing, case_bytes, case_length, store, sizeof store, first, sizeof first, second, sizeof second);
    standing = moved.standing;
    answer = moved.answer;
}

static void step(void)
{
    koelchair_moved moved = koelchair_step(LENT);
    standing = moved.standing;
    answer = moved.answer;
}

/* The last row, at which the two tables are compared. */
static void step_last_row(void)
{
    standing.row = STATES - 1;
    standing.changed = true;
    step();
}

static void finish_round(void)
{
    koelchair_moved moved = koelchair_finish_round(LENT);
    standing = moved.standing;
    answer = moved.answer;
}

static void show(void)
{
    koelchair_shown shown = koelchair_show(LENT);
    answer.kind = shown.table == 0 ? KOELCHAIR_REFUSED : KOELCHAIR_OPENED;
}

static void value(void) { answer = koelchair_value(LENT, formula, 1, STATES - 1); }
static void whole(void) { answer = koelchair_whole(LENT, formula, 2); }
static void score(void) { answer = koelchair_score(LENT); }
static void share(void) { answer = koelchair_share(LENT, 5); }
static void judge(void) { answer = koelchair_judge(LENT, table, sizeof table); }
static void write_case(void) { answer = koelchair_write(LENT, out, sizeof out); }

static void sizes(void) { answer.kind = koelchair_sizes(LENT).number == 0 ? KOELCHAIR_OPENED : KOELCHAIR_REFUSED; }

/* Of two states whose propositions do not end the entry, so that pairs are looked at. */
static void entry(void)
{
    koelchair_worked_entry worked = koelchair_entry(LENT, 3, 12);
    answer.kind = worked.pairs > 0 ? KOELCHAIR_OPENED : KOELCHAIR_REFUSED;
}

static void listing(void)
{
    size_t length = koelchair_listing(case_bytes, case_length, text);
    answer.kind = length == 0 || text[1] != 'o' ? KOELCHAIR_REFUSED : KOELCHAIR_OPENED;
}

/* ---- the measure */

enum { STACK = 1 << 20 };
static unsigned char stack[STACK];
static ucontext_t here, there;

/* The bytes from the stack's end down to the lowest that was written. */
static size_t taken_over(void (*work)(void), unsigned char fill)
{
    memset(stack, fill, STACK);
    getcontext(&there);
    there.uc_stack.ss_sp = stack;
    there.uc_stack.ss_size = STACK;
    there.uc_link = &here;
    makecontext(&there, work, 0);
    swapcontext(&here, &there);
    if (answer.kind == KOELCHAIR_REFUSED) {
        printf("refused %d %d\n", answer.number, answer.part);
        exit(EXIT_FAILURE);
    }
    size_t low = 0;
    while (low < STACK && stack[low] == fill)
        low++;
    return STACK - low;
}

static size_t taken(void (*work)(void))
{
    size_t a = taken_over(work, 0xa5) - taken_over(nothing, 0xa5);
    size_t b = taken_over(work, 0x5a) - taken_over(nothing, 0x5a);
    return a > b ? a : b;
}

int main(void)
{
    make_case();
    printf("open  %zu\n", taken(open_case));
    printf("step  %zu\n", taken(step));
    printf("step of the last row %zu\n", taken(step_last_row));
    printf("finish_round %zu\n", taken(finish_round));
    printf("show  %zu\n", taken(show));
    for (formula = 0; formula < FORMULAS; formula++)
        printf("value %zu, whole %zu of formula %d\n", taken(value), taken(whole), formula);
    printf("score %zu\n", taken(score));
    printf("share %zu\n", taken(share));
    printf("judge %zu\n", taken(judge));
    printf("write %zu\n", taken(write_case));
    printf("sizes %zu\n", taken(sizes));
    printf("entry %zu\n", taken(entry));
    printf("listing %zu\n", taken(listing));
    return EXIT_SUCCESS;
}
