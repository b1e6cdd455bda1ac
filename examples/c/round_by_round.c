/* Reads a case from standard input, prints its listing, works its rounds to the end, and prints every answer: the lowerings of the rounds
   so far, the table at each round, which formulas it covers and what the next round changes, the score, the share, the
   formulas' facts and values, and how long the case is that the desk writes back. Where a file is named it gets the bytes of that case. A
   refusal is said in words, with its number and part.

   From the repository's root, after `tools/archive`:

       cc -std=c99 -Wall -Wextra -Werror -Iinclude examples/c/round_by_round.c target/staticlib/libexports.a -o target/round_by_round
       target/round_by_round < examples/c/example4.bytes
       target/round_by_round target/written.bytes < examples/c/example4.bytes
       cargo koelchair decode target/written.bytes

   Exit status: 0 the case was opened, 1 a call was refused, or write was not where its buffer was too short, 2 standard input could not
   be read or the file could not be written. */
#include <errno.h>
#include <stdio.h>
#include <stdlib.h>
#include <string.h>

#include "koelchair.h"

/* A desk: what the caller keeps between calls. */
struct desk {
    koelchair_standing standing;
    uint8_t store[KOELCHAIR_STORE_LENGTH];
    uint8_t first[KOELCHAIR_TABLE_LENGTH];
    uint8_t second[KOELCHAIR_TABLE_LENGTH];
};

/* The standing and the three buffers with their lengths, as every call but open takes them. */
#define LENT(d) (d)->standing, (d)->store, sizeof (d)->store, (d)->first, sizeof (d)->first, (d)->second, sizeof (d)->second

/* ---- refusals */

/* Ends the program, with a refusal's number and part. */
static void end_refused(const char *call, uint8_t number, uint8_t part)
{
    printf("%s: refused %d %d: %s", call, number, part, koelchair_refusal_words(number));
    if (part != KOELCHAIR_NO_PART)
        printf(" (part %d of the case)", part);
    printf("\n");
    exit(EXIT_FAILURE);
}

/* Ends the program where a call was refused. */
static void unless_refused(const char *call, koelchair_answer answer)
{
    if (answer.kind == KOELCHAIR_REFUSED)
        end_refused(call, answer.number, answer.part);
}

/* ---- formulas */

/* A formula's value on a whole model; false where there is no such formula. */
static bool formula_whole(const struct desk *d, uint8_t formula, uint8_t model, koelchair_answer *whole)
{
    *whole = koelchair_whole(LENT(d), formula, model);
    if (whole->number != KOELCHAIR_REFUSED_OUT_OF_RANGE)
        unless_refused("whole", *whole);
    return whole->kind == KOELCHAIR_FORMULA_VALUE;
}

/* Whether the table shown covers a formula, by the facts that whole gave: its entries then bound the formula's values, and its score the
   whole values. */
static bool covered(const struct desk *d, koelchair_answer whole)
{
    bool fixpoint = whole.flag1, ex = whole.flag2;
    return !ex && (d->standing.settled || (!fixpoint && whole.byte < d->standing.round));
}

static void print_covered(const struct desk *d)
{
    koelchair_answer whole;
    printf("  covers formulas:");
    bool none = true;
    for (uint8_t formula = 0; formula_whole(d, formula, 1, &whole); formula++) {
        if (!covered(d, whole))
            continue;
        printf(" %d", formula);
        none = false;
    }
    printf("%s\n", none ? " none" : "");
}

/* ---- rounds */

/* Prints what the next round makes of the table shown, entry by entry: how many it changes, and how many pairs of states are looked at. */
static void print_next_round(const struct desk *d, const uint8_t *table)
{
    unsigned long states1 = d->standing.states1, states2 = d->standing.states2, changed = 0, pairs = 0;
    for (unsigned long i = 0; i < states1 * states2; i++) {
        koelchair_worked_entry entry = koelchair_entry(LENT(d), (uint8_t)(i / states2), (uint8_t)(i % states2));
        if (entry.number != 0)
            end_refused("entry", entry.number, entry.part);
        changed += entry.value != table[i];
        pairs += entry.pairs;
    }
    printf("  the next round changes %lu entries and looks at %lu of %lu pairs\n", changed, pairs, states1 * states2 * states1 * states2);
}

/* Prints the table that the desk shows, a line for each state of model 1, which formulas it covers, and what comes of it. */
static void print_table(const struct desk *d)
{
    koelchair_shown shown = koelchair_show(LENT(d));
    const uint8_t *table = shown.table == 2 ? d->second : d->first;
    size_t columns = d->standing.states2;
    printf("round %lu is in the %s table:\n", (unsigned long)d->standing.round, shown.table == 2 ? "second" : "first");
    for (size_t i = 0; i < shown.length; i++)
        printf("%s%d%s", i % columns == 0 ? "    " : " ", table[i], i % columns == columns - 1 ? "\n" : "");
    print_covered(d);
    print_next_round(d, table);
}

/* Works one row and prints the answer, and the table after the last row of a round. */
static void print_step(struct desk *d)
{
    koelchair_moved moved = koelchair_step(LENT(d));
    unless_refused("step", moved.answer);
    d->standing = moved.standing;
    unsigned long round = moved.answer.value, lowerings = moved.answer.second;
    if (moved.answer.kind == KOELCHAIR_ROW) {
        printf("step: row, %lu lowerings\n", lowerings);
        return;
    }
    printf("step: %s %lu, %lu lowerings\n", moved.answer.kind == KOELCHAIR_ROUND ? "round" : "settled", round, lowerings);
    print_table(d);
}

/* ---- what is asked of the settled desk */

static void print_score(const struct desk *d)
{
    koelchair_answer score = koelchair_score(LENT(d));
    unless_refused("score", score);
    koelchair_answer share = koelchair_share(LENT(d), (uint8_t)score.value);
    unless_refused("share", share);
    printf("score %lu, entries at or above it %lu per cent\n", (unsigned long)score.value, (unsigned long)share.value);
}

/* Prints whether each entry of the table shown is at or below that of F of it. The settled table always passes. */
static void print_judged(const struct desk *d)
{
    koelchair_shown shown = koelchair_show(LENT(d));
    koelchair_answer says = koelchair_judge(LENT(d), shown.table == 2 ? d->second : d->first, shown.length);
    unless_refused("judge", says);
    printf("the table is sound: %s\n", says.value == 1 ? "yes" : "no");
}

/* Prints what a formula is as it is written; false where there is no such formula. */
static bool print_facts(const struct desk *d, uint8_t formula)
{
    koelchair_answer whole;
    if (!formula_whole(d, formula, 1, &whole))
        return false;
    printf("formula %d: %d nested AX, fixpoint: %s, EX: %s\n", formula, whole.byte, whole.flag1 ? "yes" : "no", whole.flag2 ? "yes" : "no");
    return true;
}

/* Prints a formula's value on a model and at each of its states. */
static void print_values(const struct desk *d, uint8_t formula, uint8_t model)
{
    koelchair_answer whole;
    if (!formula_whole(d, formula, model, &whole))
        return;
    printf("  on model %d: %lu; at its states:", model, (unsigned long)whole.value);
    uint8_t states = model == 1 ? d->standing.states1 : d->standing.states2;
    for (uint8_t state = 0; state < states; state++) {
        koelchair_answer value = koelchair_value(LENT(d), formula, model, state);
        unless_refused("value", value);
        printf(" %lu", (unsigned long)value.value);
        if (value.byte != whole.byte || value.flag1 != whole.flag1 || value.flag2 != whole.flag2)
            printf(" with other facts than on the whole model");
    }
    printf("\n");
}

/* Prints what the desk holds, or why it is refused. */
static void print_sizes(const struct desk *d)
{
    koelchair_desk_sizes held = koelchair_sizes(LENT(d));
    if (held.number != 0)
        printf("the desk is refused %d %d: %s\n", held.number, held.part, koelchair_refusal_words(held.number));
    else
        printf("the desk holds %d elements, %d propositions, models of %d and %d states, %d formulas\n",
               held.elements, held.propositions, held.states1, held.states2, held.formulas);
}

/* ---- the case written back */

/* A file with these bytes; false where it cannot be written, and errno then says why. */
static bool put_file(const char *name, const uint8_t *bytes, size_t length)
{
    FILE *file = fopen(name, "wb");
    if (file == NULL)
        return false;
    bool whole = fwrite(bytes, 1, length, file) == length;
    return fclose(file) == 0 && whole;
}

/* Has the desk write its case into a buffer that is long enough for every case, and prints what it says to one that is a byte too short.
   Where a file is named the case is put there; false where that fails. */
static bool write_case(const struct desk *d, const char *name)
{
    static uint8_t out[KOELCHAIR_WRITTEN_MOST];
    koelchair_answer written = koelchair_write(LENT(d), out, sizeof out);
    unless_refused("write", written);
    size_t length = written.value;
    printf("write: %lu bytes\n", (unsigned long)length);
    koelchair_answer shorter = koelchair_write(LENT(d), out, length - 1);
    printf("write into %lu bytes: ", (unsigned long)length - 1);
    if (shorter.kind != KOELCHAIR_REFUSED) {
        printf("not refused\n");
        exit(EXIT_FAILURE);
    }
    printf("refused %d %d: %s\n", shorter.number, shorter.part, koelchair_refusal_words(shorter.number));
    return name == NULL || put_file(name, out, length);
}

/* ---- the listing */

static void print_listing(const uint8_t *case_bytes, size_t case_length)
{
    static uint8_t text[KOELCHAIR_LISTING_LENGTH];
    size_t length = koelchair_listing(case_bytes, case_length, text);
    printf("listing:\n%.*s", (int)length, (const char *)text);
}

int main(int argc, char **argv)
{
    /* A byte more than a case may have, so that a longer input is refused. */
    static uint8_t input[KOELCHAIR_CASE_MOST + 1];
    static struct desk d;
    size_t length = fread(input, 1, sizeof input, stdin);
    if (ferror(stdin)) {
        fprintf(stderr, "standard input could not be read\n");
        return 2;
    }
    print_listing(input, length);
    print_sizes(&d);
    koelchair_moved opened = koelchair_open(d.standing, input, length, d.store, sizeof d.store, d.first, sizeof d.first, d.second, sizeof d.second);
    unless_refused("open", opened.answer);
    d.standing = opened.standing;
    printf("open: opened, a table of %d by %d entries\n", d.standing.states1, d.standing.states2);
    print_sizes(&d);
    print_table(&d);
    while (!d.standing.settled)
        print_step(&d);
    print_score(&d);
    print_judged(&d);
    for (uint8_t formula = 0; print_facts(&d, formula); formula++) {
        print_values(&d, formula, 1);
        print_values(&d, formula, 2);
    }
    const char *name = argc > 1 ? argv[1] : NULL;
    if (!write_case(&d, name)) {
        fprintf(stderr, "%s could not be written: %s\n", name, strerror(errno));
        return 2;
    }
    return EXIT_SUCCESS;
}
