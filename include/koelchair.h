/* Koelchair's calls, the rest of a round in one call, what a desk holds, how an entry is worked, and the listing, for C, C99 or later,
   and for C++. They stand in target/staticlib/libexports.a, which `tools/archive` proves and writes. The contracts are in
   crates/exports/src; how a case is laid out byte for byte, and what the words used here mean, is said in docs/SPECIFICATION.md.

   A desk is a standing, a store and two tables. The caller keeps all four: the standing as a struct, the others as bytes. A new desk
   is of any content, for instance zeros, and of KOELCHAIR_STORE_LENGTH and KOELCHAIR_TABLE_LENGTH bytes or more. koelchair_open,
   koelchair_step and koelchair_finish_round give the standing after the call: pass it to the call that comes next, beside the buffers as the call left them.
   A refused call alters no buffer and gives the standing that it was passed.

   What the caller must see to, since no proof can:
   - A pointer is not null, also where its length is 0, and is valid for as many bytes as the length beside it says: for reading,
     and for writing where it is not const.
   - A buffer that a call writes overlaps no other buffer of the same call.
   - The three bool fields of a standing hold true or false and no other byte.
   Every length and every content of bytes is an input that gets an answer, and so is every standing.

   Nothing is kept between calls, so calls on different desks may run in different threads at the same time, and so may calls on one
   desk that do not alter it; each koelchair_write among them has a buffer of its own to write into. No call takes memory from a heap.
   The stack that each takes is measured by examples/c/stack.c: see docs/PERFORMANCE.md. */
#ifndef KOELCHAIR_H
#define KOELCHAIR_H

#include <stdbool.h>
#include <stddef.h>
#include <stdint.h>

#ifdef __cplusplus
extern "C" {
#endif

/* ---- version: that of rust/Cargo.toml */

#define KOELCHAIR_VERSION_MAJOR 0
#define KOELCHAIR_VERSION_MINOR 1
#define KOELCHAIR_VERSION_PATCH 0
#define KOELCHAIR_VERSION "0.1.0"

/* ---- sizes, in bytes */

#define KOELCHAIR_STORE_LENGTH 24576   /* a store has at least as many */
#define KOELCHAIR_TABLE_LENGTH 4096    /* a table has at least as many */
#define KOELCHAIR_CASE_MOST 32768      /* a case has at most as many */
#define KOELCHAIR_WRITTEN_MOST 16618   /* koelchair_write writes at most as many */
#define KOELCHAIR_LISTING_LENGTH 16384 /* the text of koelchair_listing has at least as many */

/* ---- sizes of what a case holds: at most so many */

#define KOELCHAIR_ELEMENTS_MOST 64     /* elements of the lattice */
#define KOELCHAIR_STATES_MOST 64       /* states of a model */
#define KOELCHAIR_PROPOSITIONS_MOST 16 /* propositions, the same in both models */
#define KOELCHAIR_FORMULAS_MOST 8      /* formulas */
#define KOELCHAIR_FORMULA_MOST 255     /* bytes of a formula */
#define KOELCHAIR_BINDERS_MOST 3       /* binders of a formula that stand one within another */

/* ---- kinds of answers */

#define KOELCHAIR_REFUSED 0       /* number and part say why */
#define KOELCHAIR_OPENED 1
#define KOELCHAIR_ROW 2           /* second is the count of lowerings */
#define KOELCHAIR_ROUND 3         /* value is the round, second the count of lowerings */
#define KOELCHAIR_SETTLED 4       /* value is T, the first round that equals the one before; second is the count of lowerings */
#define KOELCHAIR_ELEMENT 5       /* value is the element */
#define KOELCHAIR_PER_CENT 6      /* value is 0 to 100 */
#define KOELCHAIR_SAYS 7          /* value is 1 for yes, 0 for no */
#define KOELCHAIR_FORMULA_VALUE 9 /* value is the element; byte, flag1 and flag2 are facts of the formula */
#define KOELCHAIR_LENGTH 10       /* value is how many bytes were written */

/* ---- numbers of refusals; koelchair_refusal_words says what each means. The part is that of the case, or KOELCHAIR_NO_PART. */

#define KOELCHAIR_REFUSED_CASE_SIZE 1
#define KOELCHAIR_REFUSED_DIRECTORY 2
#define KOELCHAIR_REFUSED_PART_PLACE 3
#define KOELCHAIR_REFUSED_LATTICE_FORM 4
#define KOELCHAIR_REFUSED_NO_PARTIAL_ORDER 5
#define KOELCHAIR_REFUSED_NO_MEET_OR_JOIN 6
#define KOELCHAIR_REFUSED_NOT_DISTRIBUTIVE 7
#define KOELCHAIR_REFUSED_BAD_COMPLEMENT 8
#define KOELCHAIR_REFUSED_BAD_MODEL 9
#define KOELCHAIR_REFUSED_BAD_FORMULA 10
#define KOELCHAIR_REFUSED_SHORT_DESK 11
#define KOELCHAIR_REFUSED_SPOILED_DESK 12
#define KOELCHAIR_REFUSED_OUT_OF_RANGE 13
#define KOELCHAIR_REFUSED_SHORT_BUFFER 14

#define KOELCHAIR_NO_PART 255

/* What a refusal's number means, in words that name no part. The words are those of the table in rust/koelchair/src/refusal.rs. */
static inline const char *koelchair_refusal_words(uint8_t number)
{
    switch (number) {
    case KOELCHAIR_REFUSED_CASE_SIZE:
        return "the case is empty or over 32,768 bytes";
    case KOELCHAIR_REFUSED_DIRECTORY:
        return "the count of parts is not 3 to 11, or the directory does not fit";
    case KOELCHAIR_REFUSED_PART_PLACE:
        return "the part is empty, overlaps what stands before it, or ends beyond the case";
    case KOELCHAIR_REFUSED_LATTICE_FORM:
        return "the lattice has over 64 elements, a wrong length, a complement that is no element, "
               "or an order byte other than 0 and 1";
    case KOELCHAIR_REFUSED_NO_PARTIAL_ORDER:
        return "the order is no partial order";
    case KOELCHAIR_REFUSED_NO_MEET_OR_JOIN:
        return "two elements have no meet or no join";
    case KOELCHAIR_REFUSED_NOT_DISTRIBUTIVE:
        return "the lattice is not distributive";
    case KOELCHAIR_REFUSED_BAD_COMPLEMENT:
        return "a rule of the complement is broken";
    case KOELCHAIR_REFUSED_BAD_MODEL:
        return "the model has a wrong length, size, value or count of propositions";
    case KOELCHAIR_REFUSED_BAD_FORMULA:
        return "the formula breaks a rule";
    case KOELCHAIR_REFUSED_SHORT_DESK:
        return "the store or a table is too short";
    case KOELCHAIR_REFUSED_SPOILED_DESK:
        return "the desk breaks a rule";
    case KOELCHAIR_REFUSED_OUT_OF_RANGE:
        return "a formula, model, state or element is out of range, or the table to be judged is no "
               "table of elements of this size";
    case KOELCHAIR_REFUSED_SHORT_BUFFER:
        return "the buffer to write into is too short";
    default:
        return "no refusal has this number";
    }
}

/* ---- what the calls take and give */

/* Where a desk stands. states1 and states2 are the states of the models, N1 and N2; row is the next row; changed says whether this
   round has changed anything yet; second_whole says that the second table is the whole one, else the first is. lowerings counts the
   entries that differ from the round before, summed over the whole rounds since the desk was opened; where nothing but the calls wrote
   the desk it is at most N1 times N2 times (h - 1), h being the elements of the lattice's longest chain. */
typedef struct koelchair_standing {
    uint8_t states1;
    uint8_t states2;
    uint32_t round;
    uint8_t row;
    bool changed;
    bool settled;
    bool second_whole;
    uint32_t lowerings;
} koelchair_standing;

/* number and part are those of a refusal, value is as the kind says. second is used by KOELCHAIR_ROW, KOELCHAIR_ROUND and
   KOELCHAIR_SETTLED alone, and is the lowerings of the standing after the step. byte, flag1 and flag2 are used by
   KOELCHAIR_FORMULA_VALUE alone, and are facts of the formula as it is written: byte is the deepest nesting of AX, 0 to 254, flag1 says
   that a fixpoint occurs, flag2 that EX occurs. A field that a kind does not name is 0 or false. */
typedef struct koelchair_answer {
    uint8_t kind;
    uint8_t number;
    uint8_t part;
    uint8_t byte;
    uint32_t value;
    uint32_t second;
    bool flag1;
    bool flag2;
} koelchair_answer;

/* The standing after the call, and its answer. */
typedef struct koelchair_moved {
    koelchair_standing standing;
    koelchair_answer answer;
} koelchair_moved;

/* table is 1 for the first, 2 for the second and 0 where the desk is refused; length is N1 times N2, or 0 where the desk is refused. */
typedef struct koelchair_shown {
    uint8_t table;
    size_t length;
} koelchair_shown;

/* What a desk holds: the elements of its lattice, the propositions that both models have, the states of each model, N1 and N2, and the
   formulas. number and part are 0; where the desk is refused they are the refusal's, and all others are 0. */
typedef struct koelchair_desk_sizes {
    uint8_t number;
    uint8_t part;
    uint8_t elements;
    uint8_t propositions;
    uint8_t states1;
    uint8_t states2;
    uint8_t formulas;
} koelchair_desk_sizes;

/* One entry of the next round: its element, and how many pairs of states working it one pair after another looks at, 0 to N1 times N2.
   number and part are 0; where it is refused they are the refusal's, and both others are 0. */
typedef struct koelchair_worked_entry {
    uint8_t number;
    uint8_t part;
    uint8_t value;
    uint32_t pairs;
} koelchair_worked_entry;

/* ---- the calls that move the desk on */

/* Takes a case and makes the desk anew, whatever the desk was. Reads the case; writes it without gaps at the store's front and the
   lattice's top into the first N1 times N2 bytes of both tables; the standing then has no lowerings. Answers KOELCHAIR_OPENED, or
   KOELCHAIR_REFUSED with 11 or 1 to 10. */
koelchair_moved koelchair_open(koelchair_standing standing,
                               const uint8_t *case_bytes, size_t case_length,
                               uint8_t *store, size_t store_length,
                               uint8_t *first, size_t first_length,
                               uint8_t *second, size_t second_length);

/* Works the next row of the next round. Reads the store and both tables; writes that row of the table that is not whole, nothing else.
   Answers KOELCHAIR_ROW, after the last row KOELCHAIR_ROUND or KOELCHAIR_SETTLED, or KOELCHAIR_REFUSED with 11 or 12. At the last row
   the standing's lowerings go up by the number of the first N1 times N2 bytes in which the two tables then differ; rows of an unfinished
   round do not count. A settled desk answers KOELCHAIR_SETTLED again and is not altered. */
koelchair_moved koelchair_step(koelchair_standing standing,
                               const uint8_t *store, size_t store_length,
                               uint8_t *first, size_t first_length,
                               uint8_t *second, size_t second_length);

/* Works the rows of the round that are left: as many calls of koelchair_step as there are rows from the next one to the last, in one
   call that checks the desk once, with the answer of the last of them. Writes these rows of the table that is not whole, nothing else.
   Answers KOELCHAIR_ROUND or KOELCHAIR_SETTLED; a desk that koelchair_step refuses, and a settled one, is answered as by one step and
   not altered. After koelchair_open, T of these calls settle the desk. */
koelchair_moved koelchair_finish_round(koelchair_standing standing,
                                       const uint8_t *store, size_t store_length,
                                       uint8_t *first, size_t first_length,
                                       uint8_t *second, size_t second_length);

/* ---- the calls that read: they do not alter the desk. Each reads the store and both tables; koelchair_write alone writes, into the
   buffer that it is lent for that. */

/* Names the whole table, in which byte q1 times N2 + q2 is the entry of states q1 and q2. */
koelchair_shown koelchair_show(koelchair_standing standing,
                               const uint8_t *store, size_t store_length,
                               const uint8_t *first, size_t first_length,
                               const uint8_t *second, size_t second_length);

/* The value of a formula, numbered from 0, at a state of model 1 or 2, and the facts of the formula: KOELCHAIR_FORMULA_VALUE, or
   KOELCHAIR_REFUSED with 11, 12 or 13. The nesting counts the AX that stand one within another, also with or, and, EX or a fixpoint
   between them; a fixpoint is not unrolled. The facts say which tables cover the formula: where nothing but the calls wrote the desk,
   each entry of the table shown is at most 'not the value at the state of model 2, joined with the value at the state of model 1' if EX
   does not occur and the desk is settled, or if neither EX nor a fixpoint occurs and the nesting is below the standing's round. The
   score is then at most 'not the whole value on model 2, joined with the whole value on model 1'. */
koelchair_answer koelchair_value(koelchair_standing standing,
                                 const uint8_t *store, size_t store_length,
                                 const uint8_t *first, size_t first_length,
                                 const uint8_t *second, size_t second_length,
                                 uint8_t formula, uint8_t model, uint8_t state);

/* The value of a formula on the whole of model 1 or 2, and the same facts: KOELCHAIR_FORMULA_VALUE, or KOELCHAIR_REFUSED with 11, 12
   or 13. */
koelchair_answer koelchair_whole(koelchair_standing standing,
                                 const uint8_t *store, size_t store_length,
                                 const uint8_t *first, size_t first_length,
                                 const uint8_t *second, size_t second_length,
                                 uint8_t formula, uint8_t model);

/* The score of the table shown: KOELCHAIR_ELEMENT, or KOELCHAIR_REFUSED with 11 or 12. Which formulas it bounds stands at
   koelchair_value. */
koelchair_answer koelchair_score(koelchair_standing standing,
                                 const uint8_t *store, size_t store_length,
                                 const uint8_t *first, size_t first_length,
                                 const uint8_t *second, size_t second_length);

/* The per cent of the entries shown that are at or above an element, rounded to whole per cent (0 to 100), an exact half to the even
   neighbour: KOELCHAIR_PER_CENT, or KOELCHAIR_REFUSED with 11, 12 or 13. */
koelchair_answer koelchair_share(koelchair_standing standing,
                                 const uint8_t *store, size_t store_length,
                                 const uint8_t *first, size_t first_length,
                                 const uint8_t *second, size_t second_length,
                                 uint8_t element);

/* Whether a table of N1 times N2 elements is sound: each entry is at or below that of F of the table, in the lattice's order. Such a table
   lies at or below the greatest simulation, and each of its entries is at most 'not the value at the state of model 2, joined with the
   value at the state of model 1', for every closed formula without EX. It need not be a simulation, that is, equal to F of it. Reads that
   table too. KOELCHAIR_SAYS, or KOELCHAIR_REFUSED with 11, 12 or 13. */
koelchair_answer koelchair_judge(koelchair_standing standing,
                                 const uint8_t *store, size_t store_length,
                                 const uint8_t *first, size_t first_length,
                                 const uint8_t *second, size_t second_length,
                                 const uint8_t *table, size_t table_length);

/* Writes the desk's case at the front of out, as koelchair_open takes it: the count of parts, the directory, and the parts, each where
   the one before it ends, without the gaps that the case may have had. A lattice part of the one byte 0 stays that byte, and the same
   lattice given by its complements and order stays so (757 bytes). Writes these bytes alone and keeps those after them; out overlaps
   neither the store nor a table. Neither rounds nor entries nor gaps can be seen in what is written: desks of the same parts give the
   same bytes. Opening them makes a desk of the same case at round 0, all entries of both tables top, which gives the same bytes again.
   KOELCHAIR_LENGTH, or KOELCHAIR_REFUSED with 11, with 12, or with 14 where out is shorter than what is to be written, the first of
   these that applies; then nothing is written. An out of KOELCHAIR_WRITTEN_MOST bytes is long enough for every case, so that 14 is then
   never given. */
koelchair_answer koelchair_write(koelchair_standing standing,
                                 const uint8_t *store, size_t store_length,
                                 const uint8_t *first, size_t first_length,
                                 const uint8_t *second, size_t second_length,
                                 uint8_t *out, size_t out_length);

/* ---- what a desk holds */

/* The sizes of what the desk holds: elements, propositions, states and formulas. Reads the store and both tables; writes nothing. A desk
   that every call but koelchair_open refuses has the number 11 or 12 and the part of that refusal, and zeros. It is none of the calls
   of docs/SPECIFICATION.md: use it for a desk whose case is not at hand. */
koelchair_desk_sizes koelchair_sizes(koelchair_standing standing,
                                     const uint8_t *store, size_t store_length,
                                     const uint8_t *first, size_t first_length,
                                     const uint8_t *second, size_t second_length);

/* ---- how an entry is worked */

/* Entry (q1, q2) of F of the table shown, which is what the next round has there, and how many pairs (q1', q2') working it one pair after
   another looks at. That work takes the propositions first, then each q1' and for it each q2', all in rising order; it ends once the
   meet is bottom, and the join of a q1' once that is top. So these are the pairs for which the meet over the propositions and all smaller
   q1' is not bottom and, for that q1', the join over smaller q2' is not top; one whose transition from q1 is bottom is among them. Over a
   lattice of one element there are none. The function itself reads blocks of pairs and passes some over, with the same entry and count.
   Reads the store and both tables; writes nothing. A desk that every call but koelchair_open refuses has the number 11 or 12 and the
   part of that refusal; where q1 is not below N1 or q2 not below N2 it is 13. It is none of the calls of docs/SPECIFICATION.md: use it
   to see how much of the work of a round ends early. */
koelchair_worked_entry koelchair_entry(koelchair_standing standing,
                                       const uint8_t *store, size_t store_length,
                                       const uint8_t *first, size_t first_length,
                                       const uint8_t *second, size_t second_length,
                                       uint8_t q1, uint8_t q2);

/* ---- the listing */

/* Writes what the program `report` prints for a case at the start of the text: the rounds, the table at which they settle, the score and
   each formula's whole values, or a line with the refusal. Reads the case; writes only these bytes, with no 0 after them, and returns how
   many they are. The text has KOELCHAIR_LISTING_LENGTH bytes or more, and does not overlap the case. It needs no desk. */
size_t koelchair_listing(const uint8_t *case_bytes, size_t case_length, uint8_t *text);

#ifdef __cplusplus
}
#endif

#endif
