/* The tariff proof checker, for C and for whatever calls C: one function over crates/tariff/out/libtariff.a, which `rt lib`, run in crates/tariff,
 * proves and writes. It is compiled for x86-64 Linux (x86-64-v2). docs/USING.md has an example, docs/TABLES.md what the tables hold,
 * docs/REFUSALS.md the refusals.
 */
#ifndef TARIFF_H
#define TARIFF_H

#include <stddef.h>
#include <stdint.h>

#ifdef __cplusplus
extern "C" {
#endif

/* The most bytes of a text; a longer one is refused by question 2. */
#define TARIFF_LENGTH 65536

/* The least length of each table: 32-bit cells, but for the records of the facts. */
#define TARIFF_SORTS 128
#define TARIFF_SYMBOLS 1024
#define TARIFF_INPUTS 4096
#define TARIFF_RULES 1536
#define TARIFF_RULEVARS 12288
#define TARIFF_PATTERNS 8192
#define TARIFF_VARS 2048
#define TARIFF_INDEX 16384
#define TARIFF_WORDS 16384
#define TARIFF_DEFS 1536
#define TARIFF_ROWS 768
#define TARIFF_FACTS 1024
#define TARIFF_LISTS 16384
#define TARIFF_MISSING 128

/* The numbers of an answer. */
#define TARIFF_ANSWER 8

/* A call takes less than so many bytes of stack. A thread that has less may end the program in the middle of a call. */
#define TARIFF_STACK 4194304

/* A recorded fact: 56 bytes, aligned to 8. */
typedef struct tariff_fact {
    uint32_t judgment;   /* a term's number */
    uint32_t assumed;    /* 1 if it is a hypothesis */
    uint32_t first;      /* the first of its entries in lists: */
    uint32_t hyps;       /* so many hypotheses, by fact number, */
    uint32_t premises;   /* so many premises, by term number, */
    uint32_t general;    /* so many generalised variables, by number */
    uint64_t footing[4]; /* the rules it rests on: bit r % 64 of word r / 64 */
} tariff_fact;

#if defined(__STDC_VERSION__) && __STDC_VERSION__ >= 201112L
_Static_assert(sizeof(tariff_fact) == 56, "a record has 56 bytes");
#endif

/* Checks a proof. Every text and table is a pointer and a length: of texts the bytes, of facts the records, of other tables the cells.
 *
 * The texts may have any bytes and any length, the tables any content and any length. The answer is written to answer[0..8], if it has room:
 *   1, steps, goals, open goals, hypotheses, inductions, inversions, instances     where the proof is accepted,
 *   0, number, text, form, detail, 0, 0, 0                                         where it is refused.
 * With an answer of fewer than eight numbers nothing is written there.
 * A table shorter than named gives refusal 1, and no table is written. What lies past a table's named length is never written.
 *
 * The caller sees to it that
 * - each pointer is aligned for its type and not null, even where a length is 0, and the memory behind it is there;
 * - no table, nor the answer, overlaps another of them or a text (texts may overlap each other);
 * - nobody else writes the texts, or reads or writes the tables and the answer, until the call returns;
 * - TARIFF_STACK bytes of stack are left.
 *
 * Nothing is kept between calls. Calls on different tables may run at the same time, also on the same texts.
 */
void tariff_check(
    const uint8_t *theory, size_t theory_bytes,
    const uint8_t *goals, size_t goals_bytes,
    const uint8_t *proof, size_t proof_bytes,
    uint32_t *sorts, size_t sorts_cells,
    uint32_t *symbols, size_t symbols_cells,
    uint32_t *inputs, size_t inputs_cells,
    uint32_t *rules, size_t rules_cells,
    uint32_t *rulevars, size_t rulevars_cells,
    uint32_t *patterns, size_t patterns_cells,
    uint32_t *vars, size_t vars_cells,
    uint32_t *index, size_t index_cells,
    uint32_t *words, size_t words_cells,
    uint32_t *defs, size_t defs_cells,
    uint32_t *rows, size_t rows_cells,
    tariff_fact *facts, size_t facts_records,
    uint32_t *lists, size_t lists_cells,
    uint32_t *missing, size_t missing_cells,
    uint64_t *answer, size_t answer_words);

#ifdef __cplusplus
}
#endif

#endif
