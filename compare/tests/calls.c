/* Calls of the library from C: several threads at the same time, each with tables of its own, and what is left alone. Prints `ok`.
 * Tables come from malloc in their named lengths, so that the address sanitizer has its marks around each.
 */
#include <pthread.h>
#include <stdio.h>
#include <stdlib.h>
#include <string.h>
#include "tariff.h"

#define THREADS 8
#define ROUNDS 50

static const char THEORY[] = "(sort S) (ctor c () S) (ctor f (S) S) (pred P (S)) (rule p () (P c)) (rule q ((P ?a)) (P (f ?a)))";
static const char GOALS[] = "(goal g (P (f c)))";
static const char GOOD[] = "(step 0 p ()) (step 1 q (0)) (result g 1)";
static const char BAD[] = "(step 0 p ()) (step 1 q (1))";
static const uint64_t ACCEPTED[8] = {1, 2, 1, 0, 0, 0, 0, 0};
static const uint64_t REFUSED[8] = {0, 34, 3, 1, 0, 0, 0, 0};

static const size_t CELLS[13] = {TARIFF_SORTS, TARIFF_SYMBOLS, TARIFF_INPUTS, TARIFF_RULES, TARIFF_RULEVARS, TARIFF_PATTERNS, TARIFF_VARS,
                                 TARIFF_INDEX, TARIFF_WORDS, TARIFF_DEFS, TARIFF_ROWS, TARIFF_LISTS, TARIFF_MISSING};

typedef struct tables {
    uint32_t *cells[13];
    tariff_fact *facts;
} tables;

static void *room(size_t bytes)
{
    void *p = malloc(bytes);
    if (p == NULL)
        exit(2);
    memset(p, 0xa5, bytes);
    return p;
}

static tables take(void)
{
    tables t;
    for (int k = 0; k < 13; k++)
        t.cells[k] = room(CELLS[k] * sizeof(uint32_t));
    t.facts = room(TARIFF_FACTS * sizeof(tariff_fact));
    return t;
}

static void give_back(tables t)
{
    for (int k = 0; k < 13; k++)
        free(t.cells[k]);
    free(t.facts);
}

#define TEXT(s) (const uint8_t *)(s), strlen(s)
#define CELL(k) t.cells[k], CELLS[k]

static void call(tables t, const char *proof, uint64_t *answer, size_t words)
{
    tariff_check(TEXT(THEORY), TEXT(GOALS), TEXT(proof), CELL(0), CELL(1), CELL(2), CELL(3), CELL(4), CELL(5), CELL(6), CELL(7), CELL(8),
                 CELL(9), CELL(10), t.facts, TARIFF_FACTS, CELL(11), CELL(12), answer, words);
}

/* Good and bad proofs in turns, on the same tables. */
static void *rounds(void *failed)
{
    tables t = take();
    for (int k = 0; k < ROUNDS; k++) {
        uint64_t answer[8];
        memset(answer, 0xa5, sizeof answer);
        call(t, k % 2 ? BAD : GOOD, answer, 8);
        if (memcmp(answer, k % 2 ? REFUSED : ACCEPTED, sizeof answer) != 0)
            *(int *)failed = 1;
    }
    give_back(t);
    return NULL;
}

static int threads(void)
{
    pthread_t thread[THREADS];
    int failed[THREADS] = {0}, any = 0;
    pthread_attr_t attributes;
    if (pthread_attr_init(&attributes) != 0 || pthread_attr_setstacksize(&attributes, TARIFF_STACK + (1 << 20)) != 0)
        return 1;
    for (int k = 0; k < THREADS; k++)
        if (pthread_create(&thread[k], &attributes, rounds, &failed[k]) != 0)
            exit(2);
    for (int k = 0; k < THREADS; k++) {
        pthread_join(thread[k], NULL);
        any |= failed[k];
    }
    pthread_attr_destroy(&attributes);
    return any;
}

/* An answer without room is not written, and of a longer one the first eight numbers alone. */
static int answers_of_other_lengths(void)
{
    tables t = take();
    uint64_t answer[9], before[9];
    memset(before, 0xa5, sizeof before);
    memcpy(answer, before, sizeof answer);
    call(t, GOOD, answer, 7);
    int wrong = memcmp(answer, before, sizeof answer) != 0;
    call(t, GOOD, answer, 9);
    wrong |= memcmp(answer, ACCEPTED, sizeof ACCEPTED) != 0 || answer[8] != before[8];
    give_back(t);
    return wrong;
}

int main(void)
{
    if (threads()) {
        puts("a thread had another answer");
        return 1;
    }
    if (answers_of_other_lengths()) {
        puts("an answer was written that has no room, or past its eight numbers");
        return 1;
    }
    puts("ok");
    return 0;
}
