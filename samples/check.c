/* Checks three files and prints the one line of the answer. From the repository's folder:
 *
 *     cc -Iinclude samples/check.c crates/tariff/out/libtariff.a -o check
 *     ./check samples/child/theory samples/child/goals samples/child/proof
 *
 * It ends with 0 where the proof is accepted, 1 where it is refused, 2 where a file cannot be read.
 */
#include <inttypes.h>
#include <stdio.h>
#include <sys/resource.h>
#include "tariff.h"

/* One byte more than a text may have: that is enough to be refused. */
typedef struct text {
    uint8_t bytes[TARIFF_LENGTH + 1];
    size_t length;
} text;

/* Static, since together they take half a megabyte. */
static text theory, goals, proof;
static uint32_t sorts[TARIFF_SORTS], symbols[TARIFF_SYMBOLS], inputs[TARIFF_INPUTS], rules[TARIFF_RULES];
static uint32_t rulevars[TARIFF_RULEVARS], patterns[TARIFF_PATTERNS], vars[TARIFF_VARS], terms[TARIFF_INDEX];
static uint32_t words[TARIFF_WORDS], defs[TARIFF_DEFS], rows[TARIFF_ROWS], lists[TARIFF_LISTS], missing[TARIFF_MISSING];
static tariff_fact facts[TARIFF_FACTS];

static int read_text(const char *path, text *into)
{
    FILE *file = fopen(path, "rb");
    if (file == NULL) {
        perror(path);
        return 0;
    }
    into->length = fread(into->bytes, 1, sizeof into->bytes, file);
    int failed = ferror(file);
    if (failed)
        perror(path);
    fclose(file);
    return !failed;
}

/* The main thread's stack grows up to a limit, which may be lower than a call needs. */
static void ask_for_stack(void)
{
    struct rlimit limit;
    rlim_t need = TARIFF_STACK + (1 << 20);
    if (getrlimit(RLIMIT_STACK, &limit) == 0 && limit.rlim_cur < need) {
        limit.rlim_cur = limit.rlim_max < need ? limit.rlim_max : need;
        setrlimit(RLIMIT_STACK, &limit);
    }
}

#define TEXT(t) (t).bytes, (t).length
#define TABLE(t) (t), sizeof(t) / sizeof *(t)

static void check(uint64_t *answer)
{
    tariff_check(TEXT(theory), TEXT(goals), TEXT(proof), TABLE(sorts), TABLE(symbols), TABLE(inputs), TABLE(rules), TABLE(rulevars),
                 TABLE(patterns), TABLE(vars), TABLE(terms), TABLE(words), TABLE(defs), TABLE(rows), TABLE(facts), TABLE(lists),
                 TABLE(missing), answer, TARIFF_ANSWER);
}

int main(int argc, char **argv)
{
    if (argc != 4) {
        fprintf(stderr, "usage: check THEORY GOALS PROOF\n");
        return 2;
    }
    if (!read_text(argv[1], &theory) || !read_text(argv[2], &goals) || !read_text(argv[3], &proof))
        return 2;
    uint64_t answer[TARIFF_ANSWER];
    ask_for_stack();
    check(answer);
    int accepted = answer[0] == 1;
    printf(accepted ? "(accepted" : "(refused");
    for (int k = 1; k < (accepted ? 8 : 5); k++)
        printf(" %" PRIu64, answer[k]);
    printf(")\n");
    return accepted ? 0 : 1;
}
