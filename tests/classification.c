/* Runs judge_classify over the classification cases and compares each answer, what judge.h takes from it and from the
 * taxonomy, and every byte of both lent buffers, with the expected output. Guards stand after the vocabulary and around
 * the buffers (cases.h, lent.h); by turns the one buffer and the other ends where an unreadable page begins. Before the
 * call the second holds other bytes than the first, so that bytes taken from the wrong one show.
 * usage: classification CASES EXPECTED */
#define _DEFAULT_SOURCE
#define SUBJECT "classification"
#include <inttypes.h>
#include <stdio.h>
#include <string.h>

#include "cases.h"
#include "judge.h"
#include "lent.h"

enum { HEAD = 7, SURVIVORS_WRITTEN = 512, TAXONOMY_WRITTEN = 144 };

static struct lent survivors, taxonomy;

/* Packs the answer that a line says, and expects of the buffers what it says; a refusal leaves them as they were.
 * Answers whether the line says an answer, and what is written where it is no refusal. */
static int expect_answer(const char **text, uint64_t *packed)
{
    uint64_t first, second;
    int used = 0;

    if (sscanf(*text, "refused %" SCNu64 " %" SCNu64 "%n", &first, &second, &used) == 2 && first != 0) {
        *packed = first | second << 8;
        *text += used;
        return 1;
    }
    if (sscanf(*text, "counts %" SCNu64 " %" SCNu64 "%n", &first, &second, &used) != 2)
        return 0;
    *packed = first << 25 | second << 42;
    *text += used;
    return expect_written(&survivors, SURVIVORS_WRITTEN, text) && expect_written(&taxonomy, TAXONOMY_WRITTEN, text);
}

/* How many names the line says: the last byte of the taxonomy that is not 0 is the 2 of the last name and itself. */
static uint32_t expected_names(const uint8_t *wanted)
{
    size_t used = TAXONOMY_WRITTEN;
    uint32_t names = 0;

    while (used > 0 && wanted[used - 1] == 0)
        used--;
    while (names * names < used)
        names++;
    return names;
}

/* Whether judge_entry reads what is expected where there are two such names, and 0 where one is past the last: there
 * stand other entries, later bytes or none at all. */
static int entries_agree(const uint8_t *bytes, const uint8_t *wanted, uint32_t names)
{
    static const uint32_t far[] = {13, 64, 65535, UINT32_MAX};
    int agree = 1;

    for (uint32_t i = 0; i <= names; i++)
        for (uint32_t j = 0; j <= names; j++)
            agree &= judge_entry(bytes, names, i, j) == (i < names && j < names ? wanted[i * names + j] : 0);
    for (size_t at = 0; at < sizeof far / sizeof *far; at++)
        agree &= judge_entry(bytes, names, far[at], 0) == 0 && judge_entry(bytes, names, 0, far[at]) == 0 &&
                 judge_entry(bytes, far[at], 0, 0) == 0;
    return agree;
}

/* What is wrong with what judge.h takes from an answer that is no refusal and from the taxonomy, or a null pointer. */
static const char *header_fault(uint64_t answer, const uint8_t *vocabulary, size_t length, const char *line)
{
    const uint8_t *wanted = taxonomy.wanted + taxonomy.start;
    uint32_t names = expected_names(wanted);
    uint32_t count, rounds;

    if (sscanf(line, "counts %" SCNu32 " %" SCNu32, &count, &rounds) != 2)
        return "the expected output has no counts";
    if (judge_survivors(answer) != count || judge_rounds(answer) != rounds)
        return "judge_survivors or judge_rounds says something else";
    if (judge_names(vocabulary, length) != names)
        return "judge_names says something else";
    if (!entries_agree(lent_bytes(&taxonomy), wanted, names))
        return "judge_entry says something else";
    return NULL;
}

/* Compares one case with its line of the expected output. */
static int check_case(const uint8_t *vocabulary, size_t length, const uint8_t *head, const char *line, size_t at)
{
    uint64_t answer, packed;
    const char *text = line, *fault;

    lend(&survivors, number_at(head + 2, 2), head[6], at);
    lend(&taxonomy, number_at(head + 4, 2), (uint8_t)(255 - head[6]), at + 1);
    if (!expect_answer(&text, &packed))
        return fail("the expected output has no answer", at);
    if (!sums_agree(&survivors, &text) || !sums_agree(&taxonomy, &text) || strcmp(text, "\n") != 0)
        return fail("the expected output has other sums", at);
    answer = judge_classify(vocabulary, length, lent_bytes(&survivors), survivors.length, lent_bytes(&taxonomy),
                            taxonomy.length);
    if (answer != packed) {
        fprintf(stderr, "classification: answer %#" PRIx64 ", expected %#" PRIx64 "\n", answer, packed);
        return fail("judge_classify answers something else", at);
    }
    if ((fault = lent_fault(&survivors)) != NULL || (fault = lent_fault(&taxonomy)) != NULL)
        return fail(fault, at);
    fault = judge_refusal(answer) == 0 ? header_fault(answer, vocabulary, length, line) : NULL;
    return fault == NULL ? 0 : fail(fault, at);
}

int main(int count, char **arguments)
{
    return check_cases(count, arguments, HEAD, check_case);
}
