/* Runs judge_compare over the comparison cases and compares each answer, and every byte of the lent buffer, with the
 * expected output. Guards stand after the vocabulary and around the buffer (cases.h, lent.h).
 * usage: comparison CASES EXPECTED */
#define _DEFAULT_SOURCE
#define SUBJECT "comparison"
#include <inttypes.h>
#include <stdio.h>
#include <string.h>

#include "cases.h"
#include "judge.h"
#include "lent.h"

enum { HEAD = 13, WRITTEN = 512 };

static struct lent survivors;

/* Packs the answer that a line says, and expects of the buffer what it says; a refusal leaves it as it was. Answers
 * whether the line says an answer, and what is written where it is no refusal. */
static int expect_answer(const char **text, uint64_t *packed)
{
    uint64_t number, place, element = 0, count, rounds, different = 0;
    int used = 0;

    if (sscanf(*text, "refused %" SCNu64 " %" SCNu64 "%n", &number, &place, &used) == 2 && number != 0) {
        *packed = number | place << 8;
        *text += used;
        return 1;
    }
    if (sscanf(*text, "different %" SCNu64 " %" SCNu64 " %" SCNu64 "%n", &element, &count, &rounds, &used) == 3)
        different = 1;
    else if (sscanf(*text, "equal %" SCNu64 " %" SCNu64 "%n", &count, &rounds, &used) != 2)
        return 0;
    *packed = different << 8 | element << 9 | count << 25 | rounds << 42;
    *text += used;
    return expect_written(&survivors, WRITTEN, text);
}

/* Compares one case with its line of the expected output. */
static int check_case(const uint8_t *vocabulary, size_t length, const uint8_t *head, const char *line, size_t at)
{
    uint32_t a = number_at(head + 2, 4), b = number_at(head + 6, 4);
    uint64_t answer, packed;
    const char *text = line, *fault;

    lend(&survivors, number_at(head + 10, 2), head[12], at);
    if (!expect_answer(&text, &packed))
        return fail("the expected output has no answer", at);
    if (!sums_agree(&survivors, &text) || strcmp(text, "\n") != 0)
        return fail("the expected output has other sums", at);
    answer = judge_compare(vocabulary, length, a, b, lent_bytes(&survivors), survivors.length);
    if (answer != packed) {
        fprintf(stderr, "comparison: answer %#" PRIx64 ", expected %#" PRIx64 "\n", answer, packed);
        return fail("judge_compare answers something else", at);
    }
    fault = lent_fault(&survivors);
    return fault == NULL ? 0 : fail(fault, at);
}

int main(int count, char **arguments)
{
    return check_cases(count, arguments, HEAD, check_case);
}
