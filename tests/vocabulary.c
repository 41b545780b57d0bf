/* Runs judge_check_vocabulary and judge_record over the vocabulary cases and compares each answer with the expected
 * output, as the program `vocabulary_cases` does from inside; and what judge.h takes from an accepted header, with the
 * library's count. No compiler checks the declarations of include/judge.h against the library: this test does, with
 * those of the other subjects. A guard stands after the vocabulary (cases.h).
 * usage: vocabulary CASES EXPECTED */
#define _DEFAULT_SOURCE
#define SUBJECT "vocabulary"
#include <inttypes.h>
#include <stdio.h>
#include <string.h>

#include "cases.h"
#include "judge.h"

enum { HEAD = 6 };

/* Whether an answer is this refusal with this place, or, for refusal 0, this value; all other bits 0. */
static int is_answer(uint64_t answer, uint64_t refusal, uint64_t value)
{
    return answer == (refusal | value << 8);
}

/* Whether judge.h reads the edition and k of an accepted vocabulary. The library says k of a copy of edition 2 whose
 * header holds a number that cannot be: it is the place of refusal 28. */
static int header_agrees(const uint8_t *vocabulary, size_t length)
{
    static uint8_t copy[JUDGE_VOCABULARY_BYTES];
    uint32_t atoms = judge_atoms(vocabulary, length);
    int holds = judge_header_edition(vocabulary) == JUDGE_EDITION_2;

    memcpy(copy, vocabulary, length);
    copy[1] = JUDGE_EDITION_2;
    copy[6] = copy[7] = 255;
    return is_answer(judge_check_vocabulary(copy, length), 28, atoms) &&
           (holds || judge_header_edition(vocabulary) == JUDGE_EDITION_1) &&
           judge_header_atoms(vocabulary) == (holds ? atoms : 0);
}

/* Compares one case with its line of the expected output. */
static int check_case(const uint8_t *vocabulary, size_t length, const uint8_t *head, const char *line, size_t at)
{
    uint32_t number = number_at(head + 2, 4);
    uint64_t counted[2], located[2];
    int used = 0;

    if (sscanf(line, "%" SCNu64 " %" SCNu64 " %" SCNu64 " %" SCNu64 "%n", &counted[0], &counted[1], &located[0],
               &located[1], &used) != 4)
        return fail("the expected output has no four numbers", at);
    if (!is_answer(judge_check_vocabulary(vocabulary, length), counted[0], counted[1]))
        return fail("judge_check_vocabulary answers something else", at);
    if (counted[0] == 0 && !header_agrees(vocabulary, length))
        return fail("judge.h reads something else from the header", at);
    if (!is_answer(judge_record(vocabulary, length, number), located[0], located[1]))
        return fail("judge_record answers something else", at);
    if (located[0] != 0)
        return 0;
    for (size_t i = 0; i < 8; i++) {
        unsigned byte;
        int more = 0;

        if (sscanf(line + used, " %u%n", &byte, &more) != 1 || vocabulary[located[1] + i] != byte)
            return fail("the record's bytes are others", at);
        used += more;
    }
    return 0;
}

int main(int count, char **arguments)
{
    return check_cases(count, arguments, HEAD, check_case);
}
