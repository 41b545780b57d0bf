/* Runs judge_make_vocabulary, judge_add_term and judge_add_statement over the writer cases and compares each answer,
 * what judge.h takes from it, and every byte of the lent buffer, with the expected output. Guards stand around the
 * buffer (lent.h); by turns it ends where an unreadable page begins, so that a length in use that is past it may not be
 * believed. What was made or added to is then read: the vocabulary check counts its records, and the record call finds
 * the last.
 * usage: writer CASES EXPECTED */
#define _DEFAULT_SOURCE
#define SUBJECT "writer"
#include <inttypes.h>
#include <stdio.h>
#include <string.h>

#include "cases.h"
#include "judge.h"
#include "lent.h"

/* The bytes of a head, and where in it stand, behind the length of what the buffer begins with: how many bytes are lent
 * behind that, the seed of what these hold, the call, the kind, A or the role count, B, and the length in use. */
enum { BEHIND = 2, SEED = 4, CALL = 5, KIND = 6, A = 7, B = 9, USED = 11, HEAD = 19 };
/* The calls that are not judge_add_statement. */
enum { MAKE = 0, TERM = 1 };
enum { RECORD_BYTES = 8 };

static struct lent buffer;

/* Makes the call that a head says. */
static uint64_t call(const uint8_t *head)
{
    uint8_t *bytes = lent_bytes(&buffer);
    uint16_t a = (uint16_t)number_at(head + A, 2), b = (uint16_t)number_at(head + B, 2);
    size_t used = (size_t)number_at(head + USED + 4, 4) << 32 | number_at(head + USED, 4);

    if (head[CALL] == MAKE)
        return judge_make_vocabulary(bytes, buffer.length, number_at(head + A, 4));
    if (head[CALL] == TERM)
        return judge_add_term(bytes, buffer.length, used, head[KIND], a, b);
    return judge_add_statement(bytes, buffer.length, used, a, b);
}

/* Expects the bytes to change that a line says after a space: of each row of them where it begins, a colon and the
 * bytes in hexadecimal; a dash says that none does. Moves behind that, and answers whether it stands there and the
 * bytes are lent. */
static int expect_changes(const char **text)
{
    size_t place, rows = 0;
    unsigned byte;
    int used = 0;

    if (strncmp(*text, " - ", 3) == 0) {
        *text += 2;
        return 1;
    }
    for (; sscanf(*text, " %zu:%n", &place, &used) == 1 && used != 0; rows++, used = 0)
        for (*text += used; **text != ' '; place++, *text += 2) {
            if (place >= buffer.length || sscanf(*text, "%2x", &byte) != 1)
                return 0;
            buffer.wanted[buffer.start + place] = (uint8_t)byte;
        }
    return rows != 0;
}

/* Packs the answer that a line says, and expects of the buffer what it says. Answers whether the line says an answer
 * and what changes; with a refusal nothing may. */
static int expect_answer(const char **text, uint64_t *packed)
{
    uint64_t number = 0, value;
    int used = 0;

    if (sscanf(*text, "refused %" SCNu64 " %" SCNu64 "%n", &number, &value, &used) == 2 && number != 0) {
        *packed = number | value << 8;
        *text += used;
        return strncmp(*text, " - ", 3) == 0 && expect_changes(text);
    }
    if (sscanf(*text, "length %" SCNu64 "%n", &value, &used) != 1)
        return 0;
    *packed = value << 8;
    *text += used;
    return expect_changes(text);
}

/* What is wrong with what judge.h takes from an answer, and with what is read from the buffer where it is no refusal,
 * or a null pointer. */
static const char *read_fault(uint64_t answer, uint64_t packed)
{
    const uint8_t *bytes = lent_bytes(&buffer);
    size_t length = (size_t)(packed >> 8), records = length / RECORD_BYTES;

    if (judge_refusal(answer) != (packed & 255) || judge_place(answer) != packed >> 8)
        return "judge_refusal or judge_place says something else";
    if (judge_refusal(answer) != 0)
        return NULL;
    if (judge_check_vocabulary(bytes, length) != (uint64_t)records << 8)
        return "what was written is refused, or has another number of records";
    if (judge_record(bytes, length, (uint32_t)records - 1) != (uint64_t)(length - RECORD_BYTES) << 8)
        return "the last record is not found where it was written";
    return NULL;
}

/* Compares one case with its line of the expected output. */
static int check_case(const uint8_t *beginning, size_t length, const uint8_t *head, const char *line, size_t at)
{
    uint64_t answer, packed;
    const char *text = line, *fault;

    lend(&buffer, length + number_at(head + BEHIND, 2), head[SEED], at);
    memcpy(buffer.wanted + buffer.start, beginning, length);
    memcpy(lent_bytes(&buffer), beginning, length);
    if (!expect_answer(&text, &packed))
        return fail("the expected output has no answer, or no changes", at);
    if (!sums_agree(&buffer, &text) || strcmp(text, "\n") != 0)
        return fail("the expected output has other sums", at);
    answer = call(head);
    if (answer != packed) {
        fprintf(stderr, "writer: answer %#" PRIx64 ", expected %#" PRIx64 "\n", answer, packed);
        return fail("the call answers something else", at);
    }
    if ((fault = lent_fault(&buffer)) != NULL || (fault = read_fault(answer, packed)) != NULL)
        return fail(fault, at);
    return 0;
}

int main(int count, char **arguments)
{
    return check_cases(count, arguments, HEAD, check_case);
}
