/* Runs judge_check_script over the script cases and compares each answer with the expected output. The vocabulary and
 * the script each stand before a page that cannot be read, and then behind one, so that a read outside either stops the
 * test; a byte of either that was written to shows.
 * usage: script CASES EXPECTED */
#define _DEFAULT_SOURCE
#define SUBJECT "script"
#include <inttypes.h>
#include <stdio.h>
#include <string.h>

#include "cases.h"
#include "judge.h"

enum { HEAD = 4 };

/* An input, in its guarded space, and a copy of it. */
struct input {
    uint8_t *space, *bytes;
    size_t length;
    uint8_t copy[SPACE];
};

/* Reads an input. Answers whether it was there whole. */
static int read_input(struct input *input, const uint8_t *length, FILE *file)
{
    input->length = number_at(length, 2);
    return fread(input->copy, 1, input->length, file) == input->length;
}

/* Puts an input to the end of its space, or to the start. */
static void put(struct input *input, int to_end)
{
    input->bytes = to_end ? input->space + SPACE - input->length : input->space;
    memcpy(input->bytes, input->copy, input->length);
}

static int was_written(const struct input *input)
{
    return memcmp(input->copy, input->bytes, input->length) != 0;
}

/* Packs the answer that a line says. Answers whether the line says one and nothing else. */
static int expected_answer(const char *line, uint64_t *packed)
{
    uint64_t number, value;
    int end = 0;

    if (sscanf(line, "accepted %" SCNu64 "%n", &value, &end) == 1)
        *packed = value << 8;
    else if (sscanf(line, "refused %" SCNu64 " %" SCNu64 "%n", &number, &value, &end) == 2 && number != 0)
        *packed = number | value << 8;
    else
        return 0;
    return strcmp(line + end, "\n") == 0;
}

/* Compares one case with its line of the expected output, at both ends of the spaces. */
static int check_case(struct input *vocabulary, struct input *script, const char *line, size_t at)
{
    uint64_t answer, packed;

    if (!expected_answer(line, &packed))
        return fail("the expected output has no answer", at);
    for (int to_end = 0; to_end < 2; to_end++) {
        put(vocabulary, to_end);
        put(script, to_end);
        answer = judge_check_script(vocabulary->bytes, vocabulary->length, script->bytes, script->length);
        if (answer != packed) {
            fprintf(stderr, "script: answer %#" PRIx64 ", expected %#" PRIx64 "\n", answer, packed);
            return fail("judge_check_script answers something else", at);
        }
        if (was_written(vocabulary) || was_written(script))
            return fail("an input was written to", at);
    }
    return 0;
}

int main(int count, char **arguments)
{
    static struct input vocabulary, script;
    FILE *file = count == 3 ? fopen(arguments[1], "rb") : NULL;
    FILE *expected = count == 3 ? fopen(arguments[2], "r") : NULL;
    uint8_t head[HEAD];
    char line[256];
    size_t cases = 0, got;

    if (file == NULL || expected == NULL) {
        fprintf(stderr, "usage: script CASES EXPECTED\n");
        return 2;
    }
    vocabulary.space = guarded_space();
    script.space = guarded_space();
    while ((got = fread(head, 1, HEAD, file)) == HEAD) {
        if (!read_input(&vocabulary, head, file) || !read_input(&script, head + 2, file) ||
            fgets(line, sizeof line, expected) == NULL)
            return fail("a file ends early", cases);
        if (check_case(&vocabulary, &script, line, cases) != 0)
            return 1;
        cases++;
    }
    if (got != 0 || cases == 0 || fgets(line, sizeof line, expected) != NULL)
        return fail("there are more lines than cases, half a case, or no case", cases);
    printf("script: %zu cases agree\n", cases);
    return 0;
}
