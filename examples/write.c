/* Writes a vocabulary record by record, through the C boundary: three names, the intersection of the first two, and the
 * statement that it lies within the third (sample V of docs/FORMATS.md, section 10). It then reads from the header how
 * many atoms there are, asks whether the intersection and the third name are equal, and writes the bytes to a file.
 * usage: write FILE
 * Exit status: 0 written, 2 refused, 64 bad usage, 73 the file cannot be written. */
#include <stdio.h>
#include <stdlib.h>

#include "judge.h"

/* The buffer, and how much of it is in use. */
static uint8_t vocabulary[JUDGE_VOCABULARY_BYTES];
static size_t used;

/* Ends the run at a refusal. */
static uint64_t not_refused(uint64_t answer)
{
    if (judge_refusal(answer)) {
        printf("refused, %u, place %u: %s\n", judge_refusal(answer), judge_place(answer),
               judge_sentence(judge_refusal(answer)));
        exit(2);
    }
    return answer;
}

/* Takes the new length of an answer, and answers the number of the record that was added last. */
static uint16_t taken(uint64_t answer)
{
    used = judge_length(not_refused(answer));
    return judge_added(answer);
}

static uint16_t add_term(uint8_t kind, uint16_t a, uint16_t b)
{
    return taken(judge_add_term(vocabulary, sizeof vocabulary, used, kind, a, b));
}

static uint16_t add_statement(uint16_t a, uint16_t b)
{
    return taken(judge_add_statement(vocabulary, sizeof vocabulary, used, a, b));
}

/* Adds the terms and the statement, and hands out the numbers of its two terms. */
static void write_terms(uint16_t *both, uint16_t *relief)
{
    uint16_t sample, returned, statement;

    taken(judge_make_vocabulary(vocabulary, sizeof vocabulary, 0));
    sample = add_term(JUDGE_NAME, 1, 0);
    returned = add_term(JUDGE_NAME, 2, 0);
    *relief = add_term(JUDGE_NAME, 3, 0);
    *both = add_term(JUDGE_AND, sample, returned);
    statement = add_statement(*both, *relief);
    printf("record %u: term %u lies within term %u\n", statement, *both, *relief);
}

/* Writes the bytes in use to a file; whether all of them are there. */
static int write_file(const char *name)
{
    FILE *file = fopen(name, "wb");
    int written = file != NULL && fwrite(vocabulary, 1, used, file) == used;

    return file != NULL && fclose(file) == 0 && written;
}

int main(int count, char **words)
{
    uint8_t survivors[JUDGE_SURVIVOR_BYTES];
    uint16_t both, relief;
    uint64_t answer;

    if (count != 2) {
        fprintf(stderr, "usage: write FILE\n");
        return 64;
    }
    write_terms(&both, &relief);
    printf("edition %u, %u atoms\n", judge_header_edition(vocabulary), judge_header_atoms(vocabulary));
    answer = not_refused(judge_compare(vocabulary, used, both, relief, survivors, sizeof survivors));
    printf("they are %s\n", judge_different(answer) ? "different" : "equal");
    if (!write_file(words[1])) {
        perror(words[1]);
        return 73;
    }
    printf("%s: %zu bytes\n", words[1], used);
    return 0;
}
