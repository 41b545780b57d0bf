/* Prints the names of a vocabulary, each with its equals and its nearest broader names, through the C boundary:
 * bench/reasoners.sh runs this beside the reasoners' classifications.
 * usage: classify VOCABULARY
 * A line for each name, all by their record numbers: "3: equal 5 7, broader 9".
 * Exit status: 0 done, 2 refused, 64 bad usage, 66 the file cannot be read. */
#include <stdio.h>

#include "judge.h"

/* The record numbers of the names, in record order. */
static void list_names(const uint8_t *vocabulary, size_t length, uint32_t *numbers)
{
    for (uint32_t number = 1; number < length / 8; number++) {
        if (vocabulary[8 * number] == 3)
            *numbers++ = number;
    }
}

/* The other names that have this entry with name i. */
static void print_entries(const uint8_t *taxonomy, uint32_t names, uint32_t i, int entry, const uint32_t *numbers)
{
    for (uint32_t j = 0; j < names; j++) {
        if (j != i && judge_entry(taxonomy, names, i, j) == entry)
            printf(" %u", numbers[j]);
    }
}

static void print_taxonomy(const uint8_t *taxonomy, uint32_t names, const uint32_t *numbers)
{
    for (uint32_t i = 0; i < names; i++) {
        printf("%u: equal", numbers[i]);
        print_entries(taxonomy, names, i, JUDGE_EQUAL_NAMES, numbers);
        printf(", broader");
        print_entries(taxonomy, names, i, JUDGE_NEAREST_BROADER, numbers);
        printf("\n");
    }
}

static int classify(const char *name, const uint8_t *vocabulary, size_t length)
{
    uint8_t survivors[JUDGE_SURVIVOR_BYTES], taxonomy[JUDGE_TAXONOMY_BYTES];
    uint32_t numbers[JUDGE_ATOMS];
    uint64_t answer = judge_classify(vocabulary, length, survivors, sizeof survivors, taxonomy, sizeof taxonomy);

    if (judge_refusal(answer)) {
        printf("%s: refused, %u, place %u: %s\n", name, judge_refusal(answer), judge_place(answer),
               judge_sentence(judge_refusal(answer)));
        return 2;
    }
    list_names(vocabulary, length, numbers);
    print_taxonomy(taxonomy, judge_names(vocabulary, length), numbers);
    return 0;
}

int main(int count, char **words)
{
    static uint8_t vocabulary[JUDGE_VOCABULARY_BYTES + 1]; /* one more than may be, so that a longer file is refused */
    FILE *file;
    size_t length;

    if (count != 2) {
        fprintf(stderr, "usage: classify VOCABULARY\n");
        return 64;
    }
    file = fopen(words[1], "rb");
    length = file == NULL ? 0 : fread(vocabulary, 1, sizeof vocabulary, file);
    if (file == NULL || ferror(file)) {
        perror(words[1]);
        return 66;
    }
    fclose(file);
    return classify(words[1], vocabulary, length);
}
