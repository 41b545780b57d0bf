/* Settles a line of a table, through the C boundary: checks a vocabulary and lists its records; compares two of its
 * terms; classifies its names; checks a script over it.
 * usage: settle VOCABULARY
 *        settle VOCABULARY A B
 *        settle VOCABULARY --names
 *        settle VOCABULARY SCRIPT
 * Exit status: 0 holds, 1 does not hold, 2 refused, 64 bad usage, 66 a file cannot be read. */
#include <stdio.h>
#include <stdlib.h>
#include <string.h>

#include "judge.h"

/* The bytes of a file, and one more than may be, so that a longer file is refused as such. */
static size_t read_file(const char *name, uint8_t *bytes, size_t limit)
{
    FILE *file = fopen(name, "rb");
    size_t length = file == NULL ? 0 : fread(bytes, 1, limit + 1, file);

    if (file == NULL || ferror(file)) {
        perror(name);
        exit(66);
    }
    fclose(file);
    return length;
}

static int refused(const char *name, uint64_t answer)
{
    printf("%s: refused, %u, place %u: %s\n", name, judge_refusal(answer), judge_place(answer),
           judge_sentence(judge_refusal(answer)));
    /* With 20 to 25 the input is fit, and its chain refused. */
    return judge_refusal(answer) >= 20 && judge_refusal(answer) <= 25 ? 1 : 2;
}

static int check(const char *name, const uint8_t *vocabulary, size_t length)
{
    uint64_t answer = judge_check_vocabulary(vocabulary, length);

    if (judge_refusal(answer))
        return refused(name, answer);
    printf("%s: accepted, %u records, edition %u, %u atoms\n", name, judge_records(answer),
           judge_header_edition(vocabulary), judge_atoms(vocabulary, length));
    for (uint32_t number = 0; number < judge_records(answer); number++) {
        const uint8_t *bytes = vocabulary + judge_offset(judge_record(vocabulary, length, number));

        printf("  record %u: kind %u, A %u, B %u, next %u\n", number, bytes[0], bytes[2] + 256u * bytes[3],
               bytes[4] + 256u * bytes[5], bytes[6] + 256u * bytes[7]);
    }
    return 0;
}

static int compare(const char *name, const uint8_t *vocabulary, size_t length, uint32_t a, uint32_t b)
{
    uint8_t survivors[JUDGE_SURVIVOR_BYTES];
    uint64_t answer = judge_compare(vocabulary, length, a, b, survivors, sizeof survivors);

    if (judge_refusal(answer))
        return refused(name, answer);
    printf("%s: terms %u and %u are ", name, a, b);
    if (!judge_different(answer))
        printf("equal");
    else if (judge_survives(survivors, judge_element(answer)))
        printf("different at element %u, which was written", judge_element(answer));
    printf("; %u rounds, %u survivors\n", judge_rounds(answer), judge_survivors(answer));
    return judge_different(answer);
}

/* The labels of the names of an accepted vocabulary of at most JUDGE_ATOMS names, in record order. */
static void read_labels(const uint8_t *vocabulary, size_t length, unsigned *labels)
{
    for (size_t byte = 8; byte < length; byte += 8)
        if (vocabulary[byte] == 3)
            *labels++ = vocabulary[byte + 2] + 256u * vocabulary[byte + 3];
}

/* Each name with those that are equal to it, and those that are its nearest broader ones. */
static int classify(const char *file, const uint8_t *vocabulary, size_t length)
{
    uint8_t survivors[JUDGE_SURVIVOR_BYTES], taxonomy[JUDGE_TAXONOMY_BYTES];
    uint64_t answer = judge_classify(vocabulary, length, survivors, sizeof survivors, taxonomy, sizeof taxonomy);
    uint32_t names = judge_names(vocabulary, length);
    unsigned labels[JUDGE_ATOMS];

    if (judge_refusal(answer))
        return refused(file, answer);
    read_labels(vocabulary, length, labels);
    printf("%s: %u names; %u rounds, %u survivors\n", file, names, judge_rounds(answer), judge_survivors(answer));
    for (uint32_t i = 0; i < names; i++) {
        printf("  c%u", labels[i]);
        for (uint32_t j = 0; j < names; j++)
            if (i != j && judge_entry(taxonomy, names, i, j) == JUDGE_EQUAL_NAMES)
                printf(", equal to c%u", labels[j]);
            else if (judge_entry(taxonomy, names, i, j) == JUDGE_NEAREST_BROADER)
                printf(", below c%u", labels[j]);
        printf("\n");
    }
    return 0;
}

static int verify(const char *name, const uint8_t *vocabulary, size_t length, const uint8_t *script,
                  size_t script_length)
{
    uint64_t answer = judge_check_script(vocabulary, length, script, script_length);

    if (judge_refusal(answer))
        return refused(name, answer);
    printf("%s: accepted, %u steps: term %u lies within term %u\n", name, judge_steps(answer),
           script[2] + 256u * script[3], script[4] + 256u * script[5]);
    return 0;
}

int main(int count, char **words)
{
    static uint8_t vocabulary[JUDGE_VOCABULARY_BYTES + 1], script[JUDGE_SCRIPT_BYTES + 1];
    size_t length;

    if (count < 2 || count > 4) {
        fprintf(stderr, "usage: settle VOCABULARY [--names | SCRIPT | A B]\n");
        return 64;
    }
    length = read_file(words[1], vocabulary, JUDGE_VOCABULARY_BYTES);
    if (count == 2)
        return check(words[1], vocabulary, length);
    if (count == 3 && strcmp(words[2], "--names") == 0)
        return classify(words[1], vocabulary, length);
    if (count == 3)
        return verify(words[2], vocabulary, length, script, read_file(words[2], script, JUDGE_SCRIPT_BYTES));
    return compare(words[1], vocabulary, length, (uint32_t)strtoul(words[2], NULL, 10),
                   (uint32_t)strtoul(words[3], NULL, 10));
}
