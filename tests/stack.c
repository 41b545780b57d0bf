/* Measures how much stack each call needs, over the stored cases: they have as many records, roles, atoms, frames and
 * steps as there may be, 1,005 rounds, and every answer. The calls are made on a stack of their own, which is painted
 * below the frame that makes the call; where the paint is gone, the call has been. Fails where a call needs more than
 * judge.h says, or where judge.h says more than four times what is needed.
 * Link with -z now: the first call of a function in a shared library may else need stack to find it.
 * usage: stack VOCABULARY_CASES COMPARISON_CASES CLASSIFICATION_CASES SCRIPT_CASES WRITER_CASES */
#define _DEFAULT_SOURCE
#define SUBJECT "stack"
#include <inttypes.h>
#include <pthread.h>
#include <stdio.h>
#include <stdlib.h>
#include <sys/mman.h>
#include <unistd.h>

#include "cases.h"
#include "judge.h"

/* More is painted than may be needed; above it is room for the frames of this test. */
enum { PAINTED = 2 * JUDGE_STACK_BYTES, STACK = PAINTED + 131072, ROOM = 65536, LOOSE = 4 };

static const uint64_t PAINT = 0xa5a5a5a5a5a5a5a5;

/* The writer's calls are the last three, in the order of the numbers that its cases have for them. */
enum call { VOCABULARY, RECORD, COMPARE, CLASSIFY, SCRIPT, MAKE, TERM, STATEMENT, CALLS };

static const char *const names[CALLS] = {"judge_check_vocabulary", "judge_record",          "judge_compare",
                                         "judge_classify",         "judge_check_script",    "judge_make_vocabulary",
                                         "judge_add_term",         "judge_add_statement"};

/* The most that each call has needed, and for how many cases it was made. */
static size_t most[CALLS], made[CALLS];

/* The arguments of a call. */
struct task {
    size_t vocabulary_len, script_len, lent, taxonomy_len, used;
    uint32_t a, b;
    uint8_t kind;
    uint8_t vocabulary[ROOM], script[ROOM], buffer[ROOM], taxonomy[ROOM];
};

static struct task task;

static void stop(const char *what)
{
    fprintf(stderr, "stack: %s\n", what);
    exit(2);
}

/* Paints what lies below this function's frame, makes a call, and answers how far below the frame the paint is gone.
 * The call stands in this function, so that no other frame is counted; the return address is. */
__attribute__((noinline)) static size_t measure(enum call call)
{
    uint64_t *frame;
    volatile uint64_t *at, *lowest; /* volatile, so that painting is no call itself */

    __asm__ volatile("mov %%rsp, %0" : "=r"(frame));
    lowest = frame - PAINTED / sizeof *frame;
    for (at = lowest; at < frame; at++)
        *at = PAINT;
    switch (call) {
    case VOCABULARY:
        judge_check_vocabulary(task.vocabulary, task.vocabulary_len);
        break;
    case RECORD:
        judge_record(task.vocabulary, task.vocabulary_len, task.a);
        break;
    case COMPARE:
        judge_compare(task.vocabulary, task.vocabulary_len, task.a, task.b, task.buffer, task.lent);
        break;
    case CLASSIFY:
        judge_classify(task.vocabulary, task.vocabulary_len, task.buffer, task.lent, task.taxonomy, task.taxonomy_len);
        break;
    case MAKE:
        judge_make_vocabulary(task.vocabulary, task.lent, task.a);
        break;
    case TERM:
        judge_add_term(task.vocabulary, task.lent, task.used, task.kind, (uint16_t)task.a, (uint16_t)task.b);
        break;
    case STATEMENT:
        judge_add_statement(task.vocabulary, task.lent, task.used, (uint16_t)task.a, (uint16_t)task.b);
        break;
    default:
        judge_check_script(task.vocabulary, task.vocabulary_len, task.script, task.script_len);
    }
    for (at = lowest; at < frame && *at == PAINT;)
        at++;
    return (size_t)(frame - at) * sizeof *frame;
}

static void note(enum call call)
{
    size_t used = measure(call);

    if (used > most[call])
        most[call] = used;
    made[call]++;
}

static void read_bytes(FILE *file, uint8_t *bytes, size_t length)
{
    if (fread(bytes, 1, length, file) != length)
        stop("a file ends inside a case");
}

/* Takes what a head says of a call. */
static void read_head(const uint8_t *head, enum call call)
{
    task.vocabulary_len = number_at(head, 2);
    task.script_len = 0;
    switch (call) {
    case SCRIPT:
        task.script_len = number_at(head + 2, 2);
        break;
    case CLASSIFY:
        task.lent = number_at(head + 2, 2);
        task.taxonomy_len = number_at(head + 4, 2);
        break;
    case MAKE:
        task.lent = task.vocabulary_len + number_at(head + 2, 2);
        task.kind = head[6];
        task.a = number_at(head + 7, 4);
        task.b = number_at(head + 9, 2);
        task.used = (size_t)number_at(head + 15, 4) << 32 | number_at(head + 11, 4);
        break;
    case COMPARE:
        task.b = number_at(head + 6, 4);
        task.lent = number_at(head + 10, 2);
        /* fall through */
    default:
        task.a = number_at(head + 2, 4);
    }
}

/* Makes a call, or two, for each case of a file, whose head has so many bytes. Which of the writer's calls it is, the
 * head says; the vocabulary then stands in the buffer that is lent. */
static void run(const char *path, size_t head_bytes, enum call call)
{
    FILE *file = fopen(path, "rb");
    uint8_t head[MOST_HEAD];

    if (file == NULL)
        stop("a file cannot be read");
    while (fread(head, 1, head_bytes, file) == head_bytes) {
        read_head(head, call);
        read_bytes(file, task.vocabulary, task.vocabulary_len);
        read_bytes(file, task.script, task.script_len);
        note(call == MAKE ? (enum call)(MAKE + head[5]) : call);
        if (call == VOCABULARY)
            note(RECORD);
    }
    fclose(file);
}

/* What runs on the painted stack. */
static void *run_all(void *arguments)
{
    char **paths = (char **)arguments;

    run(paths[1], 6, VOCABULARY);
    run(paths[2], 13, COMPARE);
    run(paths[3], 7, CLASSIFY);
    run(paths[4], 4, SCRIPT);
    run(paths[5], 19, MAKE);
    return NULL;
}

/* Runs all on a stack of its own, under which stands a page that cannot be written. */
static void on_own_stack(char **arguments)
{
    size_t page = (size_t)sysconf(_SC_PAGESIZE);
    uint8_t *start = (uint8_t *)mmap(NULL, page + STACK, PROT_READ | PROT_WRITE, MAP_PRIVATE | MAP_ANONYMOUS, -1, 0);
    pthread_attr_t attributes;
    pthread_t thread;

    if (start == MAP_FAILED || mprotect(start, page, PROT_NONE) != 0 || pthread_attr_init(&attributes) != 0 ||
        pthread_attr_setstack(&attributes, start + page, STACK) != 0 ||
        pthread_create(&thread, &attributes, run_all, arguments) != 0 || pthread_join(thread, NULL) != 0)
        stop("no stack or no thread");
}

int main(int count, char **arguments)
{
    size_t greatest = 0;

    if (count != 6)
        stop("usage: stack VOCABULARY_CASES COMPARISON_CASES CLASSIFICATION_CASES SCRIPT_CASES WRITER_CASES");
    on_own_stack(arguments);
    for (int call = 0; call < CALLS; call++) {
        if (made[call] == 0)
            stop("a call was never made");
        printf("%s: %zu bytes of stack\n", names[call], most[call]);
        greatest = most[call] > greatest ? most[call] : greatest;
    }
    if (greatest > JUDGE_STACK_BYTES || JUDGE_STACK_BYTES > LOOSE * greatest) {
        fprintf(stderr, "stack: %zu bytes are needed, JUDGE_STACK_BYTES is %zu\n", greatest, (size_t)JUDGE_STACK_BYTES);
        return 1;
    }
    return 0;
}
