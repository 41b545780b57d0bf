/* The duty vocabulary judge: settles whether terms of a customs vocabulary, in the description logic ALC, are equal or
 * lie one within the other in every finite interpretation that satisfies the vocabulary's statements. Link
 * target/staticlib/libjudge.a (tools/archive.sh builds it; it needs nothing but memcpy and memset), or, after `make
 * install`, what `pkg-config --cflags --libs judge` says. examples/settle.c and examples/write.c are programs that use
 * all of this.
 *
 * A VOCABULARY is 8-byte records, at most 512: a header, then terms and statements. A term is a name, or made of
 * earlier terms by not, and, or, some, all. A statement says that one term lies within another. The header has an
 * edition, 1 or 2; edition 2, which new vocabularies have, holds the number of atoms. A SCRIPT is 16-byte records, at
 * most 2,048: a proof, by the connection calculus, that one term lies within another. Both have a readable text form,
 * which the command `desk` turns into bytes and back (docs/DESK.md). Records are numbered from 0. The formats, their
 * meaning and the table of refusals are in docs/FORMATS.md.
 *
 * Eight calls. Five read: judge_check_vocabulary, judge_record, judge_compare, judge_classify, judge_check_script.
 * Three write a vocabulary, record by record, into a buffer of yours: judge_make_vocabulary, judge_add_term,
 * judge_add_statement. Each takes any bytes of any length, ends, and answers one number, which the functions below take
 * apart:
 *
 *     uint64_t answer = judge_compare(vocabulary, length, 4, 3, survivors, sizeof survivors);
 *     if (judge_refusal(answer))        complain(judge_sentence(judge_refusal(answer)), judge_place(answer));
 *     else if (judge_different(answer)) tell_apart(judge_element(answer));
 *     else                              equal();
 *
 * PROVED, of the Rattle source of the calls, for every input: each call ends, reads and writes only what it is lent,
 * keeps no state, and answers what specs/ of the crates defines, which docs/FORMATS.md says in words. A refusal is the
 * first in the table's order, has the table's number and place, and alters no lent byte. Of two terms of an accepted
 * vocabulary of at most 12 atoms, with at least 512 bytes lent, Equal is answered exactly when they are equal in every
 * finite interpretation that satisfies the statements. With either answer the bytes written hold the survivors and,
 * read back, are such an interpretation where any bit is set; the element of Different belongs to just one of the terms
 * in it. Of two names a and b of such a vocabulary, with at least 512 and 144 bytes lent, the taxonomy's entry is 2
 * exactly if they are equal in every finite interpretation that satisfies the statements; 1 exactly if b is strictly
 * broader (a lies within b in every such interpretation, and not the other way round) and no name is strictly between;
 * otherwise 0. Over an accepted vocabulary, a script is accepted exactly when it keeps the form and its chain of steps
 * is a derivation of at most 64 open frames; then its first term lies within its second in every finite interpretation
 * that satisfies the statements. An empty vocabulary that is made is accepted. For every list of additions that succeed
 * from it, the bytes in use are an accepted vocabulary, and reading them shows exactly those terms and statements in
 * their order, the statements on the chain; an addition that succeeds changes its eight bytes, the link that reaches
 * them and, in a header of edition 2, the number of atoms, which stays true, and no other byte. Of accepted
 * vocabularies that differ in edition alone, comparison, classification and script check answer and write the same. The
 * packing of the answers, and what their bits say, is proved too. In crates/demands/specs, Demands.antt states the
 * demands, and Promises.antt what is promised beside them.
 *
 * TESTED, not proved: this header. All proofs pass with two parameters of a call exchanged in the source, so that
 * tests/boundary.sh compares the names, order and widths there with those here and in the wrappers.
 *
 * TRUSTED: the Rattle kit (its logic and its prover), and that its back end and the linker make of the source what it
 * says; the caller:
 *   - a pointer has as many readable bytes as the length beside it says, and is not null, even where the length is 0;
 *   - the buffers of a comparison, of a classification and of a vocabulary that is written are writable, and each
 *     overlaps nothing else that is lent to the call; no other thread writes to what is lent;
 *   - a call has JUDGE_STACK_BYTES of stack. There is no recursion and no heap. */
#ifndef JUDGE_H
#define JUDGE_H

#include <stddef.h>
#include <stdint.h>

#ifdef __cplusplus
extern "C" {
#endif

/* The version, which the library, desk and the wrappers have together. The major number grows where bytes that were
 * filed, or the packing of an answer, come to mean something else; libjudge.so has it in its name. The minor number
 * counts the change requests that have landed, each of which keeps that; the patch number grows with all else. */
#define JUDGE_VERSION_MAJOR 1
#define JUDGE_VERSION_MINOR 5
#define JUDGE_VERSION_PATCH 0
#define JUDGE_VERSION "1.5.0"

/* The kinds of terms, with what A and B of their records are; 0 where nothing is said. */
enum {
    JUDGE_TOP = 1,
    JUDGE_BOTTOM = 2,
    JUDGE_NAME = 3, /* A: the label */
    JUDGE_NOT = 4,  /* A: a term */
    JUDGE_AND = 5,  /* A and B: terms */
    JUDGE_OR = 6,   /* A and B: terms */
    JUDGE_SOME = 7, /* A: a role; B: a term */
    JUDGE_ALL = 8   /* A: a role; B: a term */
};

/* The editions of a vocabulary's header, which is its second byte. */
enum {
    JUDGE_EDITION_1 = 1, /* next is 0 */
    JUDGE_EDITION_2 = 2  /* next is k, the number of atoms */
};

/* Limits of the formats. */
enum {
    JUDGE_VOCABULARY_BYTES = 4096, /* the longest vocabulary */
    JUDGE_SCRIPT_BYTES = 32768,    /* the longest script */
    JUDGE_SURVIVOR_BYTES = 512,    /* what a comparison and a classification write and ask for */
    JUDGE_TAXONOMY_BYTES = 144,    /* what a classification writes and asks for beside that */
    JUDGE_RECORDS = 512,           /* the most records of a vocabulary, header included */
    JUDGE_SCRIPT_RECORDS = 2048,   /* the most records of a script, header included */
    JUDGE_ROLES = 64,              /* the most roles of a vocabulary */
    JUDGE_ATOMS = 12,              /* the most names and restrictions of a vocabulary to compare or to classify */
    JUDGE_FRAMES = 64              /* the most frames that may be open together while a script is checked */
};

/* Stack that is enough for any call; measured, not proved (tests/stack.c, over the stored cases; the kit's compiler,
 * x86-64): the vocabulary check needs 192 bytes, the record call 8, the comparison 46,600, the classification 47,544,
 * the script check 22,872, making 8, adding a term 272, adding a statement 272, and at most 3,100 more where the
 * program binds memset or memcpy only at the first call. */
enum { JUDGE_STACK_BYTES = 131072 };

/* ---- The calls ---- */

/* The vocabulary check: is this a vocabulary? Accepted: judge_records. Refusals 1 to 8, then 28. */
uint64_t judge_check_vocabulary(const uint8_t *vocabulary, size_t vocabulary_len);

/* The record call: where is record `number`? Accepted: judge_offset; the record's eight bytes start there. Refusals 1
 * and 9 only, so that the records of a vocabulary that the check refuses can be looked at. */
uint64_t judge_record(const uint8_t *vocabulary, size_t vocabulary_len, uint32_t number);

/* The comparison: are the terms of records a and b equal in every finite interpretation that satisfies the statements?
 * Answered: judge_different, and if so judge_element; judge_survivors and judge_rounds with either. The survivors go
 * into the first JUDGE_SURVIVOR_BYTES of the buffer: bit t mod 8 of byte t div 8 is 1 for a survivor t; bit j of a
 * survivor says whether atom j (name or restriction, in record order) holds at it. Later bytes keep their content.
 * Refusals 1 to 8, 28, 10, 11, 12. */
uint64_t judge_compare(const uint8_t *vocabulary, size_t vocabulary_len, uint32_t a, uint32_t b, uint8_t *buffer,
                       size_t buffer_len);

/* The classification: which names are equal, and which are the nearest broader names of each, in every finite
 * interpretation that satisfies the statements? There is no query. Answered: judge_survivors and judge_rounds, as a
 * comparison has them; the first JUDGE_SURVIVOR_BYTES of `survivors` are written as in a comparison. The taxonomy goes
 * into the first JUDGE_TAXONOMY_BYTES of `taxonomy`: with n names, numbered from 0 in record order (judge_names), byte
 * i * n + j is the entry of the names i and j, which judge_entry reads; the rest of these bytes is 0. Later bytes of
 * both buffers keep their content. With no survivor all names are equal. Refusals 1 to 8, 28, 11, 12, 26. */
uint64_t judge_classify(const uint8_t *vocabulary, size_t vocabulary_len, uint8_t *survivors, size_t survivors_len,
                        uint8_t *taxonomy, size_t taxonomy_len);

/* The script check: does this script prove that its header's A lies within its B, over this vocabulary? Accepted:
 * judge_steps. Nothing is written. Refusals 1 to 8, 28, 13, 14, 10, 15 to 25; with 20 to 25 the script keeps the form,
 * and its chain is no derivation of at most 64 open frames; after 23 it may well be one of more. No refusal says that
 * A does not lie within B. A term may stand under several records, and is the same term in each. */
uint64_t judge_check_script(const uint8_t *vocabulary, size_t vocabulary_len, const uint8_t *script, size_t script_len);

/* Making: writes an empty vocabulary of so many roles, its header alone, of edition 2, into the first 8 bytes of the
 * buffer; what lies behind keeps its content. Answered: judge_length, 8. A buffer of JUDGE_VOCABULARY_BYTES has room
 * for any vocabulary; a longer one is no fault. Refusals 27, under 8 bytes, then 2, over JUDGE_ROLES roles. */
uint64_t judge_make_vocabulary(uint8_t *buffer, size_t buffer_len, uint32_t roles);

/* Adding a term: of kind JUDGE_TOP to JUDGE_ALL, to the vocabulary in the first `used` bytes of the buffer. A and B
 * that the kind does not use are 0. The vocabulary keeps its edition; a header of edition 2 keeps the true number of
 * atoms. Answered: judge_length, the bytes then in use, and judge_added, the number by which later records name the
 * term. Refusals 1 to 8 and 28 of the bytes in use (a length past the buffer is 1); 27 without room; then 3 to 7 of
 * the new record, as the vocabulary check would give them, but 3 for kind 9 too. */
uint64_t judge_add_term(uint8_t *buffer, size_t buffer_len, size_t used, uint8_t kind, uint16_t a, uint16_t b);

/* Adding a statement: that term a lies within term b, at the end of the chain: the last statement of the chain, or the
 * header if there is none, gets its link. Answered and refused as adding a term. */
uint64_t judge_add_statement(uint8_t *buffer, size_t buffer_len, size_t used, uint16_t a, uint16_t b);

/* ---- Answers, taken apart; unused bits are 0 ---- */

/* Bits 0-7: the refusal's number, 0 where there is none. */
static inline unsigned judge_refusal(uint64_t answer)
{
    return (unsigned)(answer & 255);
}

/* Bits 8-39 of a refusal: its place. Refusals 3 to 8: the vocabulary's record (of a record that is added, the number
 * it would get); 9 and 10: the number asked for; 11 and 28: the number of atoms, no record; 15 to 25: the script's
 * record (17: 1 if record 1 is absent; 20: 0 if there is no step); 27: the number of records, 0 if one is being made;
 * the others: 0. */
static inline uint32_t judge_place(uint64_t answer)
{
    return (uint32_t)(answer >> 8);
}

/* Bits 8-39 of a vocabulary check: the number of records, header included. */
static inline uint32_t judge_records(uint64_t answer)
{
    return (uint32_t)(answer >> 8);
}

/* Bits 8-39 of a record call: the record's byte offset in the vocabulary. */
static inline uint32_t judge_offset(uint64_t answer)
{
    return (uint32_t)(answer >> 8);
}

/* Bits 8-39 of a script check: the number of steps. */
static inline uint32_t judge_steps(uint64_t answer)
{
    return (uint32_t)(answer >> 8);
}

/* Bits 8-39 of making a vocabulary or of adding to it: the number of bytes then in use. */
static inline uint32_t judge_length(uint64_t answer)
{
    return (uint32_t)(answer >> 8);
}

/* The number of the record that was added, which is the last. */
static inline uint16_t judge_added(uint64_t answer)
{
    return (uint16_t)(judge_length(answer) / 8 - 1);
}

/* Bit 8 of a comparison: 1 if the terms are different. */
static inline int judge_different(uint64_t answer)
{
    return (int)(answer >> 8 & 1);
}

/* Bits 9-24 of a comparison: if the terms are different, the smallest survivor that belongs to just one of them. */
static inline uint32_t judge_element(uint64_t answer)
{
    return (uint32_t)(answer >> 9 & 0xffff);
}

/* Bits 25-41 of a comparison or a classification: the number of survivors. With none, no finite interpretation
 * satisfies the statements, and all terms are equal. */
static inline uint32_t judge_survivors(uint64_t answer)
{
    return (uint32_t)(answer >> 25 & 0x1ffff);
}

/* Bits 42-58 of a comparison or a classification: the number of rounds of type elimination that removed something. */
static inline uint32_t judge_rounds(uint64_t answer)
{
    return (uint32_t)(answer >> 42 & 0x1ffff);
}

/* Whether a type is among the survivors that a comparison or a classification wrote. */
static inline int judge_survives(const uint8_t *survivors, uint32_t type)
{
    return type < 8 * JUDGE_SURVIVOR_BYTES && (survivors[type / 8] >> type % 8 & 1);
}

/* ---- Headers, taken apart; what they say holds of an accepted vocabulary ---- */

/* The edition of a vocabulary: JUDGE_EDITION_1 or JUDGE_EDITION_2. */
static inline unsigned judge_header_edition(const uint8_t *vocabulary)
{
    return vocabulary[1];
}

/* k, the number of atoms (names and restrictions), as a header of edition 2 holds it: up to JUDGE_ATOMS the vocabulary
 * can be compared and classified. Edition 1 does not hold it, and gives 0; judge_atoms serves both. */
static inline uint32_t judge_header_atoms(const uint8_t *vocabulary)
{
    return (uint32_t)(vocabulary[6] | vocabulary[7] << 8);
}

/* k of either edition: from a header of edition 2, and else by going through the records. */
static inline uint32_t judge_atoms(const uint8_t *vocabulary, size_t vocabulary_len)
{
    uint32_t atoms = judge_header_atoms(vocabulary);

    if (judge_header_edition(vocabulary) == JUDGE_EDITION_2)
        return atoms;
    for (size_t byte = 8; byte < vocabulary_len; byte += 8)
        atoms += vocabulary[byte] == JUDGE_NAME || vocabulary[byte] == JUDGE_SOME || vocabulary[byte] == JUDGE_ALL;
    return atoms;
}

/* ---- Taxonomies, taken apart ---- */

/* What the entry of two names says. */
enum {
    JUDGE_NEITHER = 0,         /* neither of the following */
    JUDGE_NEAREST_BROADER = 1, /* the second is strictly broader than the first, and no name is strictly between */
    JUDGE_EQUAL_NAMES = 2      /* they are equal; a name is so with itself */
};

/* The number of names of an accepted vocabulary: its records of kind 3. */
static inline uint32_t judge_names(const uint8_t *vocabulary, size_t vocabulary_len)
{
    uint32_t names = 0;

    for (size_t byte = 8; byte < vocabulary_len; byte += 8)
        names += vocabulary[byte] == JUDGE_NAME;
    return names;
}

/* The entry of names i and j, from 0 in record order, in the taxonomy of a vocabulary of so many names. Where i or j is
 * no name's number, JUDGE_NEITHER. */
static inline int judge_entry(const uint8_t *taxonomy, uint32_t names, uint32_t i, uint32_t j)
{
    if (names > JUDGE_ATOMS || i >= names || j >= names)
        return JUDGE_NEITHER;
    return taxonomy[i * names + j];
}

/* ---- Refusals ---- */

/* A refusal in words, without its full stop. */
static inline const char *judge_sentence(unsigned refusal)
{
    static const char *const sentences[] = {
        "not refused",
        "the vocabulary's length is under 8, over 4,096 or no multiple of 8",
        "the vocabulary's header has a wrong kind, second byte, role count or next",
        "the record's kind is not 1 to 9, or its second byte is not 0",
        "an unused field of the record is not zero",
        "a term number of the record does not name an earlier term",
        "the record's role is not below the header's count",
        "the name has the label of an earlier name",
        "the first statement, or a statement's next, is not 0 and not a later statement",
        "the record number is past the end",
        "the number asked about is no term record",
        "the vocabulary has over 12 atoms, too many to compare or to classify",
        "under 512 bytes are lent for the survivors",
        "the script's length is under 16, over 32,768 or no multiple of 16",
        "the script's header has a wrong w0, or w4 to w7 are not zero",
        "the script record's kind is not 1 to 5",
        "an unused word of the script record is not zero",
        "the term record breaks the term rule, or record 1 is absent or not the constant",
        "the step names a query column, owner, column, position or term that does not exist for it",
        "the first step, or a step's next, is not 0 and not a later step",
        "the chain has no first start, or a later one",
        "the extension's literal is not the complement of the goal",
        "the reduction's frame is not below the last, or its goal is not the complement",
        "the extension would open a 65th frame",
        "the chain ends with a frame left",
        "a step follows after all is closed",
        "under 144 bytes are lent for the taxonomy",
        "the vocabulary has 512 records, or under 8 bytes of the buffer are free",
        "the vocabulary's header, of edition 2, has a wrong number of atoms",
    };

    if (refusal >= sizeof sentences / sizeof *sentences)
        return "a refusal that the table does not have";
    return sentences[refusal];
}

#ifdef __cplusplus
}
#endif

#endif
