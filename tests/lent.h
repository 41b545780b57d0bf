/* A buffer that a call is lent, as it is and as it has to be after the call. Guard bytes stand before and after it, so
 * that a write outside it shows, and of every second case it ends where an unreadable page begins. */
#ifndef LENT_H
#define LENT_H

#include <inttypes.h>
#include <stdint.h>
#include <stdio.h>
#include <string.h>

#include "guarded.h"

enum { GUARD = 64, GUARD_BYTE = 0xa5 };

/* The buffer in SPACE bytes, which are guard bytes otherwise, and what these have to be. */
struct lent {
    uint8_t *arena, wanted[SPACE];
    size_t start, length;
};

/* Where the buffer starts: before guard bytes, so many that it is aligned in every way, or at the very end. */
static inline size_t buffer_start(size_t length, size_t turn)
{
    size_t after = turn % 2 == 0 ? 0 : GUARD + turn % 16 / 2;

    return SPACE - length < after ? 0 : SPACE - length - after;
}

/* Lends so many bytes, byte i of which is 7 i + seed, and expects them to stay. In every second turn they end where the
 * unreadable page begins. */
static inline void lend(struct lent *lent, size_t length, uint8_t seed, size_t turn)
{
    if (lent->arena == NULL)
        lent->arena = guarded_space();
    lent->start = buffer_start(length, turn);
    lent->length = length;
    memset(lent->wanted, GUARD_BYTE, SPACE);
    for (size_t i = 0; i < length; i++)
        lent->wanted[lent->start + i] = (uint8_t)(7 * i + seed);
    memcpy(lent->arena, lent->wanted, SPACE);
}

/* The buffer as the call gets it. */
static inline uint8_t *lent_bytes(const struct lent *lent)
{
    return lent->arena + lent->start;
}

/* Expects of the first bytes what a line says in hexadecimal after a space: all but those are 0, and a dash says that
 * all are. Moves behind it, and answers whether it stands there and so many bytes are lent. */
static inline int expect_written(struct lent *lent, size_t written, const char **text)
{
    uint8_t *wanted = lent->wanted + lent->start;
    unsigned byte;
    size_t i = 0;

    if (lent->length < written || *(*text)++ != ' ')
        return 0;
    memset(wanted, 0, written);
    if (**text == '-')
        ++*text;
    for (; i < written && **text != ' ' && sscanf(*text, "%2x", &byte) == 1; i++, *text += 2)
        wanted[i] = (uint8_t)byte;
    return **text == ' ';
}

/* Moves behind two sums of a line, and answers whether they are those of what is expected of the buffer: of its bytes,
 * and of the first sum after each byte. */
static inline int sums_agree(const struct lent *lent, const char **text)
{
    uint64_t low = 0, high = 0, sums[2];
    int used = 0;

    for (size_t i = 0; i < lent->length; i++) {
        low += lent->wanted[lent->start + i];
        high += low;
    }
    if (sscanf(*text, " %" SCNu64 " %" SCNu64 "%n", &sums[0], &sums[1], &used) != 2)
        return 0;
    *text += used;
    return sums[0] == low && sums[1] == high;
}

/* What is wrong with the buffer after the call, or a null pointer. */
static inline const char *lent_fault(const struct lent *lent)
{
    size_t end = lent->start + lent->length;

    if (memcmp(lent->arena, lent->wanted, lent->start) != 0 ||
        memcmp(lent->arena + end, lent->wanted + end, SPACE - end) != 0)
        return "something outside a buffer was written to";
    if (memcmp(lent->arena + lent->start, lent->wanted + lent->start, lent->length) != 0)
        return "a buffer holds something else";
    return NULL;
}

#endif
