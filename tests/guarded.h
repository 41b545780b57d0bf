/* Space for an input of a test between two pages that cannot be read, so that a read past the end of an input that ends
 * where the space does, or before one that starts there, stops the test. */
#ifndef GUARDED_H
#define GUARDED_H

#include <stdint.h>
#include <stdio.h>
#include <stdlib.h>
#include <sys/mman.h>
#include <unistd.h>

enum { SPACE = 65536 };

/* SPACE bytes, before and after which stands an unreadable page. */
static inline uint8_t *guarded_space(void)
{
    size_t page = (size_t)sysconf(_SC_PAGESIZE);
    void *start = mmap(NULL, page + SPACE + page, PROT_NONE, MAP_PRIVATE | MAP_ANONYMOUS, -1, 0);
    uint8_t *bytes = (uint8_t *)start + page;

    if (start == MAP_FAILED || mprotect(bytes, SPACE, PROT_READ | PROT_WRITE) != 0) {
        perror("guarded space");
        exit(2);
    }
    return bytes;
}

#endif
