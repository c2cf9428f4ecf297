/* testing.h: what the tests share: random numbers that a seed repeats, counted failures, single bytes of a state, and memory whose end is
 * guarded: a byte that is read or written behind it stops the program, also in code that no sanitizer has seen. POSIX.
 */
#ifndef TESTING_H
#define TESTING_H

#include <stdio.h>
#include <stdlib.h>
#include <string.h>
#include <sys/mman.h>
#include <unistd.h>

#include "../valemkhor.h"

#define ROOM 65536 /* the longest arena */

/* ---- Failures */

static unsigned long wrongs;

static inline void wrong(const char *what) {
    fprintf(stderr, "wrong: %s\n", what);
    if (++wrongs == 20) {
        fprintf(stderr, "20 wrong: no more is tried\n");
        exit(1);
    }
}

static inline void expect(const char *what, bool holds) {
    if (!holds) wrong(what);
}

/* ---- Random numbers: xorshift64* */

static uint64_t dice = 1;

static inline uint64_t rnd(void) {
    dice ^= dice >> 12;
    dice ^= dice << 25;
    dice ^= dice >> 27;
    return dice * UINT64_C(2685821657736338717);
}

static inline uint64_t below(uint64_t n) { return n ? rnd() % n : 0; }

/* A number near a bound, a small one, one of any size, or one of an arena's. */
static inline uint64_t number(void) {
    static const uint64_t bounds[] = {0,        1,    63,       64,       65,             4096,      65535, 65536, 65537,
                                      VK_M - 1, VK_M, VK_M + 1, 2 * VK_M, 2 * VK_M + 1, UINT64_MAX};
    switch (below(4)) {
    case 0: return bounds[below(sizeof bounds / sizeof *bounds)];
    case 1: return below(200);
    case 2: {
        uint64_t any = rnd();
        return any >> below(64);
    }
    default: return below(70000);
    }
}

/* ---- Bytes of a state: a C bool that is assigned 2 becomes 1, so a flag is written as the byte that it is */

static inline void poke(bool *flag, uint8_t byte) { memcpy(flag, &byte, 1); }

static inline uint8_t peek(const bool *flag) {
    uint8_t byte;
    memcpy(&byte, flag, 1);
    return byte;
}

/* ---- Guarded memory */

/* The end of ROOM bytes behind which a page may not be touched. */
static inline uint8_t *guarded(void) {
    size_t page = (size_t)sysconf(_SC_PAGESIZE);
    void *at = mmap(NULL, ROOM + page, PROT_READ | PROT_WRITE, MAP_PRIVATE | MAP_ANONYMOUS, -1, 0);
    if (at == MAP_FAILED || mprotect((uint8_t *)at + ROOM, page, PROT_NONE) != 0) {
        perror("guarded memory");
        exit(2);
    }
    return (uint8_t *)at + ROOM;
}

#endif
