/* What the parts of the best reader share: loops made for each length of a word, words loaded and stored whole, the bits of a vector. */
#ifndef BEST_H
#define BEST_H

#include "reader.h"

#define INLINE static inline __attribute__((always_inline))

/* Makes `call` with L a constant for each length of a word. */
#define FOR_LENGTH(length, call)                     \
    switch (length) {                                \
    case 1: { enum { L = 1 }; call; break; }         \
    case 2: { enum { L = 2 }; call; break; }         \
    case 3: { enum { L = 3 }; call; break; }         \
    case 4: { enum { L = 4 }; call; break; }         \
    case 5: { enum { L = 5 }; call; break; }         \
    case 6: { enum { L = 6 }; call; break; }         \
    case 7: { enum { L = 7 }; call; break; }         \
    case 8: { enum { L = 8 }; call; break; }         \
    }

/* A loop that is dearer where the compiler makes it wide, and one that takes eight words at a time. */
#ifdef __clang__
#define ONE_BY_ONE _Pragma("clang loop vectorize(disable) unroll_count(4)")
#define EIGHT_BY_EIGHT _Pragma("clang loop vectorize_width(2) interleave_count(4)")
#else
#define ONE_BY_ONE
#define EIGHT_BY_EIGHT
#endif

/* Eight bytes as they stand. */
INLINE uint64_t raw(const uint8_t *b) {
    uint64_t eight;
    memcpy(&eight, b, 8);
    return eight;
}

/* The word of so many bytes where they are: of a power of two, one load and a swap. */
INLINE uint64_t load(const uint8_t *b, size_t length) {
    uint64_t word = 0;
    uint32_t four;
    uint16_t two;
    switch (length) {
    case 8: return __builtin_bswap64(raw(b));
    case 4: memcpy(&four, b, 4); return __builtin_bswap32(four);
    case 2: memcpy(&two, b, 2); return __builtin_bswap16(two);
    }
    for (size_t i = 0; i < length; i++) word = word << 8 | b[i];
    return word;
}

/* The same where eight bytes are there, whatever the length: one load, a swap and a shift. */
INLINE uint64_t load_wide(const uint8_t *b, size_t length) {
    return length == 1 || length == 2 || length == 4 ? load(b, length) : __builtin_bswap64(raw(b)) >> (64 - 8 * length);
}

INLINE void store(uint8_t *b, size_t length, uint64_t word) {
    uint64_t eight = __builtin_bswap64(word);
    uint32_t four = __builtin_bswap32(word);
    uint16_t two = __builtin_bswap16(word);
    switch (length) {
    case 8: memcpy(b, &eight, 8); return;
    case 4: memcpy(b, &four, 4); return;
    case 2: memcpy(b, &two, 2); return;
    }
    for (size_t i = 0; i < length; i++) b[i] = word >> 8 * (length - 1 - i);
}

/* The same where eight bytes may be changed. */
INLINE void store_wide(uint8_t *b, size_t length, uint64_t word) {
    if (length == 1 || length == 2 || length == 4) store(b, length, word);
    else store(b, 8, word << (64 - 8 * length));
}

/* The verdict on a matrix pack, its fields and the place of its first word. */
uint64_t best_walk(const uint8_t *b, size_t count, size_t format, struct fields *f, size_t *first);

#endif
