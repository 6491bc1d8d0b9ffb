/* The best reader in C that we can write, its unpacking and expanding: words are loaded whole; of a sparse matrix everything is filled with what is not sent,
 * and the bits of the vector lead to what is. */
#include "best.h"

/* ---- the bits of a vector */

/* 64 pairs at a time, the first in the lowest bit; behind the last pair there are noughts. */
struct bits { uint64_t group[34]; };

/* Eight bytes with the bits of each turned round. */
INLINE uint64_t turned(uint64_t x) {
    x = (x >> 1 & 0x5555555555555555) | (x & 0x5555555555555555) << 1;
    x = (x >> 2 & 0x3333333333333333) | (x & 0x3333333333333333) << 2;
    return (x >> 4 & 0x0F0F0F0F0F0F0F0F) | (x & 0x0F0F0F0F0F0F0F0F) << 4;
}

static void take_bits(const uint8_t *vector, size_t m, struct bits *bits) {
    size_t bytes = (m + 7) / 8, groups = (bytes + 7) / 8;
    bits->group[groups - 1] = 0, bits->group[groups] = 0;
    memcpy(bits->group, vector, bytes);
    for (size_t i = 0; i < groups; i++) bits->group[i] = turned(bits->group[i]);
}

/* The bits from a pair on, fewer than 64. */
INLINE uint64_t bits_from(const struct bits *bits, size_t pair, size_t number) {
    uint64_t low = bits->group[pair / 64] >> pair % 64, high = bits->group[pair / 64 + 1] << 1 << (63 - pair % 64);
    return (low | high) & ((1ull << number) - 1);
}

/* Eight bits as eight marks. */
INLINE uint64_t eight_marks(uint64_t bits) {
    uint64_t each = bits * 0x0101010101010101 & 0x8040201008040201;
    return (each + 0x7F7F7F7F7F7F7F7F) >> 7 & 0x0101010101010101;
}

/* ---- words */

/* So many words; wide, where there are eight bytes from each on. */
INLINE void load_some(const uint8_t *b, size_t length, size_t number, uint64_t *out, int wide) {
    size_t i = 0;
    if (length <= 2)
        for (; i < number; i++) out[i] = load(b + i * length, length);
    else if (wide)
        ONE_BY_ONE
        for (; i < number; i++) out[i] = load_wide(b + i * length, length);
    else
        ONE_BY_ONE
        for (; i < number; i++) out[i] = load(b + i * length, length);
}

/* So many words: from each but the last two on there are eight bytes. */
INLINE void load_all(const uint8_t *b, size_t at, size_t length, size_t number, uint64_t *out) {
    size_t few = 8 % length == 0 ? 0 : lesser(number, 2), many = number - few;
    load_some(b + at, length, many, out, 1);
    load_some(b + at + many * length, length, few, out + many, 0);
}

/* The word at a place of a pack that ends at `end`. */
INLINE uint64_t load_before(const uint8_t *b, size_t at, size_t length, size_t end) {
    return at + 8 <= end ? load_wide(b + at, length) : load(b + at, length);
}

static void load_deviations(const uint8_t *b, size_t at, const struct fields *f, uint64_t *out) {
    if (f->slen == 0) memset(out, 0, 8 * f->n);
    FOR_LENGTH(f->slen, load_all(b, at, L, f->n, out))
}

/* ---- unpacking */

INLINE void load_sent(const uint8_t *b, size_t at, size_t length, size_t end, const struct bits *bits, size_t m, uint64_t *out) {
    for (size_t i = 0; i < m; i += 64)
        for (uint64_t left = bits->group[i / 64]; left; left &= left - 1, at += length)
            out[i + __builtin_ctzll(left)] = load_before(b, at, length, end);
}

static void unpack_sparse(const uint8_t *b, size_t at, size_t end, const struct fields *f, uint64_t *coefficients, uint8_t *marks) {
    struct bits bits;
    size_t m = pairs(f->n), i = 0;
    uint64_t none = nought(f), eight;
    take_bits(b + start(f), m, &bits);
    for (; i + 8 <= m; i += 8) eight = eight_marks(((uint8_t *)bits.group)[i / 8]), memcpy(marks + i, &eight, 8);
    for (; i < m; i++) marks[i] = bits.group[i / 64] >> i % 64 & 1;
    for (i = 0; i < m; i++) coefficients[i] = none;
    FOR_LENGTH(f->clen, load_sent(b, at, L, end, &bits, m, coefficients))
}

uint64_t best_matrix_unpack(const uint8_t *b, size_t count, size_t format, uint64_t *deviations, size_t deviations_count,
                            uint64_t *coefficients, size_t coefficients_count, uint8_t *marks, size_t marks_count) {
    struct fields f;
    size_t at;
    uint64_t said = best_walk(b, count, format, &f, &at);
    if (said >> 32) return said;
    size_t m = pairs(f.n);
    if (deviations_count < f.n || coefficients_count < m || marks_count < m) return REFUSED(13, 0);
    load_deviations(b, at, &f, deviations);
    at += f.n * f.slen;
    if (f.cs) {
        unpack_sparse(b, at, said, &f, coefficients, marks);
    } else {
        memset(marks, f.clen != 0, m);
        if (f.clen == 0) memset(coefficients, 0, 8 * m);
        FOR_LENGTH(f.clen, load_all(b, at, L, m, coefficients))
    }
    return said;
}

/* ---- expanding */

/* Below so many variables a loop over a row is not worth making wide. */
enum { FEW = 12 };

typedef uint64_t two_cells __attribute__((vector_size(16)));

/* Two cells of one row and two of the next as two columns. */
INLINE void turn_four(const uint64_t *one, const uint64_t *two, uint64_t *to, size_t n) {
    two_cells upper, lower;
    memcpy(&upper, one, 16), memcpy(&lower, two, 16);
    two_cells first = {upper[0], lower[0]}, second = {upper[1], lower[1]};
    memcpy(to, &first, 16), memcpy(to + n, &second, 16);
}

/* The lower triangle from the upper one, two rows at a time. */
static __attribute__((noinline)) void mirror(uint64_t *cells, size_t n) {
    for (size_t i = 0; i + 1 < n; i += 2) {
        const uint64_t *one = cells + i * n, *two = one + n;
        uint64_t *to = cells + (i + 2) * n + i;
        size_t j = i + 2;
        cells[(i + 1) * n + i] = one[i + 1];
        for (; j + 1 < n; j += 2, to += 2 * n) turn_four(one + j, two + j, to, n);
        if (j < n) to[0] = one[j], to[1] = two[j];
    }
}

/* From each word of a row on there are eight bytes, but in the last three rows. */
INLINE void expand_full(const uint8_t *b, size_t at, size_t length, size_t n, uint64_t *cells) {
    for (size_t i = 0; i < n; i++, at += (n - i) * length)
        load_some(b + at, length, n - 1 - i, cells + i * n + i + 1, 8 % length == 0 || i + 3 < n);
    mirror(cells, n);
}

/* Few variables, pair by pair. */
INLINE void expand_few(const uint8_t *b, size_t at, size_t length, size_t n, uint64_t *cells) {
    for (size_t i = 0; i < n; i++)
        ONE_BY_ONE
        for (size_t j = i + 1; j < n; j++, at += length) cells[i * n + j] = cells[j * n + i] = load(b + at, length);
}

INLINE void expand_sent(const uint8_t *b, size_t at, size_t length, size_t end, const struct bits *bits, size_t n, uint64_t *cells, uint8_t *marks) {
    for (size_t i = 0, pair = 0; i + 1 < n; pair += n - 1 - i, i++)
        for (uint64_t left = bits_from(bits, pair, n - 1 - i); left; left &= left - 1, at += length) {
            size_t j = i + 1 + __builtin_ctzll(left);
            cells[i * n + j] = cells[j * n + i] = load_before(b, at, length, end);
            marks[i * n + j] = marks[j * n + i] = 1;
        }
}

/* All pairs: filled with what is not sent, or full. */
static void expand_pairs(const uint8_t *b, size_t at, size_t end, const struct fields *f, uint64_t *cells, uint8_t *marks) {
    struct bits bits;
    size_t n = f->n;
    uint64_t none = nought(f);
    if (f->clen == 0 || f->cs)
        for (size_t i = 0; i < n * n; i++) cells[i] = none;
    if (f->cs) {
        take_bits(b + start(f), pairs(n), &bits);
        FOR_LENGTH(f->clen, expand_sent(b, at, L, end, &bits, n, cells, marks))
    } else if (n < FEW) {
        FOR_LENGTH(f->clen, expand_few(b, at, L, n, cells))
    } else {
        FOR_LENGTH(f->clen, expand_full(b, at, L, n, cells))
    }
}

uint64_t best_matrix_expand(const uint8_t *b, size_t count, size_t format, uint64_t *cells, size_t cells_count, uint8_t *marks,
                            size_t marks_count) {
    struct fields f;
    size_t at;
    uint64_t said = best_walk(b, count, format, &f, &at), deviations[64];
    if (said >> 32) return said;
    if (cells_count < f.n * f.n || marks_count < f.n * f.n) return REFUSED(13, 0);
    memset(marks, f.clen != 0 && !f.cs, f.n * f.n);
    expand_pairs(b, at + f.n * f.slen, said, &f, cells, marks);
    load_deviations(b, at, &f, deviations);
    for (size_t i = 0; i < f.n; i++) cells[i * f.n + i] = deviations[i], marks[i * f.n + i] = f.slen != 0;
    return said;
}
