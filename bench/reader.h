/* What both C readers share: the answers, a matrix pack's fields and the rules of its words. */
#ifndef READER_H
#define READER_H

#include <stddef.h>
#include <stdint.h>
#include <string.h>

#define COMPLETE(n) ((uint64_t)(n))
#define UNFINISHED(m) ((1ull << 32) + (uint64_t)(m))
#define REFUSED(reason, place) ((2ull << 32) + ((uint64_t)(reason) << 16) + (uint64_t)(place))
/* what a function answers that found nothing wrong */
#define GO_ON (~0ull)

struct fields { size_t n, cs, cf, clen, sf, slen, mode; };

/* With its sign cleared a word of `length` bytes is at most `greatest`. */
struct rule { size_t length; uint64_t sign, greatest; };

static inline size_t lesser(size_t a, size_t b) { return a < b ? a : b; }
static inline size_t pairs(size_t n) { return n * (n - 1) / 2; }
static inline int allowed(size_t mapped, size_t length) {
    return mapped ? length <= 8 : length == 0 || length == 2 || length == 4 || length == 8;
}

static inline struct rule mapped_rule(size_t length) { return (struct rule){length, 0, length ? 1ull << (8 * length - 1) : 0}; }

static inline struct rule deviation_rule(size_t mapped, size_t length) {
    if (mapped || length == 0) return mapped_rule(length);
    if (length == 2) return (struct rule){2, 0, 0x7BFF};
    if (length == 4) return (struct rule){4, 0, 0x7F7FFFFF};
    return (struct rule){8, 0, 0x7FEFFFFFFFFFFFFF};
}

static inline struct rule coefficient_rule(size_t mapped, size_t length) {
    if (mapped || length == 0) return mapped_rule(length);
    if (length == 2) return (struct rule){2, 0x8000, 0x3C00};
    if (length == 4) return (struct rule){4, 0x80000000, 0x3F800000};
    return (struct rule){8, 0x8000000000000000, 0x3FF0000000000000};
}

static inline uint64_t nought(const struct fields *f) { return f->cf && f->clen ? 1ull << (8 * f->clen - 2) : 0; }

/* Where the bit vector stands, or the first word: behind the size and as many control bytes as the mode's number. */
static inline size_t start(const struct fields *f) { return 1 + f->mode; }

/* The fewest bytes behind the control bytes of n variables: deviations alone, all the coefficients alone, or a bit vector and one coefficient. */
static inline size_t fewest(size_t n, size_t deviation) {
    size_t m = pairs(n);
    return n == 1 ? deviation : lesser(n * deviation, lesser(m, (m + 7) / 8 + 1));
}

/* The single control byte of Mode 1. */
static inline uint64_t one_control(uint8_t one, size_t format, struct fields *f) {
    f->mode = 1, f->cs = one >> 3 & 1, f->cf = 1, f->clen = one & 7, f->sf = format, f->slen = one >> 4;
    if (!allowed(f->sf, f->slen)) return REFUSED(6, 1);
    if (f->cs && f->clen == 0) return REFUSED(7, 1);
    if (f->n == 1 && f->clen) return REFUSED(8, 1);
    if (f->slen == 0 && f->clen == 0) return REFUSED(9, 1);
    return GO_ON;
}

/* The size and the control bytes; the deviations of Mode 1 have the stated format, 0 for IEEE and 1 for mapped. */
static inline uint64_t header(const uint8_t *b, size_t count, size_t format, struct fields *f) {
    if (format > 1) return REFUSED(14, 0);
    if (count == 0) return UNFINISHED(3);
    size_t n = b[0];
    if (n == 0) return REFUSED(1, 0);
    if (n == 0x80) return REFUSED(3, 0);
    if (n > 64) return REFUSED(2, 0);
    f->n = n;
    if (count == 1) return UNFINISHED(lesser(1 + fewest(n, format ? 1 : 2), 2 + fewest(n, 1)));
    uint8_t one = b[1];
    if (one < 0x80) return one_control(one, format, f);
    size_t m = pairs(n), v = (m + 7) / 8;
    f->mode = 2, f->cs = one >> 5 & 1, f->cf = one >> 4 & 1, f->clen = one & 15;
    if (one & 0x40) return REFUSED(5, 1);
    if (!allowed(f->cf, f->clen)) return REFUSED(6, 1);
    if (f->cf && f->clen == 0) return REFUSED(16, 1);
    if (f->cs && f->clen == 0) return REFUSED(7, 1);
    if (n == 1 && f->clen) return REFUSED(8, 1);
    if (count == 2) return UNFINISHED(1 + (f->cs ? v + lesser(f->clen, n) : f->clen ? m * f->clen : n));
    uint8_t two = b[2];
    f->sf = two >> 4 & 1, f->slen = two & 15;
    if (two & 0x80) return REFUSED(4, 2);
    if (two & 0x60) return REFUSED(5, 2);
    if (!allowed(f->sf, f->slen)) return REFUSED(6, 2);
    if (f->sf && f->slen == 0) return REFUSED(16, 2);
    if (f->slen == 0 && f->clen == 0) return REFUSED(9, 2);
    return GO_ON;
}

/* Whether numbers can be a matrix's fields and a stated format at all. */
static inline int are_fields(const size_t *given, size_t count, size_t format) {
    return format <= 1 && count >= 7 && given[1] <= 1 && given[2] <= 1 && given[4] <= 1 && (given[6] == 1 || given[6] == 2);
}

/* Fields that a writer is given: why they are refused, or 0. Mode 1 has its own formats, whatever Cf and Sf are, and lengths up to 7. */
static inline unsigned judge_fields(struct fields f, size_t format) {
    if (f.n == 0) return 1;
    if (f.n > 64) return 2;
    if (f.mode == 1 ? f.clen > 7 : !allowed(f.cf, f.clen)) return 6;
    if (f.mode == 2 && f.cf && f.clen == 0) return 16;
    if (f.cs && f.clen == 0) return 7;
    if (f.n == 1 && f.clen) return 8;
    if (f.mode == 1 ? f.slen > 7 || !allowed(format, f.slen) : !allowed(f.sf, f.slen)) return 6;
    if (f.mode == 2 && f.sf && f.slen == 0) return 16;
    if (f.slen == 0 && f.clen == 0) return 9;
    return 0;
}

/* Whether the formats that a writer is given are those of their mode. */
static inline int formats_agree(const struct fields *f, size_t format) { return f->mode == 2 || (f->cf && f->sf == format); }

/* The size and the control bytes written. */
static inline void put_header(uint8_t *out, const struct fields *f) {
    out[0] = f->n;
    if (f->mode == 1) {
        out[1] = f->slen << 4 | f->cs << 3 | f->clen;
    } else {
        out[1] = 0x80 | f->cs << 5 | f->cf << 4 | f->clen;
        out[2] = f->sf << 4 | f->slen;
    }
}

/* The calls of a reader, as the header of the library has them. */
#define READER(name)                                                                                                                  \
    uint64_t name##_matrix_verdict(const uint8_t *, size_t, size_t);                                                                  \
    uint64_t name##_array_verdict(const uint8_t *, size_t);                                                                           \
    uint64_t name##_matrix_unpack(const uint8_t *, size_t, size_t, uint64_t *, size_t, uint64_t *, size_t, uint8_t *, size_t);        \
    uint64_t name##_matrix_expand(const uint8_t *, size_t, size_t, uint64_t *, size_t, uint8_t *, size_t);                            \
    uint64_t name##_matrix_write(const size_t *, size_t, size_t, const uint64_t *, size_t, const uint64_t *, size_t, const uint8_t *, \
                                 size_t, uint8_t *, size_t);
READER(plain)
READER(best)

#endif
