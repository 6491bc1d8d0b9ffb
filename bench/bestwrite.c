/* The best writer in C that we can write: the words that are sent are put together, told by all their bits, and stored whole. */
#include "best.h"

/* ---- marks */

/* Whether marks fit: the bits that any has, and those that all have; the last eight may be taken twice. */
INLINE int marks_fit(const uint8_t *marks, size_t m, uint8_t least, uint8_t most) {
    const uint64_t each = 0x0101010101010101;
    uint64_t any = 0, all = ~0ull;
    size_t i = 0;
    if (m < 8) {
        for (; i < m; i++) any |= marks[i], all &= marks[i] * each;
    } else {
        for (; i + 8 <= m; i += 8) any |= raw(marks + i), all &= raw(marks + i);
        any |= raw(marks + m - 8), all &= raw(marks + m - 8);
    }
    return !(any & ~(most * each)) && !(~all & least * each);
}

static void store_vector(uint8_t *out, const uint8_t *marks, size_t m) {
    size_t i = 0;
    for (; i + 8 <= m; i += 8) out[i / 8] = raw(marks + i) * 0x8040201008040201 >> 56;
    if (i < m) {
        unsigned last = 0;
        for (size_t k = i; k < m; k++) last |= marks[k] << (7 - k % 8);
        out[i / 8] = last;
    }
}

/* ---- words */

/* So many words are a block, behind which a writer that must refuse them stops. */
enum { BLOCK = 128 };

/* The top bit is there where a word, its sign cleared, is above the greatest. */
INLINE uint64_t above(uint64_t word, uint64_t sign, uint64_t greatest) {
    word &= ~sign;
    return (word + (INT64_MAX - greatest)) | word;
}

static int block_fits(const struct rule *rule, const uint64_t *words, size_t number) {
    uint64_t any = 0, sign = rule->sign, greatest = rule->greatest, limit = 1ull << 63;
    if (greatest == limit) {
        for (size_t i = 0; i < number; i++) any |= words[i] > limit;
        return !any;
    }
    for (size_t i = 0; i < number; i++) any |= above(words[i], sign, greatest);
    return any >> 63 == 0;
}

/* The bits that any of the words has. */
INLINE uint64_t gathered(const uint64_t *words, size_t number) {
    uint64_t all = 0;
    EIGHT_BY_EIGHT
    for (size_t i = 0; i < number; i++) all |= words[i];
    return all;
}

/* Whether words keep their rule; mapped ones are mostly told by all their bits together. */
static int words_fit(const struct rule *rule, int mapped, const uint64_t *words, size_t number) {
    for (size_t i = 0; i < number; i += BLOCK) {
        size_t some = lesser(BLOCK, number - i);
        if (mapped && gathered(words + i, some) <= rule->greatest) continue;
        if (!block_fits(rule, words + i, some)) return 0;
    }
    return 1;
}

/* So many words; wide, where eight bytes from each on may be changed. */
INLINE void store_some(uint8_t *out, size_t length, const uint64_t *words, size_t number, int wide) {
    size_t i = 0;
    if (length <= 2)
        for (; i < number; i++) store(out + i * length, length, words[i]);
    else if (wide)
        ONE_BY_ONE
        for (; i < number; i++) store_wide(out + i * length, length, words[i]);
    else
        ONE_BY_ONE
        for (; i < number; i++) store(out + i * length, length, words[i]);
}

/* So many words: from each but the last two on eight bytes are theirs. */
INLINE void store_all(uint8_t *out, size_t length, const uint64_t *words, size_t number) {
    size_t few = 8 % length == 0 ? 0 : lesser(number, 2), many = number - few;
    store_some(out, length, words, many, 1);
    store_some(out + many * length, length, words + many, few, 0);
}

/* The words that are sent, one behind the other: their count. */
static size_t put_together(const uint64_t *words, const uint8_t *marks, size_t m, uint64_t *sent) {
    size_t count = 0;
    for (size_t i = 0; i < m; i++) sent[count] = words[i], count += marks[i];
    return count;
}

/* Lists that agree with lawful fields. */
static uint64_t write_lists(const struct fields *f, const uint64_t *deviations, const uint64_t *coefficients, size_t sent, const uint8_t *marks,
                            uint8_t *out, size_t out_count) {
    struct rule deviation = deviation_rule(f->sf, f->slen), coefficient = coefficient_rule(f->cf, f->clen);
    if (f->cs && f->slen == 0 && sent == 0) return REFUSED(9, 0);
    if (f->slen && !words_fit(&deviation, f->sf, deviations, f->n)) return REFUSED(11, 0);
    if (f->clen && !words_fit(&coefficient, f->cf, coefficients, sent)) return REFUSED(11, 0);
    size_t m = pairs(f->n), at = start(f) + (f->cs ? (m + 7) / 8 : 0), length = at + f->n * f->slen + sent * f->clen;
    if (out_count < length) return REFUSED(13, 0);
    put_header(out, f);
    if (f->cs) store_vector(out + start(f), marks, m);
    FOR_LENGTH(f->slen, store_all(out + at, L, deviations, f->n))
    FOR_LENGTH(f->clen, store_all(out + at + f->n * f->slen, L, coefficients, sent))
    return COMPLETE(length);
}

uint64_t best_matrix_write(const size_t *given, size_t given_count, size_t format, const uint64_t *deviations, size_t deviations_count,
                           const uint64_t *coefficients, size_t coefficients_count, const uint8_t *marks, size_t marks_count,
                           uint8_t *out, size_t out_count) {
    uint64_t together[2016 + 1];
    if (!are_fields(given, given_count, format)) return REFUSED(14, 0);
    struct fields f = {given[0], given[1], given[2], given[3], given[4], given[5], given[6]};
    unsigned broken = judge_fields(f, format);
    if (broken) return REFUSED(broken, 0);
    size_t m = pairs(f.n);
    if (!formats_agree(&f, format) || deviations_count < f.n || coefficients_count < m || marks_count < m) return REFUSED(14, 0);
    uint8_t most = f.clen != 0, least = f.cs ? 0 : most;
    if (!marks_fit(marks, m, least, most)) return REFUSED(14, 0);
    if (!f.cs) return write_lists(&f, deviations, coefficients, m * most, marks, out, out_count);
    size_t sent = put_together(coefficients, marks, m, together);
    return write_lists(&f, deviations, together, sent, marks, out, out_count);
}
