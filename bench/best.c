/* The best reader in C that we can write, its verdicts: the bits of whole blocks of words are put together, and words are looked at only in a block that
 * these do not settle. */
#include "best.h"

/* ---- the bit vector */

static size_t ones(const uint8_t *b, size_t count) {
    size_t sum = 0, i = 0;
    for (; i + 8 <= count; i += 8) sum += __builtin_popcountll(raw(b + i));
    for (; i < count; i++) sum += __builtin_popcount(b[i]);
    return sum;
}

INLINE uint64_t vector(const uint8_t *b, size_t count, const struct fields *f, size_t at, size_t *sent) {
    size_t m = pairs(f->n), v = (m + 7) / 8, last = at + v - 1, there = lesser(v, count - at), seen = ones(b + at, there);
    if (there < v) return UNFINISHED(v - there + f->n * f->slen + (f->slen == 0 && seen == 0 ? 1 : seen) * f->clen);
    if (b[last] & ((1u << (v * 8 - m)) - 1)) return REFUSED(10, last);
    if (f->slen == 0 && seen == 0) return REFUSED(9, last);
    *sent = seen;
    return GO_ON;
}

/* ---- words: so many of one length, one behind the other */

/* The tops of the words in eight bytes, which are the k-th eight of words of one length. */
INLINE uint64_t tops(size_t length, size_t k) {
    uint64_t mask = 0;
    for (size_t i = 0; i < 8; i++) mask |= (8 * k + i) % length == 0 ? 0x80ull << 8 * i : 0;
    return mask;
}

/* The top bits that mapped words have, of a length that divides eight: the last eight bytes may be taken twice. */
INLINE uint64_t tops_whole(const uint8_t *b, size_t number, size_t length) {
    size_t bytes = number * length, i = 0;
    uint64_t all = 0;
    if (bytes < 8) {
        for (; i < bytes; i += length) all |= b[i];
        return all & 0x80;
    }
    EIGHT_BY_EIGHT
    for (; i + 8 <= bytes; i += 8) all |= raw(b + i);
    return (all | raw(b + bytes - 8)) & tops(length, 0);
}

/* And of another length: eight words are as many eights as a word has bytes. */
INLINE uint64_t tops_apart(const uint8_t *b, size_t number, size_t length) {
    uint64_t all[8] = {0}, any = 0;
    for (; number >= 8; number -= 8, b += 8 * length)
        for (size_t k = 0; k < length; k++) all[k] |= raw(b + 8 * k);
    for (size_t k = 0; k < length; k++) any |= all[k] & tops(length, k);
    for (; number > 0; number--, b += length) any |= *b & 0x80;
    return any;
}

/* Whether a block of mapped words is settled. */
INLINE int mapped_settled(const uint8_t *b, size_t number, size_t length) {
    return (8 % length == 0 ? tops_whole(b, number, length) : tops_apart(b, number, length)) == 0;
}

typedef uint16_t twos __attribute__((vector_size(16)));
typedef uint32_t fours __attribute__((vector_size(16)));

/* Sixteen bytes in which words begin: as they stand, or of words of eight bytes the first half of each of four. */
INLINE twos beginnings(const uint8_t *b, size_t length) {
    fours one, two;
    memcpy(&one, b, 16);
    if (length < 8) return (twos)one;
    memcpy(&two, b + 16, 16);
    return (twos)__builtin_shufflevector(one, two, 0, 2, 4, 6);
}

/* How far each two bytes are above others, once turned by some bits: by eight a word's first byte is the higher, by nine its sign is the lowest bit. */
INLINE twos excess(twos two, int turn, uint16_t others) {
    two = two << turn | two >> (16 - turn);
    return (two - others) & (twos)(two > others);
}

/* Whether a block of IEEE words is settled: the first two bytes of each are below the rule's; the last may be taken twice. */
INLINE int ieee_settled(const uint8_t *b, size_t number, size_t length, struct rule rule, int turn) {
    uint16_t others = (rule.greatest >> (8 * length - 16) << (turn - 8)) - 1;
    size_t bytes = number * length, half = length < 8 ? 16 : 32, i = 0;
    twos one = {0}, two = {0};
    unsigned any = 0;
    if (bytes < 2 * half) return 0;
    for (; i < bytes; i += 2 * half) {
        const uint8_t *from = b + lesser(i, bytes - 2 * half);
        one |= excess(beginnings(from, length), turn, others), two |= excess(beginnings(from + half, length), turn, others);
    }
    one |= two;
    for (size_t k = 0; k < 8; k += length == 2 ? 1 : 2) any |= one[k];
    return !any;
}

/* Whether each word of a block keeps its rule, without a branch: from each but the last two on there are eight bytes. */
INLINE int each_kept(const uint8_t *b, size_t number, size_t length, struct rule rule) {
    unsigned broken = 0;
    size_t i = 0;
    if (length <= 2 || length == 4) {
        for (; i < number; i++) broken |= ((uint32_t)load(b + i * length, length) & ~(uint32_t)rule.sign) > (uint32_t)rule.greatest;
        return !broken;
    }
    ONE_BY_ONE
    for (; i + 2 < number; i++) broken |= (load_wide(b + i * length, length) & ~rule.sign) > rule.greatest;
    for (; i < number; i++) broken |= (load(b + i * length, length) & ~rule.sign) > rule.greatest;
    return !broken;
}

/* How words are settled: by their tops, or by their first two bytes turned by so many bits. */
enum form { MAPPED = 0, DEVIATION = 8, COEFFICIENT = 9 };

/* How many words keep their rule, up to the first that does not; a block is a thousand bytes or so. */
INLINE size_t kept(const uint8_t *b, size_t number, size_t length, struct rule rule, enum form form) {
    size_t i = 0, block = 1024 / length & ~7;
    while (i < number) {
        size_t some = lesser(block, number - i);
        const uint8_t *from = b + i * length;
        int settled = form == MAPPED ? mapped_settled(from, some, length) : ieee_settled(from, some, length, rule, form);
        if (!settled && !each_kept(from, some, length, rule)) {
            while ((load(b + i * length, length) & ~rule.sign) <= rule.greatest) i++;
            return i;
        }
        i += some;
    }
    return number;
}

static size_t mapped_kept(const uint8_t *b, size_t number, struct rule rule) {
    size_t until = 0;
    FOR_LENGTH(rule.length, until = kept(b, number, L, rule, MAPPED))
    return until;
}

static size_t ieee_kept(const uint8_t *b, size_t number, struct rule rule) {
    switch (rule.length) {
    case 2: return rule.sign ? kept(b, number, 2, rule, COEFFICIENT) : kept(b, number, 2, rule, DEVIATION);
    case 4: return rule.sign ? kept(b, number, 4, rule, COEFFICIENT) : kept(b, number, 4, rule, DEVIATION);
    }
    return rule.sign ? kept(b, number, 8, rule, COEFFICIENT) : kept(b, number, 8, rule, DEVIATION);
}

/* The byte of a word, cut at a place or whole, that breaks its rule, or that place. */
static size_t broken_at(const uint8_t *b, size_t at, size_t until, struct rule rule) {
    uint64_t word = 0;
    for (size_t left = 8 * rule.length; at < until && left; at++) {
        left -= 8;
        word = word << 8 | b[at];
        if ((word & ~(rule.sign >> left)) > rule.greatest >> left) return at;
    }
    return until;
}

static uint64_t words(const uint8_t *b, size_t count, size_t *place, size_t number, struct rule rule, int mapped, size_t after) {
    size_t end = *place + number * rule.length, until = lesser(end, count), whole = until == end ? number : (until - *place) / rule.length;
    size_t good = mapped ? mapped_kept(b + *place, whole, rule) : ieee_kept(b + *place, whole, rule);
    if (good < number) {
        size_t broken = broken_at(b, *place + good * rule.length, until, rule);
        if (broken < until) return REFUSED(11, broken);
        return UNFINISHED(end - until + after);
    }
    *place = end;
    return GO_ON;
}

/* What stands behind the control bytes, its place a constant for each mode; mapped words of one length are all passed at once. */
INLINE uint64_t walk_from(const uint8_t *b, size_t count, const struct fields *f, size_t at, size_t *first) {
    uint64_t said = GO_ON;
    size_t sent = f->clen ? pairs(f->n) : 0;
    if (f->cs) {
        said = vector(b, count, f, at, &sent);
        if (said != GO_ON) return said;
        at += (pairs(f->n) + 7) / 8;
    }
    *first = at;
    if (f->sf && f->cf && f->slen == f->clen) {
        said = words(b, count, &at, f->n + sent, mapped_rule(f->clen), 1, 0);
    } else {
        if (f->slen) said = words(b, count, &at, f->n, deviation_rule(f->sf, f->slen), f->sf, sent * f->clen);
        if (said == GO_ON && f->clen) said = words(b, count, &at, sent, coefficient_rule(f->cf, f->clen), f->cf, 0);
    }
    return said == GO_ON ? COMPLETE(at) : said;
}

INLINE uint64_t walk(const uint8_t *b, size_t count, size_t format, struct fields *f, size_t *first) {
    uint64_t said = header(b, count, format, f);
    if (said != GO_ON) return said;
    return f->mode == 2 ? walk_from(b, count, f, 3, first) : walk_from(b, count, f, 2, first);
}

uint64_t best_walk(const uint8_t *b, size_t count, size_t format, struct fields *f, size_t *first) { return walk(b, count, format, f, first); }

uint64_t best_matrix_verdict(const uint8_t *b, size_t count, size_t format) {
    struct fields f;
    size_t first;
    return walk(b, count, format, &f, &first);
}

/* ---- arrays */

/* A number of one octet at once, of more octets one after the other. */
INLINE uint64_t number(const uint8_t *b, size_t count, size_t *place, int positive, size_t most, size_t *value) {
    size_t at = *place, begun = 0;
    for (; at < count; at++) {
        size_t octet = b[at];
        if (octet < 128) {
            begun = begun << 7 | octet;
            if (begun > most) return REFUSED(2, at);
            if (positive && begun == 0) return REFUSED(1, at);
            *place = at + 1, *value = begun;
            return GO_ON;
        }
        begun = begun << 7 | (octet & 127);
        if (begun == 0) return REFUSED(3, at);
        if (begun > most >> 7) return REFUSED(2, at);
    }
    *value = begun;
    return UNFINISHED(0);
}

/* A number that with others multiplies to at most 32,768: one octet asks for no division. */
INLINE uint64_t factor(const uint8_t *b, size_t count, size_t *place, int positive, size_t product, size_t *value) {
    if (*place < count && b[*place] < 128) {
        *value = b[*place];
        if (product * *value > 32768) return REFUSED(2, *place);
        if (positive && *value == 0) return REFUSED(1, *place);
        ++*place;
        return GO_ON;
    }
    return number(b, count, place, positive, 32768 / product, value);
}

uint64_t best_array_verdict(const uint8_t *b, size_t count) {
    size_t at = 0, dims, value, product = 1;
    uint64_t said = number(b, count, &at, 1, 8, &dims);
    if (said != GO_ON) return said >> 32 == 1 ? UNFINISHED(4) : said;
    for (size_t i = 0; i < dims; i++) {
        said = factor(b, count, &at, 1, product, &value);
        if (said != GO_ON) return said >> 32 == 1 ? UNFINISHED(dims - i + 2) : said;
        product *= value;
    }
    said = factor(b, count, &at, 0, product, &value);
    if (said != GO_ON) return said >> 32 == 1 ? UNFINISHED(2 + product * (value << 7)) : said;
    if (at >= count) return UNFINISHED(1 + product * value);
    if (b[at] != 1) return REFUSED(b[at] == 0 ? 1 : b[at] == 0x80 ? 3 : 12, at);
    at += 1 + product * value;
    return count < at ? UNFINISHED(at - count) : COMPLETE(at);
}
