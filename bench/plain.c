/* The plain reader and writer that most people would write: each word folded from its bytes and compared. */
#include "reader.h"

static uint64_t fold(const uint8_t *b, size_t length) {
    uint64_t word = 0;
    for (size_t i = 0; i < length; i++) word = word << 8 | b[i];
    return word;
}

/* The bit vector: how many coefficients are sent. */
static uint64_t vector(const uint8_t *b, size_t count, const struct fields *f, size_t *sent) {
    size_t m = pairs(f->n), v = (m + 7) / 8, at = start(f), there = lesser(v, count - at), ones = 0;
    for (size_t i = 0; i < there * 8; i++) ones += b[at + i / 8] >> (7 - i % 8) & 1;
    if (there < v) return UNFINISHED(v - there + f->n * f->slen + (f->slen == 0 && ones == 0 ? 1 : ones) * f->clen);
    for (size_t i = m; i < v * 8; i++)
        if (b[at + i / 8] >> (7 - i % 8) & 1) return REFUSED(10, at + v - 1);
    if (f->slen == 0 && ones == 0) return REFUSED(9, at + v - 1);
    *sent = ones;
    return GO_ON;
}

/* So many words of a rule at a place, behind which `after` bytes are to come. */
static uint64_t words(const uint8_t *b, size_t count, size_t *place, size_t number, struct rule rule, size_t after) {
    for (size_t i = 0; i < number; i++) {
        size_t there = lesser(rule.length, count - *place), cut = 8 * (rule.length - there);
        uint64_t word = fold(b + *place, there);
        if (there && (word & ~(rule.sign >> cut)) > rule.greatest >> cut) {
            size_t k = 1;
            while ((fold(b + *place, k) & ~(rule.sign >> 8 * (rule.length - k))) <= rule.greatest >> 8 * (rule.length - k)) k++;
            return REFUSED(11, *place + k - 1);
        }
        if (there < rule.length) return UNFINISHED((number - i) * rule.length - there + after);
        *place += rule.length;
    }
    return GO_ON;
}

static uint64_t walk(const uint8_t *b, size_t count, size_t format, struct fields *f, size_t *first, size_t *length) {
    uint64_t said = header(b, count, format, f);
    if (said != GO_ON) return said;
    size_t sent = f->clen ? pairs(f->n) : 0;
    *first = start(f);
    if (f->cs) {
        said = vector(b, count, f, &sent);
        if (said != GO_ON) return said;
        *first += (pairs(f->n) + 7) / 8;
    }
    *length = *first;
    if (f->slen) said = words(b, count, length, f->n, deviation_rule(f->sf, f->slen), sent * f->clen);
    if (said == GO_ON && f->clen) said = words(b, count, length, sent, coefficient_rule(f->cf, f->clen), 0);
    return said == GO_ON ? COMPLETE(*length) : said;
}

uint64_t plain_matrix_verdict(const uint8_t *b, size_t count, size_t format) {
    struct fields f;
    size_t first, length;
    return walk(b, count, format, &f, &first, &length);
}

static unsigned mark_at(const uint8_t *b, const struct fields *f, size_t pair) {
    return f->cs ? b[start(f) + pair / 8] >> (7 - pair % 8) & 1 : f->clen != 0;
}

uint64_t plain_matrix_unpack(const uint8_t *b, size_t count, size_t format, uint64_t *deviations, size_t deviations_count,
                             uint64_t *coefficients, size_t coefficients_count, uint8_t *marks, size_t marks_count) {
    struct fields f;
    size_t at, length;
    uint64_t said = walk(b, count, format, &f, &at, &length);
    if (said >> 32) return said;
    size_t m = pairs(f.n);
    if (deviations_count < f.n || coefficients_count < m || marks_count < m) return REFUSED(13, 0);
    for (size_t i = 0; i < f.n; i++, at += f.slen) deviations[i] = fold(b + at, f.slen);
    for (size_t i = 0; i < m; i++) {
        marks[i] = mark_at(b, &f, i);
        coefficients[i] = marks[i] ? fold(b + at, f.clen) : nought(&f);
        if (marks[i]) at += f.clen;
    }
    return said;
}

uint64_t plain_matrix_expand(const uint8_t *b, size_t count, size_t format, uint64_t *cells, size_t cells_count, uint8_t *marks,
                             size_t marks_count) {
    struct fields f;
    size_t at, length, pair = 0;
    uint64_t said = walk(b, count, format, &f, &at, &length);
    if (said >> 32) return said;
    if (cells_count < f.n * f.n || marks_count < f.n * f.n) return REFUSED(13, 0);
    for (size_t i = 0; i < f.n; i++, at += f.slen) {
        cells[i * f.n + i] = fold(b + at, f.slen);
        marks[i * f.n + i] = f.slen != 0;
    }
    for (size_t i = 0; i < f.n; i++)
        for (size_t j = i + 1; j < f.n; j++, pair++) {
            unsigned mark = mark_at(b, &f, pair);
            uint64_t word = mark ? fold(b + at, f.clen) : nought(&f);
            if (mark) at += f.clen;
            cells[i * f.n + j] = cells[j * f.n + i] = word;
            marks[i * f.n + j] = marks[j * f.n + i] = mark;
        }
    return said;
}

static size_t put(uint8_t *out, size_t at, size_t length, uint64_t word) {
    for (size_t i = 0; i < length; i++) out[at + i] = word >> 8 * (length - 1 - i);
    return at + length;
}

static int fits(struct rule rule, uint64_t word) { return (word & ~rule.sign) <= rule.greatest; }

uint64_t plain_matrix_write(const size_t *given, size_t given_count, size_t format, const uint64_t *deviations, size_t deviations_count,
                            const uint64_t *coefficients, size_t coefficients_count, const uint8_t *marks, size_t marks_count,
                            uint8_t *out, size_t out_count) {
    if (!are_fields(given, given_count, format)) return REFUSED(14, 0);
    struct fields f = {given[0], given[1], given[2], given[3], given[4], given[5], given[6]};
    unsigned broken = judge_fields(f, format);
    if (broken) return REFUSED(broken, 0);
    size_t m = pairs(f.n), v = f.cs ? (m + 7) / 8 : 0, sent = 0;
    if (!formats_agree(&f, format) || deviations_count < f.n || coefficients_count < m || marks_count < m) return REFUSED(14, 0);
    for (size_t i = 0; i < m; i++) {
        if (marks[i] > (f.clen != 0)) return REFUSED(14, 0);
        if (marks[i] == 0 && !f.cs && f.clen) return REFUSED(14, 0);
        sent += marks[i];
    }
    if (f.cs && f.slen == 0 && sent == 0) return REFUSED(9, 0);
    if (f.slen)
        for (size_t i = 0; i < f.n; i++)
            if (!fits(deviation_rule(f.sf, f.slen), deviations[i])) return REFUSED(11, 0);
    for (size_t i = 0; i < m; i++)
        if (marks[i] && !fits(coefficient_rule(f.cf, f.clen), coefficients[i])) return REFUSED(11, 0);
    size_t at = start(&f) + v, length = at + f.n * f.slen + sent * f.clen;
    if (out_count < length) return REFUSED(13, 0);
    put_header(out, &f);
    memset(out + start(&f), 0, v);
    if (v)
        for (size_t i = 0; i < m; i++) out[start(&f) + i / 8] |= marks[i] << (7 - i % 8);
    if (f.slen)
        for (size_t i = 0; i < f.n; i++) at = put(out, at, f.slen, deviations[i]);
    for (size_t i = 0; i < m; i++)
        if (marks[i]) at = put(out, at, f.clen, coefficients[i]);
    return COMPLETE(length);
}

/* A number at a place, at most `most` and, if `positive`, 1 or more. */
static uint64_t number(const uint8_t *b, size_t count, size_t *place, int positive, size_t most, size_t *value) {
    *value = 0;
    for (size_t begun = 0;; begun = 1) {
        if (*place >= count) return UNFINISHED(0);
        uint8_t octet = b[*place];
        if (!begun && octet == 0x80) return REFUSED(3, *place);
        *value = *value << 7 | (octet & 127);
        if (octet < 128) {
            if (*value > most) return REFUSED(2, *place);
            if (positive && *value == 0) return REFUSED(1, *place);
            ++*place;
            return GO_ON;
        }
        if (*value << 7 > most) return REFUSED(2, *place);
        ++*place;
    }
}

uint64_t plain_array_verdict(const uint8_t *b, size_t count) {
    size_t at = 0, dims, value, product = 1;
    uint64_t said = number(b, count, &at, 1, 8, &dims);
    if (said != GO_ON) return said >> 32 == 1 ? UNFINISHED(4) : said;
    for (size_t i = 0; i < dims; i++) {
        said = number(b, count, &at, 1, 32768 / product, &value);
        if (said != GO_ON) return said >> 32 == 1 ? UNFINISHED(dims - i + 2) : said;
        product *= value;
    }
    said = number(b, count, &at, 0, 32768 / product, &value);
    if (said != GO_ON) return said >> 32 == 1 ? UNFINISHED(2 + product * (value << 7)) : said;
    if (at >= count) return UNFINISHED(1 + product * value);
    if (b[at] != 1) return REFUSED(b[at] == 0 ? 1 : b[at] == 0x80 ? 3 : 12, at);
    at += 1 + product * value;
    return count < at ? UNFINISHED(at - count) : COMPLETE(at);
}
