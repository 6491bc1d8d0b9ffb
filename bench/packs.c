/* The rows, and their packs: fixed values from a small generator. */
#include <stdio.h>
#include "../include/galimpukas.h"
#include "packs.h"

/* The packs lie elsewhere beside the lists in each layout of the program. */
#ifndef LAYOUT
#define LAYOUT 0
#endif
enum { MOVED = LAYOUT * 528 };

/* ---- values */

static uint64_t state;
static uint64_t next(void) {
    state = state * 6364136223846793005u + 1442695040888963407u;
    return state >> 33 | state << 31;
}

/* A word as instruments send it: mapped, anything in range; IEEE, a deviation near one or a coefficient below it. */
static uint64_t word_of(size_t mapped, size_t length, int coefficient) {
    uint64_t any = next(), whole = length >= 8 ? any : any & ((1ull << 8 * length) - 1);
    if (mapped) return whole >> 1;
    if (length == 2) return coefficient ? (any & 0x8000) | (0x3000 + (any & 0xBFF)) : 0x3800 + (any & 0x7FF);
    if (length == 4) return coefficient ? (any & 0x80000000) | (0x3D800000 + (any & 0x1FFFFFF)) : 0x3C000000 + (any & 0x3FFFFFF);
    return coefficient ? (any & 1ull << 63) | (0x3FB0000000000000 + (any & 0x3FFFFFFFFFFFFF)) : 0x3F80000000000000 + (any & 0x7FFFFFFFFFFFFF);
}

/* The same, where the kind asks for another: the limit of the words, or the greatest coefficient below it. */
static uint64_t coefficient_of(size_t mapped, size_t length, enum kind kind, int last) {
    uint64_t word = word_of(mapped, length, 1);
    if (kind == AT_LIMIT || kind == EXACT_ONE || (kind == LAST_AT_LIMIT && last)) return coefficient_rule(mapped, length).greatest;
    return kind == NEARLY_ONE ? coefficient_rule(mapped, length).greatest - 1 : word;
}

/* ---- packs */

struct pack ring[FRESH_PACKS];
size_t ring_count;
_Alignas(4096) struct lists filled;

static _Alignas(4096) struct memory {
    uint64_t deviations[64], coefficients[PAIRS];
    uint8_t marks[PAIRS], bytes[LONGEST];
} memory[FRESH_PACKS + 1];

static struct pack *lay(size_t at) {
    struct memory *m = (struct memory *)((uint8_t *)memory + MOVED) + at;
    ring[at].deviations = m->deviations, ring[at].coefficients = m->coefficients, ring[at].marks = m->marks, ring[at].bytes = m->bytes;
    return &ring[at];
}

/* The first coefficient of a whole pack and of what the writer is given, broken at its first byte. */
static void break_first(struct pack *p) {
    p->bytes[p->head + p->fields[0] * p->fields[5]] = 0xFF;
    p->coefficients[0] = ~0ull;
}

/* A matrix of these fields and its pack; the format of its deviations is stated too, though Mode 1 alone looks at that. */
void make_matrix(struct pack *p, const size_t fields[7], enum kind kind, uint64_t seed) {
    size_t n = fields[0], m = pairs(n), sparse = fields[1], cf = fields[2], clen = fields[3], sf = fields[4], slen = fields[5];
    memcpy(p->fields, fields, sizeof p->fields);
    p->format = sf, p->head = 1 + fields[6] + (sparse ? (m + 7) / 8 : 0);
    state = n * 1000 + sparse * 100 + cf * 10 + clen + seed;
    for (size_t i = 0; i < n; i++) {
        uint64_t word = word_of(sf, slen, 0);
        p->deviations[i] = kind == AT_LIMIT ? deviation_rule(sf, slen).greatest : word;
    }
    for (size_t i = 0; i < m; i++) {
        p->coefficients[i] = coefficient_of(cf, clen, kind, i == m - 1);
        p->marks[i] = sparse ? next() % 3 == 0 || kind == ALL_SENT : clen != 0;
    }
    p->length = matrix_write(p->fields, 7, p->format, p->deviations, 64, p->coefficients, PAIRS, p->marks, PAIRS, p->bytes, LONGEST);
    if (kind == BROKEN) break_first(p);
}

static void make_array(struct pack *p, const uint8_t *head, size_t head_count, size_t body) {
    memcpy(p->bytes, head, head_count);
    memset(p->bytes + head_count, 0x5A, body);
    p->head = head_count, p->length = head_count + body;
}

void make_ring(const struct shape *s) {
    static const uint8_t eight_sizes[] = {8, 2, 3, 2, 4, 2, 3, 2, 5, 4, 1}, one_size[] = {1, 0x82, 0x80, 0x00, 1, 1};
    size_t fields[7] = {s->n, s->sparse, s->mapped, s->bytes, s->mapped, s->bytes, s->mode};
    ring_count = s->kind == FRESH ? FRESH_PACKS : 1;
    for (size_t k = 0; k < ring_count; k++)
        if (s->mode) make_matrix(lay(k), fields, s->kind, k * 1000003);
        else if (s->n == 8) make_array(lay(k), eight_sizes, sizeof eight_sizes, 2 * 3 * 2 * 4 * 2 * 3 * 2 * 5 * 4);
        else make_array(lay(k), one_size, sizeof one_size, 32768);
}

/* ---- rows: each shape by the calls that are named; an array has no mode */

static const struct shape shapes[] = {
    {"a", "vuew", 2, 64, 0, 1, 8, USUAL},
    {"b", "vuew", 2, 64, 1, 1, 2, USUAL},
    {"b3", "vuew", 2, 64, 1, 1, 3, USUAL},
    {"c", "vuew", 2, 6, 0, 1, 2, USUAL},
    {"d4", "vw", 2, 64, 0, 0, 4, USUAL},
    {"d8", "vw", 2, 64, 0, 0, 8, USUAL},
    {"e8", "a", 0, 8, 0, 0, 0, USUAL},
    {"e1", "a", 0, 1, 0, 0, 0, USUAL},
    {"f", "vuew", 1, 6, 0, 1, 2, USUAL},
    {"m1", "vuew", 2, 64, 0, 1, 1, USUAL},
    {"m2", "vuew", 2, 64, 0, 1, 2, USUAL},
    {"m3", "vuew", 2, 64, 0, 1, 3, USUAL},
    {"m4", "vuew", 2, 64, 0, 1, 4, USUAL},
    {"m5", "vuew", 2, 64, 0, 1, 5, USUAL},
    {"m6", "vuew", 2, 64, 0, 1, 6, USUAL},
    {"m7", "vuew", 2, 64, 0, 1, 7, USUAL},
    {"a-fresh", "vuew", 2, 64, 0, 1, 8, FRESH},
    {"b-fresh", "vuew", 2, 64, 1, 1, 2, FRESH},
    {"d8-fresh", "vuew", 2, 64, 0, 0, 8, FRESH},
    {"a-limit", "vw", 2, 64, 0, 1, 8, AT_LIMIT},
    {"m1-limit", "v", 2, 64, 0, 1, 1, AT_LIMIT},
    {"m2-limit", "vw", 2, 64, 0, 1, 2, AT_LIMIT},
    {"m3-limit", "vw", 2, 64, 0, 1, 3, AT_LIMIT},
    {"m4-limit", "v", 2, 64, 0, 1, 4, AT_LIMIT},
    {"m5-limit", "v", 2, 64, 0, 1, 5, AT_LIMIT},
    {"m6-limit", "v", 2, 64, 0, 1, 6, AT_LIMIT},
    {"m7-limit", "v", 2, 64, 0, 1, 7, AT_LIMIT},
    {"d4-one", "vw", 2, 64, 0, 0, 4, EXACT_ONE},
    {"d8-one", "vw", 2, 64, 0, 0, 8, EXACT_ONE},
    {"d4-near", "vw", 2, 64, 0, 0, 4, NEARLY_ONE},
    {"d8-near", "vw", 2, 64, 0, 0, 8, NEARLY_ONE},
    {"a-last", "vw", 2, 64, 0, 1, 8, LAST_AT_LIMIT},
    {"d8-last", "vw", 2, 64, 0, 0, 8, LAST_AT_LIMIT},
    {"b-all", "vuew", 2, 64, 1, 1, 2, ALL_SENT},
    {"a-broken", "vw", 2, 64, 0, 1, 8, BROKEN},
    {"d8-broken", "vw", 2, 64, 0, 0, 8, BROKEN},
};

struct row rows[MOST_ROWS];
size_t row_count;

static void say_row(struct row *r, const char *work) {
    static const char *const kinds[] = {"", ", fresh packs", ", all words at their limit", ", coefficients of exactly 1", ", coefficients of nearly 1",
                                        ", the last coefficient at its limit", ", all sent", ", the first coefficient broken"};
    const struct shape *s = r->shape;
    snprintf(r->name, sizeof r->name, "%s%s%s", r->work == VERDICT ? "" : work, r->work == VERDICT ? "" : "-", s->name);
    snprintf(r->text, sizeof r->text, "%s, N = %zu %s, %s %zu%s%s%s", work, s->n, s->sparse ? "sparse" : "full", s->mapped ? "mapped" : "IEEE",
             s->bytes, s->sparse && s->kind != ALL_SENT ? ", a third sent" : "", s->mode == 1 ? ", Mode 1" : "", kinds[s->kind]);
    if (r->work != ARRAY) return;
    snprintf(r->name, sizeof r->name, "%s", s->name);
    snprintf(r->text, sizeof r->text, "verdict, array of %s", s->n == 8 ? "8 sizes" : "32,768 bytes");
}

void make_rows(void) {
    static const struct { char letter; enum work work; const char *text; } works[] = {
        {'v', VERDICT, "verdict"}, {'a', ARRAY, "verdict"}, {'u', UNPACK, "unpack"}, {'e', EXPAND, "expand"}, {'w', WRITE, "write"}};
    for (size_t w = 0; w < sizeof works / sizeof *works; w++)
        for (size_t s = 0; s < sizeof shapes / sizeof *shapes; s++)
            if (strchr(shapes[s].works, works[w].letter)) {
                rows[row_count] = (struct row){.work = works[w].work, .shape = &shapes[s]};
                say_row(&rows[row_count++], works[w].text);
            }
}

struct row *row_named(const char *name) {
    for (size_t k = 0; k < row_count; k++)
        if (!strcmp(rows[k].name, name)) return &rows[k];
    return 0;
}
