/* The floor of a call: a bare load of each byte that must be looked at, of a word its first, and a bare store of each entry that is filled. */
#include "packs.h"

static void look(const uint8_t *b) { (void)*(const volatile uint8_t *)b; }
static void fill(uint64_t *word, uint8_t byte) { *(volatile uint64_t *)word = byte; }
static void mark(uint8_t *m) { *(volatile uint8_t *)m = 1; }

/* What stands before the words, and the first byte of each of them. */
static uint64_t floor_verdict(const struct pack *p, struct lists *l) {
    size_t at = 0, first = p->head, coefficients = first + p->fields[0] * p->fields[5];
    (void)l;
    for (; at < first; at++) look(p->bytes + at);
    for (; at < coefficients; at += p->fields[5]) look(p->bytes + at);
    for (; at < p->length; at += p->fields[3]) look(p->bytes + at);
    return 0;
}

/* An array's numbers. */
static uint64_t floor_array(const struct pack *p, struct lists *l) {
    (void)l;
    for (size_t at = 0; at < p->head; at++) look(p->bytes + at);
    return 0;
}

static uint64_t floor_unpack(const struct pack *p, struct lists *l) {
    size_t n = p->fields[0], m = pairs(n);
    for (size_t at = 0; at < n; at++) fill(&l->deviations[at], p->bytes[at]);
    for (size_t at = 0; at < m; at++) fill(&l->coefficients[at], p->bytes[at]), mark(&l->marks[at]);
    return 0;
}

static uint64_t floor_expand(const struct pack *p, struct lists *l) {
    size_t n = p->fields[0];
    for (size_t at = 0; at < n * n; at++) fill(&l->cells[at], p->bytes[at]), mark(&l->marks[at]);
    return 0;
}

/* Each mark and each word that is given, and a store of each word. */
static uint64_t floor_write(const struct pack *p, struct lists *l) {
    size_t n = p->fields[0], m = pairs(n);
    for (size_t at = 0; at < n; at++) fill((uint64_t *)(void *)l->out + at, p->deviations[at]);
    for (size_t at = 0; at < m; at++) look(&p->marks[at]), fill((uint64_t *)(void *)l->out + at, p->coefficients[at]);
    return 0;
}

const call floor_calls[] = {floor_verdict, floor_unpack, floor_expand, floor_write, floor_array};
