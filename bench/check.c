/* Whether the three readers say the same and leave the same: on every row's packs, whole, cut and damaged, on packs of Mode 1 of every control byte, and on
 * the control bytes and fields of Mode 2. What a reader is given ends where memory ends, so that none can look further. */
#define _GNU_SOURCE
#include <stdio.h>
#include <sys/mman.h>
#include "packs.h"

static size_t calls, wrong;
static struct lists left[3];

/* A copy of the bytes whose end is the end of what can be read. */
static uint8_t *at_the_edge(const uint8_t *bytes, size_t count) {
    enum { ROOM = 1 << 16 };
    static uint8_t *edge;
    if (!edge) {
        edge = mmap(0, 2 * ROOM, PROT_READ | PROT_WRITE, MAP_PRIVATE | MAP_ANONYMOUS, -1, 0);
        mprotect(edge + ROOM, ROOM, PROT_NONE);
    }
    return memcpy(edge + ROOM - count, bytes, count);
}

/* Readers that differ in what they say, or in what they leave in lists that held nothing. */
static void compare(const struct pack *p, enum work work, size_t count) {
    struct pack given = *p;
    uint64_t said[3];
    if (work != WRITE) given.length = count, given.bytes = at_the_edge(p->bytes, count);
    for (int k = 0; k < 3; k++) {
        if (work != VERDICT && work != ARRAY) memset(&left[k], 0xA5, sizeof left[k]);
        said[k] = call_of(work, "pib"[k])(&given, &left[k]);
    }
    calls++;
    wrong += said[0] != said[1] || said[0] != said[2] || memcmp(&left[0], &left[1], sizeof left[0]) || memcmp(&left[0], &left[2], sizeof left[0]);
}

/* ---- the rows */

/* A row's pack cut after every byte, and with one byte another. */
static void compare_reads(const struct pack *p, enum work work) {
    for (size_t cut = 0; cut <= p->length; cut += work == VERDICT || work == ARRAY ? 1 : 1 + cut / 512) compare(p, work, cut);
    for (size_t at = 0; at < p->length; at += 1 + at / 64)
        for (unsigned value = 0; value < 256; value += 1 + (at > 8) * 14) {
            uint8_t was = p->bytes[at];
            p->bytes[at] = value;
            compare(p, work, p->length);
            p->bytes[at] = was;
        }
}

/* A word of a list as others, among them those on both sides of every limit. */
static void compare_word(struct pack *p, uint64_t *word) {
    static const uint64_t limits[] = {0x3C00, 0x7BFF, 0x3F800000, 0x7F7FFFFF, 0x3FF0000000000000, 0x7FEFFFFFFFFFFFFF};
    uint64_t was = *word;
    for (size_t k = 0; k < sizeof limits / sizeof *limits; k++)
        for (uint64_t more = 0; more < 2; more++) *word = limits[k] + more, compare(p, WRITE, 0);
    for (int shift = 7; shift < 64; shift += 8)
        for (uint64_t more = 0; more < 2; more++) *word = (1ull << shift) + more, compare(p, WRITE, 0);
    *word = was;
}

static void compare_mark(struct pack *p, uint8_t *mark) {
    uint8_t was = *mark;
    for (*mark = 0; *mark < 4; ++*mark) compare(p, WRITE, 0);
    *mark = was;
}

/* What a writer is given, with a field, a word or a mark another. */
static void compare_writes(struct pack *p, size_t values) {
    size_t n = p->fields[0], stated = p->format;
    for (size_t at = 0; at < 7; at++)
        for (size_t value = 0, was = p->fields[at]; value < values; value++) {
            p->fields[at] = value;
            compare(p, WRITE, 0);
            p->fields[at] = was;
        }
    for (p->format = 0; p->format < 3; p->format++) compare(p, WRITE, 0);
    p->format = stated;
    for (size_t at = 0; at < n; at += 1 + at / 2) compare_word(p, &p->deviations[n - 1 - at]);
    for (size_t at = 0; at < pairs(n); at += 1 + at / 4) {
        compare_word(p, &p->coefficients[at]), compare_word(p, &p->coefficients[pairs(n) - 1 - at]);
        compare_mark(p, &p->marks[at]), compare_mark(p, &p->marks[pairs(n) - 1 - at]);
    }
}

static void compare_row(const struct row *r) {
    make_ring(r->shape);
    for (size_t k = 0; k < ring_count; k++) compare(&ring[k], r->work, ring[k].length);
    if (r->work == WRITE) compare_writes(&ring[0], 70);
    else compare_reads(&ring[0], r->work);
}

/* ---- both modes */

/* A pack of Mode 1, cut, damaged, and under each format; each of the three calls has its turn. */
static void compare_mode1(struct pack *p) {
    static const uint8_t values[] = {0x00, 0x01, 0x40, 0x7B, 0x7C, 0x7F, 0x80, 0x81, 0xFF};
    size_t stated = p->format, turn = p->length;
    for (size_t cut = 0; cut <= p->length; cut += 1 + cut / 32) compare(p, turn++ % 3, cut);
    for (p->format = 0; p->format < 3; p->format++)
        for (enum work work = VERDICT; work <= EXPAND; work++) compare(p, work, p->length);
    p->format = stated;
    for (size_t at = 0; at < p->length; at += 1 + at / 8)
        for (size_t k = 0; k < sizeof values; k++) {
            uint8_t was = p->bytes[at];
            p->bytes[at] = values[k];
            compare(p, turn++ % 3, p->length);
            p->bytes[at] = was;
        }
}

/* Two control bytes of Mode 2, alone and with noughts behind them. */
static void compare_controls(struct pack *p, size_t n) {
    memset(p->bytes, 0, 64), p->bytes[0] = n;
    for (unsigned one = 0x80; one < 0x100; one++)
        for (unsigned two = 0; two < 0xA0; two += two == 0x40 ? 0x40 : 1) {
            p->bytes[1] = one, p->bytes[2] = two;
            compare(p, VERDICT, 3), compare(p, VERDICT, 64);
        }
}

/* Fields of Mode 2: every flag with lengths on both sides of what is allowed, and what is written read again. */
static void compare_fields(struct pack *p, size_t n) {
    for (size_t flags = 0; flags < 8; flags++)
        for (size_t lengths = 0; lengths < 100; lengths++) {
            size_t fields[7] = {n, flags & 1, flags >> 1 & 1, lengths % 10, flags >> 2, lengths / 10, 2};
            make_matrix(p, fields, USUAL, 0);
            compare(p, WRITE, 0);
            for (enum work work = VERDICT; work <= EXPAND && p->length >> 32 == 0; work++) compare(p, work, p->length);
        }
}

int check(void) {
    static const size_t sizes[] = {1, 2, 3, 6, 17};
    for (size_t k = 0; k < row_count; k++) compare_row(&rows[k]);
    for (size_t k = 0; k < sizeof sizes / sizeof *sizes; k++)
        for (size_t control = 0; control < 256; control++) {
            size_t fields[7] = {sizes[k], control >> 3 & 1, 1, control & 7, control >> 7, control >> 4 & 7, 1};
            make_matrix(&ring[0], fields, USUAL, 0);
            compare_writes(&ring[0], 10);
            if (ring[0].length >> 32 == 0) compare_mode1(&ring[0]);
        }
    for (size_t n = 0; n < 4; n++) compare_controls(&ring[0], n), compare_fields(&ring[0], n);
    for (size_t n = 16; n < 65; n += 24) compare_fields(&ring[0], n);
    printf("%zu calls, %zu differ\n", calls, wrong);
    return wrong != 0;
}
