/* The time of rows in one process: short slices of proved, plain and best by turns, and of each the least. The clock is CLOCK_MONOTONIC. */
#define _GNU_SOURCE
#include <stdio.h>
#include <time.h>
#include "packs.h"

/* A slice takes some 20 microseconds, or one call; of fresh packs it is one call of each of eight. */
enum { SLICE = 20000, SEGMENT = 8, SEGMENTS = FRESH_PACKS / SEGMENT, ROUNDS = 160 };

/* What a row's readers took at least, for each segment of its ring, and how many calls of a pack are a slice. */
struct timing { double least[3][SEGMENTS]; size_t times[3]; };

static volatile uint64_t sink;

static uint64_t nanoseconds(void) {
    struct timespec t;
    clock_gettime(CLOCK_MONOTONIC, &t);
    return t.tv_sec * 1000000000ull + t.tv_nsec;
}

static double slice(call one, const struct pack *packs, size_t count, size_t times) {
    uint64_t sum = 0, began = nanoseconds();
    for (; times > 0; times--)
        for (size_t k = 0; k < count; k++) sum += one(&packs[k], &filled);
    uint64_t took = nanoseconds() - began;
    sink = sum;
    return took;
}

/* How many calls make a slice; what is taken for its time is the least of some, lest other work of the machine be taken for calls. */
static size_t calls_in_slice(call one) {
    double least = 0;
    size_t times = 1;
    for (; ring_count == 1 && least < SLICE; times += 1 + times / 4) {
        least = slice(one, ring, 1, times);
        for (int more = 0; more < 4; more++) {
            double took = slice(one, ring, 1, times);
            least = took < least ? took : least;
        }
    }
    return times;
}

/* One slice of each reader; of a ring each on another segment, so that none finds what another has just read. */
static void go_round(const struct row *r, struct timing *t, size_t round) {
    size_t count = ring_count > 1 ? SEGMENT : 1, segments = ring_count / count;
    for (size_t k = 0; k < 3; k++) {
        size_t at = (round + 3 * k) % segments;
        double took = slice(call_of(r->work, "pib"[k]), &ring[at * count], count, t->times[k]) / (count * t->times[k]);
        if (t->least[k][at] == 0 || took < t->least[k][at]) t->least[k][at] = took;
    }
}

static struct timing time_row(const struct row *r) {
    struct timing t = {0};
    make_ring(r->shape);
    for (size_t k = 0; k < 3; k++) t.times[k] = calls_in_slice(call_of(r->work, "pib"[k]));
    for (size_t round = 0; round < ROUNDS; round++) go_round(r, &t, round);
    return t;
}

/* The mean over the segments of what each took at least. */
static double mean(const double *least) {
    double sum = 0;
    size_t segments = 0;
    for (; segments < SEGMENTS && least[segments] > 0; segments++) sum += least[segments];
    return sum / segments;
}

/* Prints for each row named, or all, its name and the nanoseconds of a call, proved, plain and best. */
int time_rows(char **names) {
    for (size_t k = 0; k < row_count; k++) {
        char **name = names;
        while (*name && strcmp(*name, rows[k].name)) name++;
        if (*names && !*name) continue;
        struct timing t = time_row(&rows[k]);
        printf("%s\t%.2f\t%.2f\t%.2f\n", rows[k].name, mean(t.least[0]), mean(t.least[1]), mean(t.least[2]));
    }
    return 0;
}
