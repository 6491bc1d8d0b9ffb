/* The rows of the benchmark, the packs that they are about, and one call of a row by one reader. */
#ifndef PACKS_H
#define PACKS_H

#include "reader.h"

enum { PAIRS = 2016, LONGEST = 32784, FRESH_PACKS = 64, MOST_ROWS = 128 };

/* A matrix as a writer is given it, and its pack; of an array the pack alone. The head is what stands before the words, or the array. */
struct pack {
    size_t fields[7], format, head, length;
    uint64_t *deviations, *coefficients;
    uint8_t *marks, *bytes;
};

/* The lists that calls fill. */
struct lists {
    uint64_t deviations[64], coefficients[PAIRS], cells[64 * 64];
    uint8_t marks[64 * 64], out[LONGEST];
};

enum work { VERDICT, UNPACK, EXPAND, WRITE, ARRAY };

/* What a row's packs are: one like those that instruments send, a ring of many such, or one that is made to be dear. */
enum kind { USUAL, FRESH, AT_LIMIT, EXACT_ONE, NEARLY_ONE, LAST_AT_LIMIT, ALL_SENT, BROKEN };

struct shape {
    const char *name, *works; /* the calls that have a row: v, u, e and w */
    size_t mode, n, sparse, mapped, bytes;
    enum kind kind;
};

struct row {
    char name[32], text[96];
    enum work work;
    const struct shape *shape;
};

extern struct row rows[MOST_ROWS];
extern size_t row_count;
void make_rows(void);
struct row *row_named(const char *name);

/* The packs of the row that was prepared last. */
extern struct pack ring[FRESH_PACKS];
extern size_t ring_count;
void make_ring(const struct shape *shape);
void make_matrix(struct pack *p, const size_t fields[7], enum kind kind, uint64_t seed);

/* What calls fill that are counted or timed. */
extern struct lists filled;

/* A call on a pack that fills lists; readers are p for proved, i for plain, b for best, and f for the floor. */
typedef uint64_t (*call)(const struct pack *, struct lists *);
call call_of(enum work work, char reader);
extern const call floor_calls[];

int check(void);
int time_rows(char **names);

#endif
