/* One call of each kind by each reader, all with the same arguments. */
#include "../include/galimpukas.h"
#include "packs.h"

#define CALLS(name, prefix)                                                                                                          \
    static uint64_t name##_verdict(const struct pack *p, struct lists *l) {                                                          \
        (void)l;                                                                                                                     \
        return prefix##matrix_verdict(p->bytes, p->length, p->format);                                                               \
    }                                                                                                                                \
    static uint64_t name##_unpack(const struct pack *p, struct lists *l) {                                                           \
        return prefix##matrix_unpack(p->bytes, p->length, p->format, l->deviations, 64, l->coefficients, PAIRS, l->marks, 4096);     \
    }                                                                                                                                \
    static uint64_t name##_expand(const struct pack *p, struct lists *l) {                                                           \
        return prefix##matrix_expand(p->bytes, p->length, p->format, l->cells, 4096, l->marks, 4096);                                \
    }                                                                                                                                \
    static uint64_t name##_write(const struct pack *p, struct lists *l) {                                                            \
        return prefix##matrix_write(p->fields, 7, p->format, p->deviations, 64, p->coefficients, PAIRS, p->marks, PAIRS, l->out,     \
                                    LONGEST);                                                                                        \
    }                                                                                                                                \
    static uint64_t name##_array(const struct pack *p, struct lists *l) {                                                            \
        (void)l;                                                                                                                     \
        return prefix##array_verdict(p->bytes, p->length);                                                                           \
    }                                                                                                                                \
    static const call name##_calls[] = {name##_verdict, name##_unpack, name##_expand, name##_write, name##_array};

CALLS(proved, )
CALLS(plain, plain_)
CALLS(best, best_)

call call_of(enum work work, char reader) {
    return (reader == 'p' ? proved_calls : reader == 'i' ? plain_calls : reader == 'b' ? best_calls : floor_calls)[work];
}
