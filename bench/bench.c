/* One row of the benchmark by one reader, so many times over the row's packs: bench ROW READER TIMES. bench rows lists the rows, bench check compares the
 * readers, bench time [ROW..] times them. */
#include <stdio.h>
#include <stdlib.h>
#include "packs.h"

static int list_rows(void) {
    for (size_t k = 0; k < row_count; k++) {
        make_ring(rows[k].shape);
        printf("%s\t%zu\t%zu\t%s\n", rows[k].name, ring_count, ring[0].length, rows[k].text);
    }
    return 0;
}

static int repeat(const struct row *r, char reader, long times) {
    call one = call_of(r->work, reader);
    uint64_t sum = 0;
    make_ring(r->shape);
    for (; times > 0; times--)
        for (size_t k = 0; k < ring_count; k++) sum += one(&ring[k], &filled);
    return sum == 1;
}

int main(int argc, char **argv) {
    make_rows();
    if (argc == 2 && !strcmp(argv[1], "rows")) return list_rows();
    if (argc == 2 && !strcmp(argv[1], "check")) return check();
    if (argc >= 2 && !strcmp(argv[1], "time")) return time_rows(argv + 2);
    return argc == 4 && row_named(argv[1]) ? repeat(row_named(argv[1]), argv[2][0], atol(argv[3])) : 2;
}
