/* Says what is missing of a pack that is still being uploaded: upload S FILE for a matrix pack, upload M FILE for an array pack.
 * Ask again whenever the file has grown; what is said of a complete or a refused pack never changes. The deviations of Mode 1 are taken as IEEE. */
#include <stdio.h>
#include "galimpukas.h"

static void say(uint64_t answer, size_t count) {
    if (GALIMPUKAS_IS_COMPLETE(answer))
        printf("complete: a pack of %u bytes, %zu more behind it\n", GALIMPUKAS_VALUE(answer), count - GALIMPUKAS_VALUE(answer));
    else if (GALIMPUKAS_IS_UNFINISHED(answer))
        printf("unfinished: %zu bytes are there, at least %u are missing\n", count, GALIMPUKAS_VALUE(answer));
    else
        printf("refused: reason %u at byte %u; no more bytes will mend it\n", GALIMPUKAS_REASON(answer), GALIMPUKAS_PLACE(answer));
}

int main(int argc, char **argv) {
    static uint8_t bytes[GALIMPUKAS_LONGEST_ARRAY];
    FILE *file = argc == 3 ? fopen(argv[2], "rb") : 0;
    if (!file) {
        fprintf(stderr, "upload S|M FILE\n");
        return 2;
    }
    size_t count = fread(bytes, 1, sizeof bytes, file);
    fclose(file);
    uint64_t answer = argv[1][0] == 'M' ? array_verdict(bytes, count) : matrix_verdict(bytes, count, GALIMPUKAS_IEEE);
    say(answer, count);
    return GALIMPUKAS_IS_COMPLETE(answer) ? 0 : 1;
}
