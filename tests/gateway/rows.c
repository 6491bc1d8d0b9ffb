/* Runs rows of bytes through the calls that C has, and says what each gives, as the program rows does; and rows of the calls' own numbers:
 * "F HEX ROOM" the fields of a matrix pack, "V HEX FORMAT ROOM" the four calls that read one, under this number as the format and with lists of so
 * many entries, "G HEX ZEROS ROOM" the fields of an array pack of these bytes and so many of 0, "H FORMAT N .." a matrix of one value for each written
 * from these numbers, "N" every call with no memory but a frame's kind. A star in place of the first space states the format mapped. The bytes that a call reads
 * stand before memory that cannot be read; the lists that it fills are lent from the middle of longer ones, and "kept" says that every other entry is
 * as it was. */
#define _GNU_SOURCE
#include <stdio.h>
#include <stdlib.h>
#include <string.h>
#include <sys/mman.h>
#include "galimpukas.h"

enum { LIST = 4112, BUFFER = 33024, GUARDED = 1 << 18 };

static uint64_t words[LIST], more_words[LIST];
static int64_t scaled[LIST];
static uint8_t marks[LIST], out[BUFFER];
static size_t numbers[32];
static uint8_t *guard;

/* ---- lent memory */

static void lend(void) {
    memset(words, 0xA5, sizeof words);
    memset(more_words, 0xA5, sizeof more_words);
    memset(scaled, 0xA5, sizeof scaled);
    memset(marks, 0xA5, sizeof marks);
    memset(out, 0xA5, sizeof out);
    memset(numbers, 0xA5, sizeof numbers);
}

/* Whether a list's bytes are as they were but for so many behind the first entry. */
static int kept(const void *list, size_t size, size_t entry, size_t filled) {
    const uint8_t *b = list;
    for (size_t i = 0; i < size; i++)
        if (b[i] != 0xA5 && (i < entry || i >= entry * (1 + filled))) return 0;
    return 1;
}
#define KEPT(list, filled) kept(list, sizeof list, sizeof *list, filled)

/* How many entries an answer says are filled. */
static size_t filled(uint64_t answer, size_t count) { return GALIMPUKAS_IS_COMPLETE(answer) ? count : 0; }

/* Bytes that end where no memory can be read. */
static const uint8_t *guarded(const uint8_t *bytes, size_t count) { return memcpy(guard - count, bytes, count); }

/* ---- what is said */

static void say(uint64_t answer) {
    if (GALIMPUKAS_IS_COMPLETE(answer)) printf("complete %u", GALIMPUKAS_VALUE(answer));
    else if (GALIMPUKAS_IS_UNFINISHED(answer)) printf("unfinished %u", GALIMPUKAS_VALUE(answer));
    else if (GALIMPUKAS_IS_REFUSED(answer)) printf("refused %u at %u", GALIMPUKAS_REASON(answer), GALIMPUKAS_PLACE(answer));
    else printf("unknown %llx", (unsigned long long)answer);
}

static void say_words(const char *name, const uint64_t *list, size_t count) {
    printf(" %s", name);
    for (size_t i = 0; i < count; i++) printf(" %llu", (unsigned long long)list[i]);
}

static void say_scaled(const int64_t *list, size_t count) {
    printf(" scaled");
    for (size_t i = 0; i < count; i++) printf(" %lld", (long long)list[i]);
}

static void say_bytes(const char *name, const uint8_t *list, size_t count) {
    printf("%s", name);
    for (size_t i = 0; i < count; i++) printf(" %u", list[i]);
}

static void say_kept(int all) { printf(all ? " kept\n" : " lost\n"); }

/* ---- the rows; each has its stated format, its bytes, and the numbers behind them */

struct row { char kind; const char *text; size_t format; const uint8_t *bytes; size_t count; size_t given[16], givens; };

/* The verdict on the first bytes of a row. */
static uint64_t verdict_on(const struct row *r, size_t count) {
    const uint8_t *pack = guarded(r->bytes, count);
    return r->kind == 'M' || r->kind == 'm' ? array_verdict(pack, count) : matrix_verdict(pack, count, r->format);
}

static void pack_row(const struct row *r) {
    for (size_t k = 0; r->kind > 'Z' && k < r->count; k++) {
        printf("%zu ", k);
        say(verdict_on(r, k));
        printf("\n");
    }
    printf("%s ", r->text);
    say(verdict_on(r, r->count));
    printf("\n");
}

static const uint8_t *with_zeros(const struct row *r) {
    memset(guard - r->given[0], 0, r->given[0]);
    return memcpy(guard - r->given[0] - r->count, r->bytes, r->count);
}

static void address_row(const struct row *r) {
    const uint8_t *pack = with_zeros(r);
    size_t count = r->count + r->given[0];
    printf("%s ", r->text);
    if (GALIMPUKAS_IS_COMPLETE(array_fields(pack, count, numbers + 1, GALIMPUKAS_ARRAY_FIELDS))) {
        printf("array ");
        for (size_t i = 0; i < GALIMPUKAS_ARRAY_FIELDS; i++) printf("%zu ", numbers[1 + i]);
    }
    uint64_t answer = array_address(pack, count, r->given + 1, r->givens - 1);
    if (GALIMPUKAS_IS_COMPLETE(answer)) printf("offset %u", GALIMPUKAS_VALUE(answer));
    else say(answer);
    printf("\n");
}

static void unpack_row(const struct row *r) {
    uint64_t answer = matrix_unpack(guarded(r->bytes, r->count), r->count, r->format, words + 1, r->given[0], more_words + 1, r->given[1], marks + 1, r->given[2]);
    size_t n = GALIMPUKAS_IS_COMPLETE(answer) ? r->bytes[0] : 0, m = n ? GALIMPUKAS_PAIRS(n) : 0;
    printf("%s ", r->text);
    say(answer);
    if (n) {
        say_words("deviations", words + 1, n);
        say_words("coefficients", more_words + 1, m);
        say_bytes(" marks", marks + 1, m);
    }
    say_kept(KEPT(words, n) && KEPT(more_words, m) && KEPT(marks, m));
}

static void expand_row(const struct row *r) {
    uint64_t answer = matrix_expand(guarded(r->bytes, r->count), r->count, r->format, words + 1, r->given[0], marks + 1, r->given[1]);
    size_t n = GALIMPUKAS_IS_COMPLETE(answer) ? r->bytes[0] : 0;
    printf("%s ", r->text);
    say(answer);
    if (n) {
        say_words("words", words + 1, n * n);
        say_bytes(" marks", marks + 1, n * n);
    }
    say_kept(KEPT(words, n * n) && KEPT(marks, n * n));
}

/* The coefficients of a whole pack, of whose mapped words the unit is what the word 0 is below nought. */
static void scaled_row(const struct row *r) {
    const uint8_t *pack = guarded(r->bytes, r->count);
    size_t fields[GALIMPUKAS_MATRIX_FIELDS] = {0};
    uint64_t least = 0, answer = matrix_unpack(pack, r->count, r->format, words, LIST, more_words, LIST, marks, LIST);
    int64_t unit = 0;
    matrix_fields(pack, r->count, r->format, fields, GALIMPUKAS_MATRIX_FIELDS);
    size_t m = GALIMPUKAS_PAIRS(fields[GALIMPUKAS_N]), length = fields[GALIMPUKAS_CLEN];
    matrix_scale(more_words, m, length, scaled, m);
    matrix_scale(&least, 1, length, &unit, 1);
    printf("%s ", r->text);
    say(answer);
    say_scaled(scaled, m);
    printf(" of %lld\n", (long long)-unit);
}

/* Whether an answer and what it left are right: the pack where there is room for it, else 13 and nothing. */
static int right(uint64_t answer, const struct row *r, size_t room) {
    if (room < r->count) return GALIMPUKAS_IS_REFUSED(answer) && GALIMPUKAS_REASON(answer) == GALIMPUKAS_SMALL_BUFFER && KEPT(out, 0);
    return answer == r->count && !memcmp(out + 1, r->bytes, r->count) && KEPT(out, r->count);
}

static int matrix_again(const struct row *r, size_t room) {
    const uint8_t *pack = guarded(r->bytes, r->count);
    size_t fields[GALIMPUKAS_MATRIX_FIELDS] = {0};
    lend();
    matrix_fields(pack, r->count, r->format, fields, GALIMPUKAS_MATRIX_FIELDS);
    matrix_unpack(pack, r->count, r->format, words, LIST, more_words, LIST, marks, LIST);
    return right(matrix_write(fields, GALIMPUKAS_MATRIX_FIELDS, r->format, words, LIST, more_words, LIST, marks, LIST, out + 1, room), r, room);
}

static int array_again(const struct row *r, size_t room) {
    const uint8_t *pack = guarded(r->bytes, r->count);
    size_t fields[GALIMPUKAS_ARRAY_FIELDS] = {0};
    lend();
    array_fields(pack, r->count, fields, GALIMPUKAS_ARRAY_FIELDS);
    size_t start = fields[GALIMPUKAS_START];
    return right(array_write(fields + GALIMPUKAS_SIZES, fields[GALIMPUKAS_NDIM], fields[GALIMPUKAS_ELEMENT], pack + start, r->count - start, out + 1, room), r, room);
}

static void again_row(const struct row *r) {
    int (*again)(const struct row *, size_t) = r->kind == 'R' ? matrix_again : array_again;
    int same = again(r, r->count) && again(r, r->count - 1) && again(r, r->count + 9);
    printf("%c%s %zu %s\n", r->kind, r->format == GALIMPUKAS_MAPPED ? "*" : "", r->count, same ? "same" : "differs");
}

static uint64_t eight_at(const uint8_t *b) {
    uint64_t word = 0;
    for (int i = 0; i < 8; i++) word = word << 8 | b[i];
    return word;
}

/* Words of eight bytes each, as words of so many bytes into a list of so many entries. */
static void scale_row(const struct row *r) {
    size_t count = r->count / 8;
    for (size_t i = 0; i < count; i++) words[i] = eight_at(r->bytes + 8 * i);
    const uint64_t *given = (const uint64_t *)(const void *)guarded((const uint8_t *)words, 8 * count);
    uint64_t answer = matrix_scale(given, count, r->given[0], scaled + 1, r->given[1]);
    printf("%s ", r->text);
    say(answer);
    if (GALIMPUKAS_IS_COMPLETE(answer)) say_scaled(scaled + 1, count);
    say_kept(KEPT(scaled, filled(answer, count)));
}

static void frame_row(const struct row *r) {
    uint64_t answer = frame_verdict(with_zeros(r), r->count + r->given[0], out + 1);
    printf("%s %c ", r->text, KEPT(out, 1) ? out[1] : '?');
    say(answer);
    printf("\n");
}

static void say_written(const struct row *r, uint64_t answer) {
    size_t count = GALIMPUKAS_IS_COMPLETE(answer) ? GALIMPUKAS_VALUE(answer) : 0;
    printf("%s ", r->text);
    say(answer);
    say_bytes("", out + 1, count < 64 ? count : 64);
    say_kept(KEPT(out, count));
}

/* A byte each: the seven fields, the room, how many deviations, coefficients and marks; then these, a mark being a byte. */
static void matrix_row(const struct row *r) {
    const uint8_t *b = r->bytes;
    size_t fields[GALIMPUKAS_MATRIX_FIELDS], d = b[8], c = b[9], m = b[10];
    for (int i = 0; i < GALIMPUKAS_MATRIX_FIELDS; i++) fields[i] = b[i];
    for (size_t i = 0; i < d; i++) words[i] = eight_at(b + 11 + 8 * i);
    for (size_t i = 0; i < c; i++) more_words[i] = eight_at(b + 11 + 8 * (d + i));
    say_written(r, matrix_write(fields, GALIMPUKAS_MATRIX_FIELDS, r->format, words, d, more_words, c, guarded(b + 11 + 8 * (d + c), m), m, out + 1, b[7]));
}

/* A byte for how many sizes; then in eight bytes each these, E, the length of the array (its bytes are 7) and the room. */
static void array_row(const struct row *r) {
    size_t dims = r->bytes[0], list[16];
    for (size_t i = 0; i < dims + 3; i++) list[i] = eight_at(r->bytes + 1 + 8 * i);
    size_t count = list[dims + 1] < 33000 ? list[dims + 1] : 33000, room = list[dims + 2] < 33000 ? list[dims + 2] : 33000;
    memset(guard - count, 7, count);
    say_written(r, array_write(list, dims, list[dims], guard - count, count, out + 1, room));
}

static void fields_row(const struct row *r) {
    const uint8_t *pack = r->kind == 'F' ? guarded(r->bytes, r->count) : with_zeros(r);
    size_t count = r->count + (r->kind == 'F' ? 0 : r->given[0]), room = r->given[r->givens - 1];
    uint64_t answer = r->kind == 'F' ? matrix_fields(pack, count, r->format, numbers + 1, room) : array_fields(pack, count, numbers + 1, room);
    size_t filled = !GALIMPUKAS_IS_COMPLETE(answer) ? 0 : r->kind == 'F' ? GALIMPUKAS_MATRIX_FIELDS : GALIMPUKAS_ARRAY_FIELDS;
    printf("%s ", r->text);
    say(answer);
    for (size_t i = 0; i < filled; i++) printf(" %zu", numbers[1 + i]);
    say_kept(KEPT(numbers, filled));
}

/* Any number for a format, in each call that reads a matrix pack. */
static void formats_row(const struct row *r) {
    const uint8_t *pack = guarded(r->bytes, r->count);
    size_t format = r->given[0], room = r->given[1], n = r->count ? pack[0] : 0, m = n ? GALIMPUKAS_PAIRS(n) : 0;
    uint64_t verdict = matrix_verdict(pack, r->count, format);
    uint64_t fields = matrix_fields(pack, r->count, format, numbers + 1, room);
    uint64_t unpacked = matrix_unpack(pack, r->count, format, words + 1, room, more_words + 1, room, marks + 1, room);
    int all = KEPT(numbers, filled(fields, GALIMPUKAS_MATRIX_FIELDS)) && KEPT(words, filled(unpacked, n)) && KEPT(more_words, filled(unpacked, m)) &&
              KEPT(marks, filled(unpacked, m));
    lend();
    uint64_t expanded = matrix_expand(pack, r->count, format, words + 1, room, marks + 1, room);
    all = all && KEPT(words, filled(expanded, n * n)) && KEPT(marks, filled(expanded, n * n));
    uint64_t answers[] = {verdict, fields, unpacked, expanded};
    printf("%s", r->text);
    for (size_t i = 0; i < sizeof answers / sizeof *answers; i++) printf(", "), say(answers[i]);
    say_kept(all);
}

static void numbers_row(const struct row *r) {
    uint64_t one[64], half[2016];
    uint8_t sent[2016];
    for (int i = 0; i < 64; i++) one[i] = 1;
    for (int i = 0; i < 2016; i++) half[i] = 1, sent[i] = 1;
    say_written(r, matrix_write(r->given + 1, r->givens ? r->givens - 1 : 0, r->given[0], one, 64, half, 2016, sent, 2016, out + 1, 1000));
}

static void nothing_row(const struct row *r) {
    size_t f = r->format;
    uint8_t kind = 0;
    uint64_t answers[] = {matrix_verdict(0, 0, f), matrix_fields(0, 0, f, 0, 0), matrix_unpack(0, 0, f, 0, 0, 0, 0, 0, 0), matrix_expand(0, 0, f, 0, 0, 0, 0),
                          matrix_write(0, 0, f, 0, 0, 0, 0, 0, 0, 0, 0), array_verdict(0, 0), array_fields(0, 0, 0, 0), array_address(0, 0, 0, 0),
                          array_write(0, 0, 0, 0, 0, 0, 0), matrix_scale(0, 0, 1, 0, 0), frame_verdict(0, 0, &kind)};
    printf("%s", r->text);
    for (size_t i = 0; i < sizeof answers / sizeof *answers; i++) printf(", "), say(answers[i]);
    printf(" %c\n", kind);
}

static void do_row(const struct row *r) {
    lend();
    switch (r->kind) {
    case 'A': address_row(r); break;
    case 'C': scaled_row(r); break;
    case 'E': expand_row(r); break;
    case 'F': case 'G': fields_row(r); break;
    case 'H': numbers_row(r); break;
    case 'K': scale_row(r); break;
    case 'N': nothing_row(r); break;
    case 'P': frame_row(r); break;
    case 'Q': case 'R': again_row(r); break;
    case 'U': unpack_row(r); break;
    case 'V': formats_row(r); break;
    case 'W': matrix_row(r); break;
    case 'X': array_row(r); break;
    default: pack_row(r);
    }
}

static int digit(char c) { return c >= '0' && c <= '9' ? c - '0' : c >= 'A' && c <= 'F' ? c - 'A' + 10 : -1; }

int main(void) {
    static char line[131072];
    static uint8_t bytes[65536];
    char *memory = mmap(0, GUARDED + 4096, PROT_READ | PROT_WRITE, MAP_PRIVATE | MAP_ANONYMOUS, -1, 0);
    if (memory == MAP_FAILED || mprotect(memory + GUARDED, 4096, PROT_NONE)) return 2;
    guard = (uint8_t *)memory + GUARDED;
    while (fgets(line, sizeof line, stdin)) {
        line[strcspn(line, "\n")] = 0;
        struct row r = {.kind = line[0], .text = line, .format = line[0] && line[1] == '*' ? GALIMPUKAS_MAPPED : GALIMPUKAS_IEEE, .bytes = bytes};
        char *at = line + (r.kind == 'H' ? 1 : 2);
        for (; r.kind != 'H' && digit(at[0]) >= 0 && digit(at[1]) >= 0; at += 2) bytes[r.count++] = digit(at[0]) * 16 + digit(at[1]);
        while (*at == ' ' && r.givens < 16) r.given[r.givens++] = strtoull(at, &at, 10);
        do_row(&r);
    }
    return 0;
}
