/* The checking program in C, over either reader: frames plain|best < FILE prints what shelfcheck prints. */
#define _GNU_SOURCE
#include <stdio.h>
#include <stdlib.h>
#include "../include/galimpukas.h"
#include "reader.h"

enum { LONGEST = 65664, KEY = 16 };

static const uint8_t key[KEY] = {0x06, 0x0E, 0x2B, 0x34, 0x02, 0x05, 0x01, 0x01, 0x0E, 0x01, 0x03, 0x03, 0x21, 0x00, 0x00, 0x00};

struct said { char kind; const char *word; unsigned first, second; };

static struct said bad(char kind, unsigned reason, unsigned place) { return (struct said){kind, "BAD", reason, place}; }

/* The kind of a key. */
static char kind_of(const uint8_t *b) {
    if (memcmp(b, key, 12) || memcmp(b + 13, key + 13, 3)) return '-';
    return b[12] == 0x21 ? 'S' : b[12] == 0x06 ? 'M' : '-';
}

/* What is said of a frame's bytes; the deviations of Mode 1 are taken as IEEE. */
static struct said examine(const uint8_t *b, size_t count, int best) {
    if (count < KEY) return bad('-', 24, 0);
    char kind = kind_of(b);
    if (kind == '-') return bad('-', 21, 0);
    if (count == KEY) return bad(kind, 24, 0);
    size_t first = b[KEY], at = KEY + 1, length = first;
    if (first == 0x81 || first == 0x82) {
        size_t more = first - 0x80;
        if (count < at + more) return bad(kind, 24, 0);
        length = more == 1 ? b[at] : (size_t)b[at] << 8 | b[at + 1];
        if (length < (more == 1 ? 0x80 : 0x100)) return bad(kind, 22, 0);
        at += more;
    } else if (first >= 0x80) return bad(kind, 22, 0);
    if (count - at != length) return bad(kind, 23, 0);
    uint64_t answer = kind == 'S' ? (best ? best_matrix_verdict : plain_matrix_verdict)(b + at, length, GALIMPUKAS_IEEE)
                                  : (best ? best_array_verdict : plain_array_verdict)(b + at, length);
    if (answer >> 32 == 1) return (struct said){kind, "CUT", (uint32_t)answer, 0};
    if (answer >> 32 == 2) return bad(kind, answer >> 16 & 0xFFFF, answer & 0xFFFF);
    if (answer < length) return bad(kind, 23, 0);
    return (struct said){kind, "OK", length, 0};
}

/* ---- the plain program: a line at a time, a character at a time, printf */

static int digit(int c) { return c >= '0' && c <= '9' ? c - '0' : c >= 'A' && c <= 'F' ? c - 'A' + 10 : -1; }

static struct said plain_line(const char *line, size_t count) {
    static uint8_t bytes[LONGEST / 2];
    if (count > LONGEST) return bad('-', 25, 0);
    if (count % 2) return bad('-', 20, 0);
    for (size_t i = 0; i < count; i += 2) {
        int high = digit(line[i]), low = digit(line[i + 1]);
        if (high < 0 || low < 0) return bad('-', 20, 0);
        bytes[i / 2] = high * 16 + low;
    }
    return examine(bytes, count / 2, 0);
}

static void plain(void) {
    char *line = 0;
    size_t room = 0;
    ssize_t count;
    for (unsigned long number = 1; (count = getline(&line, &room, stdin)) > 0; number++) {
        if (line[count - 1] != '\n') {
            printf("%lu - OPEN 0 0\n", number);
            break;
        }
        struct said s = plain_line(line, count - 1);
        printf("%lu %c %s %u %u\n", number, s.kind, s.word, s.first, s.second);
    }
}

/* ---- the best program: large blocks, 32 characters at a time, its own decimals */

enum { SOME = 32 };
typedef uint8_t characters __attribute__((vector_size(SOME)));
typedef uint16_t couples __attribute__((vector_size(SOME)));
typedef uint8_t spelt __attribute__((vector_size(SOME / 2)));

/* The bytes that 32 characters spell, or 0 where one is no digit. */
static inline int spell(const char *text, uint8_t *out) {
    characters c;
    memcpy(&c, text, SOME);
    characters letter = (characters)((c - 'A') < 6), wrong = ~((characters)((c - '0') < 10) | letter);
    couples two = (couples)((c & 15) + (letter & 9));
    spelt bytes = __builtin_convertvector((two << 4 | two >> 8) & 255, spelt);
    memcpy(out, &bytes, SOME / 2);
    uint64_t any[SOME / 8];
    memcpy(any, &wrong, SOME);
    return (any[0] | any[1] | any[2] | any[3]) == 0;
}

/* Whether a line spells bytes; the last 32 characters may be taken twice. */
static int spell_line(const char *line, size_t count, uint8_t *bytes) {
    if (count < SOME) {
        int wrong = 0;
        for (size_t i = 0; i < count; i++) wrong |= digit(line[i]);
        return wrong >= 0;
    }
    for (size_t i = 0; i < count; i += SOME) {
        size_t from = i + SOME <= count ? i : count - SOME;
        if (!spell(line + from, bytes + from / 2)) return 0;
    }
    return 1;
}

static struct said best_line(const char *line, size_t count) {
    static uint8_t bytes[LONGEST / 2];
    if (count > LONGEST) return bad('-', 25, 0);
    if (count % 2 || !spell_line(line, count, bytes)) return bad('-', 20, 0);
    return examine(bytes, count / 2, 1);
}

static char *put_decimal(char *out, unsigned long value) {
    char digits[20];
    int n = 0;
    do digits[n++] = '0' + value % 10;
    while (value /= 10);
    while (n) *out++ = digits[--n];
    return out;
}

static void best(void) {
    enum { BLOCK = 1 << 18 };
    static char in[2 * BLOCK], out[BLOCK];
    size_t held = 0, got;
    unsigned long number = 1;
    char *end = out;
    int over = 0;
    while ((got = fread(in + held, 1, BLOCK, stdin)) > 0) {
        char *from = in, *stop = in + held + got, *line_end;
        while ((line_end = memchr(from, '\n', stop - from))) {
            struct said s = over ? bad('-', 25, 0) : best_line(from, line_end - from);
            end = put_decimal(end, number++);
            *end++ = ' ', *end++ = s.kind, *end++ = ' ';
            for (const char *w = s.word; *w;) *end++ = *w++;
            *end++ = ' ', end = put_decimal(end, s.first);
            *end++ = ' ', end = put_decimal(end, s.second), *end++ = '\n';
            if (end - out > BLOCK - 100) fwrite(out, 1, end - out, stdout), end = out;
            from = line_end + 1, over = 0;
        }
        held = stop - from;
        if (held > LONGEST) over = 1, held = LONGEST + 1;
        memmove(in, from, held);
    }
    if (held) end = put_decimal(end, number), memcpy(end, " - OPEN 0 0\n", 12), end += 12;
    fwrite(out, 1, end - out, stdout);
}

int main(int argc, char **argv) {
    if (argc == 2 && !strcmp(argv[1], "plain")) plain();
    else if (argc == 2 && !strcmp(argv[1], "best")) best();
    else return 2;
    return 0;
}
