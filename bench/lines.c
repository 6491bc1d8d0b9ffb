/* A file for the checking program, 20,000,000 characters from a fixed seed: lines short|long|garbage. */
#include <stdint.h>
#include <stdio.h>
#include <stdlib.h>
#include <string.h>

enum { SIZE = 20000000, LONGEST = 65664 };

static const uint8_t key[16] = {0x06, 0x0E, 0x2B, 0x34, 0x02, 0x05, 0x01, 0x01, 0x0E, 0x01, 0x03, 0x03, 0x21, 0x00, 0x00, 0x00};

static uint64_t state = 1;
static uint64_t next(void) {
    state = state * 6364136223846793005u + 1442695040888963407u;
    return state >> 33;
}

/* Characters, as many as the file has room for. */
static void put(const char *text, size_t count) {
    static size_t before;
    count = count < SIZE - before ? count : SIZE - before;
    before += fwrite(text, 1, count, stdout);
    if (before == SIZE) exit(0);
}

/* The first so many digits of bytes, as a line. */
static void put_line(const uint8_t *bytes, size_t digits) {
    static char line[LONGEST + 1];
    for (size_t i = 0; i < digits; i++) line[i] = "0123456789ABCDEF"[i % 2 ? bytes[i / 2] & 15 : bytes[i / 2] >> 4];
    line[digits] = '\n';
    put(line, digits + 1);
}

/* A matrix of one deviation, or an array of up to nine bytes; each third line is cut, after 21 characters at least. */
static void short_line(void) {
    uint8_t frame[40];
    size_t pack, more = 1 + next() % 8;
    memcpy(frame, key, 16);
    for (size_t i = 16; i < sizeof frame; i++) frame[i] = next() & 0x7F;
    if (next() % 2) memcpy(frame + 17, (uint8_t[]){1, 0x80, 0x10 + more}, 3), pack = 3 + more;
    else frame[12] = 0x06, memcpy(frame + 17, (uint8_t[]){1, more + 1, 1, 1}, 4), pack = 5 + more;
    frame[16] = pack;
    put_line(frame, next() % 3 ? 2 * (17 + pack) : 21 + next() % (2 * pack + 13));
}

/* The longest array, or a matrix of 64 variables, mapped 8, and bytes behind it up to the longest line. */
static void long_line(void) {
    static uint8_t frame[LONGEST / 2];
    size_t count = sizeof frame, matrix = next() % 2;
    for (size_t i = 0; i < count; i++) frame[i] = next();
    memcpy(frame, key, 16), frame[12] = matrix ? 0x21 : 0x06;
    memcpy(frame + 16, (uint8_t[]){0x82, (count - 19) >> 8, (count - 19) & 255}, 3);
    memcpy(frame + 19, matrix ? (uint8_t[]){64, 0x98, 0x18, 0, 0, 0} : (uint8_t[]){1, 0x82, 0x80, 0x00, 1, 1}, 6);
    for (size_t i = 22; i < count && matrix; i += 8) frame[i] &= 0x7F;
    put_line(frame, LONGEST);
}

/* Characters of every kind, LF among them. */
static void garbage(void) {
    char some[1024];
    for (size_t i = 0; i < sizeof some; i++) some[i] = next();
    put(some, sizeof some);
}

int main(int argc, char **argv) {
    static const struct { const char *name; void (*more)(void); } kinds[] = {{"short", short_line}, {"long", long_line}, {"garbage", garbage}};
    for (int k = 0; argc == 2 && k < 3; k++)
        while (!strcmp(argv[1], kinds[k].name)) kinds[k].more();
    return 2;
}
