/* Galimpukas for C and C++: KLV matrix packs (MISB ST 1010.3, Mode 1 and Mode 2) and array packs (MISB ST 1303), read, unpacked and written by proved code; and
 * the frames that they stand in, read.
 *
 * Every call takes any memory of the stated counts and answers one number; a lent list changes only where the answer is complete. A pointer may be
 * anything where its count is 0. Lists that a call fills must not overlap each other nor what it reads.
 *
 * A matrix pack says its mode itself. In Mode 1, of one control byte, it does not say its formats: coefficients are mapped, and how deviations are written the caller
 * states to every matrix call that takes a format, GALIMPUKAS_IEEE or GALIMPUKAS_MAPPED, the same for all that one logger wrote. In Mode 2, of two control bytes, the
 * pack says both formats, and what is stated is not looked at. A format above 1 is refused 14 before all else. */
#ifndef GALIMPUKAS_H
#define GALIMPUKAS_H

#include <stddef.h>
#include <stdint.h>

#ifdef __cplusplus
extern "C" {
#endif

/* Why bytes or arguments are refused. */
enum galimpukas_reason {
    GALIMPUKAS_ZERO = 1,           /* a number that must be 1 or more is 0 */
    GALIMPUKAS_TOO_LARGE = 2,      /* a limit cannot be kept */
    GALIMPUKAS_PADDED_NUMBER = 3,  /* the first octet of a number is 0x80 */
    GALIMPUKAS_MODE = 4,           /* bit 7 of control byte 2 is 1 */
    GALIMPUKAS_RESERVED = 5,       /* a reserved control bit is 1 */
    GALIMPUKAS_VALUE_LENGTH = 6,   /* Clen or Slen is not allowed for its format */
    GALIMPUKAS_SPARSE = 7,         /* Cs is 1 and Clen is 0 */
    GALIMPUKAS_SIZE_ONE = 8,       /* N is 1 and Clen is not 0 */
    GALIMPUKAS_EMPTY = 9,          /* neither kind of value */
    GALIMPUKAS_VECTOR_END = 10,    /* an unused bit of the bit vector is 1 */
    GALIMPUKAS_VALUE_RANGE = 11,   /* a word breaks its rule */
    GALIMPUKAS_PROCESSING = 12,    /* element processing other than 1 */
    GALIMPUKAS_SMALL_BUFFER = 13,  /* a lent output is too short */
    GALIMPUKAS_DISAGREE = 14,      /* what a call is given does not fit together */
    GALIMPUKAS_INDEX = 15,         /* no such element */
    GALIMPUKAS_FORMAT_ALONE = 16,  /* Mode 2: Cf is 1 and Clen is 0, or Sf is 1 and Slen is 0 */
    /* 20 is of lines of text, which no call here reads */
    GALIMPUKAS_UNKNOWN_KEY = 21,    /* a frame of another key */
    GALIMPUKAS_LENGTH_FORM = 22,    /* a frame's length is not in its shortest form */
    GALIMPUKAS_LENGTH_DIFFERS = 23, /* a frame's bytes are not as many as its length says, or its pack ends before the value does */
    GALIMPUKAS_FRAME_SHORT = 24,    /* a frame of fewer than 16 bytes, or its length is missing or cut */
    GALIMPUKAS_FRAME_LONG = 25      /* a frame of more than 32,832 bytes */
};

/* 1 if the answer is complete: its value is a length, a count of bytes or words written, or an offset. */
#define GALIMPUKAS_IS_COMPLETE(answer) ((answer) >> 32 == 0)
/* 1 if the pack is unfinished: its value is the fewest bytes with which any pack could finish it. */
#define GALIMPUKAS_IS_UNFINISHED(answer) ((answer) >> 32 == 1)
/* 1 if the answer is a refusal. */
#define GALIMPUKAS_IS_REFUSED(answer) ((answer) >> 32 == 2)
/* The length, count or offset of a complete answer; the missing bytes of an unfinished one. */
#define GALIMPUKAS_VALUE(answer) ((uint32_t)(answer))
/* The reason of a refusal, one of enum galimpukas_reason. */
#define GALIMPUKAS_REASON(answer) ((unsigned)((answer) >> 16 & 0xFFFF))
/* The place of a refusal: the first byte that makes it certain, from 0; 0 for reasons 13 to 15 and from 21 up, for writers and for matrix_scale. */
#define GALIMPUKAS_PLACE(answer) ((unsigned)((answer) & 0xFFFF))

/* How the deviations of Mode 1 are written. */
enum galimpukas_format { GALIMPUKAS_IEEE = 0, GALIMPUKAS_MAPPED = 1 };

/* M, how many pairs of N variables there are. */
#define GALIMPUKAS_PAIRS(n) ((size_t)(n) * ((size_t)(n) - 1) / 2)
/* The longest matrix pack, the longest array pack, and the longest frame. */
#define GALIMPUKAS_LONGEST_MATRIX 16895
#define GALIMPUKAS_LONGEST_ARRAY 32781
#define GALIMPUKAS_LONGEST_FRAME 32832

/* Places in the seven fields of a matrix; the last is the mode of its Parse Control, 1 or 2. Of Mode 1, Cf is 1 and Sf the stated format, also beside length 0; of
 * Mode 2, Cf and Sf are 0 beside length 0. */
enum {
    GALIMPUKAS_N,
    GALIMPUKAS_CS,
    GALIMPUKAS_CF,
    GALIMPUKAS_CLEN,
    GALIMPUKAS_SF,
    GALIMPUKAS_SLEN,
    GALIMPUKAS_PARSE_MODE,
    GALIMPUKAS_MATRIX_FIELDS
};
/* Places in the eleven fields of an array: NDim, eight sizes (0 past the last), the element size, the place of the array's first byte. */
enum { GALIMPUKAS_NDIM, GALIMPUKAS_SIZES, GALIMPUKAS_ELEMENT = 9, GALIMPUKAS_START, GALIMPUKAS_ARRAY_FIELDS };

/* What a frame holds, by its key: a matrix pack, an array pack, or not known. */
enum galimpukas_kind { GALIMPUKAS_MATRIX = 'S', GALIMPUKAS_ARRAY = 'M', GALIMPUKAS_UNKNOWN = '-' };

/* The verdict on a string of bytes as a matrix pack, of either mode: missing bytes are the fewest over both. */
uint64_t matrix_verdict(const uint8_t *bytes, size_t count, size_t format);

/* N, Cs, Cf, Clen, Sf, Slen and the mode into seven entries: the verdict, or 13 for fewer entries. */
uint64_t matrix_fields(const uint8_t *bytes, size_t count, size_t format, size_t *fields, size_t fields_count);

/* N deviation words, M coefficient words and M marks (1 sent, 0 not sent): the verdict, or 13. */
uint64_t matrix_unpack(const uint8_t *bytes, size_t count, size_t format, uint64_t *deviations, size_t deviations_count,
                       uint64_t *coefficients, size_t coefficients_count, uint8_t *marks, size_t marks_count);

/* N times N words and marks by rows, deviations on the diagonal: the verdict, or 13. */
uint64_t matrix_expand(const uint8_t *bytes, size_t count, size_t format, uint64_t *words, size_t words_count,
                       uint8_t *marks, size_t marks_count);

/* Each word of `length` bytes less 2^(8 length - 2), the whole number that a mapped coefficient is of the unit 2^(8 length - 2): the count of words, held at 2^32 - 1,
 * or a refusal, all at place 0: 6 for a length of 0 or above 8, then 11 for a word above 2^(8 length - 1), then 13 for fewer entries than words. For coefficients
 * whose field Cf is 1, with Clen as the length. The word 0 is -1, and the nought of one not sent scales to 0. Entries behind the last word's stay as they were. */
uint64_t matrix_scale(const uint64_t *words, size_t words_count, size_t length, int64_t *scaled, size_t scaled_count);

/* A matrix pack from seven fields, N deviations, M coefficients and M marks: the count of bytes written, or a refusal. Fewer than seven fields, a Cs, Cf or Sf
 * above 1 and a mode other than 1 or 2 are 14 before all else; fields behind the seventh, and entries of the lists behind these, are not looked at. Mode 1 takes
 * lengths up to 7, Cf 1 and the stated format as Sf: a longer length is 6, and another Cf or Sf is 14, with the causes of 14 that lie in the lists. In Mode 2 a Cf
 * or Sf of 1 beside length 0 is 16, behind 6 of that length. */
uint64_t matrix_write(const size_t *fields, size_t fields_count, size_t format, const uint64_t *deviations, size_t deviations_count,
                      const uint64_t *coefficients, size_t coefficients_count, const uint8_t *marks, size_t marks_count,
                      uint8_t *out, size_t out_count);

/* The verdict on a string of bytes as an array pack. */
uint64_t array_verdict(const uint8_t *bytes, size_t count);

/* NDim, eight sizes, E and the start into eleven entries: the verdict, or 13 for fewer entries. */
uint64_t array_fields(const uint8_t *bytes, size_t count, size_t *fields, size_t fields_count);

/* The offset of the element at these indices from the start of the array, the verdict, or 15. */
uint64_t array_address(const uint8_t *bytes, size_t count, const size_t *indices, size_t indices_count);

/* An array pack from its sizes, its element size and its array: the count of bytes written, or a refusal. */
uint64_t array_write(const size_t *sizes, size_t sizes_count, size_t element, const uint8_t *array, size_t array_count,
                     uint8_t *out, size_t out_count);

/* What is said of the frame that is exactly these bytes, key, length and value: complete with the value's length where it holds one whole pack, unfinished with the
 * missing bytes, or refused, 21 to 25 or by the pack's own reason at its place in the value. Mode 1's deviations are taken as IEEE. `kind` is one lent byte, half of
 * the answer, and written whatever is answered: one of enum galimpukas_kind, '-' beside 21 and 25 and for fewer than 16 bytes. */
uint64_t frame_verdict(const uint8_t *bytes, size_t count, uint8_t *kind);

#ifdef __cplusplus
}
#endif

#endif
