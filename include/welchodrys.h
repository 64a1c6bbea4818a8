/*
 * Welchodrys: a part for cubemap frames, in the formats CMP and ACP of JVET-H1004, with exact integer arithmetic.
 *
 * Returns. Every call returns number + 256 * index. Number 0 is acceptance. Any other number is that of the first question with
 * the answer "no"; the call is then refused, and no byte of the memory lent to it changes. The index is that of a sample with the
 * numbers 10 and 11, and 0 with all others.
 *
 * Answers. Numbers that an accepted call gives go into the buffer lent as (answer, answer_length): eight bytes a number, two's
 * complement, little-endian, number k at bytes 8k to 8k + 7. A number that does not fit whole is not written, and every other
 * byte stays. No length of an answer buffer is a refusal.
 *
 * What the caller owes. No buffer that a call writes overlaps another one lent to it. A pointer points at as many bytes
 * as its length says; it may be NULL where the length is 0. A call without this is outside every promise. Buffers that
 * a call only reads may overlap or be the same.
 *
 * Floating point. Integers alone decide every byte: the processor's floating-point mode does not matter, and no call
 * changes it.
 *
 * Threads. Calls keep nothing and share nothing, so threads may call at the same time, each with buffers of its own.
 */
#ifndef WELCHODRYS_H
#define WELCHODRYS_H

#include <stddef.h>
#include <stdint.h>

#ifdef __cplusplus
extern "C" {
#endif

/* The number and the index in what a call returned. */
#define WELCHODRYS_NUMBER(code) ((code) % 256u)
#define WELCHODRYS_INDEX(code) ((code) / 256u)

/* The numbers, in the order in which questions are asked within a call. Each call below names those that it can return. */
enum welchodrys_number {
    WELCHODRYS_ACCEPTED = 0,
    WELCHODRYS_FACE_SIZE = 1,      /* the (source) face size is not 1 to 512 */
    WELCHODRYS_TARGET_SIZE = 2,    /* the target face size is not 1 to 512 */
    WELCHODRYS_DEPTH = 3,          /* the depth is not 8 to 12 */
    WELCHODRYS_CODE = 4,           /* a format or sampler code is neither 0 nor 1 */
    WELCHODRYS_LAYOUT = 5,         /* a layout is not 12 bytes that hold every face once, with turns 0 to 3 */
    WELCHODRYS_TURN_RANGE = 6,     /* a number of a turn is not -31 to 31 */
    WELCHODRYS_TURN_ZERO = 7,      /* all four numbers of a turn are 0 */
    WELCHODRYS_FIRST_LENGTH = 8,   /* the first buffer has not exactly the frame's bytes */
    WELCHODRYS_SECOND_LENGTH = 9,  /* the second buffer has not exactly the frame's bytes */
    WELCHODRYS_FIRST_SAMPLE = 10,  /* a sample of the first frame is beyond the depth; the lowest index of such a sample */
    WELCHODRYS_SECOND_SAMPLE = 11, /* the same of the second frame */
    WELCHODRYS_FOLDED_RANGE = 12,  /* a number of the folded turn is not -31 to 31 */
    WELCHODRYS_RAY_RANGE = 13,     /* X, Y or Z is not -536870911 to 536870911 */
    WELCHODRYS_RAY_ZERO = 14,      /* X, Y and Z are all 0 */
    WELCHODRYS_RECORD_KIND = 15,   /* a record's kind is not 1, or its length not 15: the listing program only, no call */
    WELCHODRYS_RECORD_CUT = 16     /* a record is not whole: the listing program only, no call */
};

/* The format codes. */
enum welchodrys_format {
    WELCHODRYS_CMP = 0,
    WELCHODRYS_ACP = 1
};

/* The sampler codes. */
enum welchodrys_sampler {
    WELCHODRYS_NEAREST = 0,
    WELCHODRYS_CUBIC = 1
};

/*
 * Frames. A frame of face size A is 3A columns by 2A rows of samples, row after row; a sample is two bytes, little-endian, 0 to
 * 2^depth - 1. So it has exactly 12 * A * A bytes, and the sample at index i is in the bytes 2i and 2i + 1.
 *
 * Layouts. The frame has six slots, left to right, top row first. A layout is 12 bytes: the face in each slot, then each slot's
 * count of clockwise quarter turns, 0 to 3. One quarter turn puts the face's sample at (column m, row n) at column A - 1 - n, row m
 * of its slot. The usual layout is {4, 0, 5, 3, 1, 2, 0, 0, 0, 1, 1, 1}.
 */
#define WELCHODRYS_LAYOUT_BYTES 12
#define WELCHODRYS_FRAME_BYTES(size) (12u * (size_t)(size) * (size_t)(size))

/*
 * Converts a frame through the turn (e0, e1, e2, e3): for each sample of the target, the turn's matrix is applied to the target's ray
 * and gives the source's ray; the sampler's value where that ray meets the source is the target's sample. Sizes and formats of the
 * two ends may differ; they share the depth.
 *
 * Asks 1 of the source's size, 2 of the target's, 3 of the depth, 4 of both formats and the sampler, 5 of both layouts, 6 and 7 of the
 * turn, 8 of the source's length (for the source's size), 9 of the target's length (for the target's size), then 10 of the source's
 * samples. Writes every byte of the target where it is accepted, and none where it is refused. The source and both layouts stay.
 */
uint64_t welchodrys_convert(uint64_t source_size, uint64_t target_size, uint64_t depth,
    uint64_t source_format, uint64_t target_format, uint64_t sampler,
    const uint8_t *source_layout, size_t source_layout_length, const uint8_t *target_layout, size_t target_layout_length,
    int64_t e0, int64_t e1, int64_t e2, int64_t e3,
    const uint8_t *source, size_t source_length, uint8_t *target, size_t target_length);

/*
 * Scores two frames by their weighted squared error. A place is a column m and a row n of a face, and A is the size; with
 * p = 2m + 1 - A and q = 2n + 1 - A, the place's weight is the largest whole W with W^2 * (A^2 + p^2 + q^2)^3 <= 2^32 * A^6, in both
 * formats. The error sum adds up, over all places, W times the squared difference of the two frames' samples there; the weight sum
 * adds up W over all 6 * A * A places. Each frame has its own layout; size, depth and format are common.
 *
 * The error sum divided by the weight sum is the weighted mean squared error. Both sums are exact: the error sum is below 2^61, and
 * the weight sum is never 0.
 *
 * Asks 1 of the size, 3 of the depth, 4 of the format, 5 of both layouts, 8 of the first frame's length, 9 of the second's, 10 of the
 * first frame's samples, then 11 of the second's. Writes two numbers, 16 bytes: the error sum, then the weight sum. Both frames and
 * both layouts stay.
 */
uint64_t welchodrys_score(uint64_t size, uint64_t depth, uint64_t format,
    const uint8_t *first_layout, size_t first_layout_length, const uint8_t *second_layout, size_t second_layout_length,
    const uint8_t *first, size_t first_length, const uint8_t *second, size_t second_length,
    uint8_t *answer, size_t answer_length);

/*
 * Folds a first and a later turn into one: their quaternion product, the first on the left, divided by the greatest whole number
 * that divides all four numbers; then, if the first nonzero number is negative, all four change sign.
 *
 * Asks 6 of both turns, then 7 of both, then 12 of the fold so reduced. Writes its four numbers, 32 bytes.
 */
uint64_t welchodrys_fold(int64_t first0, int64_t first1, int64_t first2, int64_t first3,
    int64_t later0, int64_t later1, int64_t later2, int64_t later3, uint8_t *answer, size_t answer_length);

/*
 * Tests whether two turns are equal: whether both, reduced as a fold is, have the same four numbers. So a turn is equal to each
 * of its multiples by a whole number other than 0.
 *
 * Asks 6 of both turns, then 7 of both. Writes one number, 8 bytes: 1 where they are equal, else 0.
 */
uint64_t welchodrys_equal(int64_t first0, int64_t first1, int64_t first2, int64_t first3,
    int64_t second0, int64_t second1, int64_t second2, int64_t second3, uint8_t *answer, size_t answer_length);

/*
 * Looks up where the ray (x, y, z) meets a cube of this face size and format; the axes are X front, Y top, Z right. The axis with
 * the largest size gives the face; at equal sizes X goes before Y, and Y before Z.
 *
 * Asks 1 of the size, 4 of the format, then 13 and 14 of the ray. Writes three numbers, 24 bytes: the face (0 front, 1 back, 2 top,
 * 3 bottom, 4 right, 5 left), the column and the row. Column and row are in 64ths of a sample, rounded to the nearest, halves
 * upward; they run from -32 to 64 * size - 32, and 64 * m is the middle of column or row m.
 */
uint64_t welchodrys_look_up(uint64_t size, uint64_t format, int64_t x, int64_t y, int64_t z,
    uint8_t *answer, size_t answer_length);

#ifdef __cplusplus
}
#endif

#endif
