#include "answers.h"

#include "welchodrys.h"

#include <inttypes.h>
#include <stdio.h>

int64_t number_at(const uint8_t *answer, size_t k)
{
    uint64_t bits = 0;
    for (size_t i = 0; i < 8; i++)
        bits |= (uint64_t)answer[8 * k + i] << (8 * i);
    return bits <= INT64_MAX ? (int64_t)bits : -(int64_t)(UINT64_MAX - bits) - 1;
}

const char *in_words(uint64_t code)
{
    switch (WELCHODRYS_NUMBER(code)) {
    case WELCHODRYS_ACCEPTED: return "accepted";
    case WELCHODRYS_FACE_SIZE: return "the (source) face size is not 1 to 512";
    case WELCHODRYS_TARGET_SIZE: return "the target face size is not 1 to 512";
    case WELCHODRYS_DEPTH: return "the depth is not 8 to 12";
    case WELCHODRYS_CODE: return "a format or sampler code is neither 0 nor 1";
    case WELCHODRYS_LAYOUT: return "a layout is not 12 bytes that hold every face once, with turns 0 to 3";
    case WELCHODRYS_TURN_RANGE: return "a number of a turn is not -31 to 31";
    case WELCHODRYS_TURN_ZERO: return "all four numbers of a turn are 0";
    case WELCHODRYS_FIRST_LENGTH: return "the source, or the first frame, has not exactly the frame's bytes";
    case WELCHODRYS_SECOND_LENGTH: return "the target, or the second frame, has not exactly the frame's bytes";
    case WELCHODRYS_FIRST_SAMPLE: return "a sample of the source, or of the first frame, is beyond the depth";
    case WELCHODRYS_SECOND_SAMPLE: return "a sample of the second frame is beyond the depth";
    case WELCHODRYS_FOLDED_RANGE: return "a number of the folded turn is not -31 to 31";
    case WELCHODRYS_RAY_RANGE: return "a number of the ray is not -536870911 to 536870911";
    case WELCHODRYS_RAY_ZERO: return "the ray is zero";
    default: return "a number that none of these calls returns";
    }
}

int accepted(const char *call, uint64_t code)
{
    if (code == WELCHODRYS_ACCEPTED)
        return 1;
    printf("%s was refused with number %" PRIu64 ": %s\n", call, WELCHODRYS_NUMBER(code), in_words(code));
    return 0;
}
