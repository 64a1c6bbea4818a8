#include "calls.h"

#include "welchodrys.h"

int64_t signed_number(uint64_t bits)
{
    return bits <= INT64_MAX ? (int64_t)bits : -(int64_t)(UINT64_MAX - bits) - 1;
}

static uint64_t fold(const uint64_t *numbers, const struct buffer *buffers)
{
    return welchodrys_fold(
        signed_number(numbers[0]), signed_number(numbers[1]), signed_number(numbers[2]), signed_number(numbers[3]),
        signed_number(numbers[4]), signed_number(numbers[5]), signed_number(numbers[6]), signed_number(numbers[7]),
        buffers[0].bytes, buffers[0].length);
}

static uint64_t equal(const uint64_t *numbers, const struct buffer *buffers)
{
    return welchodrys_equal(
        signed_number(numbers[0]), signed_number(numbers[1]), signed_number(numbers[2]), signed_number(numbers[3]),
        signed_number(numbers[4]), signed_number(numbers[5]), signed_number(numbers[6]), signed_number(numbers[7]),
        buffers[0].bytes, buffers[0].length);
}

static uint64_t look_up(const uint64_t *numbers, const struct buffer *buffers)
{
    return welchodrys_look_up(numbers[0], numbers[1],
        signed_number(numbers[2]), signed_number(numbers[3]), signed_number(numbers[4]),
        buffers[0].bytes, buffers[0].length);
}

static uint64_t convert(const uint64_t *numbers, const struct buffer *buffers)
{
    return welchodrys_convert(numbers[0], numbers[1], numbers[2], numbers[3], numbers[4], numbers[5],
        buffers[0].bytes, buffers[0].length, buffers[1].bytes, buffers[1].length,
        signed_number(numbers[6]), signed_number(numbers[7]), signed_number(numbers[8]), signed_number(numbers[9]),
        buffers[2].bytes, buffers[2].length, buffers[3].bytes, buffers[3].length);
}

static uint64_t score(const uint64_t *numbers, const struct buffer *buffers)
{
    return welchodrys_score(numbers[0], numbers[1], numbers[2],
        buffers[0].bytes, buffers[0].length, buffers[1].bytes, buffers[1].length,
        buffers[2].bytes, buffers[2].length, buffers[3].bytes, buffers[3].length,
        buffers[4].bytes, buffers[4].length);
}

const struct call calls[CALLS] = {
    [FOLD] = {"fold", 8, 1, {"answer"}, fold},
    [EQUAL] = {"equal", 8, 1, {"answer"}, equal},
    [LOOK_UP] = {"look_up", 5, 1, {"answer"}, look_up},
    [CONVERT] = {"convert", 10, 4, {"source layout", "target layout", "source", "target"}, convert},
    [SCORE] = {"score", 3, 5, {"first layout", "second layout", "first", "second", "answer"}, score},
};
