/*
 * Makes calls under sixteen floating-point modes, and compares what each returns and every byte that it writes with what it gives
 * under the usual mode. The library has no floating-point arithmetic, so no mode changes an answer.
 *
 * A mode is one of the four ways to round; with numbers near zero kept, or taken for zero; and with every exception masked, or
 * none. An exception that is not masked ends a call with SIGFPE, which counts as a difference.
 */
#define _POSIX_C_SOURCE 200809L

#include "calls.h"
#include "lent.h"
#include "welchodrys.h"

#include <fenv.h>
#include <inttypes.h>
#include <setjmp.h>
#include <signal.h>
#include <stdio.h>
#include <stdlib.h>
#include <string.h>
#include <xmmintrin.h>

enum {
    DEPTH = 12,
    LARGEST = 256,
    OTHER_SIZE = 33, /* of the target, where it is not the source's */
    RAYS = 250,      /* for each size and format */
    PAIRS = 500,     /* of turns to fold and to compare */
    LARGEST_COORDINATE = 536870911,
    UNWRITTEN = 0xA5,
    MODES = 16,
    NEAR_ZERO = 0x8040, /* flush-to-zero and denormals-are-zero */
    ENOUGH = 10         /* the program stops after so many differences */
};

static const uint64_t sizes[] = {1, 2, 3, 16, OTHER_SIZE, 64, 100, LARGEST};

/* A quarter turn and a third of a turn of the whole cube, and two turns that are none, the last with large numbers. */
static const uint64_t turns[4][4] = {{1, 0, 1, 0}, {1, 1, 1, 1}, {29, 3, 7, (uint64_t)-5}, {31, (uint64_t)-31, 30, (uint64_t)-29}};

static uint8_t layouts[2][WELCHODRYS_LAYOUT_BYTES] = {
    {4, 0, 5, 3, 1, 2, 0, 0, 0, 1, 1, 1}, {0, 1, 2, 3, 4, 5, 1, 3, 0, 1, 3, 2},
};
static uint8_t frames[2][WELCHODRYS_FRAME_BYTES(LARGEST)], target[WELCHODRYS_FRAME_BYTES(LARGEST)];
static uint8_t answer[32];

/* Bits that look random, others at each call (splitmix64). */
static uint64_t random_bits(void)
{
    static uint64_t state;
    uint64_t mixed = state += 0x9E3779B97F4A7C15u;
    mixed = (mixed ^ (mixed >> 30)) * 0xBF58476D1CE4E5B9u;
    mixed = (mixed ^ (mixed >> 27)) * 0x94D049BB133111EBu;
    return mixed ^ (mixed >> 31);
}

/* A number from -largest to largest, in two's complement. */
static uint64_t random_number(uint64_t largest)
{
    return random_bits() % (2 * largest + 1) - largest;
}

static void fill(uint8_t *frame)
{
    for (size_t i = 0; i < WELCHODRYS_FRAME_BYTES(LARGEST); i += 2) {
        const uint64_t sample = random_bits() % (1u << DEPTH);
        frame[i] = (uint8_t)(sample % 256);
        frame[i + 1] = (uint8_t)(sample / 256);
    }
}

/* ---- modes */

static const int roundings[4] = {FE_TONEAREST, FE_UPWARD, FE_DOWNWARD, FE_TOWARDZERO};
static const char *const rounding_names[4] = {"to nearest", "up", "down", "towards zero"};

static fenv_t usual;

static int near_zero(unsigned mode)
{
    return mode / 4 % 2 == 1;
}

static int unmasked(unsigned mode)
{
    return mode / 8 == 1;
}

static void set_mode(unsigned mode)
{
    require(fesetround(roundings[mode % 4]) == 0, "fesetround");
    unsigned control = _mm_getcsr();
    if (near_zero(mode))
        control |= NEAR_ZERO;
    if (unmasked(mode))
        control &= ~(unsigned)_MM_MASK_MASK;
    _mm_setcsr(control);
}

static void set_usual_mode(void)
{
    require(fesetenv(&usual) == 0, "fesetenv");
}

/* ---- a call under a mode */

static sigjmp_buf before_call;

static void leave_call(int number)
{
    (void)number;
    siglongjmp(before_call, 1);
}

static void at_exception(void)
{
    struct sigaction action = {.sa_handler = leave_call};
    sigemptyset(&action.sa_mask);
    require(sigaction(SIGFPE, &action, NULL) == 0, "sigaction");
}

/* What a call returned, or that an exception ended it. */
struct outcome {
    uint64_t code;
    int ended;
};

/* In the test's own code there is no floating-point arithmetic between the two changes of the mode. */
static struct outcome make_under(unsigned mode, const struct call *call, const uint64_t *numbers, const struct buffer *buffers)
{
    if (sigsetjmp(before_call, 1) != 0) {
        set_usual_mode();
        return (struct outcome){0, 1};
    }
    set_mode(mode);
    const uint64_t code = call->make(numbers, buffers);
    set_usual_mode();
    return (struct outcome){code, 0};
}

/* ---- comparison */

static uint8_t expected[WELCHODRYS_FRAME_BYTES(LARGEST)];
static unsigned compared, differences;

static void report_difference(unsigned mode, const struct call *call, const uint64_t *numbers, int ended)
{
    printf("difference: %s with the numbers", call->name);
    for (size_t i = 0; i < call->numbers; i++)
        printf(" %" PRId64, signed_number(numbers[i]));
    printf(", rounding %s, numbers near zero %s, exceptions %s: %s\n", rounding_names[mode % 4],
        near_zero(mode) ? "taken for zero" : "kept", unmasked(mode) ? "not masked" : "masked",
        ended ? "ended by an exception" : "another answer");
    if (++differences == ENOUGH) {
        printf("modes: stopped after %d differences\n", ENOUGH);
        exit(EXIT_FAILURE);
    }
}

/* Makes a call, which must be accepted, under the usual mode and then under each, and compares the buffer that it writes. */
static void compare(const struct call *call, const uint64_t *numbers, const struct buffer *buffers)
{
    const struct buffer written = buffers[call->buffers - 1];
    memset(written.bytes, UNWRITTEN, written.length);
    if (call->make(numbers, buffers) != WELCHODRYS_ACCEPTED) {
        printf("modes: a call of %s is refused\n", call->name);
        exit(EXIT_FAILURE);
    }
    memcpy(expected, written.bytes, written.length);
    for (unsigned mode = 0; mode < MODES; mode++) {
        memset(written.bytes, UNWRITTEN, written.length);
        const struct outcome outcome = make_under(mode, call, numbers, buffers);
        if (outcome.ended || outcome.code != WELCHODRYS_ACCEPTED || memcmp(written.bytes, expected, written.length) != 0)
            report_difference(mode, call, numbers, outcome.ended);
    }
    compared++;
}

/* ---- the calls */

/* Both formats at both ends, both samplers, both layouts of the target, and each turn. */
static void compare_conversions(uint64_t source_size, uint64_t target_size)
{
    for (uint64_t mix = 0; mix < 16; mix++)
        for (size_t i = 0; i < sizeof turns / sizeof *turns; i++) {
            const uint64_t numbers[] = {source_size, target_size, DEPTH, mix % 2, mix / 2 % 2, mix / 4 % 2,
                turns[i][0], turns[i][1], turns[i][2], turns[i][3]};
            const struct buffer buffers[] = {{layouts[0], WELCHODRYS_LAYOUT_BYTES}, {layouts[mix / 8], WELCHODRYS_LAYOUT_BYTES},
                {frames[0], WELCHODRYS_FRAME_BYTES(source_size)}, {target, WELCHODRYS_FRAME_BYTES(target_size)}};
            compare(&calls[CONVERT], numbers, buffers);
        }
}

static void compare_scores(uint64_t size)
{
    for (uint64_t format = WELCHODRYS_CMP; format <= WELCHODRYS_ACP; format++) {
        const uint64_t numbers[] = {size, DEPTH, format};
        const struct buffer buffers[] = {{layouts[0], WELCHODRYS_LAYOUT_BYTES}, {layouts[1], WELCHODRYS_LAYOUT_BYTES},
            {frames[0], WELCHODRYS_FRAME_BYTES(size)}, {frames[1], WELCHODRYS_FRAME_BYTES(size)}, {answer, 16}};
        compare(&calls[SCORE], numbers, buffers);
    }
}

/* Rays with short and with long coordinates. The last is odd, so that no ray is zero. */
static void compare_look_ups(uint64_t size)
{
    const struct buffer buffers[] = {{answer, 24}};
    for (uint64_t format = WELCHODRYS_CMP; format <= WELCHODRYS_ACP; format++)
        for (size_t i = 0; i < RAYS; i++) {
            const uint64_t largest = LARGEST_COORDINATE >> i % 29;
            const uint64_t numbers[] = {size, format, random_number(largest), random_number(largest), random_number(largest) | 1};
            compare(&calls[LOOK_UP], numbers, buffers);
        }
}

/* Turns whose numbers are so small that each fold is accepted. The first is odd, so that no turn is zero. */
static void compare_turns(void)
{
    const struct buffer folded[] = {{answer, 32}}, equal[] = {{answer, 8}};
    for (size_t i = 0; i < PAIRS; i++) {
        uint64_t numbers[8];
        for (size_t k = 0; k < 8; k++)
            numbers[k] = random_number(2) | (k % 4 == 0);
        compare(&calls[FOLD], numbers, folded);
        compare(&calls[EQUAL], numbers, equal);
    }
}

int main(void)
{
    require(fegetenv(&usual) == 0, "fegetenv");
    at_exception();
    fill(frames[0]);
    fill(frames[1]);

    compare_turns();
    for (size_t i = 0; i < sizeof sizes / sizeof *sizes; i++) {
        compare_look_ups(sizes[i]);
        compare_conversions(sizes[i], sizes[i]);
        compare_conversions(sizes[i], OTHER_SIZE);
        compare_scores(sizes[i]);
    }
    printf("%u calls under %d modes: %u differences\n", compared, MODES, differences);
    return differences == 0 ? EXIT_SUCCESS : EXIT_FAILURE;
}
