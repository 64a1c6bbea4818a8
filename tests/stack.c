/*
 * Measures how many bytes of stack each of the five calls uses at most, and fails where one uses more than STACK_PROMISED.
 *
 * Each call is made on a stack of its own, which is painted before and looked at afterwards: all between the deepest byte that
 * is no longer as painted and the stack's top was used. What a function that does nothing uses, called in the same way, is
 * subtracted. The arguments that the caller puts on the stack are counted.
 */
#define _DEFAULT_SOURCE

#include "calls.h"
#include "lent.h"
#include "welchodrys.h"

#include <inttypes.h>
#include <stdio.h>
#include <stdlib.h>
#include <string.h>
#include <ucontext.h>

enum {
    STACK_PROMISED = 32768,
    STACK_BYTES = 8 * STACK_PROMISED, /* the stack on which the calls are made */
    PAINT = 0xA5,
    WORD = 8, /* what is used is counted in whole words */
    DEPTH = 12,
    LARGEST = 512,
    SMALL = 3, /* the size with which each refusal is tried */
    SMALL_FRAME = 12 * SMALL * SMALL
};

static const uint64_t sizes[] = {1, 2, SMALL, 17, LARGEST};

/* A call that is accepted. */
struct accepted {
    uint64_t numbers[MOST_NUMBERS];
    size_t lengths[MOST_BUFFERS];
};

static const struct accepted small[CALLS] = {
    [FOLD] = {{1, 0, 0, 0, 31, 1, 0, 0}, {32}},
    [EQUAL] = {{1, 0, 0, 0, 31, 1, 0, 0}, {8}},
    [LOOK_UP] = {{SMALL, WELCHODRYS_ACP, 5, 0, 0}, {24}},
    [CONVERT] = {{SMALL, SMALL, DEPTH, WELCHODRYS_CMP, WELCHODRYS_ACP, WELCHODRYS_CUBIC, 0, 0, 0, 1},
        {WELCHODRYS_LAYOUT_BYTES, WELCHODRYS_LAYOUT_BYTES, SMALL_FRAME, SMALL_FRAME}},
    [SCORE] = {{SMALL, DEPTH, WELCHODRYS_CMP},
        {WELCHODRYS_LAYOUT_BYTES, WELCHODRYS_LAYOUT_BYTES, SMALL_FRAME, SMALL_FRAME, 16}},
};

/* One number, or length, of such a call replaced, so that it is refused. */
struct refused {
    size_t call;
    enum { NUMBER, LENGTH } what;
    size_t position;
    uint64_t value;
    enum welchodrys_number number;
};

static const struct refused refusals[] = {
    {FOLD, NUMBER, 4, 32, WELCHODRYS_TURN_RANGE},
    {FOLD, NUMBER, 0, 0, WELCHODRYS_TURN_ZERO},
    {FOLD, NUMBER, 1, 2, WELCHODRYS_FOLDED_RANGE},
    {EQUAL, NUMBER, 7, UINT64_MAX - 31, WELCHODRYS_TURN_RANGE},
    {EQUAL, NUMBER, 0, 0, WELCHODRYS_TURN_ZERO},
    {LOOK_UP, NUMBER, 0, 513, WELCHODRYS_FACE_SIZE},
    {LOOK_UP, NUMBER, 1, 2, WELCHODRYS_CODE},
    {LOOK_UP, NUMBER, 4, 536870912, WELCHODRYS_RAY_RANGE},
    {LOOK_UP, NUMBER, 2, 0, WELCHODRYS_RAY_ZERO},
    {CONVERT, NUMBER, 0, 0, WELCHODRYS_FACE_SIZE},
    {CONVERT, NUMBER, 1, 513, WELCHODRYS_TARGET_SIZE},
    {CONVERT, NUMBER, 2, 7, WELCHODRYS_DEPTH},
    {CONVERT, NUMBER, 5, 2, WELCHODRYS_CODE},
    {CONVERT, LENGTH, 1, 11, WELCHODRYS_LAYOUT},
    {CONVERT, NUMBER, 6, 32, WELCHODRYS_TURN_RANGE},
    {CONVERT, NUMBER, 9, 0, WELCHODRYS_TURN_ZERO},
    {CONVERT, LENGTH, 2, SMALL_FRAME - 1, WELCHODRYS_FIRST_LENGTH},
    {CONVERT, LENGTH, 3, SMALL_FRAME + 1, WELCHODRYS_SECOND_LENGTH},
    {SCORE, NUMBER, 0, 513, WELCHODRYS_FACE_SIZE},
    {SCORE, NUMBER, 1, 13, WELCHODRYS_DEPTH},
    {SCORE, NUMBER, 2, 2, WELCHODRYS_CODE},
    {SCORE, LENGTH, 0, 0, WELCHODRYS_LAYOUT},
    {SCORE, LENGTH, 2, SMALL_FRAME + 1, WELCHODRYS_FIRST_LENGTH},
    {SCORE, LENGTH, 3, 0, WELCHODRYS_SECOND_LENGTH},
};

/* A quarter turn of the whole cube, and a turn that is none. */
static const uint64_t turns[2][4] = {{1, 0, 1, 0}, {31, (uint64_t)-5, 7, 3}};

static const uint64_t rays[3][3] = {{1, 1, 1}, {(uint64_t)-536870911, 536870910, 12345}, {2, (uint64_t)-7, 0}};

static uint8_t layouts[2][WELCHODRYS_LAYOUT_BYTES] = {
    {4, 0, 5, 3, 1, 2, 0, 0, 0, 1, 1, 1}, {0, 1, 2, 3, 4, 5, 1, 3, 0, 1, 3, 2},
};
static uint8_t frames[2][WELCHODRYS_FRAME_BYTES(LARGEST)];
static uint8_t answer[32];

/* What the calls are lent, in the order of their buffers. */
static uint8_t *const with_frames[MOST_BUFFERS] = {layouts[0], layouts[1], frames[0], frames[1], answer};
static uint8_t *const without_frames[MOST_BUFFERS] = {answer};

static struct lent stack;
static uint8_t paint[STACK_BYTES];

/* The call that is made on the stack, and what it returned. */
static struct {
    const struct call *call;
    const uint64_t *numbers;
    struct buffer buffers[MOST_BUFFERS];
    uint64_t code;
} running;

static uint64_t do_nothing(const uint64_t *numbers, const struct buffer *buffers)
{
    (void)numbers;
    (void)buffers;
    return WELCHODRYS_ACCEPTED;
}

static const struct call nothing = {"nothing", 0, 0, {NULL}, do_nothing};

static void run(void)
{
    running.code = running.call->make(running.numbers, running.buffers);
}

/* Makes the call on the painted stack, and returns how many bytes of it were used. */
static size_t run_on_stack(void)
{
    static ucontext_t here, there;
    require(getcontext(&there) == 0, "getcontext");
    there.uc_stack.ss_sp = lend(&stack, paint, STACK_BYTES, 0);
    there.uc_stack.ss_size = STACK_BYTES;
    there.uc_link = &here;
    makecontext(&there, run, 0);
    require(swapcontext(&here, &there) == 0, "swapcontext");
    return (size_t)(STACK_BYTES - compare_lent(&stack, paint, STACK_BYTES).first + WORD - 1) / WORD * WORD;
}

static size_t idle;        /* what is used where nothing is called */
static size_t most[CALLS]; /* what each call used at most, beyond that */

/* Makes a call, and keeps how much stack it used. It must return this number. */
static void measure(size_t i, const uint64_t *numbers, const size_t *lengths, uint64_t number)
{
    uint8_t *const *memory = calls[i].buffers > 1 ? with_frames : without_frames;
    running.call = &calls[i];
    running.numbers = numbers;
    for (size_t k = 0; k < calls[i].buffers; k++)
        running.buffers[k] = (struct buffer){memory[k], lengths[k]};
    /* First on the usual stack: the first use of a function of the C library may take some stack to find it. */
    run();
    if (WELCHODRYS_NUMBER(running.code) != number) {
        printf("stack: %s returned %" PRIu64 ", where it must return number %" PRIu64 "\n", calls[i].name, running.code, number);
        exit(EXIT_FAILURE);
    }
    const size_t used = run_on_stack() - idle;
    if (used > most[i])
        most[i] = used;
}

static void measure_refusals(void)
{
    for (size_t i = 0; i < sizeof refusals / sizeof *refusals; i++) {
        const struct refused *refused = &refusals[i];
        struct accepted changed = small[refused->call];
        if (refused->what == NUMBER)
            changed.numbers[refused->position] = refused->value;
        else
            changed.lengths[refused->position] = (size_t)refused->value;
        measure(refused->call, changed.numbers, changed.lengths, refused->number);
    }
    /* The last sample of the second frame beyond the depth, then that of the first too. */
    frames[1][SMALL_FRAME - 1] = 1 << (DEPTH - 8);
    measure(SCORE, small[SCORE].numbers, small[SCORE].lengths, WELCHODRYS_SECOND_SAMPLE);
    frames[0][SMALL_FRAME - 1] = 1 << (DEPTH - 8);
    measure(SCORE, small[SCORE].numbers, small[SCORE].lengths, WELCHODRYS_FIRST_SAMPLE);
    measure(CONVERT, small[CONVERT].numbers, small[CONVERT].lengths, WELCHODRYS_FIRST_SAMPLE);
}

/* The small calls, with whole answers and with none, and turns whose product has a large divisor. */
static void measure_small(void)
{
    static const uint64_t inverse[8] = {31, 31, 31, 31, 31, (uint64_t)-31, (uint64_t)-31, (uint64_t)-31};
    static const size_t none[MOST_BUFFERS] = {0};
    for (size_t i = 0; i < CALLS; i++)
        measure(i, small[i].numbers, small[i].lengths, WELCHODRYS_ACCEPTED);
    for (size_t i = FOLD; i <= LOOK_UP; i++)
        measure(i, small[i].numbers, none, WELCHODRYS_ACCEPTED);
    measure(FOLD, inverse, small[FOLD].lengths, WELCHODRYS_ACCEPTED);
    measure(EQUAL, inverse, small[EQUAL].lengths, WELCHODRYS_ACCEPTED);
}

static void measure_look_ups(uint64_t size)
{
    for (uint64_t format = WELCHODRYS_CMP; format <= WELCHODRYS_ACP; format++)
        for (size_t i = 0; i < sizeof rays / sizeof *rays; i++) {
            const uint64_t numbers[] = {size, format, rays[i][0], rays[i][1], rays[i][2]};
            measure(LOOK_UP, numbers, small[LOOK_UP].lengths, WELCHODRYS_ACCEPTED);
        }
}

/* All formats, both samplers and both kinds of turns. */
static void measure_conversions(uint64_t source_size, uint64_t target_size)
{
    const size_t lengths[] = {WELCHODRYS_LAYOUT_BYTES, WELCHODRYS_LAYOUT_BYTES,
        WELCHODRYS_FRAME_BYTES(source_size), WELCHODRYS_FRAME_BYTES(target_size)};
    for (uint64_t mix = 0; mix < 8; mix++)
        for (size_t i = 0; i < sizeof turns / sizeof *turns; i++) {
            const uint64_t numbers[] = {source_size, target_size, DEPTH, mix % 2, mix / 2 % 2, mix / 4,
                turns[i][0], turns[i][1], turns[i][2], turns[i][3]};
            measure(CONVERT, numbers, lengths, WELCHODRYS_ACCEPTED);
        }
}

static void measure_scores(uint64_t size)
{
    const size_t lengths[] = {WELCHODRYS_LAYOUT_BYTES, WELCHODRYS_LAYOUT_BYTES,
        WELCHODRYS_FRAME_BYTES(size), WELCHODRYS_FRAME_BYTES(size), 16};
    for (uint64_t format = WELCHODRYS_CMP; format <= WELCHODRYS_ACP; format++) {
        const uint64_t numbers[] = {size, DEPTH, format};
        measure(SCORE, numbers, lengths, WELCHODRYS_ACCEPTED);
    }
}

/* Prints what each call used at most. Returns whether that is no more than promised. */
static int report(void)
{
    int as_promised = 1;
    for (size_t i = 0; i < CALLS; i++) {
        printf("%s: at most %zu bytes of stack\n", calls[i].name, most[i]);
        as_promised = as_promised && most[i] <= STACK_PROMISED;
    }
    printf("no call uses more than %d bytes of stack: %s\n", STACK_PROMISED, as_promised ? "yes" : "no");
    return as_promised;
}

int main(void)
{
    memset(paint, PAINT, sizeof paint);
    prepare(&stack, sizeof paint);
    /* Some samples of 8 bits. */
    for (size_t i = 0; i < sizeof frames[0]; i += 2)
        frames[0][i] = frames[1][i] = (uint8_t)(i * i / 7);
    running.call = &nothing;
    idle = run_on_stack();

    measure_small();
    for (size_t i = 0; i < sizeof sizes / sizeof *sizes; i++) {
        measure_look_ups(sizes[i]);
        measure_conversions(sizes[i], sizes[i]);
        measure_conversions(sizes[i], 17);
        measure_scores(sizes[i]);
    }
    measure_refusals();
    return report() ? EXIT_SUCCESS : EXIT_FAILURE;
}
