/*
 * The table of scores: welchodrys_score, two weighted errors in double precision and a plain one (score.c), of the same two frames,
 * which differ in their grain. The second is read in the usual layout, as the first is, and in another one; there the same bytes
 * are another picture.
 *
 * "Weights in the call" is what one writes first. It goes face by face, and finds for each sample, anew: its weight, with a square
 * root and a division, and where the layout puts it in either frame.
 *
 * "Weights ready" goes by the same formula, made fast: the weights are in a table that is made before the clock starts, each face
 * has a base and steps into the frame, and samples are loaded as 16 bits.
 *
 * "Plain squared error" has no weights and knows no layouts: where they differ it still compares index by index, and so samples of
 * different places. It stands there to show what reading both frames costs.
 *
 * The verdict is about the weights ready; the plain one may be faster than welchodrys_score.
 */
#include "harness.h"
#include "score.h"
#include "tables.h"
#include "welchodrys.h"

#include <inttypes.h>
#include <math.h>
#include <stdio.h>
#include <stdlib.h>

enum { CASES = 2 };

/* The ways to score, in the order of their rows. */
enum { EXACT, IN_CALL, READY, PLAIN, WAYS };

/* The faces in the order of their numbers, most of them turned otherwise than in the usual layout. */
static const uint8_t other_layout[WELCHODRYS_LAYOUT_BYTES] = {0, 1, 2, 3, 4, 5, 1, 3, 0, 1, 3, 2};

static double weights[SIZE * SIZE];
static const char *const names[CASES] = {"usual layouts", "other layout"};
static const struct scoring scorings[CASES] = {
    {SIZE, usual_layout, usual_layout, weights},
    {SIZE, usual_layout, other_layout, weights},
};

struct frames {
    uint16_t first[SAMPLES], second[SAMPLES];
};

/* The sums of welchodrys_score. Its weights are in 65536ths. */
static struct sums score_exactly(const struct scoring *scoring, const uint8_t *first, const uint8_t *second)
{
    uint64_t sums[2];
    const uint64_t code = welchodrys_score((uint64_t)scoring->size, DEPTH, WELCHODRYS_CMP,
        scoring->first_layout, WELCHODRYS_LAYOUT_BYTES, scoring->second_layout, WELCHODRYS_LAYOUT_BYTES,
        first, WELCHODRYS_FRAME_BYTES(SIZE), second, WELCHODRYS_FRAME_BYTES(SIZE), (uint8_t *)sums, sizeof sums);
    if (code != WELCHODRYS_ACCEPTED) {
        printf("bench: welchodrys_score refused the frames with number %" PRIu64 "\n", WELCHODRYS_NUMBER(code));
        exit(DISAGREEMENT);
    }
    return (struct sums){(double)sums[0] / 65536, (double)sums[1] / 65536};
}

static const char *const titles[WAYS] = {
    "welchodrys_score", "double, weights in the call", "double, weights ready", "plain squared error",
};
static struct sums (*const ways[WAYS])(const struct scoring *scoring, const uint8_t *first, const uint8_t *second) = {
    score_exactly, score_straightforward, score_with_weights, score_plain,
};

static struct sums score(int way, int i, const struct frames *frames)
{
    return ways[way](&scorings[i], (const uint8_t *)frames->first, (const uint8_t *)frames->second);
}

/* Whether two sums are the same but for roundings. The exact weights are rounded down, to whole 65536ths. */
static int alike(double exact, double rounded)
{
    return fabs(rounded - exact) <= 1e-4 * exact;
}

/* Ends the program where a weighted error in double precision is another one than the exact one, but for roundings. */
static void require_alike(int way, int i, struct sums exact, struct sums rounded)
{
    if (alike(exact.error, rounded.error) && alike(exact.weights, rounded.weights))
        return;
    printf("bench: %s, %s, has other sums: %.8g of %.8g, where welchodrys_score has %.8g of %.8g\n",
        names[i], titles[way], rounded.error, rounded.weights, exact.error, exact.weights);
    exit(DISAGREEMENT);
}

static void check(int i, const struct frames *frames)
{
    const struct sums exact = score(EXACT, i, frames);
    require_alike(IN_CALL, i, exact, score(IN_CALL, i, frames));
    require_alike(READY, i, exact, score(READY, i, frames));
}

/* One run of everything in turn, so that what else the machine does meets all alike. */
static void run(const struct frames *frames, double times[WAYS][CASES])
{
    for (int i = 0; i < CASES; i++)
        for (int way = 0; way < WAYS; way++) {
            const double start = now();
            score(way, i, frames);
            keep_shorter(&times[way][i], start);
        }
}

/* The shortest of the runs, in milliseconds. */
static void measure(const struct frames *frames, double times[WAYS][CASES])
{
    for (int way = 0; way < WAYS; way++)
        for (int i = 0; i < CASES; i++)
            times[way][i] = 1e9;
    for (int i = 0; i < RUNS; i++)
        run(frames, times);
}

static void print_table(double times[WAYS][CASES])
{
    printf("%-30s%14s%14s\n", "milliseconds a score", names[0], names[1]);
    for (int way = 0; way < WAYS; way++)
        print_row(titles[way], times[way], CASES);
    print_ratios("in the call / welchodrys", times[IN_CALL], times[EXACT], CASES);
    print_ratios("ready / welchodrys", times[READY], times[EXACT], CASES);
    print_ratios("plain / welchodrys", times[PLAIN], times[EXACT], CASES);
}

/* Whether welchodrys_score, which finds its weights in the call, is no slower than the score with its weights ready, in each case. */
static int no_slower(double times[WAYS][CASES])
{
    for (int i = 0; i < CASES; i++)
        if (times[EXACT][i] > times[READY][i])
            return 0;
    return 1;
}

int print_score_table(void)
{
    static struct frames frames;
    double times[WAYS][CASES];
    fill(frames.first, 0);
    fill(frames.second, 1);
    set_face_weights(SIZE, weights);
    for (int i = 0; i < CASES; i++)
        check(i, &frames);

    measure(&frames, times);
    printf("A score of two frames, the first in the usual layout, the second in the usual or another layout:\n");
    print_table(times);
    printf("no slower than the double-precision weighted error with its weights ready: %s\n",
        no_slower(times) ? "yes" : "no");
    return no_slower(times);
}
