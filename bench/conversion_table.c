/*
 * The tables of conversions: welchodrys_convert, two conversions in double precision, whose samples are compared with the exact
 * ones, and a plain copy of a frame. In the first table both ends have the same format, in the second they differ.
 *
 * "Straightforward" (straightforward.c) is what one writes first. It goes sample by sample, and finds for each, anew: its place on
 * a face, the ray there (in ACP with the square roots of equation 12), the ray times the matrix, the face that it meets, the
 * position on that face, and the taps.
 *
 * "Tuned by hand" (tuned.c) goes by the same formulas, made fast: the coordinates are in a table, each face has a base and steps
 * into the frame, samples are loaded as 16 bits, and there is no floor().
 *
 * The verdicts are about the straightforward one alone: in each case welchodrys_convert is to be so many times as fast (`wanted`).
 */
#include "double_precision.h"
#include "harness.h"
#include "tables.h"
#include "welchodrys.h"

#include <inttypes.h>
#include <stdio.h>
#include <stdlib.h>
#include <string.h>

enum {
    CASES = 8,
    COLUMNS = 4, /* cases of a table */
    FEW_LEVELS = 3 /* no sample counts as far from another one that is so near */
};

static const int turn[4] = {29, 3, 7, -5};

static const char *const names[CASES] = {
    "CMP nearest", "CMP cubic", "ACP nearest", "ACP cubic", "CMP-ACP near.", "CMP-ACP cubic", "ACP-CMP near.", "ACP-CMP cubic",
};
static const double wanted[CASES] = {6, 6, 5.5, 5.5, 3, 3, 3, 3};
static const struct conversion conversions[CASES] = {
    {SIZE, DEPTH, WELCHODRYS_CMP, WELCHODRYS_CMP, WELCHODRYS_NEAREST, usual_layout, turn},
    {SIZE, DEPTH, WELCHODRYS_CMP, WELCHODRYS_CMP, WELCHODRYS_CUBIC, usual_layout, turn},
    {SIZE, DEPTH, WELCHODRYS_ACP, WELCHODRYS_ACP, WELCHODRYS_NEAREST, usual_layout, turn},
    {SIZE, DEPTH, WELCHODRYS_ACP, WELCHODRYS_ACP, WELCHODRYS_CUBIC, usual_layout, turn},
    {SIZE, DEPTH, WELCHODRYS_CMP, WELCHODRYS_ACP, WELCHODRYS_NEAREST, usual_layout, turn},
    {SIZE, DEPTH, WELCHODRYS_CMP, WELCHODRYS_ACP, WELCHODRYS_CUBIC, usual_layout, turn},
    {SIZE, DEPTH, WELCHODRYS_ACP, WELCHODRYS_CMP, WELCHODRYS_NEAREST, usual_layout, turn},
    {SIZE, DEPTH, WELCHODRYS_ACP, WELCHODRYS_CMP, WELCHODRYS_CUBIC, usual_layout, turn},
};

struct frames {
    uint16_t source[SAMPLES], exact[SAMPLES], straightforward[SAMPLES], tuned[SAMPLES];
};

/* How far the samples of a conversion in double precision are from the exact ones. */
struct difference {
    int different, far;
    double mean;
};

/* The shortest of the runs, in milliseconds. */
struct times {
    double exact[CASES], straightforward[CASES], tuned[CASES], copy;
};

static void convert_exactly(const struct conversion *c, const uint16_t *source, uint16_t *target)
{
    const uint64_t size = (uint64_t)c->size;
    const uint64_t code = welchodrys_convert(size, size, (uint64_t)c->depth,
        (uint64_t)c->source_format, (uint64_t)c->target_format, (uint64_t)c->sampler,
        c->layout, WELCHODRYS_LAYOUT_BYTES, c->layout, WELCHODRYS_LAYOUT_BYTES, c->turn[0], c->turn[1], c->turn[2], c->turn[3],
        (const uint8_t *)source, WELCHODRYS_FRAME_BYTES(SIZE), (uint8_t *)target, WELCHODRYS_FRAME_BYTES(SIZE));
    if (code != WELCHODRYS_ACCEPTED) {
        printf("bench: welchodrys_convert refused the frame with number %" PRIu64 "\n", WELCHODRYS_NUMBER(code));
        exit(DISAGREEMENT);
    }
}

static struct difference compare(const uint16_t *exact, const uint16_t *rounded)
{
    struct difference difference = {0, 0, 0};
    for (int index = 0; index < SAMPLES; index++) {
        const int levels = abs(exact[index] - rounded[index]);
        difference.different += levels != 0;
        difference.far += levels > FEW_LEVELS;
        difference.mean += (double)levels / SAMPLES;
    }
    return difference;
}

/* Ends the program where a conversion does other work than the exact one, but for roundings. */
static void require_alike(const char *name, const char *kind, struct difference difference)
{
    if (difference.far <= SAMPLES / 100 && difference.mean <= 0.05)
        return;
    printf("bench: %s, double, %s, is another picture: %d of %d samples differ by more than %d levels, the mean is %.3f\n",
        name, kind, difference.far, SAMPLES, FEW_LEVELS, difference.mean);
    exit(DISAGREEMENT);
}

/* Converts one case in the three ways, and gives how far the straightforward samples are from the exact ones. */
static struct difference check(int i, struct frames *frames)
{
    convert_exactly(&conversions[i], frames->source, frames->exact);
    convert_straightforward(&conversions[i], (const uint8_t *)frames->source, (uint8_t *)frames->straightforward);
    convert_tuned(&conversions[i], (const uint8_t *)frames->source, (uint8_t *)frames->tuned);
    const struct difference difference = compare(frames->exact, frames->straightforward);
    require_alike(names[i], "straightforward", difference);
    require_alike(names[i], "tuned by hand", compare(frames->exact, frames->tuned));
    return difference;
}

/* One run of everything in turn, so that what else the machine does meets all alike. */
static void run(struct frames *frames, struct times *times)
{
    for (int i = 0; i < CASES; i++) {
        double start = now();
        convert_exactly(&conversions[i], frames->source, frames->exact);
        keep_shorter(&times->exact[i], start);

        start = now();
        convert_straightforward(&conversions[i], (const uint8_t *)frames->source, (uint8_t *)frames->straightforward);
        keep_shorter(&times->straightforward[i], start);

        start = now();
        convert_tuned(&conversions[i], (const uint8_t *)frames->source, (uint8_t *)frames->tuned);
        keep_shorter(&times->tuned[i], start);

        start = now();
        memcpy(frames->exact, frames->source, sizeof frames->exact);
        keep_shorter(&times->copy, start);
    }
}

static struct times measure(struct frames *frames)
{
    struct times times = {.copy = 1e9};
    for (int i = 0; i < CASES; i++)
        times.exact[i] = times.straightforward[i] = times.tuned[i] = 1e9;
    for (int i = 0; i < RUNS; i++)
        run(frames, &times);
    return times;
}

/* The table whose first case is this one. */
static void print_table(const struct times *times, const struct difference differences[CASES], int first)
{
    const double *exact = times->exact + first, *straightforward = times->straightforward + first, *tuned = times->tuned + first;
    printf("%-30s", "milliseconds a frame");
    for (int i = 0; i < COLUMNS; i++)
        printf("%14s", names[first + i]);
    printf("\n");
    print_row("welchodrys_convert", exact, COLUMNS);
    print_row("double, straightforward", straightforward, COLUMNS);
    print_row("double, tuned by hand", tuned, COLUMNS);
    print_ratios("straightforward / welchodrys", straightforward, exact, COLUMNS);
    print_ratios("tuned / welchodrys", tuned, exact, COLUMNS);
    printf("%-30s", "samples that differ");
    for (int i = 0; i < COLUMNS; i++)
        printf("%14d", differences[first + i].different);
    printf("\n%-30s%14.2f\n", "memcpy of a frame", times->copy);
}

/* Whether welchodrys_convert is as many times as fast as the straightforward conversion as is wanted, in each case of a table. */
static int fast_enough(const struct times *times, int first)
{
    for (int i = first; i < first + COLUMNS; i++)
        if (wanted[i] * times->exact[i] > times->straightforward[i])
            return 0;
    return 1;
}

/* Prints a table with its verdict. */
static int print_with_verdict(const struct times *times, const struct difference differences[CASES], int first)
{
    const int fast = fast_enough(times, first);
    print_table(times, differences, first);
    printf("at least %g, %g, %g and %g times as fast as straightforward double precision: %s\n",
        wanted[first], wanted[first + 1], wanted[first + 2], wanted[first + 3], fast ? "yes" : "no");
    return fast;
}

int print_conversion_tables(void)
{
    static struct frames frames;
    struct difference differences[CASES];
    fill(frames.source, 0);
    for (int i = 0; i < CASES; i++)
        differences[i] = check(i, &frames);

    const struct times times = measure(&frames);
    printf("A conversion through the turn (%d, %d, %d, %d), usual layout:\n", turn[0], turn[1], turn[2], turn[3]);
    const int alike_fast = print_with_verdict(&times, differences, 0);
    printf("\nThe same, from CMP to ACP and from ACP to CMP:\n");
    const int mixed_fast = print_with_verdict(&times, differences, COLUMNS);
    return alike_fast && mixed_fast;
}
