#define _POSIX_C_SOURCE 200809L

#include "harness.h"

#include <stdio.h>
#include <time.h>

enum { CELL = 32 /* the side of a square of smooth content */ };

const uint8_t usual_layout[WELCHODRYS_LAYOUT_BYTES] = {4, 0, 5, 3, 1, 2, 0, 0, 0, 1, 1, 1};

/* Bits that look random, the same for the same number (splitmix64). */
static uint64_t scrambled(uint64_t number)
{
    uint64_t mixed = (number + 1) * 0x9E3779B97F4A7C15u;
    mixed = (mixed ^ (mixed >> 30)) * 0xBF58476D1CE4E5B9u;
    mixed = (mixed ^ (mixed >> 27)) * 0x94D049BB133111EBu;
    return mixed ^ (mixed >> 31);
}

/* A random level at the corner of a cell, with room for the grain at both ends. */
static int corner_level(int column, int row)
{
    return 2 + (int)(scrambled((uint64_t)(row * 3 * SIZE + column)) % ((1 << DEPTH) - 4));
}

/* Content that is smooth between random levels. */
static int level_at(int column, int row)
{
    const int left = column / CELL, top = row / CELL, across = column % CELL, down = row % CELL;
    const int above = corner_level(left, top) * (CELL - across) + corner_level(left + 1, top) * across;
    const int below = corner_level(left, top + 1) * (CELL - across) + corner_level(left + 1, top + 1) * across;
    return (above * (CELL - down) + below * down) / (CELL * CELL);
}

/* Two levels up or down. */
static int grain_at(int grain, int index)
{
    return (int)(scrambled((uint64_t)SAMPLES * (uint64_t)(grain + 1) + (uint64_t)index) % 5) - 2;
}

void fill(uint16_t *frame, int grain)
{
    for (int index = 0; index < SAMPLES; index++)
        frame[index] = (uint16_t)(level_at(index % (3 * SIZE), index / (3 * SIZE)) + grain_at(grain, index));
}

double now(void)
{
    struct timespec time;
    clock_gettime(CLOCK_MONOTONIC, &time);
    return 1e3 * (double)time.tv_sec + 1e-6 * (double)time.tv_nsec;
}

void keep_shorter(double *shortest, double start)
{
    const double time = now() - start;
    if (time < *shortest)
        *shortest = time;
}

void print_row(const char *title, const double *numbers, int count)
{
    printf("%-30s", title);
    for (int i = 0; i < count; i++)
        printf("%14.2f", numbers[i]);
    printf("\n");
}

void print_ratios(const char *title, const double *numbers, const double *divisors, int count)
{
    printf("%-30s", title);
    for (int i = 0; i < count; i++)
        printf("%14.2f", numbers[i] / divisors[i]);
    printf("\n");
}
