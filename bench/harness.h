/* What the tables of `make bench` share: the frames' content, the clock and the rows. */
#ifndef HARNESS_H
#define HARNESS_H

#include "welchodrys.h"

#include <stdint.h>

enum {
    SIZE = 512,
    DEPTH = 10,
    RUNS = 15,
    SAMPLES = 6 * SIZE * SIZE,
    DISAGREEMENT = 2 /* the status where what would be measured does other work */
};

extern const uint8_t usual_layout[WELCHODRYS_LAYOUT_BYTES];

/*
 * Fills a frame with smooth content and a grain; another number gives another grain on the same content. Samples are numbers of
 * this machine here. It is taken to be little-endian, as frames are.
 */
void fill(uint16_t *frame, int grain);

/* Milliseconds, from some start. */
double now(void);

/* Takes the time since `start` where it is the shortest so far. */
void keep_shorter(double *shortest, double start);

void print_row(const char *title, const double *numbers, int count);
void print_ratios(const char *title, const double *numbers, const double *divisors, int count);

#endif
