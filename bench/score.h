/* Two weighted errors in double precision and a plain squared error, which `make bench` compares with welchodrys_score. */
#ifndef SCORE_H
#define SCORE_H

#include <stdint.h>

/* Each frame has its own layout, of 12 bytes as in welchodrys.h. The weights are those of a face, from set_face_weights. */
struct scoring {
    int size;
    const uint8_t *first_layout, *second_layout;
    const double *weights;
};

/* The sum of the squared differences, each times its weight, and the sum of the weights. */
struct sums {
    double error, weights;
};

/* The weights of a face's samples, row after row. */
void set_face_weights(int size, double *weights);

/*
 * Frames are bytes, as welchodrys_score takes them, and nothing is checked. All but the straightforward one use them as arrays of
 * uint16_t, so they have to be such arrays.
 */
struct sums score_straightforward(const struct scoring *scoring, const uint8_t *first, const uint8_t *second);
struct sums score_with_weights(const struct scoring *scoring, const uint8_t *first, const uint8_t *second);
struct sums score_plain(const struct scoring *scoring, const uint8_t *first, const uint8_t *second);

#endif
