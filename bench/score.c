#include "layouts.h"
#include "score.h"

#include <math.h>

/* The weight at column m and row n of a face (equation 109), the same in both formats. */
static double weight_at(int size, int m, int n)
{
    const double u = (2 * m + 1) / (double)size - 1, v = (2 * n + 1) / (double)size - 1;
    const double k = 1 + u * u + v * v;
    return 1 / (k * sqrt(k));
}

void set_face_weights(int size, double *weights)
{
    for (int n = 0; n < size; n++)
        for (int m = 0; m < size; m++)
            weights[n * size + m] = weight_at(size, m, n);
}

/* Straightforward: what a maker would write first. Each sample's weight and the index in each frame are computed there and then. */
struct sums score_straightforward(const struct scoring *scoring, const uint8_t *first, const uint8_t *second)
{
    const struct view first_view = view_of(first, scoring->first_layout, scoring->size);
    const struct view second_view = view_of(second, scoring->second_layout, scoring->size);
    struct sums sums = {0, 0};
    for (int face = 0; face < 6; face++)
        for (int n = 0; n < scoring->size; n++)
            for (int m = 0; m < scoring->size; m++) {
                const double weight = weight_at(scoring->size, m, n);
                const double difference = sample_at(&first_view, face, m, n) - sample_at(&second_view, face, m, n);
                sums.error += weight * difference * difference;
                sums.weights += weight;
            }
    return sums;
}

/* Adds up one face by its steps in the two frames. */
static struct sums add_face(struct sums sums, int size, const double *weights,
    const uint16_t *first, struct steps first_steps, const uint16_t *second, struct steps second_steps)
{
    for (int n = 0; n < size; n++)
        for (int m = 0; m < size; m++) {
            const double weight = weights[n * size + m];
            const double difference = first[first_steps.base + m * first_steps.across + n * first_steps.down]
                - second[second_steps.base + m * second_steps.across + n * second_steps.down];
            sums.error += weight * difference * difference;
            sums.weights += weight;
        }
    return sums;
}

static struct steps exchanged(struct steps steps)
{
    return (struct steps){steps.base, steps.down, steps.across};
}

/*
 * With the weights ready: they come in a table, each face has a base and steps into either frame, and samples are loaded as 16
 * bits. Columns and rows are exchanged where that leads along the first frame's lines; the weights stay the same then.
 */
struct sums score_with_weights(const struct scoring *scoring, const uint8_t *first, const uint8_t *second)
{
    struct steps first_steps[6], second_steps[6];
    set_steps(scoring->size, scoring->first_layout, first_steps);
    set_steps(scoring->size, scoring->second_layout, second_steps);
    struct sums sums = {0, 0};
    for (int face = 0; face < 6; face++) {
        const int turned = first_steps[face].down == 1 || first_steps[face].down == -1;
        sums = add_face(sums, scoring->size, scoring->weights,
            (const uint16_t *)first, turned ? exchanged(first_steps[face]) : first_steps[face],
            (const uint16_t *)second, turned ? exchanged(second_steps[face]) : second_steps[face]);
    }
    return sums;
}

/* The plain squared error, in whole numbers: index by index, with no weights and whatever the layouts are. */
struct sums score_plain(const struct scoring *scoring, const uint8_t *first, const uint8_t *second)
{
    const uint16_t *first_samples = (const uint16_t *)first, *second_samples = (const uint16_t *)second;
    const int count = 6 * scoring->size * scoring->size;
    int64_t error = 0;
    for (int i = 0; i < count; i++) {
        const int64_t difference = first_samples[i] - second_samples[i];
        error += difference * difference;
    }
    return (struct sums){(double)error, count};
}
