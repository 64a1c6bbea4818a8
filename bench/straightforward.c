/*
 * Straightforward: what a maker would write first. The target's samples are computed in the order of their indices, each by
 * itself, step by step as the formulas stand; only the turn's matrix and the slots of the faces are found once a call.
 */
#include "cube.h"
#include "double_precision.h"
#include "layouts.h"
#include "welchodrys.h"

#include <math.h>

/* A position on a source face, in samples, rounded to 64ths of one. */
struct position {
    int face;
    double column, row;
};

/* What stays the same for all samples of a conversion. */
struct setting {
    const struct conversion *conversion;
    struct view source;
    double matrix[3][3];
};

/* Where the middle of a column or row lies on a target face, from -1 to 1; in ACP by equation 12. */
static double coordinate(const struct conversion *conversion, int number)
{
    const double plain = (2 * number + 1) / (double)conversion->size - 1;
    if (conversion->target_format == WELCHODRYS_CMP)
        return plain;
    return copysign((0.34 - sqrt(0.34 * 0.34 - 0.09 * fabs(plain))) / 0.18, plain);
}

/* From -1 to 1 across a source face to samples, rounded to 64ths; in ACP by equation 14. */
static double position_on_face(const struct conversion *conversion, double u)
{
    const double g = conversion->source_format == WELCHODRYS_CMP ? u : u * (1.36 - 0.36 * fabs(u));
    const double position = conversion->size * (g + 1) / 2 - 0.5;
    return floor(position * 64 + 0.5) / 64;
}

/* Where a ray meets the cube. */
static struct position position_of(const struct conversion *conversion, struct ray ray)
{
    const struct facing at = facing_of(ray);
    return (struct position){at.face, position_on_face(conversion, at.u), position_on_face(conversion, at.v)};
}

static int nearest(const struct setting *setting, struct position at)
{
    const int last = setting->conversion->size - 1;
    const int column = (int)floor(at.column + 0.5), row = (int)floor(at.row + 0.5);
    return sample_at(&setting->source, at.face, clip(column, last), clip(row, last));
}

/* The weights of four taps in a line, for a position that lies `phase` behind the second. */
static void set_weights(double phase, double weights[4])
{
    const double square = phase * phase, cube = square * phase;
    weights[0] = -0.5 * cube + square - 0.5 * phase;
    weights[1] = 1.5 * cube - 2.5 * square + 1;
    weights[2] = -1.5 * cube + 2 * square + 0.5 * phase;
    weights[3] = 0.5 * cube - 0.5 * square;
}

static int cubic(const struct setting *setting, struct position at)
{
    const int last = setting->conversion->size - 1;
    const int column = (int)floor(at.column), row = (int)floor(at.row);
    double across[4], down[4];
    set_weights(at.column - column, across);
    set_weights(at.row - row, down);

    double sum = 0;
    for (int i = 0; i < 4; i++)
        for (int j = 0; j < 4; j++)
            sum += down[i] * across[j] * sample_at(&setting->source, at.face, clip(column - 1 + j, last), clip(row - 1 + i, last));
    return clip((int)floor(sum + 0.5), (1 << setting->conversion->depth) - 1);
}

/* The target's value at column m and row n of a face. */
static int value_on_face(const struct setting *setting, int face, int m, int n)
{
    const struct conversion *conversion = setting->conversion;
    const struct ray ray = ray_of(face, coordinate(conversion, m), coordinate(conversion, n));
    const struct position at = position_of(conversion, turned(setting->matrix, ray));
    return conversion->sampler == WELCHODRYS_NEAREST ? nearest(setting, at) : cubic(setting, at);
}

/* The target's value at a column and a row of the frame, which undoes the quarter turns of the slot there. */
static int value_in_frame(const struct setting *setting, int frame_column, int frame_row)
{
    const int size = setting->conversion->size;
    const int slot = frame_row / size * 3 + frame_column / size;
    const struct spot spot = turned_back(setting->conversion->layout[6 + slot], size, frame_column % size, frame_row % size);
    return value_on_face(setting, setting->conversion->layout[slot], spot.m, spot.n);
}

void convert_straightforward(const struct conversion *conversion, const uint8_t *source, uint8_t *target)
{
    struct setting setting = {.conversion = conversion, .source = view_of(source, conversion->layout, conversion->size)};
    set_matrix(conversion->turn, setting.matrix);

    const int columns = 3 * conversion->size, rows = 2 * conversion->size;
    for (int row = 0; row < rows; row++)
        for (int column = 0; column < columns; column++) {
            const int value = value_in_frame(&setting, column, row);
            const int index = row * columns + column;
            target[2 * index] = (uint8_t)(value & 255);
            target[2 * index + 1] = (uint8_t)(value >> 8);
        }
}
