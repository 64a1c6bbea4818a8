/*
 * Tuned by hand: the formulas of straightforward.c, with what can be found ahead found once a call. The coordinates are in a table,
 * each face has a base and two steps into the frame, samples are loaded and stored as 16 bits, and positions are whole 64ths, so
 * that nothing calls floor(). This machine is taken to be little-endian, as frames are.
 */
#include "cube.h"
#include "double_precision.h"
#include "layouts.h"
#include "welchodrys.h"

#include <math.h>
#include <stddef.h>

enum { LARGEST_FACE_SIZE = 512 /* that of welchodrys_convert */ };

/* A position on a source face; column and row are in 64ths of a sample, as a look-up gives them. */
struct position {
    int face, column, row;
};

/* What stays the same for all samples of a conversion. */
struct setting {
    const struct conversion *conversion;
    const uint16_t *source;
    uint16_t *target;
    double matrix[3][3];
    double coordinates[LARGEST_FACE_SIZE];
    struct steps steps[6];
};

/* Where the middle of each column or row lies on a target face, from -1 to 1; in ACP by equation 12. */
static void set_coordinates(int format, int size, double coordinates[LARGEST_FACE_SIZE])
{
    for (int i = 0; i < size; i++) {
        const double plain = (2 * i + 1 - size) / (double)size;
        const double curved = (0.34 - sqrt(0.34 * 0.34 - 0.09 * fabs(plain))) / 0.18;
        coordinates[i] = format == WELCHODRYS_CMP ? plain : copysign(curved, plain);
    }
}

/*
 * From -1 to 1 across a source face to 64ths of a sample, in ACP by equation 14. What is cast is not negative, so it is rounded
 * down.
 */
static int position64(const struct conversion *conversion, double u)
{
    const double g = conversion->source_format == WELCHODRYS_CMP ? u : u * (1.36 - 0.36 * fabs(u));
    return (int)(32 * conversion->size * (g + 1) + 0.5) - 32;
}

/* Where a ray meets the cube. */
static struct position position_of(const struct conversion *conversion, struct ray ray)
{
    const struct facing at = facing_of(ray);
    return (struct position){at.face, position64(conversion, at.u), position64(conversion, at.v)};
}

static int nearest(const struct setting *setting, struct position at)
{
    const struct steps steps = setting->steps[at.face];
    const int last = setting->conversion->size - 1;
    const int column = clip((at.column + 32) >> 6, last), row = clip((at.row + 32) >> 6, last);
    return setting->source[steps.base + column * steps.across + row * steps.down];
}

/* The weights of four taps in a line, for a position that lies `phase` behind the second. */
static void set_weights(double phase, double weights[4])
{
    weights[0] = ((-0.5 * phase + 1) * phase - 0.5) * phase;
    weights[1] = (1.5 * phase - 2.5) * phase * phase + 1;
    weights[2] = ((-1.5 * phase + 2) * phase + 0.5) * phase;
    weights[3] = (0.5 * phase - 0.5) * phase * phase;
}

static int rounded_to_depth(double value, int depth)
{
    const int largest = (1 << depth) - 1;
    return value <= 0 ? 0 : value >= largest ? largest : (int)(value + 0.5);
}

/* The shifts round down below zero too, as every C compiler of today has them. */
static int cubic(const struct setting *setting, struct position at)
{
    const struct steps steps = setting->steps[at.face];
    const int last = setting->conversion->size - 1;
    const int column = at.column >> 6, row = at.row >> 6;
    double across[4], down[4];
    set_weights((at.column & 63) / 64.0, across);
    set_weights((at.row & 63) / 64.0, down);

    ptrdiff_t columns[4];
    for (int j = 0; j < 4; j++)
        columns[j] = clip(column - 1 + j, last) * steps.across;

    double sum = 0;
    for (int i = 0; i < 4; i++) {
        const ptrdiff_t start = steps.base + clip(row - 1 + i, last) * steps.down;
        double line = 0;
        for (int j = 0; j < 4; j++)
            line += across[j] * setting->source[start + columns[j]];
        sum += down[i] * line;
    }
    return rounded_to_depth(sum, setting->conversion->depth);
}

/* The value of the target at a place of a face. */
static int value_at(const struct setting *setting, int face, int m, int n)
{
    const struct ray ray = turned(setting->matrix, ray_of(face, setting->coordinates[m], setting->coordinates[n]));
    const struct position at = position_of(setting->conversion, ray);
    return setting->conversion->sampler == WELCHODRYS_NEAREST ? nearest(setting, at) : cubic(setting, at);
}

/* The value of the target at a column and a row of a slot, which undoes the slot's quarter turns. */
static int value_in_slot(const struct setting *setting, int slot, int column, int row)
{
    const struct spot spot = turned_back(setting->conversion->layout[6 + slot], setting->conversion->size, column, row);
    return value_at(setting, setting->conversion->layout[slot], spot.m, spot.n);
}

/* The rows of a slot lie unbroken in the frame, whatever its turn. */
static void fill_slot(const struct setting *setting, int slot)
{
    const int size = setting->conversion->size;
    for (int row = 0; row < size; row++) {
        const ptrdiff_t start = corner_of(size, slot) + row * (ptrdiff_t)(3 * size);
        for (int column = 0; column < size; column++)
            setting->target[start + column] = (uint16_t)value_in_slot(setting, slot, column, row);
    }
}

void convert_tuned(const struct conversion *conversion, const uint8_t *source, uint8_t *target)
{
    struct setting setting = {.conversion = conversion, .source = (const uint16_t *)source, .target = (uint16_t *)target};
    set_matrix(conversion->turn, setting.matrix);
    set_coordinates(conversion->target_format, conversion->size, setting.coordinates);
    set_steps(conversion->size, conversion->layout, setting.steps);
    for (int slot = 0; slot < 6; slot++)
        fill_slot(&setting, slot);
}
