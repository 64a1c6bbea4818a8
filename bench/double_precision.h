/* Two conversions in double precision, which `make bench` compares with welchodrys_convert. Both do the same work. */
#ifndef DOUBLE_PRECISION_H
#define DOUBLE_PRECISION_H

#include <stdint.h>

/* Source and target share size, depth and layout. The codes and the 12 bytes of a layout are those of welchodrys.h. */
struct conversion {
    int size;
    int depth;
    int source_format, target_format;
    int sampler;
    const uint8_t *layout;
    const int *turn;
};

/*
 * Each writes every sample of the target. Frames are bytes, as welchodrys_convert takes them, and nothing is checked. The tuned one
 * uses them as arrays of uint16_t, so they have to be such arrays.
 */
void convert_straightforward(const struct conversion *conversion, const uint8_t *source, uint8_t *target);
void convert_tuned(const struct conversion *conversion, const uint8_t *source, uint8_t *target);

#endif
