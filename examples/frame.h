/* A frame as one thing: its bytes, and beside them what a call has to be told about them. */
#ifndef FRAME_H
#define FRAME_H

#include "welchodrys.h"

/* A frame in the usual layout. */
struct frame {
    uint64_t size, depth, format;
    uint8_t *bytes;
};

extern const uint8_t usual_layout[WELCHODRYS_LAYOUT_BYTES];

/* Takes memory for a frame's bytes, all 0; where there is none, says so, and bytes is NULL. */
int frame_make(struct frame *frame, uint64_t size, uint64_t depth, uint64_t format);

/* Gives the memory back. A frame that has none may be given back too. */
void frame_free(struct frame *frame);

/* The counts of a frame's bytes and of its samples. */
size_t byte_count(const struct frame *frame);
size_t sample_count(const struct frame *frame);

/* A sample is two bytes, the lower one first. */
unsigned sample_at(const struct frame *frame, size_t index);
void put_sample(struct frame *frame, size_t index, unsigned level);

#endif
