#include "frame.h"

#include <inttypes.h>
#include <stdio.h>
#include <stdlib.h>

const uint8_t usual_layout[WELCHODRYS_LAYOUT_BYTES] = {4, 0, 5, 3, 1, 2, 0, 0, 0, 1, 1, 1};

int frame_make(struct frame *frame, uint64_t size, uint64_t depth, uint64_t format)
{
    *frame = (struct frame){size, depth, format, calloc(WELCHODRYS_FRAME_BYTES(size), 1)};
    if (frame->bytes == NULL)
        fprintf(stderr, "There is no memory for a frame of face size %" PRIu64 ".\n", size);
    return frame->bytes != NULL;
}

void frame_free(struct frame *frame)
{
    free(frame->bytes);
    frame->bytes = NULL;
}

size_t byte_count(const struct frame *frame)
{
    return WELCHODRYS_FRAME_BYTES(frame->size);
}

size_t sample_count(const struct frame *frame)
{
    return byte_count(frame) / 2;
}

unsigned sample_at(const struct frame *frame, size_t index)
{
    return frame->bytes[2 * index] + 256u * frame->bytes[2 * index + 1];
}

void put_sample(struct frame *frame, size_t index, unsigned level)
{
    frame->bytes[2 * index] = (uint8_t)level;
    frame->bytes[2 * index + 1] = (uint8_t)(level >> 8);
}
