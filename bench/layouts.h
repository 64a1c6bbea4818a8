/* Where a layout puts the samples of the faces: found anew for each sample, or by steps that are found once a face. */
#ifndef LAYOUTS_H
#define LAYOUTS_H

#include <stddef.h>
#include <stdint.h>

/* A frame, with the 12 bytes of its layout and the slot of each face. */
struct view {
    const uint8_t *samples, *layout;
    int size, slot_of_face[6];
};

static inline struct view view_of(const uint8_t *samples, const uint8_t *layout, int size)
{
    struct view view = {.samples = samples, .layout = layout, .size = size};
    for (int slot = 0; slot < 6; slot++)
        view.slot_of_face[layout[slot]] = slot;
    return view;
}

/* The sample at column m and row n of a face, which the layout puts into a slot after clockwise quarter turns. */
static inline int sample_at(const struct view *view, int face, int m, int n)
{
    const int size = view->size, last = size - 1;
    const int slot = view->slot_of_face[face];
    int column = m, row = n;
    switch (view->layout[6 + slot]) {
    case 1: column = last - n, row = m; break;
    case 2: column = last - m, row = last - n; break;
    case 3: column = n, row = last - m; break;
    default: break;
    }
    const int index = (slot / 3 * size + row) * 3 * size + slot % 3 * size + column;
    return view->samples[2 * index] | view->samples[2 * index + 1] << 8;
}

/* The sample at a face's column m and row n has the index base + m * across + n * down. */
struct steps {
    ptrdiff_t base, across, down;
};

/* A face's steps in a slot whose top left sample has the index `corner`, after clockwise quarter turns. */
static inline struct steps steps_in_slot(ptrdiff_t size, ptrdiff_t corner, int turns)
{
    const ptrdiff_t line = 3 * size, last = size - 1;
    switch (turns) {
    case 0: return (struct steps){corner, 1, line};
    case 1: return (struct steps){corner + last, line, -1};
    case 2: return (struct steps){corner + last * line + last, -1, -line};
    default: return (struct steps){corner + last * line, -line, 1};
    }
}

static inline ptrdiff_t corner_of(ptrdiff_t size, int slot)
{
    return slot / 3 * size * 3 * size + slot % 3 * size;
}

static inline void set_steps(int size, const uint8_t *layout, struct steps steps[6])
{
    for (int slot = 0; slot < 6; slot++)
        steps[layout[slot]] = steps_in_slot(size, corner_of(size, slot), layout[6 + slot]);
}

#endif
