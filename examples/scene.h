/* A scene to try conversions on: a person sees which face is which, how it is turned, and where straight lines bend. */
#ifndef SCENE_H
#define SCENE_H

#include "frame.h"

/*
 * Makes a frame with a scene in it, CMP in the usual layout. Each face has a grey of its own, brighter to the right and to
 * the top of the face. From size 32 up it also has a grid, a bright border, and its letter: F front, B back, U top (up),
 * D bottom (down), R right, L left. Nothing has a hard edge. Where there is no memory, it says so and returns 0.
 */
int scene_make(struct frame *frame, uint64_t size, uint64_t depth);

#endif
