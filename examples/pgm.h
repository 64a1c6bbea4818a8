/* Frames as binary PGM pictures: a short header in letters, then the samples, row after row. */
#ifndef PGM_H
#define PGM_H

#include "frame.h"

/*
 * Reads a picture that is a frame: 3A columns by 2A rows, A from 1 to 512, with a largest level (maxval) of 255 to 4095. The
 * depth is the smallest that holds the largest level. A picture does not tell its format; the frame is taken as CMP.
 *
 * Returns 1, or 0 where the file is anything else; it then says on stderr what is wrong, and the frame has no memory.
 */
int pgm_read(const char *name, struct frame *frame);

/*
 * Writes a frame as the file NAME in a directory; its largest level is that of the depth. All goes into NAME.part first,
 * which becomes NAME once it is whole, so a half-written NAME never stands.
 *
 * Returns 1, or 0 where that failed; it then says on stderr why, and NAME.part is removed.
 */
int pgm_write(const char *directory, const char *name, const struct frame *frame);

#endif
