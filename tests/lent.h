/*
 * Memory to lend to a call. What is lent ends right in front of a page that can be neither read nor written, so that an access
 * past its end faults. In front of it there are at least 64 marked bytes, and in front of these there is such a page again.
 */
#ifndef LENT_H
#define LENT_H

#include <stddef.h>
#include <stdint.h>

struct lent {
    uint8_t *open; /* the first byte that can be read and written */
    uint8_t *end;  /* behind the last one */
    size_t most;   /* no more bytes can be lent */
    uint8_t first_mark;
};

/* Where memory holds other bytes than expected; the position counts from the first lent byte, and is negative in front of it. */
struct difference {
    size_t count;
    ptrdiff_t first;
};

/* Prepares memory of which so many bytes can be lent. */
void prepare(struct lent *lent, size_t most);

/*
 * Puts these bytes at the memory's end, behind the marks, and has no page more than these need open. Another first mark gives
 * other marks. Returns where the bytes are.
 */
uint8_t *lend(struct lent *lent, const uint8_t *bytes, size_t length, uint8_t first_mark);

/* Compares what is in the memory now, the bytes that were lent and the marks in front of them, with what is expected. */
struct difference compare_lent(const struct lent *lent, const uint8_t *expected, size_t length);

/* Ends the program where a function of the system, which has this name, is not done. */
void require(int done, const char *what);

/* Has a memory fault call `handler`, which must end the program. */
void at_fault(void (*handler)(int number));

#endif
