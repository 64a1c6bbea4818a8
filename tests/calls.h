/* The five calls of welchodrys.h in one form, so that a program can make any of them from a list. */
#ifndef CALLS_H
#define CALLS_H

#include <stddef.h>
#include <stdint.h>

enum { CALLS = 5, MOST_NUMBERS = 10, MOST_BUFFERS = 5 };

struct buffer {
    uint8_t *bytes;
    size_t length;
};

/*
 * A call: how many numbers and buffers it has, and a function that makes it. They are given in the order of the call's prototype;
 * the last buffer may be written.
 */
struct call {
    const char *name;
    size_t numbers, buffers;
    const char *buffer_names[MOST_BUFFERS];
    uint64_t (*make)(const uint64_t *numbers, const struct buffer *buffers);
};

/* In the order of the kinds in a record: fold, equal, look_up, convert, score. */
extern const struct call calls[CALLS];
enum { FOLD, EQUAL, LOOK_UP, CONVERT, SCORE };

/* The number that these bits are in two's complement. */
int64_t signed_number(uint64_t bits);

#endif
