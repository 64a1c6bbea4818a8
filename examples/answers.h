/* To read an answer, and to put a refusal in words. */
#ifndef ANSWERS_H
#define ANSWERS_H

#include <stddef.h>
#include <stdint.h>

/* Number k of an answer, whatever the byte order of this machine. */
int64_t number_at(const uint8_t *answer, size_t k);

/* What a call returned, in words. */
const char *in_words(uint64_t code);

/* Whether a call was accepted; prints the refusal if it was not. */
int accepted(const char *call, uint64_t code);

#endif
