/* What the inputs of calls are drawn from: a seed, or the bytes that a fuzzer made up. */
#ifndef SOURCE_H
#define SOURCE_H

#include <stdbool.h>
#include <stddef.h>
#include <stdint.h>

struct source {
    uint64_t state;       /* of the generator, used where there is no input */
    const uint8_t *input; /* or NULL */
    size_t left;          /* bytes of the input not drawn yet */
};

struct source source_of_seed(uint64_t seed);
struct source source_of_input(const uint8_t *input, size_t length);

/* Whether there is nothing left to draw; from then on every draw is 0. */
bool exhausted(const struct source *source);

/* Any number of 64 bits. */
uint64_t any(struct source *source);
/* A number from 0 up to, but without, the limit. */
uint64_t below(struct source *source, uint64_t limit);
/* A number from the least to the most, often one of these two. */
uint64_t between(struct source *source, uint64_t least, uint64_t most);
/* True once in so many times on average. */
bool one_in(struct source *source, uint64_t times);
uint64_t pick_of(struct source *source, const uint64_t *choices, size_t count);
void fill(struct source *source, uint8_t *bytes, size_t length);

/* One of the numbers. */
#define PICK(source, ...)                                                                          \
    pick_of(source, (const uint64_t[]){__VA_ARGS__},                                               \
            sizeof((const uint64_t[]){__VA_ARGS__}) / sizeof(uint64_t))

#endif
