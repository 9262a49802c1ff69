#include "source.h"

struct source source_of_seed(uint64_t seed)
{
    return (struct source){.state = seed};
}

struct source source_of_input(const uint8_t *input, size_t length)
{
    return (struct source){.input = input, .left = length};
}

bool exhausted(const struct source *source)
{
    return source->input != NULL && source->left == 0;
}

/* The splitmix64 generator. */
static uint64_t next(uint64_t *state)
{
    uint64_t z = *state += 0x9e3779b97f4a7c15;
    z = (z ^ (z >> 30)) * 0xbf58476d1ce4e5b9;
    z = (z ^ (z >> 27)) * 0x94d049bb133111eb;
    return z ^ (z >> 31);
}

/* A number of so many bytes; an input lasts longer where few are asked for. */
static uint64_t draw(struct source *source, int bytes)
{
    if (source->input == NULL)
        return next(&source->state);
    uint64_t drawn = 0;
    for (int i = 0; i < bytes && source->left > 0; i++) {
        drawn = drawn << 8 | *source->input++;
        source->left--;
    }
    return drawn;
}

uint64_t any(struct source *source)
{
    return draw(source, 8);
}

uint64_t below(struct source *source, uint64_t limit)
{
    return draw(source, limit <= 1 << 8 ? 1 : limit <= 1 << 16 ? 2 : 8) % limit;
}

uint64_t between(struct source *source, uint64_t least, uint64_t most)
{
    switch (below(source, 4)) {
    case 0:
        return least;
    case 1:
        return most;
    default:
        return least + below(source, most - least + 1);
    }
}

bool one_in(struct source *source, uint64_t times)
{
    return below(source, times) == 0;
}

uint64_t pick_of(struct source *source, const uint64_t *choices, size_t count)
{
    return choices[below(source, count)];
}

/* Two drawn bytes stand for all, so that long data does not use an input up. */
void fill(struct source *source, uint8_t *bytes, size_t length)
{
    uint64_t state = draw(source, 2);
    for (size_t i = 0; i < length; i++)
        bytes[i] = (uint8_t)next(&state);
}
