/* random.c: the random source, and sizes and lengths that are none. */
#include "compare.h"

static uint64_t random_state;

uint64_t random_word(void)
{
    uint64_t z = (random_state += UINT64_C(0x9E3779B97F4A7C15));

    z = (z ^ (z >> 30)) * UINT64_C(0xBF58476D1CE4E5B9);
    z = (z ^ (z >> 27)) * UINT64_C(0x94D049BB133111EB);
    return z ^ (z >> 31);
}

void start_random(uint64_t seed, uint64_t input)
{
    random_state = seed;
    random_state = random_word() ^ input * UINT64_C(0xD1342543DE82EF95);
}

size_t below(size_t limit)
{
    return (size_t)(random_word() % limit);
}

/* True once in so many times. */
int once_in(size_t times)
{
    return below(times) == 0;
}

void fill_random(uint8_t *bytes, size_t length)
{
    while (length > 0) {
        uint64_t word = random_word();
        size_t part = length < sizeof word ? length : sizeof word;

        memcpy(bytes, &word, part);
        bytes += part;
        length -= part;
    }
}

/* A number that is no size, for which a matrix of m regions is lent all the same. */
size_t hostile_size(size_t m)
{
    const size_t high = (size_t)1 << 32, top = (size_t)1 << 63;
    const size_t sizes[] = { 0, 65, 66, 255, 256, 257, 256 + m, 512 + m, high, high + m,
                             high * m, top, top + m, SIZE_MAX, SIZE_MAX - m };

    return sizes[below(COUNT_OF(sizes))];
}

size_t off_by_one(size_t length)
{
    return length > 0 && once_in(2) ? length - 1 : length + 1;
}

size_t hostile_length(size_t length)
{
    return once_in(4) ? 0 : off_by_one(length);
}
