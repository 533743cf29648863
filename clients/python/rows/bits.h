/* Bits and words in memory, which needs no alignment. */
#ifndef BITCOL_BITS_H
#define BITCOL_BITS_H

#include <stddef.h>
#include <stdint.h>

/* Exchanges, in each pair of words that lie `distance` apart, the bits of the first that have a mask's bit `distance`
 * places lower with the second's bits at the mask. */
static inline void exchange(uint32_t words[32], size_t distance, uint32_t mask) {
    for (size_t first = 0; first < 32; first += 2 * distance)
        for (size_t place = first; place < first + distance; place++) {
            uint32_t changed = (words[place] >> distance ^ words[place + distance]) & mask;
            words[place] ^= changed << distance;
            words[place + distance] ^= changed;
        }
}

/* Transposes a matrix of 32 by 32 bits: bit i of word k becomes bit k of word i. */
static inline void transpose(uint32_t words[32]) {
    exchange(words, 16, 0x0000FFFFu);
    exchange(words, 8, 0x00FF00FFu);
    exchange(words, 4, 0x0F0F0F0Fu);
    exchange(words, 2, 0x33333333u);
    exchange(words, 1, 0x55555555u);
}

/* The unsigned number of four bytes, lowest first. Compilers make a single load of this, and likewise below. */
static inline uint32_t loaded_4(const uint8_t *at) {
    return (uint32_t)at[0] | (uint32_t)at[1] << 8 | (uint32_t)at[2] << 16 | (uint32_t)at[3] << 24;
}

static inline uint64_t loaded_8(const uint8_t *at) { return loaded_4(at) | (uint64_t)loaded_4(at + 4) << 32; }

static inline void store_4(uint8_t *at, uint32_t word) {
    at[0] = (uint8_t)word;
    at[1] = (uint8_t)(word >> 8);
    at[2] = (uint8_t)(word >> 16);
    at[3] = (uint8_t)(word >> 24);
}

static inline void store_8(uint8_t *at, uint64_t word) {
    store_4(at, (uint32_t)word);
    store_4(at + 4, (uint32_t)(word >> 32));
}

/* The number of `size` bytes, 4 or 8, in two's complement. The conversion to a signed type is spelled out, since the
 * language leaves a cast of a number that the type doesn't have to the compiler. */
static inline int64_t loaded_signed(const uint8_t *at, size_t size) {
    if (size == 4) {
        int64_t word = loaded_4(at);
        return word <= INT32_MAX ? word : word - ((int64_t)1 << 32);
    }
    uint64_t word = loaded_8(at);
    return word <= INT64_MAX ? (int64_t)word : -(int64_t)~word - 1;
}

#endif
