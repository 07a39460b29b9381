// Random numbers and bytes.
#include "random.h"

// A generator of 64 bits (xorshift).
uint64_t random_64(void) {
    static uint64_t state = 0x9E3779B97F4A7C15;
    state ^= state << 13;
    state ^= state >> 7;
    state ^= state << 17;
    return state;
}

size_t below(size_t bound) {
    return (size_t)(random_64() % bound);
}

uint8_t any_byte(void) {
    static const uint8_t ends[] = {0x7F, 0x80, 0x8F, 0x90, 0x9F, 0xA0, 0xBF, 0xC1, 0xC2, 0xDF, 0xE0, 0xED, 0xEF, 0xF0, 0xF4, 0xF5};
    if (below(2) == 0) return (uint8_t)('a' + below(26));
    return below(2) == 0 ? ends[below(sizeof ends)] : (uint8_t)random_64();
}
