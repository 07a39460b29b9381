// Big-endian numbers in bytes, as one load or store each: of shifts the compiler makes single bytes here.
// A file that includes this defines _DEFAULT_SOURCE first, for endian.h.
#ifndef NUMBERS_H
#define NUMBERS_H

#include <endian.h>
#include <stdint.h>
#include <string.h>

static inline uint32_t get_32(const uint8_t *at) {
    uint32_t n;
    memcpy(&n, at, sizeof n);
    return be32toh(n);
}

static inline uint64_t get_64(const uint8_t *at) {
    uint64_t n;
    memcpy(&n, at, sizeof n);
    return be64toh(n);
}

static inline void put_32(uint8_t *at, uint32_t n) {
    n = htobe32(n);
    memcpy(at, &n, sizeof n);
}

static inline void put_64(uint8_t *at, uint64_t n) {
    n = htobe64(n);
    memcpy(at, &n, sizeof n);
}

#endif
