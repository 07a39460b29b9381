// RADIUS read and written by a loop as one writes it by hand, to be measured beside the library: arguments, answers and bytes are those
// of `tandrekily_radius` and `tandrekily_radius_write`.
#ifndef BY_HAND_H
#define BY_HAND_H

#include <stddef.h>
#include <stdint.h>

void by_hand_radius(const uint8_t *input, size_t input_length, uint8_t *store, size_t store_length, uint8_t *authenticator,
                    uint64_t *result);

void by_hand_radius_write(uint8_t code, uint8_t identifier, const uint8_t *authenticator, const uint8_t *table, size_t table_length,
                          const uint8_t *pool, size_t pool_length, uint8_t *out, size_t out_length, uint64_t *result);

#endif
