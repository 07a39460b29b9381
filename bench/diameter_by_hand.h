// Diameter read and written by hand, to be measured beside the library: arguments, answers and bytes are those of
// `tandrekily_message` and `tandrekily_write`.
#ifndef DIAMETER_BY_HAND_H
#define DIAMETER_BY_HAND_H

#include <stdbool.h>
#include <stddef.h>
#include <stdint.h>

void by_hand_message(bool rfc, size_t limit, const uint8_t *input, size_t input_length, uint8_t *store, size_t store_length,
                     uint64_t *result);

void by_hand_write(uint8_t flags, uint32_t command_code, uint32_t application_id, uint32_t hop_by_hop, uint32_t end_to_end,
                   const uint8_t *table, size_t table_length, const uint8_t *pool, size_t pool_length, uint8_t *out,
                   size_t out_length, uint64_t *result);

#endif
