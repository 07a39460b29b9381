// A message in a file, and the store that is lent for its records.
#ifndef FILE_H
#define FILE_H

#include <stddef.h>
#include <stdint.h>

// Reads the message into `input`, which has MESSAGE_MOST bytes, and returns its length.
size_t load(const char *path, uint8_t *input);

// A store with room for the records that the message needs, rounded up to a multiple of 64. `room` is its length in bytes.
uint8_t *lend(const uint8_t *input, size_t length, size_t *room);

#endif
