// What is altered at random before it is compared: the same numbers in each run.
#ifndef RANDOM_H
#define RANDOM_H

#include <stddef.h>
#include <stdint.h>

uint64_t random_64(void);

size_t below(size_t bound);

// Half of the bytes are letters, or few texts would be well-formed; a fourth are at an end of a range of RFC 3629's syntax.
uint8_t any_byte(void);

#endif
