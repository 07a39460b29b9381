// The RADIUS packets that are measured. Each function lays one out in `out` and returns its length, at most PACKET_MOST.
#ifndef PACKETS_H
#define PACKETS_H

#include <stddef.h>
#include <stdint.h>

// What the length field of a header may say (RFC 2865, section 3).
enum { PACKET_MOST = 4096 };

// An Accounting-Request of 15 attributes.
size_t packet_typical(uint8_t *out);

// Nothing but attributes without data, as many as `most` bytes hold.
size_t packet_small(uint8_t *out, size_t most);

#endif
