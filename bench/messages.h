// The messages that are measured. Each function lays one out in `out` and returns its length, at most MESSAGE_MOST.
#ifndef MESSAGES_H
#define MESSAGES_H

#include <stddef.h>
#include <stdint.h>

// What the length field of a header can say (RFC 6733, section 3).
enum { MESSAGE_MOST = 16777215 };

// An accounting request of 20 AVPs, two of them groups with 2 and 3 members.
size_t message_typical(uint8_t *out);

// An accounting request of 20 AVPs and no group, its Session-Id behind so many of the others, 19 at most.
size_t message_session(uint8_t *out, size_t before);

// A credit-control request of 28 AVPs (RFC 8506, section 3.1), six of them groups, up to five deep: what was used of a service, and
// some money for more.
size_t message_credit(uint8_t *out);

// One text in sixteen AVPs, whose codes are of all kinds of text.
size_t message_texts(uint8_t *out, const char *data, size_t length);

// No AVP.
size_t message_empty(uint8_t *out);

// One text, so many times over, in one AVP.
size_t message_text(uint8_t *out, const char *data, size_t length, size_t times);

// So many Unsigned32.
size_t message_numbers(uint8_t *out, size_t numbers);

// So many AVPs of a vendor, with data of five kinds in turn.
size_t message_vendors(uint8_t *out, size_t avps);

// Nothing but AVPs without data, as many as `most` bytes hold.
size_t message_small(uint8_t *out, size_t most);

// Groups, each in the one before, and a number in the last, at the given depth.
size_t message_nested(uint8_t *out, size_t depth);

// Groups of 12 bytes whose member is not complete, as many as `most` bytes hold: of each two headers are tried, so six times
// the headers tried is the length less 20. No message of its length tries more (demand 3).
size_t message_extremal(uint8_t *out, size_t most);

#endif
