// How much of a text is well-formed UTF-8, by hand.
#ifndef UTF8_H
#define UTF8_H

#include <stdbool.h>
#include <stddef.h>
#include <stdint.h>
#include <string.h>

static inline bool is_tail(uint8_t byte) {
    return (byte & 0xC0) == 0x80;
}

// How many bytes the character at the front has, which is not ASCII, or 0 where there is none: UTF8-2, UTF8-3 and UTF8-4 of RFC 3629,
// section 4.
static inline size_t character(const uint8_t *at, size_t left) {
    uint8_t first = at[0];
    if (first < 0xE0) return first >= 0xC2 && left >= 2 && is_tail(at[1]) ? 2 : 0;
    if (first < 0xF0) {
        if (left < 3 || !is_tail(at[1]) || !is_tail(at[2])) return 0;
        if (first == 0xE0) return at[1] >= 0xA0 ? 3 : 0;
        return first != 0xED || at[1] <= 0x9F ? 3 : 0;
    }
    if (left < 4 || !is_tail(at[1]) || !is_tail(at[2]) || !is_tail(at[3])) return 0;
    if (first == 0xF0) return at[1] >= 0x90 ? 4 : 0;
    return first < 0xF4 || (first == 0xF4 && at[1] <= 0x8F) ? 4 : 0;
}

// How many bytes of ASCII are at the front. Eight are passed at once.
static inline size_t ascii(const uint8_t *text, size_t length) {
    size_t at = 0;
    for (uint64_t eight; length - at >= sizeof eight; at += sizeof eight) {
        memcpy(&eight, text + at, sizeof eight);
        if ((eight & 0x8080808080808080) != 0) break;
    }
    while (at < length && text[at] < 0x80) at++;
    return at;
}

// The length of the longest prefix that is well-formed.
static inline size_t well_formed(const uint8_t *text, size_t length) {
    size_t at = 0;
    while (at < length) {
        size_t size = text[at] < 0x80 ? ascii(text + at, length - at) : character(text + at, length - at);
        if (size == 0) break;
        at += size;
    }
    return at;
}

#endif
