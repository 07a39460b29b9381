// Lays out the RADIUS packets that are measured.
#include "packets.h"
#include <string.h>

enum { HEADER = 20, HEAD = 2, ACCOUNTING_REQUEST = 4 };

static uint8_t *head(uint8_t *at, uint8_t type, size_t size) {
    *at++ = type;
    *at++ = (uint8_t)(HEAD + size);
    return at;
}

static uint8_t *data(uint8_t *at, uint8_t type, const char *bytes, size_t size) {
    at = head(at, type, size);
    memcpy(at, bytes, size);
    return at + size;
}

#define DATA(at, type, bytes) data(at, type, bytes, sizeof bytes - 1)

static uint8_t *number(uint8_t *at, uint8_t type, uint32_t value) {
    at = head(at, type, 4);
    for (int left = 24; left >= 0; left -= 8) *at++ = (uint8_t)(value >> left);
    return at;
}

// The header's length is set when the end is known.
static uint8_t *start(uint8_t *out) {
    out[0] = ACCOUNTING_REQUEST;
    out[1] = 0x2A;
    for (uint8_t i = 4; i < HEADER; i++) out[i] = (uint8_t)(0x5B * i);
    return out + HEADER;
}

static size_t finish(uint8_t *out, const uint8_t *end) {
    size_t length = (size_t)(end - out);
    out[2] = (uint8_t)(length >> 8);
    out[3] = (uint8_t)length;
    return length;
}

size_t packet_typical(uint8_t *out) {
    uint8_t *at = start(out);
    at = DATA(at, 1, "alice@example.net");    // User-Name
    at = number(at, 4, 0xC0000210);           // NAS-IP-Address
    at = number(at, 5, 20);                   // NAS-Port
    at = number(at, 6, 2);                    // Service-Type
    at = number(at, 7, 1);                    // Framed-Protocol
    at = number(at, 8, 0xC6336407);           // Framed-IP-Address
    at = DATA(at, 30, "00-10-A4-23-19-C0");   // Called-Station-Id
    at = DATA(at, 31, "00-10-A4-6B-52-1E");   // Calling-Station-Id
    at = DATA(at, 32, "gateway-01");          // NAS-Identifier
    at = number(at, 40, 2);                   // Acct-Status-Type
    at = number(at, 41, 0);                   // Acct-Delay-Time
    at = DATA(at, 44, "0000A3F1-1876543210"); // Acct-Session-Id
    at = number(at, 45, 1);                   // Acct-Authentic
    at = number(at, 46, 300);                 // Acct-Session-Time
    at = number(at, 61, 5);                   // NAS-Port-Type
    return finish(out, at);
}

size_t packet_small(uint8_t *out, size_t most) {
    uint8_t *at = start(out);
    for (size_t left = most - HEADER; left >= HEAD; left -= HEAD) at = head(at, 1, 0);
    return finish(out, at);
}
