// Lays out the messages that are measured; the first three are those of oracle/beside/src/wire.rs.
#include "messages.h"
#include <string.h>

enum { HEADER = 20, HEAD = 8, HEAD_WITH_VENDOR = 12, NUMBER = 12, LONG_NUMBER = 16, VENDOR = 0x80, MANDATORY = 0x40 };
enum { FAILED_AVP = 279, ERROR_MESSAGE = 281, PROXY_INFO = 284, VENDOR_SPECIFIC_APPLICATION_ID = 260, THREE_GPP = 10415 };
enum { CC_MONEY = 413, REQUESTED_SERVICE_UNIT = 437, SUBSCRIPTION_ID = 443, UNIT_VALUE = 445, USED_SERVICE_UNIT = 446 };
enum { MULTIPLE_SERVICES_CREDIT_CONTROL = 456 };

static uint8_t *put(uint8_t *at, uint32_t value, int bytes) {
    while (bytes-- > 0) *at++ = (uint8_t)(value >> 8 * bytes);
    return at;
}

static uint8_t *head(uint8_t *at, uint32_t code, uint8_t flags, size_t length) {
    at = put(at, code, 4);
    *at++ = flags;
    return put(at, (uint32_t)length, 3);
}

static uint8_t *padded(uint8_t *at, const char *data, size_t length) {
    memcpy(at, data, length);
    memset(at + length, 0, 3);
    return at + (length + 3) / 4 * 4;
}

static uint8_t *text(uint8_t *at, uint32_t code, const char *data, size_t length) {
    return padded(head(at, code, MANDATORY, HEAD + length), data, length);
}

#define TEXT(at, code, data) text(at, code, data, sizeof data - 1)

static uint8_t *number(uint8_t *at, uint32_t code, uint32_t value) {
    return put(head(at, code, MANDATORY, NUMBER), value, 4);
}

static uint8_t *long_number(uint8_t *at, uint32_t code, uint64_t value) {
    at = put(head(at, code, MANDATORY, LONG_NUMBER), (uint32_t)(value >> 32), 4);
    return put(at, (uint32_t)value, 4);
}

// The header's length is set when the end is known.
static uint8_t *start(uint8_t *out, uint8_t flags, uint32_t code, uint32_t application, uint32_t hop, uint32_t end) {
    uint8_t *at = put(out, 1u << 24, 4);
    *at++ = flags;
    at = put(at, code, 3);
    return put(put(put(at, application, 4), hop, 4), end, 4);
}

static size_t finish(uint8_t *out, const uint8_t *end) {
    put(out + 1, (uint32_t)(end - out), 3);
    return (size_t)(end - out);
}

// Some header, where it does not matter.
static uint8_t *start_any(uint8_t *out) {
    return start(out, 0x80, 271, 3, 0x01020304, 0x05060708);
}

// ---- the typical message

static uint8_t *session(uint8_t *at) {
    return TEXT(at, 263, "gateway-01.example.net;1876543210;523;accounting");
}

static uint8_t *proxy_info(uint8_t *group) {
    uint8_t *at = TEXT(group + HEAD, 280, "proxy2.example.net");
    at = TEXT(at, 33, "\x00\x01\x02\x03\xA0\xA1\xA2\xA3");
    head(group, PROXY_INFO, MANDATORY, (size_t)(at - group));
    return at;
}

static uint8_t *application(uint8_t *group) {
    uint8_t *at = number(group + HEAD, 266, 10415);
    at = number(at, 258, 4);
    at = number(at, 259, 3);
    head(group, VENDOR_SPECIFIC_APPLICATION_ID, MANDATORY, (size_t)(at - group));
    return at;
}

size_t message_typical(uint8_t *out) {
    uint8_t *at = start(out, 0xC0, 271, 3, 0x1B2C3D4E, 0x5A6B7C8D);
    at = session(at);
    at = TEXT(at, 264, "gateway-01.example.net");
    at = TEXT(at, 296, "example.net");
    at = TEXT(at, 283, "example.net");
    at = number(at, 480, 2);
    at = number(at, 485, 1);
    at = number(at, 259, 3);
    at = TEXT(at, 1, "alice@example.net");
    at = number(at, 85, 300);
    at = number(at, 278, 1400000000);
    at = number(at, 55, 3900000000u);
    at = TEXT(at, 282, "relay4.core.example.net");
    at = proxy_info(at);
    at = application(at);
    at = number(at, 483, 1);
    return finish(out, at);
}

// ---- a Session-Id behind some of the others

// Ten numbers and nine texts in turn.
static uint8_t *other(uint8_t *at, size_t i) {
    static const uint32_t numbers[] = {480, 485, 259, 85, 278, 55, 483, 268, 258, 266};
    static const uint32_t texts[] = {264, 296, 283, 1, 282, 293, 281, 269, 294};
    if (i % 2 == 1) return TEXT(at, texts[i / 2], "relay4.core.example.net");
    return number(at, numbers[i / 2], 3900000000u);
}

size_t message_session(uint8_t *out, size_t before) {
    uint8_t *at = start(out, 0xC0, 271, 3, 0x1B2C3D4E, 0x5A6B7C8D);
    for (size_t i = 0; i < 19; i++) {
        if (i == before) at = session(at);
        at = other(at, i);
    }
    return finish(out, before == 19 ? session(at) : at);
}

// ---- the credit-control message

static uint8_t *subscription(uint8_t *group) {
    uint8_t *at = number(group + HEAD, 450, 0);
    at = TEXT(at, 444, "491711234567");
    head(group, SUBSCRIPTION_ID, MANDATORY, (size_t)(at - group));
    return at;
}

static uint8_t *used(uint8_t *group) {
    uint8_t *at = number(group + HEAD, 420, 300);
    at = long_number(at, 421, 5368709120u);
    at = long_number(at, 412, 1073741824u);
    at = long_number(at, 414, 4294967296u);
    head(group, USED_SERVICE_UNIT, MANDATORY, (size_t)(at - group));
    return at;
}

static uint8_t *money(uint8_t *group) {
    uint8_t *value = group + HEAD;
    uint8_t *at = long_number(value + HEAD, 447, 1050);
    at = number(at, 429, (uint32_t)-2);
    head(value, UNIT_VALUE, MANDATORY, (size_t)(at - value));
    at = number(at, 425, 978);
    head(group, CC_MONEY, MANDATORY, (size_t)(at - group));
    return at;
}

static uint8_t *service(uint8_t *group) {
    uint8_t *requested = group + HEAD;
    uint8_t *at = money(requested + HEAD);
    head(requested, REQUESTED_SERVICE_UNIT, MANDATORY, (size_t)(at - requested));
    at = used(at);
    at = number(at, 439, 7);
    at = number(at, 432, 100);
    head(group, MULTIPLE_SERVICES_CREDIT_CONTROL, MANDATORY, (size_t)(at - group));
    return at;
}

size_t message_credit(uint8_t *out) {
    uint8_t *at = start(out, 0xC0, 272, 4, 0x1B2C3D4E, 0x5A6B7C8D);
    at = session(at);
    at = TEXT(at, 264, "gateway-01.example.net");
    at = TEXT(at, 296, "example.net");
    at = TEXT(at, 283, "example.net");
    at = number(at, 258, 4);
    at = TEXT(at, 461, "32251@3gpp.org");
    at = number(at, 416, 2);
    at = number(at, 415, 5);
    at = number(at, 55, 3900000000u);
    at = subscription(at);
    at = number(at, 455, 1);
    at = service(at);
    at = TEXT(at, 282, "relay4.core.example.net");
    return finish(out, at);
}

// ---- the others

size_t message_texts(uint8_t *out, const char *data, size_t length) {
    static const uint32_t codes[] = {263, 264, 296, 1, 282, 293, 281, 269, 294, 25, 50, 280, 292, 235, 263, 1};
    uint8_t *at = start_any(out);
    for (size_t i = 0; i < sizeof codes / sizeof *codes; i++) at = text(at, codes[i], data, length);
    return finish(out, at);
}

size_t message_empty(uint8_t *out) {
    return finish(out, start_any(out));
}

size_t message_text(uint8_t *out, const char *data, size_t length, size_t times) {
    uint8_t *at = head(start_any(out), ERROR_MESSAGE, MANDATORY, HEAD + length * times);
    for (; times > 0; times--, at += length) memcpy(at, data, length);
    while ((at - out) % 4 != 0) *at++ = 0;
    return finish(out, at);
}

size_t message_numbers(uint8_t *out, size_t numbers) {
    static const uint32_t codes[] = {485, 259, 258, 85, 278, 268, 27, 266};
    uint8_t *at = start_any(out);
    for (size_t i = 0; i < numbers; i++) at = number(at, codes[i % (sizeof codes / sizeof *codes)], (uint32_t)i);
    return finish(out, at);
}

// AVPs of 3GPP (TS 29.061, section 16.4.7, and TS 29.229, section 6.3), with data as they are seen.
static const struct {
    uint32_t code;
    const char *data;
    size_t length;
} of_vendor[] = {
    {1, "262011234567890", 15},             // 3GPP-IMSI
    {21, "\x06", 1},                        // 3GPP-RAT-Type
    {602, "sip:scscf.ims.example.net", 25}, // Server-Name
    {629, "\0\0\0\x01", 4},                // Feature-List-ID
    {701, "\x94\x71\x11\x32\x54\x76", 6},   // MSISDN
};

size_t message_vendors(uint8_t *out, size_t avps) {
    uint8_t *at = start_any(out);
    for (size_t i = 0; i < avps; i++) {
        size_t n = i % (sizeof of_vendor / sizeof *of_vendor), length = of_vendor[n].length;
        at = head(at, of_vendor[n].code, VENDOR | MANDATORY, HEAD_WITH_VENDOR + length);
        at = padded(put(at, THREE_GPP, 4), of_vendor[n].data, length);
    }
    return finish(out, at);
}

size_t message_small(uint8_t *out, size_t most) {
    uint8_t *at = start_any(out);
    for (size_t left = most - HEADER; left >= HEAD; left -= HEAD) at = head(at, 44, MANDATORY, HEAD);
    return finish(out, at);
}

size_t message_nested(uint8_t *out, size_t depth) {
    uint8_t *at = start_any(out);
    for (size_t inside = depth - 1; inside > 0; inside--)
        at = head(at, FAILED_AVP, MANDATORY, HEAD * inside + NUMBER);
    return finish(out, number(at, 268, 2001));
}

size_t message_extremal(uint8_t *out, size_t most) {
    uint8_t *at = start(out, 0, 0, 0, 0, 0);
    for (size_t left = most - HEADER; left >= NUMBER; left -= NUMBER)
        at = put(head(at, FAILED_AVP, 0, HEAD + 1), 0, 4);
    return finish(out, at);
}
