// Alters messages and tables at random.
#include "altered.h"
#include "messages.h"
#include "random.h"
#include "tandrekily.h"
#include <stdbool.h>
#include <string.h>

enum { HEADER = TANDREKILY_HEADER, HEAD = TANDREKILY_AVP_HEAD, VENDOR_BIT = TANDREKILY_AVP_VENDOR_BIT, MANDATORY = 0x40 };
enum { RECORD = TANDREKILY_RECORD_SIZE, DEEPEST = 64, FLAGS = 4, LENGTH = 5, DATA_ENDS = 20 };

static void put_24(uint8_t *at, size_t n) {
    at[0] = (uint8_t)(n >> 16);
    at[1] = (uint8_t)(n >> 8);
    at[2] = (uint8_t)n;
}

static size_t get_24(const uint8_t *at) {
    return (size_t)at[0] << 16 | (size_t)at[1] << 8 | at[2];
}

static size_t head_of(const uint8_t *avp) {
    return avp[FLAGS] & VENDOR_BIT ? TANDREKILY_AVP_HEAD_WITH_VENDOR : HEAD;
}

static size_t up_to_4(size_t n) {
    return (n + 3) / 4 * 4;
}

static void flip(uint8_t *bytes, size_t length) {
    bytes[below(length)] ^= (uint8_t)(1 << below(8));
}

// ---- messages that are made

static bool is_group(uint32_t code) {
    return code == 297 || code == 279 || code == 284 || code == 260;
}

// A third are groups. The others have a kind in one reading or both, but for those that stand last.
static uint32_t any_code(void) {
    static const uint32_t groups[] = {297, 279, 284, 260};
    static const uint32_t others[] = {44, 33, 85, 268, 266, 287, 483, 295, 25, 263, 1, 235, 283, 264, 292, 257, 257, 55, 0, 512, 65793};
    if (below(3) == 0) return groups[below(4)];
    return below(4) == 0 ? (uint32_t)below(520) : others[below(sizeof others / sizeof *others)];
}

// At the ends of the ranges of RFC 3629, section 4, or just past them.
static void any_character(uint8_t *at) {
    static const uint8_t firsts[] = {0xC1, 0xC2, 0xDF, 0xE0, 0xE1, 0xEC, 0xED, 0xEE, 0xEF, 0xF0, 0xF1, 0xF3, 0xF4, 0xF5};
    static const uint8_t seconds[] = {0x7F, 0x80, 0x8F, 0x90, 0x9F, 0xA0, 0xBF, 0xC0};
    at[0] = firsts[below(sizeof firsts)];
    at[1] = seconds[below(sizeof seconds)];
    if (at[0] >= 0xE0) at[2] = 0x80;
    if (at[0] >= 0xF0) at[3] = 0xBF;
}

// A third start with a family of addresses, and a third with a character that is not ASCII.
static size_t any_data(uint8_t *at) {
    static const size_t sizes[] = {4, 6, 8, 16, 18};
    size_t size = below(2) == 0 ? sizes[below(5)] : below(DATA_ENDS), start = below(3);
    for (size_t i = 0; i < DATA_ENDS; i++) at[i] = below(16) == 0 ? any_byte() : (uint8_t)('a' + i);
    if (start == 0) any_character(at);
    if (start == 1) at[0] = 0, at[1] = (uint8_t)below(4);
    return size;
}

static uint8_t *any_run(uint8_t *at, size_t depth);

static uint8_t *any_avp(uint8_t *avp, size_t depth) {
    static const uint8_t vendors[][4] = {{0, 0, 0, 0}, {0, 0, 0x28, 0xAF}};
    uint32_t code = any_code();
    avp[0] = (uint8_t)(code >> 24);
    put_24(avp + 1, code);
    avp[FLAGS] = below(4) == 0 ? (uint8_t)(random_64() & 0xE0) : MANDATORY;
    if (below(32) == 0) avp[FLAGS] |= (uint8_t)(1 << below(5));
    memcpy(avp + HEAD, vendors[below(2)], 4);
    uint8_t *data = avp + head_of(avp);
    bool entered = is_group(code) && depth < 8 && below(4) != 0;
    size_t length = entered ? (size_t)(any_run(data, depth + 1) - avp) : head_of(avp) + any_data(data);
    put_24(avp + LENGTH, length);
    for (size_t i = length; i < up_to_4(length); i++) avp[i] = below(16) == 0 ? any_byte() : 0;
    return avp + up_to_4(length);
}

static uint8_t *any_run(uint8_t *at, size_t depth) {
    for (size_t left = below(6); left > 0; left--) at = any_avp(at, depth);
    return at;
}

size_t any_message(uint8_t *out) {
    if (below(8) == 0) return message_nested(out, below(2) == 0 ? 1 + below(DEEPEST) : DEEPEST - 1 + below(4));
    size_t length = (size_t)(any_run(out + message_empty(out), 1) - out);
    put_24(out + 1, length);
    return length;
}

// ---- messages that are altered

// The place of an AVP at the top level or in a group; 20 where there is none.
static size_t some_avp(const uint8_t *message, size_t length) {
    size_t at = HEADER;
    while (at + HEAD <= length && below(8) != 0) {
        const uint8_t *avp = message + at;
        bool enter = is_group((uint32_t)avp[0] << 24 | (uint32_t)get_24(avp + 1)) && below(2) == 0;
        size_t next = at + (enter ? head_of(avp) : up_to_4(get_24(avp + LENGTH)));
        if (next == at || next + HEAD > length) break;
        at = next;
    }
    return at;
}

static void alter_avp(uint8_t *avp) {
    size_t length = get_24(avp + LENGTH);
    uint32_t code = any_code();
    switch (below(6)) {
    case 0: avp[0] = (uint8_t)(code >> 24), put_24(avp + 1, code); break;
    case 1: avp[FLAGS] ^= (uint8_t)(1 << below(8)); break;
    case 2: put_24(avp + LENGTH, up_to_4(length) - below(4)); break;
    case 3: put_24(avp + LENGTH, length + below(17) - 8); break;
    case 4: put_24(avp + LENGTH, below(16)); break;
    default: avp[HEAD + below(HEAD)] = any_byte();
    }
}

static void alter_header(uint8_t *message, size_t length) {
    switch (below(6)) {
    case 0: message[0] = (uint8_t)below(3); break;
    case 1: put_24(message + 1, below(24)); break;
    case 2: put_24(message + 1, below(2) == 0 ? length - below(4) : length + below(64)); break;
    default: message[FLAGS + below(HEADER - FLAGS)] = any_byte();
    }
}

// What is changed stands within the first 36 bytes, or within the length and one byte more.
size_t alter_message(uint8_t *message, size_t length) {
    switch (below(12)) {
    case 0: return below(2) == 0 ? below(length + 1) : below(HEADER + 4);
    case 1: return length + below(HEADER);
    case 2: flip(message, length + 1); break;
    case 3: message[below(length + 1)] = any_byte(); break;
    case 4: alter_header(message, length); break;
    default: alter_avp(message + some_avp(message, length));
    }
    return length;
}

// ---- tables

static void mend_padding(uint8_t *record) {
    bool group = record[TANDREKILY_RECORD_KIND] == TANDREKILY_GROUPED;
    size_t length = get_24(record + TANDREKILY_RECORD_LENGTH);
    size_t padding = group ? 0 : up_to_4(length) - length;
    record[TANDREKILY_RECORD_PADDING] = (uint8_t)padding;
    memset(record + TANDREKILY_RECORD_PADS + padding, 0, 3 - padding);
}

void mend_table(uint8_t *table, size_t records) {
    uint32_t last[256];
    memset(last, 0xFF, sizeof last);
    for (size_t i = 0; i < records; i++) {
        uint8_t *record = table + i * RECORD;
        uint8_t depth = record[TANDREKILY_RECORD_DEPTH];
        uint32_t parent = depth == 0 ? 0 : last[depth - 1];
        mend_padding(record);
        record[TANDREKILY_RECORD_PARENT] = (uint8_t)(parent >> 24);
        put_24(record + TANDREKILY_RECORD_PARENT + 1, parent);
        if (depth > 0) last[depth] = (uint32_t)i;
    }
}

static void swap(uint8_t *one, uint8_t *other) {
    uint8_t kept[RECORD];
    memcpy(kept, one, RECORD);
    memmove(one, other, RECORD);
    memcpy(other, kept, RECORD);
}

// Adds a record one deeper than the last, which most of the time is made a group.
static void grow(uint8_t *end) {
    memcpy(end, end - RECORD, RECORD);
    end[TANDREKILY_RECORD_DEPTH]++;
    if (below(4) != 0) end[TANDREKILY_RECORD_KIND - RECORD] = TANDREKILY_GROUPED;
}

static size_t size_of(const uint8_t *record) {
    bool group = record[TANDREKILY_RECORD_KIND] == TANDREKILY_GROUPED;
    return group ? head_of(record) : up_to_4(get_24(record + TANDREKILY_RECORD_LENGTH));
}

static void set_length(uint8_t *record, size_t length) {
    put_24(record + TANDREKILY_RECORD_LENGTH, length);
    memset(record + TANDREKILY_RECORD_PLACE, 0, 4);
    mend_padding(record);
}

// The message becomes as long as it may be, or a few bytes more or less; or a second record is long too.
static void lengthen(uint8_t *table, size_t records, uint8_t *record) {
    size_t total = HEADER;
    for (size_t i = 0; i < records; i++) total += size_of(table + i * RECORD);
    set_length(record, MESSAGE_MOST + 5 - (total - size_of(record)) - below(12));
    if (below(4) == 0) set_length(table + below(records) * RECORD, (size_t)MESSAGE_MOST >> below(8));
}

size_t alter_table(uint8_t *table, size_t records) {
    uint8_t *record = table + below(records) * RECORD;
    size_t length = get_24(record + TANDREKILY_RECORD_LENGTH);
    switch (below(12)) {
    case 0:
        memmove(record, record + RECORD, (size_t)(table + records * RECORD - record) - RECORD);
        return records - 1;
    case 1: swap(record, table + below(records) * RECORD); break;
    case 2: grow(table + records * RECORD); return records + 1;
    case 3: record[TANDREKILY_RECORD_DEPTH] = (uint8_t)(below(4) == 0 ? below(DEEPEST + 3) : 1); break;
    case 4: record[TANDREKILY_RECORD_KIND] = (uint8_t)below(17); break;
    case 5: put_24(record + TANDREKILY_RECORD_LENGTH, length - below(8)); break;
    case 6: record[TANDREKILY_RECORD_FLAGS] ^= VENDOR_BIT; break;
    case 7: record[TANDREKILY_RECORD_PADS + below(3)] = any_byte(); break;
    case 8: lengthen(table, records, record); break;
    default: flip(record, RECORD);
    }
    return records;
}
