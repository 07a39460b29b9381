// Writes Diameter by hand. As in the library, nothing is written before all is known to be good, so the records are gone over twice.
#define _DEFAULT_SOURCE
#include "diameter_by_hand.h"
#include "numbers.h"
#include "tandrekily.h"

enum { VERSION = 1, HEADER = TANDREKILY_HEADER, RECORD = TANDREKILY_RECORD_SIZE, DEEPEST = 64, MOST = 0xFFFFFF };
enum { HEAD = TANDREKILY_AVP_HEAD, HEAD_WITH_VENDOR = TANDREKILY_AVP_HEAD_WITH_VENDOR };

static inline size_t head_of(const uint8_t *record) {
    return record[TANDREKILY_RECORD_FLAGS] & TANDREKILY_AVP_VENDOR_BIT ? HEAD_WITH_VENDOR : HEAD;
}

static inline size_t length_of(const uint8_t *record) {
    return get_32(record + TANDREKILY_RECORD_FLAGS) & MOST;
}

// ---- the rules of a table: docs/FORMAT.md, 8.3

// What the records so far say of the next one. Of the indices those under the deepest depth are set.
struct rules {
    size_t pool_length, deepest;
    uint32_t last[DEEPEST + 1]; // the index of the last record of each depth; of depth 0 what stands for none
};

static inline bool data_are_good(const uint8_t *record, size_t pool_length) {
    size_t length = length_of(record), head = head_of(record), padding = record[TANDREKILY_RECORD_PADDING];
    if (length < head || get_32(record + TANDREKILY_RECORD_PLACE) + (length - head) > pool_length) return false;
    if (padding != (4 - length % 4) % 4) return false;
    uint32_t pads = get_32(record + TANDREKILY_RECORD_PADS) >> 8;
    return (pads & (0xFFFFFFu >> 8 * padding)) == 0;
}

static inline bool has_no_padding(const uint8_t *record) {
    return record[TANDREKILY_RECORD_PADDING] == 0 && get_32(record + TANDREKILY_RECORD_PADS) >> 8 == 0;
}

static inline bool is_good(const uint8_t *record, const struct rules *rules) {
    uint8_t depth = record[TANDREKILY_RECORD_DEPTH], kind = record[TANDREKILY_RECORD_KIND];
    if (depth < 1 || depth > rules->deepest || kind > TANDREKILY_TIME) return false;
    if (head_of(record) == HEAD && get_32(record + TANDREKILY_RECORD_VENDOR) != 0) return false;
    if (!(kind == TANDREKILY_GROUPED ? has_no_padding(record) : data_are_good(record, rules->pool_length))) return false;
    return get_32(record + TANDREKILY_RECORD_PARENT) == rules->last[depth - 1];
}

// How many bytes the message has; where a record is bad, 0 and its index.
static uint64_t measure(const uint8_t *table, size_t records, size_t pool_length, uint64_t *bad) {
    struct rules rules;
    uint64_t total = HEADER;
    rules.pool_length = pool_length;
    rules.deepest = 1;
    rules.last[0] = TANDREKILY_TOP_LEVEL;
    for (size_t i = 0; i < records; i++) {
        const uint8_t *record = table + i * RECORD;
        size_t depth = record[TANDREKILY_RECORD_DEPTH];
        bool group = record[TANDREKILY_RECORD_KIND] == TANDREKILY_GROUPED;
        *bad = i;
        if (!is_good(record, &rules)) return 0;
        total += group ? head_of(record) : length_of(record) + record[TANDREKILY_RECORD_PADDING];
        rules.deepest = group && depth < DEEPEST ? depth + 1 : depth;
        rules.last[depth] = (uint32_t)i;
    }
    return total;
}

// ---- the bytes

// The first 8 bytes are an AVP's own.
static inline uint8_t *put_head(const uint8_t *record, uint8_t *at) {
    memcpy(at, record, HEAD);
    if (head_of(record) == HEAD) return at + HEAD;
    memcpy(at + HEAD, record + TANDREKILY_RECORD_VENDOR, sizeof(uint32_t));
    return at + HEAD_WITH_VENDOR;
}

// The word that ends with the padding is put first, and then the data over the front of it.
static inline uint8_t *put_data(const uint8_t *record, const uint8_t *pool, uint8_t *at) {
    size_t size = length_of(record) - head_of(record), padding = record[TANDREKILY_RECORD_PADDING];
    uint8_t *end = at + size + padding;
    if (padding != 0) put_32(end - sizeof(uint32_t), get_32(record + TANDREKILY_RECORD_PADS) >> 8 * (4 - padding));
    memcpy(at, pool + get_32(record + TANDREKILY_RECORD_PLACE), size);
    return end;
}

static void close_group(uint8_t *group, const uint8_t *end) {
    uint8_t *flags = group + TANDREKILY_RECORD_FLAGS;
    put_32(flags, (uint32_t)*flags << 24 | (uint32_t)(end - group));
}

// A group's length is put when its end is known.
static void put_avps(const uint8_t *table, size_t records, const uint8_t *pool, uint8_t *at) {
    uint8_t *groups[DEEPEST + 1];
    size_t open = 0;
    for (const uint8_t *record = table; record < table + records * RECORD; record += RECORD) {
        size_t depth = record[TANDREKILY_RECORD_DEPTH];
        bool group = record[TANDREKILY_RECORD_KIND] == TANDREKILY_GROUPED;
        for (; open >= depth; open--) close_group(groups[open], at);
        if (group) groups[open = depth] = at;
        at = put_head(record, at);
        if (!group) at = put_data(record, pool, at);
    }
    for (; open > 0; open--) close_group(groups[open], at);
}

// ---- the message: docs/FORMAT.md, 8.1

// Returns the answer's number. The amount is what a refusal has, or else the total.
static uint64_t judge(uint32_t command_code, const uint8_t *table, size_t table_length, size_t pool_length, size_t out_length,
                      uint64_t *amount) {
    size_t records = table_length / RECORD;
    *amount = 0;
    if (command_code > MOST) return TANDREKILY_BAD_HEADER;
    uint64_t total = measure(table, records, pool_length, amount);
    if (total == 0) return TANDREKILY_BAD_TABLE;
    *amount = records;
    if (table_length % RECORD != 0) return TANDREKILY_BAD_TABLE;
    *amount = 0;
    if (total > MOST) return TANDREKILY_TOO_LONG;
    *amount = total;
    return out_length < total ? TANDREKILY_NO_ROOM : TANDREKILY_ACCEPTED;
}

void by_hand_write(uint8_t flags, uint32_t command_code, uint32_t application_id, uint32_t hop_by_hop, uint32_t end_to_end,
                   const uint8_t *table, size_t table_length, const uint8_t *pool, size_t pool_length, uint8_t *out,
                   size_t out_length, uint64_t *result) {
    uint64_t amount;
    uint64_t number = judge(command_code, table, table_length, pool_length, out_length, &amount);
    memset(result, 0, TANDREKILY_RESULT * sizeof *result);
    result[TANDREKILY_NUMBER] = number;
    result[number == TANDREKILY_ACCEPTED ? TANDREKILY_LENGTH : TANDREKILY_AMOUNT] = amount;
    if (number != TANDREKILY_ACCEPTED) return;
    put_32(out, (uint32_t)VERSION << 24 | (uint32_t)amount);
    put_32(out + 4, (uint32_t)flags << 24 | command_code);
    put_32(out + 8, application_id);
    put_32(out + 12, hop_by_hop);
    put_32(out + 16, end_to_end);
    put_avps(table, table_length / RECORD, pool, out + HEADER);
}
