// Reads Diameter by hand. As in the library, nothing is written before all is known to be good, so the AVPs are gone over twice.
#define _DEFAULT_SOURCE
#include "diameter_by_hand.h"
#include "numbers.h"
#include "tandrekily.h"
#include "utf8.h"

enum { VERSION = 1, FRONT = 4, HEADER = TANDREKILY_HEADER, RECORD = TANDREKILY_RECORD_SIZE, DEEPEST = 64, CODES = 512 };
enum { HEAD = TANDREKILY_AVP_HEAD, HEAD_WITH_VENDOR = TANDREKILY_AVP_HEAD_WITH_VENDOR, VENDOR_BIT = TANDREKILY_AVP_VENDOR_BIT };
enum { MESSAGE_RESERVED = 0x0F, AVP_RESERVED = 0x1F, LENGTH_BITS = 0xFFFFFF };

// What the walks share.
struct reading {
    bool rfc;
    const uint8_t *kinds;
    size_t limit;
    const uint8_t *input;
    uint8_t *store, *next; // the records, and where the next one is put
    uint64_t tried;
    bool too_deep;
};

// ---- kinds: docs/FORMAT.md, 5.1 and 5.2

enum { O = TANDREKILY_OCTET_STRING, U = TANDREKILY_UNSIGNED_32, L = TANDREKILY_UNSIGNED_64, G = TANDREKILY_GROUPED };
enum { E = TANDREKILY_ENUMERATED, T = TANDREKILY_UTF8_STRING, I = TANDREKILY_DIAMETER_IDENTITY, R = TANDREKILY_DIAMETER_URI };
enum { A = TANDREKILY_ADDRESS, M = TANDREKILY_TIME };

// Codes that have one kind in both readings.
#define BOTH \
    [1] = T, [27] = U, [33] = O, [44] = O, [50] = T, [55] = M, [85] = U, [257] = A, [258] = U, [259] = U, [260] = G, [261] = E, \
    [262] = U, [263] = T, [264] = I, [265] = U, [266] = U, [267] = U, [268] = U, [269] = T, [270] = U, [271] = E, [272] = U, \
    [273] = E, [274] = E, [276] = U, [277] = E, [278] = U, [279] = G, [280] = I, [281] = T, [282] = I, [284] = G, [285] = E, \
    [287] = L, [291] = U, [292] = R, [293] = I, [294] = I, [295] = E, [296] = I, [297] = G, [298] = U, [299] = U, [480] = E, \
    [483] = E, [485] = U

static const uint8_t sawp_kinds[CODES] = {BOTH, [25] = T, [235] = I};
static const uint8_t rfc_kinds[CODES] = {BOTH, [25] = O, [283] = I};

// ---- one AVP

struct avp {
    uint32_t code;
    uint8_t flags;
    size_t head, length, size; // of its header; with its data; with its padding
};

// Needs the first 8 bytes. Headers are multiples of 4, so padding the data pads the length.
static inline struct avp fields(const uint8_t *at) {
    uint64_t front = get_64(at);
    struct avp avp = {.code = (uint32_t)(front >> 32), .flags = (uint8_t)(front >> 24), .length = front & LENGTH_BITS};
    avp.head = avp.flags & VENDOR_BIT ? HEAD_WITH_VENDOR : HEAD;
    avp.size = (avp.length + 3) / 4 * 4;
    return avp;
}

// Needs an AVP that is complete.
static inline uint32_t vendor(const uint8_t *at, const struct avp *avp) {
    return avp->flags & VENDOR_BIT ? get_32(at + HEAD) : 0;
}

// docs/FORMAT.md, 1.5.
static inline bool complete(const uint8_t *at, const uint8_t *end, struct avp *avp) {
    if (end - at < HEAD) return false;
    *avp = fields(at);
    return avp->length >= avp->head && avp->size <= (size_t)(end - at);
}

static inline uint8_t kind_of(const struct reading *reading, const uint8_t *at, const struct avp *avp) {
    if (avp->code >= CODES || (reading->rfc && vendor(at, avp) != 0)) return TANDREKILY_UNHANDLED;
    return reading->kinds[avp->code];
}

// ---- runs: docs/FORMAT.md, 2

static bool tiles(const uint8_t *at, const uint8_t *end) {
    struct avp avp;
    for (; at < end; at += avp.size)
        if (!complete(at, end, &avp)) return false;
    return true;
}

// The first pass: how many records a run has; -1 where it does not tile. Where it is too deep any answer does, since the message is
// refused.
static long count(struct reading *reading, const uint8_t *at, const uint8_t *end, size_t depth) {
    struct avp avp;
    long records = 0;
    if (depth > reading->limit && at < end) {
        reading->too_deep = true;
        return 0;
    }
    for (; at < end; at += avp.size) {
        reading->tried++;
        if (!complete(at, end, &avp)) return -1;
        records++;
        if (kind_of(reading, at, &avp) != TANDREKILY_GROUPED) continue;
        long members = count(reading, at + avp.head, at + avp.length, depth + 1);
        if (members > 0) records += members;
    }
    return records;
}

// ---- values: docs/FORMAT.md, 4.3 to 4.6 and 5.3

struct value {
    uint64_t number;
    uint8_t kind, errors;
};

static const struct value wrong_length = {0, TANDREKILY_UNHANDLED, TANDREKILY_DATA_LENGTH};

static inline struct value number(uint8_t kind, const uint8_t *data, size_t size, size_t takes) {
    if (size < takes) return wrong_length;
    uint8_t errors = size > takes ? TANDREKILY_DATA_LENGTH : 0;
    return (struct value){takes == sizeof(uint64_t) ? get_64(data) : get_32(data), kind, errors};
}

static inline struct value text(uint8_t kind, const uint8_t *data, size_t size) {
    size_t broke = well_formed(data, size);
    if (broke < size) return (struct value){broke, TANDREKILY_UNHANDLED, TANDREKILY_DATA_VALUE};
    return (struct value){0, kind, 0};
}

enum { FAMILY = 2, IPV4 = 4, IPV6 = 16 };

static struct value address(const uint8_t *data, size_t size) {
    if (size == IPV4) return (struct value){get_32(data), TANDREKILY_ADDRESS, 0};
    if (size == IPV6) return (struct value){0, TANDREKILY_ADDRESS, 0};
    return wrong_length;
}

static struct value address_with_family(const uint8_t *data, size_t size) {
    if (size < FAMILY) return wrong_length;
    unsigned family = (unsigned)data[0] << 8 | data[1];
    if (family != 1 && family != 2) return (struct value){0, TANDREKILY_UNHANDLED, 0};
    if (size != FAMILY + (family == 1 ? (size_t)IPV4 : IPV6)) return wrong_length;
    return (struct value){family == 1 ? get_32(data + FAMILY) : 0, TANDREKILY_ADDRESS, 0};
}

static inline struct value value_of(bool rfc, uint8_t kind, const uint8_t *data, size_t size) {
    switch (kind) {
    case TANDREKILY_UNSIGNED_32:
    case TANDREKILY_ENUMERATED:
    case TANDREKILY_TIME: return number(kind, data, size, sizeof(uint32_t));
    case TANDREKILY_UNSIGNED_64: return number(kind, data, size, sizeof(uint64_t));
    case TANDREKILY_UTF8_STRING:
    case TANDREKILY_DIAMETER_IDENTITY:
    case TANDREKILY_DIAMETER_URI: return text(kind, data, size);
    case TANDREKILY_ADDRESS: return rfc ? address_with_family(data, size) : address(data, size);
    case TANDREKILY_GROUPED:
        if (!tiles(data, data + size)) return (struct value){0, TANDREKILY_UNHANDLED, TANDREKILY_DATA_VALUE};
        return (struct value){0, kind, 0};
    default: return (struct value){0, kind, 0};
    }
}

// ---- the second pass

// The padding as a number of three bytes. It ends the last 4 bytes.
static inline uint32_t pads(const uint8_t *at, const struct avp *avp) {
    unsigned padding = (unsigned)(avp->size - avp->length);
    if (padding == 0) return 0;
    uint32_t last = get_32(at + avp->size - sizeof last);
    return (last & ((1u << 8 * padding) - 1)) << 8 * (3 - padding);
}

static uint8_t put_run(struct reading *reading, const uint8_t *at, const uint8_t *end, uint8_t depth, uint32_t parent);

// Puts the record of an AVP and those of its members, and returns its error flags.
static inline uint8_t put_avp(struct reading *reading, const uint8_t *at, const struct avp *avp, uint8_t depth, uint32_t parent) {
    uint8_t *record = reading->next;
    const uint8_t *data = at + avp->head;
    struct value value = value_of(reading->rfc, kind_of(reading, at, avp), data, avp->length - avp->head);
    uint32_t padding = pads(at, avp);
    uint8_t errors = value.errors;
    if ((avp->flags & AVP_RESERVED) != 0) errors |= TANDREKILY_NON_ZERO_RESERVED;
    if (padding != 0) errors |= TANDREKILY_NON_ZERO_PADDING;
    reading->next += RECORD;
    if (value.kind == TANDREKILY_GROUPED)
        errors |= put_run(reading, data, at + avp->length, depth + 1, (uint32_t)((record - reading->store) / RECORD));
    memcpy(record + TANDREKILY_RECORD_CODE, at, HEAD);
    put_64(record + TANDREKILY_RECORD_VENDOR, (uint64_t)vendor(at, avp) << 32 | (uint64_t)(data - reading->input));
    record[TANDREKILY_RECORD_DEPTH] = depth;
    record[TANDREKILY_RECORD_KIND] = value.kind;
    record[TANDREKILY_RECORD_ERRORS] = errors;
    record[TANDREKILY_RECORD_PADDING] = (uint8_t)(avp->size - avp->length);
    put_32(record + TANDREKILY_RECORD_PADS, padding << 8);
    put_64(record + TANDREKILY_RECORD_VALUE, value.number);
    put_32(record + TANDREKILY_RECORD_PARENT, parent);
    return errors;
}

// Needs a run that tiles.
static uint8_t put_run(struct reading *reading, const uint8_t *at, const uint8_t *end, uint8_t depth, uint32_t parent) {
    uint8_t errors = 0;
    while (at < end) {
        struct avp avp = fields(at);
        errors |= put_avp(reading, at, &avp, depth, parent);
        at += avp.size;
    }
    return errors;
}

// ---- the message: docs/FORMAT.md, 7.2

static bool refuse(uint64_t *result, uint64_t number, uint64_t amount) {
    result[TANDREKILY_NUMBER] = number;
    result[TANDREKILY_AMOUNT] = amount;
    return false;
}

static bool header_is_good(const uint8_t *input, size_t input_length, uint64_t *result) {
    if (input_length == 0) return refuse(result, TANDREKILY_INCOMPLETE, 1);
    if (input[0] != VERSION) return refuse(result, TANDREKILY_NOT_VERSION, 0);
    if (input_length < FRONT) return refuse(result, TANDREKILY_INCOMPLETE, FRONT - input_length);
    size_t length = get_32(input) & LENGTH_BITS;
    if (length < FRONT) return refuse(result, TANDREKILY_BAD_LENGTH, 0);
    if (input_length < length) return refuse(result, TANDREKILY_INCOMPLETE, length - input_length);
    return length >= HEADER || refuse(result, TANDREKILY_BAD_LENGTH, 0);
}

// RFC 6733, section 3.
static void put_header(const uint8_t *input, uint64_t *result) {
    uint32_t length = get_32(input), command = get_32(input + FRONT);
    result[TANDREKILY_LENGTH] = length & LENGTH_BITS;
    result[TANDREKILY_MESSAGE_VERSION] = length >> 24;
    result[TANDREKILY_MESSAGE_LENGTH] = length & LENGTH_BITS;
    result[TANDREKILY_MESSAGE_FLAGS] = command >> 24;
    result[TANDREKILY_COMMAND_CODE] = command & LENGTH_BITS;
    result[TANDREKILY_APPLICATION_ID] = get_32(input + 8);
    result[TANDREKILY_HOP_BY_HOP] = get_32(input + 12);
    result[TANDREKILY_END_TO_END] = get_32(input + 16);
    if ((command >> 24 & MESSAGE_RESERVED) != 0) result[TANDREKILY_ERRORS] = TANDREKILY_NON_ZERO_RESERVED;
}

static bool is_good(struct reading *reading, size_t input_length, size_t store_length, uint64_t *result) {
    const uint8_t *input = reading->input;
    if (reading->limit < 1 || reading->limit > DEEPEST) return refuse(result, TANDREKILY_BAD_DEPTH, 0);
    if (!header_is_good(input, input_length, result)) return false;
    long records = count(reading, input + HEADER, input + (get_32(input) & LENGTH_BITS), 1);
    if (records < 0) return refuse(result, TANDREKILY_NOT_TILED, 0);
    if (reading->too_deep) return refuse(result, TANDREKILY_TOO_DEEP, 0);
    return store_length / RECORD >= (size_t)records || refuse(result, TANDREKILY_NO_RECORDS, (uint64_t)records);
}

void by_hand_message(bool rfc, size_t limit, const uint8_t *input, size_t input_length, uint8_t *store, size_t store_length,
                     uint64_t *result) {
    struct reading reading = {rfc, rfc ? rfc_kinds : sawp_kinds, limit, input, store, store, 0, false};
    memset(result, 0, TANDREKILY_RESULT * sizeof *result);
    if (!is_good(&reading, input_length, store_length, result)) return;
    put_header(input, result);
    result[TANDREKILY_ERRORS] |= put_run(&reading, input + HEADER, input + result[TANDREKILY_LENGTH], 1, TANDREKILY_TOP_LEVEL);
    size_t used = (size_t)(reading.next - store);
    result[TANDREKILY_RECORDS] = used / RECORD;
    result[TANDREKILY_TRIED] = reading.tried;
    memset(store + used, 0, store_length - used);
}
