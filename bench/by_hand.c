// As in the library, nothing is written before all is known to be good, so the attributes and the records are gone over twice.
#define _DEFAULT_SOURCE
#include "by_hand.h"
#include "numbers.h"
#include "tandrekily.h"
#include "utf8.h"

enum { FRONT = 4, HEADER = 20, HEAD = TANDREKILY_ATTRIBUTE_HEAD, RECORD = TANDREKILY_RECORD_SIZE, TYPES = 64, NUMBER = 4 };

static void answer(uint64_t *result, uint64_t number, uint64_t amount) {
    memset(result, 0, TANDREKILY_RADIUS_RESULT * sizeof *result);
    result[TANDREKILY_NUMBER] = number;
    result[TANDREKILY_AMOUNT] = amount;
}

// ---- reading

// RFC 2865, sections 5.1 to 5.44, and RFC 2866, sections 5.1 to 5.12: S a string, T text, A an address, I an integer.
enum { S = TANDREKILY_OCTET_STRING, T = TANDREKILY_UTF8_STRING, A = TANDREKILY_ADDRESS, I = TANDREKILY_UNSIGNED_32 };

static const uint8_t kinds[TYPES] = {
    0, S, S, S, A, I, I, I, A, A, I, T, I, I, A, I, // 0 to 15
    I, 0, T, S, S, 0, T, I, S, S, S, I, I, I, S, S, // 16 to 31
    S, S, S, S, S, I, I, S, I, I, I, I, T, I, I, I, // 32 to 47
    I, I, S, I, 0, 0, 0, 0, 0, 0, 0, 0, S, I, I, S, // 48 to 63
};

// How many attributes cover the bytes up to `end`; -1 where none do.
static long count(const uint8_t *at, const uint8_t *end) {
    long n = 0;
    for (; at < end; n++) {
        if (end - at < HEAD || at[1] < HEAD || at[1] > end - at) return -1;
        at += at[1];
    }
    return n;
}

// Puts the record of the attribute that stands at `place`, and returns its error flags.
static uint8_t put_record(const uint8_t *attribute, size_t place, uint8_t *record) {
    const uint8_t *data = attribute + HEAD;
    size_t size = attribute[1] - (size_t)HEAD;
    uint8_t kind = attribute[0] < TYPES ? kinds[attribute[0]] : TANDREKILY_UNHANDLED;
    uint8_t errors = 0;
    uint64_t value = 0;
    if (kind == T) {
        value = well_formed(data, size);
        if (value < size) errors = TANDREKILY_DATA_VALUE;
        else value = 0;
    } else if (kind == A || kind == I) {
        if (size != NUMBER) errors = TANDREKILY_DATA_LENGTH;
        else value = get_32(data);
    }
    if (errors != 0) kind = TANDREKILY_UNHANDLED;
    put_64(record + TANDREKILY_RECORD_CODE, (uint64_t)attribute[0] << 32 | attribute[1]);
    put_64(record + TANDREKILY_RECORD_VENDOR, place + HEAD);
    put_64(record + TANDREKILY_RECORD_DEPTH, UINT64_C(1) << 56 | (uint64_t)kind << 48 | (uint64_t)errors << 40);
    put_64(record + TANDREKILY_RECORD_VALUE, value);
    put_32(record + TANDREKILY_RECORD_PARENT, TANDREKILY_TOP_LEVEL);
    return errors;
}

// Returns the answer's number. The amount is what a refusal has, or else the records.
static uint64_t judge(const uint8_t *input, size_t input_length, size_t store_length, uint64_t *amount) {
    *amount = 0;
    if (input_length < FRONT) {
        *amount = FRONT - input_length;
        return TANDREKILY_INCOMPLETE;
    }
    size_t length = (size_t)input[2] << 8 | input[3];
    if (length < HEADER || length > TANDREKILY_RADIUS_MOST) return TANDREKILY_BAD_LENGTH;
    if (input_length < length) {
        *amount = length - input_length;
        return TANDREKILY_INCOMPLETE;
    }
    long records = count(input + HEADER, input + length);
    if (records < 0) return TANDREKILY_NOT_TILED;
    *amount = (uint64_t)records;
    return store_length / RECORD < *amount ? TANDREKILY_NO_RECORDS : TANDREKILY_ACCEPTED;
}

void by_hand_radius(const uint8_t *input, size_t input_length, uint8_t *store, size_t store_length, uint8_t *authenticator,
                    uint64_t *result) {
    uint64_t amount;
    uint64_t number = judge(input, input_length, store_length, &amount);
    answer(result, number, number == TANDREKILY_ACCEPTED ? 0 : amount);
    if (number != TANDREKILY_ACCEPTED) return;
    size_t length = (size_t)input[2] << 8 | input[3];
    uint8_t *record = store;
    uint8_t errors = 0;
    for (size_t place = HEADER; place < length; place += input[place + 1], record += RECORD)
        errors |= put_record(input + place, place, record);
    memset(record, 0, store_length - (size_t)(record - store));
    memcpy(authenticator, input + FRONT, TANDREKILY_AUTHENTICATOR);
    result[TANDREKILY_ERRORS] = errors;
    result[TANDREKILY_RECORDS] = amount;
    result[TANDREKILY_TRIED] = amount;
    result[TANDREKILY_LENGTH] = length;
    result[TANDREKILY_RADIUS_CODE] = input[0];
    result[TANDREKILY_RADIUS_IDENTIFIER] = input[1];
}

// ---- writing

// Code, flags and length are one number, of which two bytes may be set; so are vendor and place, and depth, kind, errors and padding.
static bool keeps(const uint8_t *record, size_t pool_length) {
    uint64_t front = get_64(record + TANDREKILY_RECORD_CODE);
    uint64_t vendor_and_place = get_64(record + TANDREKILY_RECORD_VENDOR);
    uint64_t depth_and_padding = get_64(record + TANDREKILY_RECORD_DEPTH) & 0xFF0000FFFFFFFF00;
    if ((front & 0xFFFFFF00FFFFFF00) != 0 || (front & 0xFF) < HEAD) return false;
    if (depth_and_padding != UINT64_C(1) << 56) return false;
    if (get_32(record + TANDREKILY_RECORD_PARENT) != TANDREKILY_TOP_LEVEL) return false;
    return vendor_and_place <= UINT32_MAX && vendor_and_place + (front & 0xFF) - HEAD <= pool_length;
}

// Returns the answer's number. The amount is what a refusal has, or else the total.
static uint64_t judge_table(const uint8_t *table, size_t table_length, size_t pool_length, size_t out_length, uint64_t *amount) {
    size_t records = table_length / RECORD;
    size_t total = HEADER;
    for (size_t i = 0; i < records; i++) {
        const uint8_t *record = table + i * RECORD;
        *amount = i;
        if (!keeps(record, pool_length)) return TANDREKILY_BAD_TABLE;
        total += record[TANDREKILY_RECORD_LENGTH + 2];
    }
    *amount = records;
    if (table_length % RECORD != 0) return TANDREKILY_BAD_TABLE;
    *amount = 0;
    if (total > TANDREKILY_RADIUS_MOST) return TANDREKILY_TOO_LONG;
    *amount = total;
    return out_length < total ? TANDREKILY_NO_ROOM : TANDREKILY_ACCEPTED;
}

static void put_attributes(const uint8_t *table, size_t table_length, const uint8_t *pool, uint8_t *out) {
    for (const uint8_t *record = table; record < table + table_length; record += RECORD) {
        size_t size = record[TANDREKILY_RECORD_LENGTH + 2] - (size_t)HEAD;
        *out++ = record[TANDREKILY_RECORD_CODE + 3];
        *out++ = record[TANDREKILY_RECORD_LENGTH + 2];
        memcpy(out, pool + get_32(record + TANDREKILY_RECORD_PLACE), size);
        out += size;
    }
}

void by_hand_radius_write(uint8_t code, uint8_t identifier, const uint8_t *authenticator, const uint8_t *table, size_t table_length,
                          const uint8_t *pool, size_t pool_length, uint8_t *out, size_t out_length, uint64_t *result) {
    uint64_t amount;
    uint64_t number = judge_table(table, table_length, pool_length, out_length, &amount);
    answer(result, number, number == TANDREKILY_ACCEPTED ? 0 : amount);
    if (number != TANDREKILY_ACCEPTED) return;
    out[0] = code;
    out[1] = identifier;
    out[2] = (uint8_t)(amount >> 8);
    out[3] = (uint8_t)amount;
    memcpy(out + FRONT, authenticator, TANDREKILY_AUTHENTICATOR);
    put_attributes(table, table_length, pool, out + HEADER);
    result[TANDREKILY_LENGTH] = amount;
}
