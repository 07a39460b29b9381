// Decodes an answer of credit-control by RFC 8506, prints the two amounts of money that it grants, and says which is more.
#include "tandrekily.h"
#include <inttypes.h>
#include <stdio.h>

enum { EXPONENT = 429, UNIT_VALUE = 445, VALUE_DIGITS = 447 };
enum { DEPTH = 64, ROOM = 32 * TANDREKILY_RECORD_SIZE };

// It grants 10.50 for one service, and 10, without an Exponent, for another.
static const uint8_t answer[180] = {
    1, 0, 0, 180, 0x40, 0, 1, 0x10, 0, 0, 0, 4, 0, 0, 0, 1, 0, 0, 0, 1,
    0, 0, 1, 0x07, 0x40, 0, 0, 15, 'a', '.', 'b', ';', '1', ';', '2', 0, // Session-Id
    0, 0, 1, 0xA0, 0x40, 0, 0, 12, 0, 0, 0, 1,                           // CC-Request-Type: INITIAL_REQUEST
    0, 0, 1, 0xC8, 0x40, 0, 0, 72,                                       // Multiple-Services-Credit-Control
    0, 0, 1, 0xAF, 0x40, 0, 0, 64,                                       // . Granted-Service-Unit
    0, 0, 1, 0x9D, 0x40, 0, 0, 56,                                       // . . CC-Money
    0, 0, 1, 0xBD, 0x40, 0, 0, 36,                                       // . . . Unit-Value
    0, 0, 1, 0xBF, 0x40, 0, 0, 16, 0, 0, 0, 0, 0, 0, 0x04, 0x1A,         // . . . . Value-Digits: 1050
    0, 0, 1, 0xAD, 0x40, 0, 0, 12, 0xFF, 0xFF, 0xFF, 0xFE,               // . . . . Exponent: -2
    0, 0, 1, 0xA9, 0x40, 0, 0, 12, 0, 0, 0x03, 0xD2,                     // . . . Currency-Code: 978, euro
    0, 0, 1, 0xC8, 0x40, 0, 0, 60,                                       // Multiple-Services-Credit-Control
    0, 0, 1, 0xAF, 0x40, 0, 0, 52,                                       // . Granted-Service-Unit
    0, 0, 1, 0x9D, 0x40, 0, 0, 44,                                       // . . CC-Money
    0, 0, 1, 0xBD, 0x40, 0, 0, 24,                                       // . . . Unit-Value
    0, 0, 1, 0xBF, 0x40, 0, 0, 16, 0, 0, 0, 0, 0, 0, 0, 10,              // . . . . Value-Digits: 10
    0, 0, 1, 0xA9, 0x40, 0, 0, 12, 0, 0, 0x03, 0xD2,                     // . . . Currency-Code: 978, euro
};

struct unit_value {
    int64_t digits;
    int32_t exponent;
};

// ---- records

// A big-endian number of so many bytes.
static uint64_t number(const uint8_t *at, size_t bytes) {
    uint64_t n = 0;
    while (bytes-- > 0) n = n << 8 | *at++;
    return n;
}

static bool is(const uint8_t *record, uint32_t code, uint8_t kind) {
    return number(record + TANDREKILY_RECORD_CODE, 4) == code && record[TANDREKILY_RECORD_KIND] == kind;
}

// Reads the members of a Unit-Value, which are the records behind it that are deeper. Are its Value-Digits there? An Exponent that is
// absent is 0 (RFC 8506, section 8.8).
static bool read_members(const uint8_t *group, const uint8_t *end, struct unit_value *value) {
    bool found = false;
    value->exponent = 0;
    for (const uint8_t *at = group + TANDREKILY_RECORD_SIZE; at < end; at += TANDREKILY_RECORD_SIZE) {
        uint64_t bits = number(at + TANDREKILY_RECORD_VALUE, 8);
        if (at[TANDREKILY_RECORD_DEPTH] <= group[TANDREKILY_RECORD_DEPTH]) break;
        if (is(at, EXPONENT, TANDREKILY_INTEGER_32)) value->exponent = tandrekily_integer32((uint32_t)bits);
        if (!is(at, VALUE_DIGITS, TANDREKILY_INTEGER_64)) continue;
        value->digits = tandrekily_integer64(bits);
        found = true;
    }
    return found;
}

// The first Unit-Values of a table, `most` at most. How many there are is returned.
static size_t unit_values(const uint8_t *table, size_t records, struct unit_value *values, size_t most) {
    const uint8_t *end = table + records * TANDREKILY_RECORD_SIZE;
    size_t n = 0;
    for (const uint8_t *at = table; at < end && n < most; at += TANDREKILY_RECORD_SIZE)
        if (is(at, UNIT_VALUE, TANDREKILY_GROUPED) && read_members(at, end, &values[n])) n++;
    return n;
}

// ---- Unit-Values

// Prints a Unit-Value as a decimal, without rounding: the digits with zeros behind them, or with a point in them.
static void show(const struct unit_value *value) {
    char digits[24];
    uint64_t magnitude = value->digits < 0 ? -(uint64_t)value->digits : (uint64_t)value->digits;
    int places = value->exponent < 0 ? -value->exponent : 0;
    int length = snprintf(digits, sizeof digits, "%0*" PRIu64, places + 1, magnitude);
    printf("%s%.*s", value->digits < 0 ? "-" : "", length - places, digits);
    if (places > 0) printf(".%s", digits + length - places);
    for (int zeros = value->exponent; zeros > 0 && magnitude != 0; zeros--) putchar('0');
}

static int compare(const struct unit_value *one, const struct unit_value *other) {
    int32_t order;
    if (tandrekily_compare(one->digits, one->exponent, other->digits, other->exponent, &order) != TANDREKILY_ACCEPTED) {
        printf("not compared: an exponent is not -18..18\n");
        return 1;
    }
    show(one);
    printf(" is %s ", order == TANDREKILY_LESS ? "less than" : order == TANDREKILY_GREATER ? "more than" : "the same as");
    show(other);
    putchar('\n');
    return 0;
}

int main(void) {
    uint8_t store[ROOM];
    uint64_t result[TANDREKILY_RESULT];
    struct unit_value values[2];

    tandrekily_message_by(TANDREKILY_RFC_8506, DEPTH, answer, sizeof answer, store, sizeof store, result);
    if (result[TANDREKILY_NUMBER] != TANDREKILY_ACCEPTED) {
        printf("refused: answer %" PRIu64 ", amount %" PRIu64 "\n", result[TANDREKILY_NUMBER], result[TANDREKILY_AMOUNT]);
        return 1;
    }
    size_t n = unit_values(store, (size_t)result[TANDREKILY_RECORDS], values, 2);
    printf("%" PRIu64 " records, %zu Unit-Values\n", result[TANDREKILY_RECORDS], n);
    return n == 2 ? compare(&values[0], &values[1]) : 1;
}
