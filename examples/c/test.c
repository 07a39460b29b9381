// Asks each function of the library for each of its answers, and looks at every byte that it was lent.
#include "tandrekily.h"
#include <inttypes.h>
#include <stdio.h>
#include <string.h>

enum { LENT = 0xA5, MOST = 1024 };

static int failures;

static void check(const char *name, const char *what, bool held) {
    if (held) return;
    failures++;
    printf("%s: %s\n", name, what);
}

// ---- bytes

static uint8_t digit(char c) {
    return (uint8_t)(c <= '9' ? c - '0' : c - 'A' + 10);
}

// The bytes of a text in hex; spaces are for the reader.
static size_t bytes_of(const char *hex, uint8_t *out) {
    size_t n = 0;
    for (; *hex != 0; hex++) {
        if (*hex == ' ') continue;
        out[n++] = (uint8_t)(digit(hex[0]) << 4 | digit(hex[1]));
        hex++;
    }
    return n;
}

static bool all(uint8_t byte, const uint8_t *at, size_t n) {
    while (n > 0 && at[n - 1] == byte) n--;
    return n == 0;
}

static bool is_hex(const char *hex, const uint8_t *at) {
    uint8_t bytes[MOST];
    size_t n = bytes_of(hex, bytes);
    return memcmp(bytes, at, n) == 0;
}

// ---- results

// A result or an outline holds something before each call, so that a number left as it was is noticed.
static void spoil(int count, uint64_t *numbers) {
    memset(numbers, LENT, (size_t)count * sizeof *numbers);
}

static bool is_lent(uint64_t number) {
    return all(LENT, (const uint8_t *)&number, sizeof number);
}

static void check_numbers(const char *name, int count, const uint64_t *expected, const uint64_t *numbers) {
    for (int i = 0; i < count; i++) {
        if (numbers[i] == expected[i]) continue;
        failures++;
        printf("%s: number %d is %" PRIu64 " and not %" PRIu64 "\n", name, i, numbers[i], expected[i]);
    }
}

static void check_result(const char *name, const uint64_t *expected, const uint64_t *result) {
    check_numbers(name, TANDREKILY_RESULT, expected, result);
}

static void check_refusal(const char *name, uint64_t number, uint64_t amount, const uint64_t *result) {
    uint64_t expected[TANDREKILY_RESULT] = {number, amount};
    check_result(name, expected, result);
}

// ---- parents

static uint32_t parent_of(const uint8_t *record) {
    const uint8_t *at = record + TANDREKILY_RECORD_PARENT;
    return (uint32_t)at[0] << 24 | (uint32_t)at[1] << 16 | (uint32_t)at[2] << 8 | at[3];
}

static void set_parent(uint8_t *record, uint32_t parent) {
    for (int i = 0; i < 4; i++) record[TANDREKILY_RECORD_PARENT + i] = (uint8_t)(parent >> (24 - 8 * i));
}

// The index of the last record before this one that is one depth less, by walking back. No record has depth 0.
static uint32_t walked_back(const uint8_t *table, size_t index) {
    int depth = table[index * TANDREKILY_RECORD_SIZE + TANDREKILY_RECORD_DEPTH];
    while (index-- > 0)
        if (table[index * TANDREKILY_RECORD_SIZE + TANDREKILY_RECORD_DEPTH] == depth - 1) return (uint32_t)index;
    return TANDREKILY_TOP_LEVEL;
}

static void check_parents(const char *name, const uint8_t *table, uint64_t records) {
    size_t told = 0;
    while (told < records && parent_of(table + told * TANDREKILY_RECORD_SIZE) == walked_back(table, told)) told++;
    check(name, "a parent is not the one that the depths tell", told == records);
}

// ---- the decoders

#define MESSAGE(length) "01 0000" length "00000000 00000000 00000000 00000000 "
#define RESULT_CODE "0000010C 00 00000D 000007D1 00 000000"
#define FAILING "00000117 00 000009 00 000000"
#define EMPTY_GROUP "00000117 00 000008"
#define NESTED "00000117 00 00001C 0000011C 00 000014 0000010B 00 00000C 00000001"
#define BARE "0000002C 00 000008"
#define ONE "0000011C 00 000010" BARE
#define TWO "0000011C 00 000018" BARE BARE
#define TORN "00000117 00 000012" BARE "0000 0000"
#define BRANCHES "00000117 00 000054" BARE TWO TORN EMPTY_GROUP ONE
#define CLASS "00000019 00 000009 FF 000000"
#define ADDRESS "00000101 00 00000E 0001 C0000201 0000"
#define CUT_NAME "00000001 40 00000B 61E282 00"
#define LETTERS_4 "61626364"
#define LETTERS_16 LETTERS_4 LETTERS_4 LETTERS_4 LETTERS_4
#define LETTERS_64 LETTERS_16 LETTERS_16 LETTERS_16 LETTERS_16
#define LETTERS_256 LETTERS_64 LETTERS_64 LETTERS_64 LETTERS_64

// A decoder takes a reading or the number of an edition.
typedef void decoder(uint32_t, size_t, const uint8_t *, size_t, uint8_t *, size_t, uint64_t *);

enum { SAWP, RFC, EITHER };

static void message(uint32_t reading, size_t limit, const uint8_t *input, size_t length, uint8_t *store, size_t room,
                    uint64_t *result) {
    tandrekily_message(reading == RFC, limit, input, length, store, room, result);
}

static void avp(uint32_t reading, size_t limit, const uint8_t *input, size_t length, uint8_t *store, size_t room,
                uint64_t *result) {
    tandrekily_avp(reading == RFC, limit, input, length, store, room, result);
}

struct refusal {
    const char *name;
    size_t limit, room;
    const char *input;
    uint64_t number, amount;
};

static const struct refusal messages_refused[] = {
    {"limit 0", 0, 72, "", 7, 0},
    {"limit 65", 65, 72, MESSAGE("14"), 7, 0},
    {"the largest limit", SIZE_MAX, 72, MESSAGE("14"), 7, 0},
    {"empty input (P1)", 64, 72, "", 1, 1},
    {"version 2 (P2)", 64, 72, "02", 2, 0},
    {"two bytes (P3)", 64, 72, "0100", 1, 2},
    {"length 3 (P4)", 64, 72, "01000003", 3, 0},
    {"length 19 of 8 bytes (P5)", 64, 72, "01000013 00000000", 1, 11},
    {"length 19 (P6)", 64, 72, "01000013 00000000 00000000 00000000 000000", 3, 0},
    {"padding cut off (P10)", 64, 72, MESSAGE("21") "0000010C 00 00000D 000007D1 00", 4, 0},
    {"a failing group at limit 1 (P11)", 1, 72, MESSAGE("20") FAILING, 5, 0},
    {"three levels at limit 2", 2, 144, MESSAGE("30") NESTED, 5, 0},
    {"no room (P13)", 64, 0, MESSAGE("24") RESULT_CODE, 6, 1},
    {"room for less than a record", 64, 35, MESSAGE("24") RESULT_CODE, 6, 1},
    {"room for two of three", 64, 107, MESSAGE("30") NESTED, 6, 3},
};

static const struct refusal avps_refused[] = {
    {"AVP: limit 0", 0, 72, "", 7, 0},
    {"AVP: empty input", 64, 72, "", 1, 4},
    {"AVP: four bytes", 64, 72, "0000010C", 1, 1},
    {"AVP: five bytes", 64, 72, "0000010C 00", 1, 3},
    {"AVP: length 7", 64, 72, "0000010C 00 000007", 3, 0},
    {"AVP: data cut off", 64, 72, "0000010C 00 00000C 0000", 1, 2},
    {"AVP: vendor bit and length 8", 64, 72, "0000010C 80 000008", 3, 0},
    {"AVP: padding cut off", 64, 72, "0000010C 00 00000D 000007D1 00 00", 1, 2},
    {"AVP: a failing group at limit 1", 1, 72, FAILING, 5, 0},
    {"AVP: no room", 64, 0, RESULT_CODE, 6, 1},
};

// A refusal leaves the store as it was lent.
static void refuses(decoder *decode, uint32_t by, const struct refusal *r) {
    uint8_t input[MOST], store[MOST];
    uint64_t result[TANDREKILY_RESULT];
    size_t length = bytes_of(r->input, input);
    memset(store, LENT, sizeof store);
    spoil(TANDREKILY_RESULT, result);
    decode(by, r->limit, input, length, store, r->room, result);
    check_refusal(r->name, r->number, r->amount, result);
    check(r->name, "the store was changed", all(LENT, store, sizeof store));
}

// What is refused by one reading is by the other, and by each edition.
static void refuse(decoder *decode, decoder *decode_by, const struct refusal *r) {
    refuses(decode, SAWP, r);
    refuses(decode, RFC, r);
    refuses(decode_by, TANDREKILY_RFC_4006, r);
    refuses(decode_by, TANDREKILY_RFC_8506, r);
}

struct acceptance {
    const char *name;
    uint32_t by;
    size_t limit;
    const char *input, *records;
    uint64_t result[TANDREKILY_RESULT];
};

static const struct acceptance messages_accepted[] = {
    {"no AVP (P7)", SAWP, 1, MESSAGE("14"), "", {0, 0, 0, 0, 0, 20, 1, 20}},
    {"every header field, and a byte more", SAWP, 1, "01000014 C5000110 00000003 01020304 05060708 FF", "",
     {0, 0, 4, 0, 0, 20, 1, 20, 0xC5, 0x110, 3, 0x01020304, 0x05060708}},
    {"P8", SAWP, 64, MESSAGE("24") RESULT_CODE,
     "0000010C 00 00000D 00000000 0000001C 01 04 02 03 00000000 00000000 000007D1 FFFFFFFF", {0, 0, 2, 1, 1, 36, 1, 36}},
    {"a group that does not tile (P11)", SAWP, 2, MESSAGE("20") FAILING,
     "00000117 00 000009 00000000 0000001C 01 00 01 03 00000000 00000000 00000000 FFFFFFFF", {0, 0, 1, 1, 2, 32, 1, 32}},
    {"a group without members (P12)", SAWP, 1, MESSAGE("1C") EMPTY_GROUP,
     "00000117 00 000008 00000000 0000001C 01 08 00 00 00000000 00000000 00000000 FFFFFFFF", {0, 0, 0, 1, 1, 28, 1, 28}},
    {"a group in a group", RFC, 3, MESSAGE("30") NESTED,
     "00000117 00 00001C 00000000 0000001C 01 08 00 00 00000000 00000000 00000000 FFFFFFFF"
     "0000011C 00 000014 00000000 00000024 02 08 00 00 00000000 00000000 00000000 00000000"
     "0000010B 00 00000C 00000000 0000002C 03 04 00 00 00000000 00000000 00000001 00000001",
     {0, 0, 0, 3, 3, 48, 1, 48}},
    {"groups among others, and one of them does not tile", EITHER, 3, MESSAGE("88") BARE BRANCHES ONE BARE,
     "0000002C 00 000008 00000000 0000001C 01 01 00 00 00000000 00000000 00000000 FFFFFFFF"
     "00000117 00 000054 00000000 00000024 01 08 01 00 00000000 00000000 00000000 FFFFFFFF"
     "0000002C 00 000008 00000000 0000002C 02 01 00 00 00000000 00000000 00000000 00000001"
     "0000011C 00 000018 00000000 00000034 02 08 00 00 00000000 00000000 00000000 00000001"
     "0000002C 00 000008 00000000 0000003C 03 01 00 00 00000000 00000000 00000000 00000003"
     "0000002C 00 000008 00000000 00000044 03 01 00 00 00000000 00000000 00000000 00000003"
     "00000117 00 000012 00000000 0000004C 02 00 01 02 00000000 00000000 00000000 00000001"
     "00000117 00 000008 00000000 00000060 02 08 00 00 00000000 00000000 00000000 00000001"
     "0000011C 00 000010 00000000 00000068 02 08 00 00 00000000 00000000 00000000 00000001"
     "0000002C 00 000008 00000000 00000070 03 01 00 00 00000000 00000000 00000000 00000008"
     "0000011C 00 000010 00000000 00000078 01 08 00 00 00000000 00000000 00000000 FFFFFFFF"
     "0000002C 00 000008 00000000 00000080 02 01 00 00 00000000 00000000 00000000 0000000A"
     "0000002C 00 000008 00000000 00000088 01 01 00 00 00000000 00000000 00000000 FFFFFFFF",
     {0, 0, 1, 13, 15, 136, 1, 136}},
    {"Class is text as the Rust reads it", SAWP, 64, MESSAGE("20") CLASS,
     "00000019 00 000009 00000000 0000001C 01 00 01 03 00000000 00000000 00000000 FFFFFFFF", {0, 0, 1, 1, 1, 32, 1, 32}},
    {"Class is any bytes by the RFC", RFC, 64, MESSAGE("20") CLASS,
     "00000019 00 000009 00000000 0000001C 01 01 00 03 00000000 00000000 00000000 FFFFFFFF", {0, 0, 0, 1, 1, 32, 1, 32}},
    {"a User-Name that breaks at byte 1", EITHER, 1, MESSAGE("20") CUT_NAME,
     "00000001 40 00000B 00000000 0000001C 01 00 01 01 00000000 00000000 00000001 FFFFFFFF", {0, 0, 1, 1, 1, 32, 1, 32}},
    {"a User-Name that breaks at byte 0", EITHER, 1, MESSAGE("20") "00000001 40 00000A C080 0000",
     "00000001 40 00000A 00000000 0000001C 01 00 01 02 00000000 00000000 00000000 FFFFFFFF", {0, 0, 1, 1, 1, 32, 1, 32}},
    {"a User-Name that breaks at byte 256", EITHER, 1, "01000120 00000000 00000000 00000000 00000000"
     "00000001 40 00010A" LETTERS_256 "C341 0000",
     "00000001 40 00010A 00000000 0000001C 01 00 01 02 00000000 00000000 00000100 FFFFFFFF", {0, 0, 1, 1, 1, 288, 1, 288}},
    {"a User-Name that breaks in a group", EITHER, 2, MESSAGE("28") "00000117 00 000014" CUT_NAME,
     "00000117 00 000014 00000000 0000001C 01 08 01 00 00000000 00000000 00000000 FFFFFFFF"
     "00000001 40 00000B 00000000 00000024 02 00 01 01 00000000 00000000 00000001 00000000",
     {0, 0, 1, 2, 2, 40, 1, 40}},
    {"letters in a group that does not tile", EITHER, 2, MESSAGE("20") "00000117 00 00000C" LETTERS_4,
     "00000117 00 00000C 00000000 0000001C 01 00 01 00 00000000 00000000 00000000 FFFFFFFF", {0, 0, 1, 1, 2, 32, 1, 32}},
    {"a Result-Code of 3 letters", EITHER, 1, MESSAGE("20") "0000010C 00 00000B 616263 00",
     "0000010C 00 00000B 00000000 0000001C 01 00 02 01 00000000 00000000 00000000 FFFFFFFF", {0, 0, 2, 1, 1, 32, 1, 32}},
    {"letters of an unknown code", EITHER, 1, MESSAGE("20") "00000000 00 00000C" LETTERS_4,
     "00000000 00 00000C 00000000 0000001C 01 00 00 00 00000000 00000000 00000000 FFFFFFFF", {0, 0, 0, 1, 1, 32, 1, 32}},
};

static const struct acceptance avps_accepted[] = {
    {"AVP: P8's, and a byte more", SAWP, 1, RESULT_CODE "FF",
     "0000010C 00 00000D 00000000 00000008 01 04 02 03 00000000 00000000 000007D1 FFFFFFFF", {0, 0, 2, 1, 1, 16}},
    {"AVP: groups in a group, and one of them does not tile", EITHER, 3, BRANCHES BARE,
     "00000117 00 000054 00000000 00000008 01 08 01 00 00000000 00000000 00000000 FFFFFFFF"
     "0000002C 00 000008 00000000 00000010 02 01 00 00 00000000 00000000 00000000 00000000"
     "0000011C 00 000018 00000000 00000018 02 08 00 00 00000000 00000000 00000000 00000000"
     "0000002C 00 000008 00000000 00000020 03 01 00 00 00000000 00000000 00000000 00000002"
     "0000002C 00 000008 00000000 00000028 03 01 00 00 00000000 00000000 00000000 00000002"
     "00000117 00 000012 00000000 00000030 02 00 01 02 00000000 00000000 00000000 00000000"
     "00000117 00 000008 00000000 00000044 02 08 00 00 00000000 00000000 00000000 00000000"
     "0000011C 00 000010 00000000 0000004C 02 08 00 00 00000000 00000000 00000000 00000000"
     "0000002C 00 000008 00000000 00000054 03 01 00 00 00000000 00000000 00000000 00000007",
     {0, 0, 1, 9, 11, 84}},
    {"AVP: an address has no family as the Rust reads it", SAWP, 1, ADDRESS,
     "00000101 00 00000E 00000000 00000008 01 00 02 02 00000000 00000000 00000000 FFFFFFFF", {0, 0, 2, 1, 1, 16}},
    {"AVP: an address has a family by the RFC", RFC, 1, ADDRESS,
     "00000101 00 00000E 00000000 00000008 01 0D 00 02 00000000 00000000 C0000201 FFFFFFFF", {0, 0, 0, 1, 1, 16}},
    {"AVP: vendor, reserved bits and padding", SAWP, 1, "0000002C 9F 00000E 000028AF ABCD 1234",
     "0000002C 9F 00000E 000028AF 0000000C 01 01 0C 02 12340000 00000000 00000000 FFFFFFFF", {0, 0, 12, 1, 1, 16}},
    {"AVP: an Event-Timestamp of March 2036 keeps its bits", RFC, 1, "00000037 40 00000C 001DF780",
     "00000037 40 00000C 00000000 00000008 01 0E 00 00 00000000 00000000 001DF780 FFFFFFFF", {0, 0, 0, 1, 1, 12}},
    {"AVP: a User-Name that breaks at byte 1", EITHER, 1, CUT_NAME,
     "00000001 40 00000B 00000000 00000008 01 00 01 01 00000000 00000000 00000001 FFFFFFFF", {0, 0, 1, 1, 1, 12}},
    {"AVP: a User-Name that its padding would complete", EITHER, 1, "00000001 40 00000B 61E282 AC",
     "00000001 40 00000B 00000000 00000008 01 00 09 01 AC000000 00000000 00000001 FFFFFFFF", {0, 0, 9, 1, 1, 12}},
    {"AVP: a User-Name that breaks at byte 0", EITHER, 1, "00000001 40 00000A 8061 0000",
     "00000001 40 00000A 00000000 00000008 01 00 01 02 00000000 00000000 00000000 FFFFFFFF", {0, 0, 1, 1, 1, 12}},
    {"AVP: a User-Name that breaks at byte 256", EITHER, 1, "00000001 40 000109" LETTERS_256 "FF 000000",
     "00000001 40 000109 00000000 00000008 01 00 01 03 00000000 00000000 00000100 FFFFFFFF", {0, 0, 1, 1, 1, 268}},
    {"AVP: an Origin-Host that breaks at byte 2", EITHER, 1, "00000108 40 00000B C3A9FF 00",
     "00000108 40 00000B 00000000 00000008 01 00 01 01 00000000 00000000 00000002 FFFFFFFF", {0, 0, 1, 1, 1, 12}},
    {"AVP: a Redirect-Host that breaks at byte 3", EITHER, 1, "00000124 40 00000C 616161FF",
     "00000124 40 00000C 00000000 00000008 01 00 01 00 00000000 00000000 00000003 FFFFFFFF", {0, 0, 1, 1, 1, 12}},
    {"AVP: a Class that breaks at byte 1 as the Rust reads it", SAWP, 1, "00000019 00 00000A 61FF 0000",
     "00000019 00 00000A 00000000 00000008 01 00 01 02 00000000 00000000 00000001 FFFFFFFF", {0, 0, 1, 1, 1, 12}},
    {"AVP: a vendor's User-Name breaks as the Rust reads it", SAWP, 1, "00000001 80 00000E 000028AF 61FF 0000",
     "00000001 80 00000E 000028AF 0000000C 01 00 01 02 00000000 00000000 00000001 FFFFFFFF", {0, 0, 1, 1, 1, 16}},
    {"AVP: a vendor's User-Name is unknown by the RFC", RFC, 1, "00000001 80 00000E 000028AF 61FF 0000",
     "00000001 80 00000E 000028AF 0000000C 01 00 00 02 00000000 00000000 00000000 FFFFFFFF", {0, 0, 0, 1, 1, 16}},
    {"AVP: letters in a group that does not tile", EITHER, 2, "00000117 00 00000C" LETTERS_4,
     "00000117 00 00000C 00000000 00000008 01 00 01 00 00000000 00000000 00000000 FFFFFFFF", {0, 0, 1, 1, 2, 12}},
    {"AVP: a Result-Code of 3 letters", EITHER, 1, "0000010C 00 00000B 616263 00",
     "0000010C 00 00000B 00000000 00000008 01 00 02 01 00000000 00000000 00000000 FFFFFFFF", {0, 0, 2, 1, 1, 12}},
    {"AVP: a Host-IP-Address of 3 bytes", EITHER, 1, "00000101 00 00000B 0001 61 00",
     "00000101 00 00000B 00000000 00000008 01 00 02 01 00000000 00000000 00000000 FFFFFFFF", {0, 0, 2, 1, 1, 12}},
    {"AVP: a Host-IP-Address of another family by the RFC", RFC, 1, "00000101 00 00000C" LETTERS_4,
     "00000101 00 00000C 00000000 00000008 01 00 00 00 00000000 00000000 00000000 FFFFFFFF", {0, 0, 0, 1, 1, 12}},
    {"AVP: letters of an unknown code", EITHER, 1, "00000000 00 00000C" LETTERS_4,
     "00000000 00 00000C 00000000 00000008 01 00 00 00 00000000 00000000 00000000 FFFFFFFF", {0, 0, 0, 1, 1, 12}},
};

// The store ends with the last record, or has room for five bytes or a record and five bytes more: all zero then.
static void accepts(decoder *decode, uint32_t by, const struct acceptance *a) {
    static const size_t spare[] = {0, 5, TANDREKILY_RECORD_SIZE + 5};
    uint8_t input[MOST], store[MOST];
    uint64_t result[TANDREKILY_RESULT];
    size_t length = bytes_of(a->input, input);
    size_t used = TANDREKILY_RECORD_SIZE * (size_t)a->result[TANDREKILY_RECORDS];
    for (size_t i = 0; i < sizeof spare / sizeof *spare; i++) {
        size_t room = used + spare[i];
        memset(store, LENT, sizeof store);
        spoil(TANDREKILY_RESULT, result);
        decode(by, a->limit, input, length, store, room, result);
        check_result(a->name, a->result, result);
        check(a->name, "the records are others", is_hex(a->records, store));
        check_parents(a->name, store, a->result[TANDREKILY_RECORDS]);
        check(a->name, "the store is not zero after the last record", all(0, store + used, spare[i]));
        check(a->name, "bytes after the store were changed", all(LENT, store + room, sizeof store - room));
    }
}

// An edition keeps what the RFC reading has.
static void accept(decoder *decode, decoder *decode_by, const struct acceptance *a) {
    if (a->by != RFC) accepts(decode, SAWP, a);
    if (a->by == SAWP) return;
    accepts(decode, RFC, a);
    accepts(decode_by, TANDREKILY_RFC_4006, a);
    accepts(decode_by, TANDREKILY_RFC_8506, a);
}

static void decoders(void) {
    for (size_t i = 0; i < sizeof messages_refused / sizeof *messages_refused; i++)
        refuse(message, tandrekily_message_by, &messages_refused[i]);
    for (size_t i = 0; i < sizeof avps_refused / sizeof *avps_refused; i++)
        refuse(avp, tandrekily_avp_by, &avps_refused[i]);
    for (size_t i = 0; i < sizeof messages_accepted / sizeof *messages_accepted; i++)
        accept(message, tandrekily_message_by, &messages_accepted[i]);
    for (size_t i = 0; i < sizeof avps_accepted / sizeof *avps_accepted; i++)
        accept(avp, tandrekily_avp_by, &avps_accepted[i]);
}

// A group of 65,535 members and one more, a group with a member: the last parent takes three bytes.
enum { MEMBERS = 65535, LONG_RECORDS = MEMBERS + 3, LONG_AVP = 8 + 8 * MEMBERS + 16 };

static void check_long(const char *name, decoder *decode, uint32_t by, const uint8_t *input, size_t length, uint8_t *store) {
    uint64_t result[TANDREKILY_RESULT];
    decode(by, 3, input, length, store, LONG_RECORDS * TANDREKILY_RECORD_SIZE, result);
    check(name, "not as many records", result[TANDREKILY_RECORDS] == LONG_RECORDS);
    check(name, "the first has a parent", parent_of(store) == TANDREKILY_TOP_LEVEL);
    for (uint32_t i = 1; i < LONG_RECORDS; i++) {
        uint32_t parent = i <= MEMBERS + 1 ? 0 : MEMBERS + 1;
        if (parent_of(store + i * TANDREKILY_RECORD_SIZE) == parent) continue;
        check(name, "a member has another parent", false);
        return;
    }
}

static void long_group(void) {
    static uint8_t input[TANDREKILY_HEADER + LONG_AVP], store[LONG_RECORDS * TANDREKILY_RECORD_SIZE];
    uint8_t *avp_at = input + TANDREKILY_HEADER;
    uint64_t result[TANDREKILY_RESULT];
    size_t place = bytes_of("01080024 00000000 00000000 00000000 00000000 00000117 00 080010", input);
    for (int i = 0; i < MEMBERS; i++) place += bytes_of(BARE, input + place);
    bytes_of(ONE, input + place);
    check_long("AVP: a long group", avp, SAWP, avp_at, LONG_AVP, store);
    check_long("AVP: a long group by RFC 8506", tandrekily_avp_by, TANDREKILY_RFC_8506, avp_at, LONG_AVP, store);
    check_long("a long group by RFC 8506", tandrekily_message_by, TANDREKILY_RFC_8506, input, sizeof input, store);
    check_long("a long group", message, SAWP, input, sizeof input, store);
    tandrekily_write(0, 0, 0, 0, 0, store, sizeof store, input, sizeof input, input, 0, result);
    check_refusal("write: a long group, and no room", TANDREKILY_NO_ROOM, sizeof input, result);
}

// ---- editions

#define EXPONENT "000001AD 40 00000C FFFFFFFE"
#define DIGITS "000001BF 40 000010 FFFFFFFF FFFFFFFD"
#define UNIT_VALUE "000001BD 40 000024" DIGITS EXPONENT
#define UNIT_VALUE_RECORDS                                                                  \
    "000001BD 40 000024 00000000 0000001C 01 08 00 00 00000000 00000000 00000000 FFFFFFFF"  \
    "000001BF 40 000010 00000000 00000024 02 03 00 00 00000000 FFFFFFFF FFFFFFFD 00000000"  \
    "000001AD 40 00000C 00000000 00000034 02 02 00 00 00000000 00000000 FFFFFFFE 00000000"
#define EQUIPMENT "0000028D 40 000014 0000028E 40 00000C 01020304"
#define CUT_SERVER "000001B3 00 00000B 61E282 00"
#define CUT_URL "0000029B 00 00000B 61E282 00"

// By no edition. A limit that is bad too is answered first, and an input that is empty, cut off or of no version after it.
static const struct refusal no_edition[] = {
    {"no edition", 64, 72, MESSAGE("14"), 12, 0},
    {"no edition: empty input", 1, 72, "", 12, 0},
    {"no edition: version 2", 64, 72, "02", 12, 0},
    {"no edition: no room", 64, 0, MESSAGE("24") RESULT_CODE, 12, 0},
    {"no edition: limit 0", 0, 72, MESSAGE("14"), 7, 0},
    {"no edition: limit 65 and empty input", 65, 72, "", 7, 0},
};

// Numbers beside those of the editions, and one whose low 16 bits are 4006.
static const uint32_t none[] = {0, 1, 4005, 4007, 6733, 8505, 8507, 69542, 74042, UINT32_MAX};

// By either edition the members of a Unit-Value count.
static const struct refusal messages_refused_by[] = {
    {"a Unit-Value at limit 1", 1, 144, MESSAGE("38") UNIT_VALUE, 5, 0},
    {"room for two of a Unit-Value and its members", 64, 107, MESSAGE("38") UNIT_VALUE, 6, 3},
};

static const struct refusal avps_refused_by[] = {
    {"AVP: a Unit-Value at limit 1", 1, 144, UNIT_VALUE, 5, 0},
    {"AVP: room for two of a Unit-Value and its members", 64, 107, UNIT_VALUE, 6, 3},
};

static const struct acceptance messages_by[] = {
    {"a Unit-Value of -3 and -2 by RFC 4006", TANDREKILY_RFC_4006, 2, MESSAGE("38") UNIT_VALUE,
     UNIT_VALUE_RECORDS, {0, 0, 0, 3, 3, 56, 1, 56}},
    {"a Unit-Value of -3 and -2 by RFC 8506", TANDREKILY_RFC_8506, 2, MESSAGE("38") UNIT_VALUE,
     UNIT_VALUE_RECORDS, {0, 0, 0, 3, 3, 56, 1, 56}},
    {"User-Equipment-Info-Extension by RFC 4006", TANDREKILY_RFC_4006, 1, MESSAGE("28") EQUIPMENT,
     "0000028D 40 000014 00000000 0000001C 01 00 00 00 00000000 00000000 00000000 FFFFFFFF", {0, 0, 0, 1, 1, 40, 1, 40}},
    {"User-Equipment-Info-Extension by RFC 8506", TANDREKILY_RFC_8506, 2, MESSAGE("28") EQUIPMENT,
     "0000028D 40 000014 00000000 0000001C 01 08 00 00 00000000 00000000 00000000 FFFFFFFF"
     "0000028E 40 00000C 00000000 00000024 02 01 00 00 00000000 00000000 00000000 00000000",
     {0, 0, 0, 2, 2, 40, 1, 40}},
    {"a Redirect-Server-Address that breaks at byte 1", TANDREKILY_RFC_4006, 1, MESSAGE("20") CUT_SERVER,
     "000001B3 00 00000B 00000000 0000001C 01 00 01 01 00000000 00000000 00000001 FFFFFFFF", {0, 0, 1, 1, 1, 32, 1, 32}},
    {"a Redirect-Address-URL that breaks at byte 1 by RFC 8506", TANDREKILY_RFC_8506, 1, MESSAGE("20") CUT_URL,
     "0000029B 00 00000B 00000000 0000001C 01 00 01 01 00000000 00000000 00000001 FFFFFFFF", {0, 0, 1, 1, 1, 32, 1, 32}},
    {"letters in a CC-Money that does not tile", TANDREKILY_RFC_8506, 2, MESSAGE("20") "0000019D 00 00000C" LETTERS_4,
     "0000019D 00 00000C 00000000 0000001C 01 00 01 00 00000000 00000000 00000000 FFFFFFFF", {0, 0, 1, 1, 2, 32, 1, 32}},
};

static const struct acceptance avps_by[] = {
    {"AVP: CC-Correlation-Id is any bytes", TANDREKILY_RFC_4006, 1, "0000019B 00 000009 FF 000000",
     "0000019B 00 000009 00000000 00000008 01 01 00 03 00000000 00000000 00000000 FFFFFFFF", {0, 0, 0, 1, 1, 12}},
    {"AVP: Exponent is an Integer32", TANDREKILY_RFC_4006, 1, EXPONENT,
     "000001AD 40 00000C 00000000 00000008 01 02 00 00 00000000 00000000 FFFFFFFE FFFFFFFF", {0, 0, 0, 1, 1, 12}},
    {"AVP: an Exponent of 5 bytes", TANDREKILY_RFC_8506, 1, "000001AD 40 00000D 80000000 00 000000",
     "000001AD 40 00000D 00000000 00000008 01 02 02 03 00000000 00000000 80000000 FFFFFFFF", {0, 0, 2, 1, 1, 16}},
    {"AVP: an Exponent of 3 bytes", TANDREKILY_RFC_8506, 1, "000001AD 40 00000B 000001 00",
     "000001AD 40 00000B 00000000 00000008 01 00 02 01 00000000 00000000 00000000 FFFFFFFF", {0, 0, 2, 1, 1, 12}},
    {"AVP: Value-Digits is an Integer64", TANDREKILY_RFC_8506, 1, DIGITS,
     "000001BF 40 000010 00000000 00000008 01 03 00 00 00000000 FFFFFFFF FFFFFFFD FFFFFFFF", {0, 0, 0, 1, 1, 16}},
    {"AVP: Value-Digits of 9 bytes", TANDREKILY_RFC_4006, 1, "000001BF 40 000011 80000000 00000001 00 000000",
     "000001BF 40 000011 00000000 00000008 01 03 02 03 00000000 80000000 00000001 FFFFFFFF", {0, 0, 2, 1, 1, 20}},
    {"AVP: Value-Digits of 4 bytes", TANDREKILY_RFC_4006, 1, "000001BF 40 00000C 00000001",
     "000001BF 40 00000C 00000000 00000008 01 00 02 00 00000000 00000000 00000000 FFFFFFFF", {0, 0, 2, 1, 1, 12}},
    {"AVP: Currency-Code is an Unsigned32", TANDREKILY_RFC_4006, 1, "000001A9 00 00000C 000003D2",
     "000001A9 00 00000C 00000000 00000008 01 04 00 00 00000000 00000000 000003D2 FFFFFFFF", {0, 0, 0, 1, 1, 12}},
    {"AVP: CC-Total-Octets is an Unsigned64", TANDREKILY_RFC_8506, 1, "000001A5 00 000010 80000000 00000001",
     "000001A5 00 000010 00000000 00000008 01 05 00 00 00000000 80000000 00000001 FFFFFFFF", {0, 0, 0, 1, 1, 16}},
    {"AVP: CC-Money is a group", TANDREKILY_RFC_8506, 1, "0000019D 00 000008",
     "0000019D 00 000008 00000000 00000008 01 08 00 00 00000000 00000000 00000000 FFFFFFFF", {0, 0, 0, 1, 1, 8}},
    {"AVP: CC-Request-Type is an Enumerated", TANDREKILY_RFC_4006, 1, "000001A0 00 00000C FFFFFFFF",
     "000001A0 00 00000C 00000000 00000008 01 09 00 00 00000000 00000000 FFFFFFFF FFFFFFFF", {0, 0, 0, 1, 1, 12}},
    {"AVP: Cost-Unit is text", TANDREKILY_RFC_4006, 1, "000001A8 00 00000A C3A9 0000",
     "000001A8 00 00000A 00000000 00000008 01 0A 00 02 00000000 00000000 00000000 FFFFFFFF", {0, 0, 0, 1, 1, 12}},
    {"AVP: Redirect-Address-IPAddress by RFC 8506", TANDREKILY_RFC_8506, 1, "0000029A 00 00000E 0001 C0000201 0000",
     "0000029A 00 00000E 00000000 00000008 01 0D 00 02 00000000 00000000 C0000201 FFFFFFFF", {0, 0, 0, 1, 1, 16}},
    {"AVP: Redirect-Address-IPAddress by RFC 4006", TANDREKILY_RFC_4006, 1, "0000029A 00 00000E 0001 C0000201 0000",
     "0000029A 00 00000E 00000000 00000008 01 00 00 02 00000000 00000000 00000000 FFFFFFFF", {0, 0, 0, 1, 1, 16}},
    {"AVP: Tariff-Time-Change is a Time", TANDREKILY_RFC_8506, 1, "000001C3 00 00000C 83AA7E80",
     "000001C3 00 00000C 00000000 00000008 01 0E 00 00 00000000 00000000 83AA7E80 FFFFFFFF", {0, 0, 0, 1, 1, 12}},
    {"AVP: Restriction-Filter-Rule is any bytes", TANDREKILY_RFC_4006, 1, "000001B6 00 000009 FF 000000",
     "000001B6 00 000009 00000000 00000008 01 01 00 03 00000000 00000000 00000000 FFFFFFFF", {0, 0, 0, 1, 1, 12}},
    {"AVP: a vendor's Exponent", TANDREKILY_RFC_8506, 1, "000001AD 80 000010 000028AF 00000001",
     "000001AD 80 000010 000028AF 0000000C 01 00 00 00 00000000 00000000 00000000 FFFFFFFF", {0, 0, 0, 1, 1, 16}},
    {"AVP: a Redirect-Server-Address that breaks at byte 1", TANDREKILY_RFC_4006, 1, CUT_SERVER,
     "000001B3 00 00000B 00000000 00000008 01 00 01 01 00000000 00000000 00000001 FFFFFFFF", {0, 0, 1, 1, 1, 12}},
    {"AVP: a Subscription-Id-Data that breaks at byte 0", TANDREKILY_RFC_8506, 1, "000001BC 00 000009 FF 000000",
     "000001BC 00 000009 00000000 00000008 01 00 01 03 00000000 00000000 00000000 FFFFFFFF", {0, 0, 1, 1, 1, 12}},
    {"AVP: a Redirect-Address-URL that breaks at byte 1 by RFC 8506", TANDREKILY_RFC_8506, 1, CUT_URL,
     "0000029B 00 00000B 00000000 00000008 01 00 01 01 00000000 00000000 00000001 FFFFFFFF", {0, 0, 1, 1, 1, 12}},
    {"AVP: a Redirect-Address-URL is unknown by RFC 4006", TANDREKILY_RFC_4006, 1, CUT_URL,
     "0000029B 00 00000B 00000000 00000008 01 00 00 01 00000000 00000000 00000000 FFFFFFFF", {0, 0, 0, 1, 1, 12}},
    {"AVP: letters in a CC-Money that does not tile", TANDREKILY_RFC_4006, 2, "0000019D 00 00000C" LETTERS_4,
     "0000019D 00 00000C 00000000 00000008 01 00 01 00 00000000 00000000 00000000 FFFFFFFF", {0, 0, 1, 1, 2, 12}},
};

// The readings have no code of the editions.
static const struct acceptance without_edition[] = {
    {"AVP: Exponent is unknown as the Rust reads it", SAWP, 1, EXPONENT,
     "000001AD 40 00000C 00000000 00000008 01 00 00 00 00000000 00000000 00000000 FFFFFFFF", {0, 0, 0, 1, 1, 12}},
    {"AVP: Exponent is unknown by RFC 6733", RFC, 1, EXPONENT,
     "000001AD 40 00000C 00000000 00000008 01 00 00 00 00000000 00000000 00000000 FFFFFFFF", {0, 0, 0, 1, 1, 12}},
    {"AVP: Redirect-Server-Address is unknown by RFC 6733", RFC, 1, CUT_SERVER,
     "000001B3 00 00000B 00000000 00000008 01 00 00 01 00000000 00000000 00000000 FFFFFFFF", {0, 0, 0, 1, 1, 12}},
};

static void edition_refusals(void) {
    for (size_t i = 0; i < sizeof none / sizeof *none; i++) {
        for (size_t j = 0; j < sizeof no_edition / sizeof *no_edition; j++) {
            refuses(tandrekily_message_by, none[i], &no_edition[j]);
            refuses(tandrekily_avp_by, none[i], &no_edition[j]);
        }
    }
    for (size_t i = 0; i < sizeof messages_refused_by / sizeof *messages_refused_by; i++) {
        refuses(tandrekily_message_by, TANDREKILY_RFC_4006, &messages_refused_by[i]);
        refuses(tandrekily_message_by, TANDREKILY_RFC_8506, &messages_refused_by[i]);
    }
    for (size_t i = 0; i < sizeof avps_refused_by / sizeof *avps_refused_by; i++) {
        refuses(tandrekily_avp_by, TANDREKILY_RFC_4006, &avps_refused_by[i]);
        refuses(tandrekily_avp_by, TANDREKILY_RFC_8506, &avps_refused_by[i]);
    }
}

static void editions(void) {
    edition_refusals();
    for (size_t i = 0; i < sizeof messages_by / sizeof *messages_by; i++)
        accepts(tandrekily_message_by, messages_by[i].by, &messages_by[i]);
    for (size_t i = 0; i < sizeof avps_by / sizeof *avps_by; i++) accepts(tandrekily_avp_by, avps_by[i].by, &avps_by[i]);
    for (size_t i = 0; i < sizeof without_edition / sizeof *without_edition; i++)
        accepts(avp, without_edition[i].by, &without_edition[i]);
}

// ---- the header alone

static void header(const char *name, const char *hex, const uint64_t *expected) {
    uint8_t input[MOST];
    uint64_t result[TANDREKILY_RESULT];
    size_t length = bytes_of(hex, input);
    spoil(TANDREKILY_RESULT, result);
    tandrekily_header(input, length, result);
    check_result(name, expected, result);
}

static void headers(void) {
    static const uint64_t fields[TANDREKILY_RESULT] = {0, 0, 4, 0, 0, 20, 1, 24, 0xC5, 0x110, 3, 0x01020304, 0x05060708};
    header("header: all fields, AVPs not read", "01000018 C5000110 00000003 01020304 05060708 FFFFFFFF", fields);
    header("header: empty input", "", (uint64_t[TANDREKILY_RESULT]){1, 1});
    header("header: version 2", "02", (uint64_t[TANDREKILY_RESULT]){2, 0});
    header("header: length 19 of 8 bytes", "01000013 00000000", (uint64_t[TANDREKILY_RESULT]){1, 11});
    header("header: length 3", "01000003", (uint64_t[TANDREKILY_RESULT]){3, 0});
}

// ---- one AVP of a message

#define SESSION "00000107 40 00000B 613B31 00"
#define VENDORS "00000107 C0 00000F 000028AF 613B31 00"
#define HOST "00000108 40 00000C 686F7374"
#define HOLDING "00000117 00 000014" SESSION
#define OCTETS "0000002C 9F 00000E 000028AF ABCD 1234"
#define NO_HEAD "00000107 40 0000"
#define NO_DATA "00000107 40 00000B 613B"
#define NO_PADDING "00000107 40 00000B 613B31"
#define TOO_SHORT "00000107 40 000007"
#define NO_VENDOR "00000107 C0 000008 000028AF"

struct search {
    const char *name;
    uint32_t code;
    const char *input;
    uint64_t outline[TANDREKILY_OUTLINE];
};

static const struct search searched[] = {
    {"find: empty input", 263, "", {1, 1}},
    {"find: version 2", 263, "02", {2}},
    {"find: two bytes", 263, "0100", {1, 2}},
    {"find: length 3", 263, "01000003", {3}},
    {"find: length 19 of 8 bytes", 263, "01000013 00000000", {1, 11}},
    {"find: length 19", 263, "01000013 00000000 00000000 00000000 00000000" SESSION, {3}},
    {"find: it is there, and the message's last byte is not", 263, MESSAGE("2C") SESSION "00000108 40 00000C 686F73", {1, 1}},
    {"find: no AVP", 263, MESSAGE("14"), {0}},
    {"find: another code", 263, MESSAGE("20") HOST, {0}},
    {"find: past the message", 263, MESSAGE("14") SESSION, {0}},
    {"find: AVPs break off past the message", 263, MESSAGE("20") HOST NO_HEAD, {0}},
    {"find: in a group only", 263, MESSAGE("28") HOLDING, {0}},
    {"find: header cut off", 263, MESSAGE("1B") NO_HEAD, {4}},
    {"find: data cut off", 263, MESSAGE("1E") NO_DATA, {4}},
    {"find: padding cut off", 263, MESSAGE("1F") NO_PADDING, {4}},
    {"find: padding past the message", 263, MESSAGE("1F") SESSION, {4}},
    {"find: length 7", 263, MESSAGE("1C") TOO_SHORT, {4}},
    {"find: vendor bit and length 8", 263, MESSAGE("20") NO_VENDOR, {4}},
    {"find: a byte is left over", 263, MESSAGE("21") HOST "00", {4}},
    {"find: after the failing place", 263, MESSAGE("28") "00000108 40 000007" SESSION, {4}},
    {"find: before the failing place", 263, MESSAGE("28") SESSION "00000108 40 000007", {0, 0, 1, 263, 0x40, 11, 0, 28, 1, 0}},
    {"find: no data, and reserved bits in the header", 263, "0100001C 0F000000 00000000 00000000 00000000 00000107 00 000008",
     {0, 0, 1, 263, 0, 8, 0, 28, 0, 0}},
    {"find: vendor bit and vendor 0", 263, MESSAGE("24") "00000107 80 00000F 00000000 613B31 00",
     {0, 0, 1, 263, 0x80, 15, 0, 32, 1, 0}},
    {"find: every flag and every bit of a vendor", 263, MESSAGE("24") "00000107 FF 00000F FFFFFFFF 613B31 00",
     {0, 0, 1, 263, 0xFF, 15, 0xFFFFFFFF, 32, 1, 0}},
    {"find: 1 byte of padding", 263, MESSAGE("20") "00000107 40 00000B 613B31 A1", {0, 0, 1, 263, 0x40, 11, 0, 28, 1, 0xA10000}},
    {"find: 2 bytes of padding", 263, MESSAGE("20") "00000107 40 00000A 613B A1A2", {0, 0, 1, 263, 0x40, 10, 0, 28, 2, 0xA1A200}},
    {"find: 3 bytes of padding", 263, MESSAGE("20") "00000107 40 000009 61 A1A2A3", {0, 0, 1, 263, 0x40, 9, 0, 28, 3, 0xA1A2A3}},
    {"find: the first of two, a vendor's", 263, MESSAGE("30") VENDORS SESSION, {0, 0, 1, 263, 0xC0, 15, 0x28AF, 32, 1, 0}},
    {"find: the first of two, no vendor's", 263, MESSAGE("30") SESSION VENDORS, {0, 0, 1, 263, 0x40, 11, 0, 28, 1, 0}},
    {"find: after a group that has one, and one that does not tile", 263, MESSAGE("44") HOLDING FAILING VENDORS,
     {0, 0, 1, 263, 0xC0, 15, 0x28AF, 64, 1, 0}},
    {"find: the group itself", 279, MESSAGE("28") HOLDING, {0, 0, 1, 279, 0, 20, 0, 28, 0, 0}},
    {"find: after codes of which three bytes are the same", 263,
     MESSAGE("40") "01000107 00 000008 00010107 00 000008 00000007 00 000008 00000108 00 000008" SESSION,
     {0, 0, 1, 263, 0x40, 11, 0, 60, 1, 0}},
    {"find: code 0", 0, MESSAGE("28") SESSION "00000000 00 000008", {0, 0, 1, 0, 0, 8, 0, 40, 0, 0}},
    {"find: the largest code", UINT32_MAX, MESSAGE("1C") "FFFFFFFF 00 000008", {0, 0, 1, UINT32_MAX, 0, 8, 0, 28, 0, 0}},
};

static void search(const char *name, const uint8_t *input, size_t length, uint32_t code, const uint64_t *expected) {
    uint64_t outline[TANDREKILY_OUTLINE];
    spoil(TANDREKILY_OUTLINE, outline);
    tandrekily_find(input, length, code, outline);
    check_numbers(name, TANDREKILY_OUTLINE, expected, outline);
}

static void searches(void) {
    uint8_t input[MOST];
    for (size_t i = 0; i < sizeof searched / sizeof *searched; i++) {
        size_t length = bytes_of(searched[i].input, input);
        search(searched[i].name, input, length, searched[i].code, searched[i].outline);
    }
}

#define WALKED MESSAGE("4C") SESSION OCTETS HOLDING EMPTY_GROUP

struct step {
    const char *name;
    size_t past;
    uint64_t outline[TANDREKILY_OUTLINE];
};

// The AVPs of WALKED, each from the place that was returned before.
static const struct step walked[] = {
    {"next: the first", 32, {0, 0, 1, 263, 0x40, 11, 0, 28, 1, 0}},
    {"next: vendor, reserved bits and padding", 48, {0, 0, 1, 44, 0x9F, 14, 0x28AF, 44, 2, 0x123400}},
    {"next: a group is not entered", 68, {0, 0, 1, 279, 0, 20, 0, 56, 0, 0}},
    {"next: the last, without data", 76, {0, 0, 1, 279, 0, 8, 0, 76, 0, 0}},
    {"next: the end", 76, {0}},
    {"next: the end again", 76, {0}},
};

struct stay {
    const char *name, *message;
    size_t place;
    uint64_t number;
};

// No AVP is there, so the place is returned as it was given.
static const struct stay stays[] = {
    {"next: no bytes", "", 0, 0},
    {"next: no AVP", MESSAGE("14"), 20, 0},
    {"next: a byte past the end", MESSAGE("20") SESSION, 33, 0},
    {"next: the largest place", MESSAGE("20") SESSION, SIZE_MAX, 0},
    {"next: the last byte", MESSAGE("20") SESSION, 31, 4},
    {"next: header cut off", MESSAGE("27") SESSION NO_HEAD, 32, 4},
    {"next: data cut off", MESSAGE("2A") SESSION NO_DATA, 32, 4},
    {"next: padding cut off", MESSAGE("2B") SESSION NO_PADDING, 32, 4},
    {"next: length 7", MESSAGE("1C") TOO_SHORT, 20, 4},
    {"next: vendor bit and length 8", MESSAGE("20") NO_VENDOR, 20, 4},
};

static size_t step(const uint8_t *message, size_t length, size_t place, const struct step *expected) {
    uint64_t outline[TANDREKILY_OUTLINE];
    spoil(TANDREKILY_OUTLINE, outline);
    size_t past = tandrekily_next(message, length, place, outline);
    check_numbers(expected->name, TANDREKILY_OUTLINE, expected->outline, outline);
    check(expected->name, "another place", past == expected->past);
    return past;
}

static void steps(void) {
    static const struct step odd = {"next: a place that 4 does not divide", 17, {0, 0, 1, 263, 0x40, 11, 0, 13, 1, 0}};
    uint8_t message[MOST];
    size_t length = bytes_of(WALKED, message);
    size_t place = TANDREKILY_HEADER;
    for (size_t i = 0; i < sizeof walked / sizeof *walked; i++) place = step(message, length, place, &walked[i]);
    for (size_t i = 0; i < sizeof stays / sizeof *stays; i++) {
        struct step expected = {stays[i].name, stays[i].place, {stays[i].number}};
        length = bytes_of(stays[i].message, message);
        step(message, length, stays[i].place, &expected);
    }
    length = bytes_of("FFFFFFFFFF" SESSION, message);
    step(message, length, 5, &odd);
}

// Lengths and places of three bytes.
static void long_avp(void) {
    static const struct step first = {"next: a long AVP", 66072, {0, 0, 1, 264, 0x40, 0x010203, 0, 28, 1, 0}};
    static const struct step second = {"next: after a long AVP", 66084, {0, 0, 1, 263, 0x40, 11, 0, 66080, 1, 0}};
    static uint8_t message[66084];
    bytes_of("01010224 00000000 00000000 00000000 00000000 00000108 40 010203", message);
    bytes_of(SESSION, message + 66072);
    search("find: a long AVP", message, sizeof message, 264, first.outline);
    search("find: after a long AVP", message, sizeof message, 263, second.outline);
    step(message, sizeof message, step(message, sizeof message, TANDREKILY_HEADER, &first), &second);
}

// ---- the writer

#define RECORD "0000010C 00 00000D 00000000 00000000 01 04 02 03 00000000 00000000 000007D1 FFFFFFFF"
#define DEEPER "0000010C 00 00000D 00000000 00000000 02 04 02 03 00000000 00000000 000007D1 00000000"
#define DEEPEST "0000010C 00 00000D 00000000 00000000 03 04 02 03 00000000 00000000 000007D1 00000002"
#define GROUP "00000117 00 000000 00000000 00000000 01 08 00 00 00000000 00000000 00000000 FFFFFFFF"
#define INNER "0000011C 00 000000 00000000 00000000 02 08 00 00 00000000 00000000 00000000 00000000"
#define OF_THE_SECOND "0000010C 00 00000D 00000000 00000000 02 04 02 03 00000000 00000000 000007D1 00000006"
#define TREE GROUP DEEPER INNER DEEPEST DEEPEST DEEPER GROUP OF_THE_SECOND RECORD
#define STRAY "0000010C 00 00000D 00000000 00000000 01 04 02 03 00000000 00000000 000007D1 00000000"
#define UNPADDED "0000010C 00 00000D 00000000 00000000 01 04 02 02 00000000 00000000 000007D1 FFFFFFFF"
#define POOL "000007D1 00"

struct written {
    const char *name;
    uint32_t code;
    const char *table;
    size_t room;
    uint64_t number, amount;
    const char *message;
};

static const struct written writes[] = {
    {"write: no record", 0x110, "", 20, 0, 0, "01000014 C5000110 00000003 01020304 05060708"},
    {"write: P8's record", 0, RECORD, 41, 0, 0, "01000024 C5000000 00000003 01020304 05060708" RESULT_CODE},
    {"write: a group's length is computed", 0xFFFFFF, GROUP DEEPER, 44, 0, 0,
     "0100002C C5FFFFFF 00000003 01020304 05060708 00000117 00 000018" RESULT_CODE},
    {"write: groups in a group, and another", 0, TREE, 140, 0, 0,
     "0100008C C5000000 00000003 01020304 05060708 00000117 00 000050" RESULT_CODE "0000011C 00 000028" RESULT_CODE RESULT_CODE
     RESULT_CODE "00000117 00 000018" RESULT_CODE RESULT_CODE},
    {"write: command code of 25 bits", 0x1000000, DEEPER, 0, 8, 0, ""},
    {"write: command code of 25 bits, and a wrong parent", 0x1000000, STRAY, 64, 8, 0, ""},
    {"write: the first record is too deep", 0, DEEPER, 64, 9, 0, ""},
    {"write: the second is deeper after no group", 0, RECORD DEEPER, 64, 9, 1, ""},
    {"write: bytes left over", 0, RECORD "00", 64, 9, 1, ""},
    {"write: the first record has a parent", 0, STRAY, 64, 9, 0, ""},
    {"write: a record in no group has a parent", 0, RECORD STRAY, 64, 9, 1, ""},
    {"write: a wrong parent before a record that is too deep", 0, GROUP OF_THE_SECOND DEEPEST, 64, 9, 1, ""},
    {"write: a wrong parent after a record without its padding", 0, UNPADDED STRAY, 64, 9, 0, ""},
    {"write: a wrong parent, and bytes left over", 0, RECORD STRAY RECORD "00", 64, 9, 1, ""},
    {"write: a wrong parent, and no room", 0, STRAY, 0, 9, 0, ""},
    {"write: a byte too few", 0, RECORD, 35, 11, 36, ""},
    {"write: an output of length 0", 0, RECORD, 0, 11, 36, ""},
};

static void write(const struct written *w) {
    uint8_t table[MOST], pool[MOST], message[MOST], out[MOST];
    uint64_t result[TANDREKILY_RESULT];
    uint64_t expected[TANDREKILY_RESULT] = {w->number, w->amount};
    size_t table_length = bytes_of(w->table, table);
    size_t pool_length = bytes_of(POOL, pool);
    size_t total = bytes_of(w->message, message);
    expected[TANDREKILY_LENGTH] = total;
    memset(out, LENT, sizeof out);
    spoil(TANDREKILY_RESULT, result);
    tandrekily_write(0xC5, w->code, 3, 0x01020304, 0x05060708, table, table_length, pool, pool_length, out, w->room, result);
    check_result(w->name, expected, result);
    check(w->name, "the message is another", memcmp(out, message, total) == 0);
    check(w->name, "bytes past the total were changed", all(LENT, out + total, sizeof out - total));
}

// Refused for this record, and nothing is written.
static void refuse_parent(const char *name, const uint8_t *table, size_t table_length, size_t index, const uint8_t *pool,
                          size_t pool_length) {
    uint8_t out[MOST];
    uint64_t result[TANDREKILY_RESULT];
    memset(out, LENT, sizeof out);
    spoil(TANDREKILY_RESULT, result);
    tandrekily_write(0, 0, 0, 0, 0, table, table_length, pool, pool_length, out, sizeof out, result);
    check_refusal(name, TANDREKILY_BAD_TABLE, index, result);
    check(name, "the output was changed", all(LENT, out, sizeof out));
}

// What is tried for a parent: each index of the table and one past it, none, and the right one with each of its bits changed.
static uint32_t parent_tried(uint32_t way, uint32_t records, uint32_t right) {
    if (way <= records) return way;
    return way == records + 1 ? TANDREKILY_TOP_LEVEL : right ^ UINT32_C(1) << (way - records - 2);
}

static void wrong_parents(const char *name, uint8_t *table, uint32_t records, const uint8_t *pool, size_t pool_length) {
    for (uint32_t i = 0; i < records; i++) {
        uint8_t *record = table + i * TANDREKILY_RECORD_SIZE;
        uint32_t right = parent_of(record);
        for (uint32_t way = 0; way < records + 34; way++) {
            set_parent(record, parent_tried(way, records, right));
            if (parent_of(record) == right) continue;
            refuse_parent(name, table, records * TANDREKILY_RECORD_SIZE, i, pool, pool_length);
        }
        set_parent(record, right);
    }
}

// 63 groups, each in the one before, and a number in the last: it is read, written back, and each parent is looked at.
static void deepest(void) {
    static uint8_t store[64 * TANDREKILY_RECORD_SIZE];
    uint8_t input[MOST], out[MOST];
    uint64_t result[TANDREKILY_RESULT];
    size_t length = bytes_of("01000218 00000000 00000000 00000000 00000000", input);
    for (int inside = 63; inside > 0; inside--) {
        length += bytes_of("00000117 00 000000", input + length);
        input[length - 2] = (uint8_t)((8 * inside + 12) >> 8);
        input[length - 1] = (uint8_t)(8 * inside + 12);
    }
    length += bytes_of("0000010C 00 00000C 000007D1", input + length);
    tandrekily_message(false, 64, input, length, store, sizeof store, result);
    check("64 deep", "not as many records", result[TANDREKILY_RECORDS] == 64);
    check_parents("64 deep", store, 64);
    tandrekily_write(0, 0, 0, 0, 0, store, sizeof store, input, length, out, sizeof out, result);
    check("64 deep", "another message comes back", result[TANDREKILY_LENGTH] == length && memcmp(out, input, length) == 0);
    wrong_parents("64 deep", store, 64, input, length);
}

// 256 records of 65,536 bytes of data, the same for all, are over 16,777,215 bytes together.
static void too_long(void) {
    static uint8_t table[256 * TANDREKILY_RECORD_SIZE], pool[65536];
    uint8_t out[1] = {LENT};
    uint64_t result[TANDREKILY_RESULT];
    for (size_t i = 0; i < sizeof table; i += TANDREKILY_RECORD_SIZE)
        bytes_of("0000002C 00 010008 00000000 00000000 01 01 00 00 00000000 00000000 00000000 FFFFFFFF", table + i);
    spoil(TANDREKILY_RESULT, result);
    tandrekily_write(0, 0, 0, 0, 0, table, sizeof table, pool, sizeof pool, out, sizeof out, result);
    check_refusal("write: over 16,777,215 bytes", 10, 0, result);
    check("write: over 16,777,215 bytes", "the output was changed", out[0] == LENT);
    set_parent(table + 255 * TANDREKILY_RECORD_SIZE, 254);
    refuse_parent("write: over 16,777,215 bytes, and a wrong parent", table, sizeof table, 255, pool, sizeof pool);
}

static void writer(void) {
    uint8_t table[MOST], pool[MOST];
    size_t table_length = bytes_of(TREE, table);
    size_t pool_length = bytes_of(POOL, pool);
    for (size_t i = 0; i < sizeof writes / sizeof *writes; i++) write(&writes[i]);
    wrong_parents("write: another parent", table, (uint32_t)(table_length / TANDREKILY_RECORD_SIZE), pool, pool_length);
    deepest();
    too_long();
}

// ---- values

static const char *const well_formed[] = {
    "", "00", "7F", "C280", "DFBF", "E0A080", "ED9FBF", "EE8080", "EFBFBF", "F0908080", "F48FBFBF", "61 C3A9 62",
    "6162636465666768 696A", "61626364656667 C3A9", "E282AC F09F9880 C3A9 61", LETTERS_256,
};

// A text, and how many bytes of it are well-formed.
struct broken {
    const char *text;
    size_t valid;
};

static const struct broken ill_formed[] = {
    {"80", 0}, {"C0AF", 0}, {"C1BF", 0}, {"C3", 0}, {"C341", 0}, {"E09F80", 0}, {"E282", 0}, {"EDA080", 0}, {"EDBFBF", 0},
    {"F08F8080", 0}, {"F4908080", 0}, {"F5808080", 0}, {"F0908041", 0}, {"FF", 0}, {"61 80", 1},
    {"61 E282", 1},
    {"6162 EDA080", 2},
    {"6162 C080 63", 2},
    {"C3A9 E282AC F09F9880 80", 9},
    {"C3A9 F09F98", 2},
    {"80 6162636465666768", 0},
    {"6162 FF 6364 C3A9 FF 65", 2},
    {"6162636465666768 FF", 8},
    {"6162636465666768 696A FF 6B6C6D6E6F707172", 10},
    {"61626364656667 E282", 7},
    {LETTERS_256 "FF" LETTERS_16, 256},
};

static void texts(void) {
    uint8_t text[MOST];
    for (size_t i = 0; i < sizeof well_formed / sizeof *well_formed; i++) {
        size_t length = bytes_of(well_formed[i], text);
        check(well_formed[i], "taken for ill-formed", tandrekily_is_utf8(text, length));
        check(well_formed[i], "not well-formed to its end", tandrekily_utf8(text, length) == length);
    }
    for (size_t i = 0; i < sizeof ill_formed / sizeof *ill_formed; i++) {
        size_t length = bytes_of(ill_formed[i].text, text);
        check(ill_formed[i].text, "taken for well-formed", !tandrekily_is_utf8(text, length));
        check(ill_formed[i].text, "broken at another byte", tandrekily_utf8(text, length) == ill_formed[i].valid);
    }
}

static void seconds(uint32_t time, int64_t expected) {
    check("unix_seconds", "another second", tandrekily_unix_seconds(time) == expected);
}

static void times(void) {
    seconds(0x80000000, -INT64_C(61505152));
    seconds(2208988799u, -1);
    seconds(2208988800u, 0);
    seconds(UINT32_MAX, INT64_C(2085978495));
    seconds(0, INT64_C(2085978496));
    seconds(0x1DF780, INT64_C(2087942400));
    seconds(0x7FFFFFFF, INT64_C(4233462143));
}

static void signs(void) {
    static const int32_t short_numbers[] = {0, 1, INT32_MAX, INT32_MIN, -2, -1};
    static const int64_t long_numbers[] = {0, 1, INT32_MAX, UINT32_MAX, INT64_MAX, INT64_MIN, INT32_MIN, -2, -1};
    for (size_t i = 0; i < sizeof short_numbers / sizeof *short_numbers; i++)
        check("integer32", "another number", tandrekily_integer32((uint32_t)short_numbers[i]) == short_numbers[i]);
    for (size_t i = 0; i < sizeof long_numbers / sizeof *long_numbers; i++)
        check("integer64", "another number", tandrekily_integer64((uint64_t)long_numbers[i]) == long_numbers[i]);
}

// ---- Unit-Values

enum { REFUSED = 2, UNASKED = 0x5A5A5A5A };

// How the first stands to the second, or that an exponent is refused.
struct comparison {
    const char *name;
    int64_t digits;
    int32_t exponent;
    int64_t other_digits;
    int32_t other_exponent;
    int32_t order;
};

static const struct comparison comparisons[] = {
    {"compare: zero", 0, 0, 0, 0, 0},
    {"compare: zeros far apart", 0, -18, 0, 18, 0},
    {"compare: a zero and one", 0, 18, 1, -18, -1},
    {"compare: a zero and less", 0, -18, -1, -18, 1},
    {"compare: less and more", -1, 18, 1, -18, -1},
    {"compare: the same", 150, -1, 150, -1, 0},
    {"compare: the same, other digits", 15, 0, 150, -1, 0},
    {"compare: the same, below zero", -15, 0, -150, -1, 0},
    {"compare: the larger exponent is less", 15, 0, 151, -1, -1},
    {"compare: the larger exponent is more", 15, 0, 149, -1, 1},
    {"compare: the larger exponent is more, below zero", -15, 0, -151, -1, 1},
    {"compare: the larger exponent is less, below zero", -15, 0, -149, -1, -1},
    {"compare: same exponents", 7, 3, 8, 3, -1},
    {"compare: same exponents, below zero", -7, 3, -8, 3, 1},
    {"compare: the ends of 64 bits", INT64_MIN, 0, INT64_MAX, 0, -1},
    {"compare: the least, twice", INT64_MIN, -18, INT64_MIN, -18, 0},
    {"compare: the least, one exponent apart", INT64_MIN, 1, INT64_MIN, 0, -1},
    {"compare: the largest, one exponent apart", INT64_MAX, 1, INT64_MAX, 0, 1},
    {"compare: the ends of both", INT64_MAX, 18, INT64_MAX, -18, 1},
    {"compare: the ends of both, below zero", INT64_MIN, 18, INT64_MIN, -18, -1},
    {"compare: 10 to the 36 apart", 1, 18, INT64_MAX, -18, 1},
    {"compare: past what a double holds", INT64_C(9007199254740993), 0, INT64_C(9007199254740992), 0, 1},
    {"compare: past what a double holds, moved", INT64_C(922337203685477580), 1, INT64_C(9223372036854775801), 0, -1},
    {"compare: 10 to the 18 as digits", 1, 18, INT64_C(1000000000000000000), 0, 0},
    {"compare: 10 to the 18 less one as digits", 1, 0, INT64_C(999999999999999999), -18, 1},
    {"compare: a product of 64 bits that wraps to 0", INT64_C(4611686018427387904), 1, 1, 0, 1},
    {"compare: exponents at the ends", 1, -18, 1, 18, -1},
    {"compare: exponent 19", 1, 19, 1, 0, REFUSED},
    {"compare: exponent -19", 1, -19, 1, 0, REFUSED},
    {"compare: the other's exponent 19", 1, 0, 1, 19, REFUSED},
    {"compare: the other's exponent -19", 1, 0, 1, -19, REFUSED},
    {"compare: both exponents 19", 1, 19, 1, 19, REFUSED},
    {"compare: zero with exponent 19", 0, 19, 0, 0, REFUSED},
    {"compare: two signs with exponent -19", -1, -19, 1, 0, REFUSED},
    {"compare: the ends of 32 bits", 1, INT32_MIN, 1, INT32_MAX, REFUSED},
    {"compare: an exponent that is 0 in its low bytes", 1, 65536, 1, 0, REFUSED},
};

// A refusal leaves the order as it was lent.
static void compare(const char *name, int64_t digits, int32_t exponent, int64_t other_digits, int32_t other_exponent,
                    int32_t order) {
    bool refused = order == REFUSED;
    int32_t given = UNASKED;
    uint8_t number = tandrekily_compare(digits, exponent, other_digits, other_exponent, &given);
    check(name, "another answer", number == (refused ? TANDREKILY_BAD_EXPONENT : TANDREKILY_ACCEPTED));
    check(name, "another order", given == (refused ? UNASKED : order));
}

// The other way round the order is the opposite.
static void unit_values(void) {
    for (size_t i = 0; i < sizeof comparisons / sizeof *comparisons; i++) {
        const struct comparison *c = &comparisons[i];
        int32_t opposite = c->order == REFUSED ? REFUSED : -c->order;
        compare(c->name, c->digits, c->exponent, c->other_digits, c->other_exponent, c->order);
        compare(c->name, c->other_digits, c->other_exponent, c->digits, c->exponent, opposite);
    }
}

// ---- RADIUS

#define PACKET(length) "0407" length "A0A1A2A3 A4A5A6A7 A8A9AAAB ACADAEAF "
#define NAME "0105626F62"
#define LETTERS_252 LETTERS_64 LETTERS_64 LETTERS_64 LETTERS_16 LETTERS_16 LETTERS_16 LETTERS_4 LETTERS_4 LETTERS_4

// Bytes behind the store are looked at too, BEHIND of them.
enum { PACKET_MOST = 4096, BEHIND = 32, STORE_MOST = 2040 * TANDREKILY_RECORD_SIZE };

struct packet_refusal {
    const char *name;
    size_t room;
    const char *input;
    uint64_t number, amount;
};

static const struct packet_refusal packets_refused[] = {
    {"RADIUS: empty input", 72, "", 1, 4},
    {"RADIUS: one byte", 72, "04", 1, 3},
    {"RADIUS: three bytes", 72, "040700", 1, 1},
    {"RADIUS: length 0 of 4 bytes", 72, "04070000", 3, 0},
    {"RADIUS: length 19 of 4 bytes", 72, "04070013", 3, 0},
    {"RADIUS: length 19", 72, PACKET("0013"), 3, 0},
    {"RADIUS: length 4097 of 4 bytes", 72, "04071001", 3, 0},
    {"RADIUS: the largest length", 72, "0407FFFF", 3, 0},
    {"RADIUS: length 20 of 4 bytes", 72, "04070014", 1, 16},
    {"RADIUS: length 4096 of 4 bytes", 72, "04071000", 1, 4092},
    {"RADIUS: length 20 of 19 bytes", 72, "04070014 A0A1A2A3 A4A5A6A7 A8A9AAAB ACADAE", 1, 1},
    {"RADIUS: the last byte is absent, and an attribute is broken", 0, PACKET("0019") "01000000", 1, 1},
    {"RADIUS: one byte left over", 72, PACKET("0015") "01", 4, 0},
    {"RADIUS: one byte left over after an attribute", 72, PACKET("001A") NAME "01", 4, 0},
    {"RADIUS: one byte left over, and the next past the packet", 72, PACKET("0015") "0102", 4, 0},
    {"RADIUS: an attribute of length 0", 72, PACKET("0016") "0100", 4, 0},
    {"RADIUS: an attribute of length 1", 72, PACKET("0016") "0101", 4, 0},
    {"RADIUS: an attribute of length 1 after another", 72, PACKET("001B") NAME "0101", 4, 0},
    {"RADIUS: an attribute of length 1 with another in its length", 72, PACKET("0017") "010102", 4, 0},
    {"RADIUS: an attribute a byte too long", 72, PACKET("0018") "0105626F", 4, 0},
    {"RADIUS: an attribute past the packet, not past the input", 72, PACKET("0018") NAME, 4, 0},
    {"RADIUS: an attribute of length 255 in 2 bytes", 72, PACKET("0016") "01FF", 4, 0},
    {"RADIUS: no room, and an attribute is broken", 0, PACKET("001B") NAME "0101", 4, 0},
    {"RADIUS: no room", 0, PACKET("0019") NAME, 6, 1},
    {"RADIUS: room for less than a record", 35, PACKET("0019") NAME, 6, 1},
    {"RADIUS: room for two of three", 107, PACKET("0023") NAME NAME NAME, 6, 3},
};

// What the library is lent for a packet, and something behind each.
static struct {
    uint8_t store[STORE_MOST + BEHIND];
    uint8_t authenticator[TANDREKILY_AUTHENTICATOR + 1];
    uint64_t result[TANDREKILY_RADIUS_RESULT + 1];
} lent;

static void decode_packet(const uint8_t *input, size_t length, size_t room) {
    memset(lent.store, LENT, room + BEHIND);
    memset(lent.authenticator, LENT, sizeof lent.authenticator);
    spoil(TANDREKILY_RADIUS_RESULT + 1, lent.result);
    tandrekily_radius(input, length, lent.store, room, lent.authenticator, lent.result);
}

// The numbers of a result, and that it has no more.
static void check_radius(const char *name, const uint64_t *expected, const uint64_t *result) {
    check_numbers(name, TANDREKILY_RADIUS_RESULT, expected, result);
    check(name, "a number after the result was changed", is_lent(result[TANDREKILY_RADIUS_RESULT]));
}

// A refusal leaves the store and the authenticator as they were lent.
static void refuse_packet(const char *name, const uint8_t *input, size_t length, size_t room, uint64_t number, uint64_t amount) {
    uint64_t expected[TANDREKILY_RADIUS_RESULT] = {number, amount};
    decode_packet(input, length, room);
    check_radius(name, expected, lent.result);
    check(name, "the store was changed", all(LENT, lent.store, room + BEHIND));
    check(name, "the authenticator was changed", all(LENT, lent.authenticator, sizeof lent.authenticator));
}

struct packet {
    const char *name, *input, *records;
    uint64_t result[TANDREKILY_RADIUS_RESULT];
};

static const struct packet packets[] = {
    {"RADIUS: no attribute", PACKET("0014"), "", {0, 0, 0, 0, 0, 20, 4, 7}},
    {"RADIUS: every bit of the header, and a byte more", "FFFE0014 00000000 00000000 00000000 00000000 FF", "",
     {0, 0, 0, 0, 0, 20, 255, 254}},
    {"RADIUS: an attribute past the packet", PACKET("0014") NAME, "", {0, 0, 0, 0, 0, 20, 4, 7}},
    {"RADIUS: a string", PACKET("0019") NAME, "00000001 00 000005 00000000 00000016 01 01 00 00 00000000 00000000 00000000 FFFFFFFF",
     {0, 0, 0, 1, 1, 25, 4, 7}},
    {"RADIUS: a string of any bytes", PACKET("0018") "0104FFC0",
     "00000001 00 000004 00000000 00000016 01 01 00 00 00000000 00000000 00000000 FFFFFFFF", {0, 0, 0, 1, 1, 24, 4, 7}},
    {"RADIUS: a string of no bytes, and a broken attribute past the packet", PACKET("0016") "0102 0101",
     "00000001 00 000002 00000000 00000016 01 01 00 00 00000000 00000000 00000000 FFFFFFFF", {0, 0, 0, 1, 1, 22, 4, 7}},
    {"RADIUS: a string of 253 bytes", PACKET("0113") "19FF" LETTERS_252 "00",
     "00000019 00 0000FF 00000000 00000016 01 01 00 00 00000000 00000000 00000000 FFFFFFFF", {0, 0, 0, 1, 1, 275, 4, 7}},
    {"RADIUS: Vendor-Specific is any bytes", PACKET("001E") "1A0A 00000009 0104 FF00",
     "0000001A 00 00000A 00000000 00000016 01 01 00 00 00000000 00000000 00000000 FFFFFFFF", {0, 0, 0, 1, 1, 30, 4, 7}},
    {"RADIUS: an integer", PACKET("001A") "0506 80000001",
     "00000005 00 000006 00000000 00000016 01 04 00 00 00000000 00000000 80000001 FFFFFFFF", {0, 0, 0, 1, 1, 26, 4, 7}},
    {"RADIUS: an integer of 3 bytes", PACKET("0019") "0505 616263",
     "00000005 00 000005 00000000 00000016 01 00 02 00 00000000 00000000 00000000 FFFFFFFF", {0, 0, 2, 1, 1, 25, 4, 7}},
    {"RADIUS: an integer of 5 bytes", PACKET("001B") "0507 80000001 00",
     "00000005 00 000007 00000000 00000016 01 00 02 00 00000000 00000000 00000000 FFFFFFFF", {0, 0, 2, 1, 1, 27, 4, 7}},
    {"RADIUS: an integer of no bytes", PACKET("0016") "0502",
     "00000005 00 000002 00000000 00000016 01 00 02 00 00000000 00000000 00000000 FFFFFFFF", {0, 0, 2, 1, 1, 22, 4, 7}},
    {"RADIUS: an address", PACKET("001A") "0406 C0000210",
     "00000004 00 000006 00000000 00000016 01 0D 00 00 00000000 00000000 C0000210 FFFFFFFF", {0, 0, 0, 1, 1, 26, 4, 7}},
    {"RADIUS: an address with a family", PACKET("001C") "0408 0001 C0000210",
     "00000004 00 000008 00000000 00000016 01 00 02 00 00000000 00000000 00000000 FFFFFFFF", {0, 0, 2, 1, 1, 28, 4, 7}},
    {"RADIUS: an address of 16 bytes", PACKET("0026") "0412 20010DB8 00000000 00000000 00000001",
     "00000004 00 000012 00000000 00000016 01 00 02 00 00000000 00000000 00000000 FFFFFFFF", {0, 0, 2, 1, 1, 38, 4, 7}},
    {"RADIUS: a text", PACKET("0018") "1204 C3A9",
     "00000012 00 000004 00000000 00000016 01 0A 00 00 00000000 00000000 00000000 FFFFFFFF", {0, 0, 0, 1, 1, 24, 4, 7}},
    {"RADIUS: a text of no bytes", PACKET("0016") "2C02",
     "0000002C 00 000002 00000000 00000016 01 0A 00 00 00000000 00000000 00000000 FFFFFFFF", {0, 0, 0, 1, 1, 22, 4, 7}},
    {"RADIUS: a text that breaks at byte 0", PACKET("0018") "1604 C080",
     "00000016 00 000004 00000000 00000016 01 00 01 00 00000000 00000000 00000000 FFFFFFFF", {0, 0, 1, 1, 1, 24, 4, 7}},
    {"RADIUS: a text that breaks at byte 252", PACKET("0113") "0BFF" LETTERS_252 "FF",
     "0000000B 00 0000FF 00000000 00000016 01 00 01 00 00000000 00000000 000000FC FFFFFFFF", {0, 0, 1, 1, 1, 275, 4, 7}},
    {"RADIUS: a text that the next attribute would complete", PACKET("001B") "2C05 61E282 AC02",
     "0000002C 00 000005 00000000 00000016 01 00 01 00 00000000 00000000 00000001 FFFFFFFF"
     "000000AC 00 000002 00000000 0000001B 01 00 00 00 00000000 00000000 00000000 FFFFFFFF",
     {0, 0, 1, 2, 2, 27, 4, 7}},
    {"RADIUS: letters of a type that the RFCs do not have", PACKET("001A") "5706" LETTERS_4,
     "00000057 00 000006 00000000 00000016 01 00 00 00 00000000 00000000 00000000 FFFFFFFF", {0, 0, 0, 1, 1, 26, 4, 7}},
    {"RADIUS: flags of the first and of the last are joined", PACKET("0022") "1203 FF" NAME "2903 00 2C03 61",
     "00000012 00 000003 00000000 00000016 01 00 01 00 00000000 00000000 00000000 FFFFFFFF"
     "00000001 00 000005 00000000 00000019 01 01 00 00 00000000 00000000 00000000 FFFFFFFF"
     "00000029 00 000003 00000000 0000001E 01 00 02 00 00000000 00000000 00000000 FFFFFFFF"
     "0000002C 00 000003 00000000 00000021 01 0A 00 00 00000000 00000000 00000000 FFFFFFFF",
     {0, 0, 3, 4, 4, 34, 4, 7}},
    {"RADIUS: the Access-Accept of RFC 2865, section 7.1",
     "02000026 86FE220E 7624BA2A 1005F6BF 9B55E0B2 0606 00000001 0F06 00000000 0E06 C0A80103",
     "00000006 00 000006 00000000 00000016 01 04 00 00 00000000 00000000 00000001 FFFFFFFF"
     "0000000F 00 000006 00000000 0000001C 01 04 00 00 00000000 00000000 00000000 FFFFFFFF"
     "0000000E 00 000006 00000000 00000022 01 0D 00 00 00000000 00000000 C0A80103 FFFFFFFF",
     {0, 0, 0, 3, 3, 38, 2, 0}},
};

// The output ends with the packet, or has room for seven bytes more, which stay as they were lent.
static void write_back(const char *name, const uint8_t *input) {
    static const size_t spare[] = {0, 7};
    static uint8_t out[PACKET_MOST + BEHIND];
    uint64_t written[TANDREKILY_RADIUS_RESULT + 1];
    uint64_t expected[TANDREKILY_RADIUS_RESULT] = {0};
    size_t length = (size_t)lent.result[TANDREKILY_LENGTH];
    expected[TANDREKILY_LENGTH] = length;
    for (size_t i = 0; i < sizeof spare / sizeof *spare; i++) {
        memset(out, LENT, length + BEHIND);
        spoil(TANDREKILY_RADIUS_RESULT + 1, written);
        tandrekily_radius_write((uint8_t)lent.result[TANDREKILY_RADIUS_CODE], (uint8_t)lent.result[TANDREKILY_RADIUS_IDENTIFIER],
                                lent.authenticator, lent.store, (size_t)lent.result[TANDREKILY_RECORDS] * TANDREKILY_RECORD_SIZE,
                                input, length, out, length + spare[i], written);
        check_radius(name, expected, written);
        check(name, "another packet comes back", memcmp(out, input, length) == 0);
        check(name, "bytes past what comes back were changed", all(LENT, out + length, BEHIND));
    }
}

// The store ends with the last record, or has room for five bytes or a record and five bytes more: all zero then. What was read is
// written back.
static void accept_packet(const char *name, const uint8_t *input, size_t length, const uint8_t *records, const uint64_t *result) {
    static const size_t spare[] = {0, 5, TANDREKILY_RECORD_SIZE + 5};
    size_t used = TANDREKILY_RECORD_SIZE * (size_t)result[TANDREKILY_RECORDS];
    for (size_t i = 0; i < sizeof spare / sizeof *spare; i++) {
        size_t room = used + spare[i];
        decode_packet(input, length, room);
        check_radius(name, result, lent.result);
        check(name, "the records are others", memcmp(lent.store, records, used) == 0);
        check_parents(name, lent.store, result[TANDREKILY_RECORDS]);
        check(name, "the store is not zero after the last record", all(0, lent.store + used, spare[i]));
        check(name, "bytes after the store were changed", all(LENT, lent.store + room, BEHIND));
        check(name, "another authenticator", memcmp(lent.authenticator, input + 4, TANDREKILY_AUTHENTICATOR) == 0);
        check(name, "a byte after it was changed", lent.authenticator[TANDREKILY_AUTHENTICATOR] == LENT);
    }
    if (lent.result[TANDREKILY_NUMBER] == TANDREKILY_ACCEPTED) write_back(name, input);
}

// The kinds of types 0 to 63 in hex; all further types have kind 0.
static const char radius_kinds[] = "0111D444DD4A44D4"
                                   "40A110A411144411"
                                   "111114414444A444"
                                   "4414000000001441";

#define VALUED "00000000 00 000000 00000000 00000016 01 00 00 00 00000000 00000000 6162FF64 FFFFFFFF"
#define BROKEN "00000000 00 000000 00000000 00000016 01 00 01 00 00000000 00000000 00000002 FFFFFFFF"
#define OF_NO_LENGTH "00000000 00 000000 00000000 00000016 01 00 02 00 00000000 00000000 00000000 FFFFFFFF"
#define PLAIN "00000000 00 000000 00000000 00000016 01 00 00 00 00000000 00000000 00000000 FFFFFFFF"

// The record of an attribute whose data are so many bytes of 61 62 FF 64 65, without its code, its length and its kind, which is
// changed to 0 where the data are not of it.
static const char *record_of(uint8_t *kind, uint8_t size) {
    bool is_text = *kind == TANDREKILY_UTF8_STRING;
    bool is_number = *kind == TANDREKILY_UNSIGNED_32 || *kind == TANDREKILY_ADDRESS;
    if (is_number && size == 4) return VALUED;
    if (!is_number && !(is_text && size > 2)) return PLAIN;
    *kind = TANDREKILY_UNHANDLED;
    return is_text ? BROKEN : OF_NO_LENGTH;
}

static void check_type(unsigned type, uint8_t size) {
    uint8_t input[MOST], record[TANDREKILY_RECORD_SIZE];
    size_t length = bytes_of(PACKET("0000") "0000 6162FF6465", input) - 5 + size;
    uint8_t kind = type < 64 ? digit(radius_kinds[type]) : TANDREKILY_UNHANDLED;
    bytes_of(record_of(&kind, size), record);
    record[TANDREKILY_RECORD_CODE + 3] = (uint8_t)type;
    record[TANDREKILY_RECORD_LENGTH + 2] = (uint8_t)(TANDREKILY_ATTRIBUTE_HEAD + size);
    record[TANDREKILY_RECORD_KIND] = kind;
    input[3] = (uint8_t)length;
    input[20] = (uint8_t)type;
    input[21] = record[TANDREKILY_RECORD_LENGTH + 2];
    uint64_t result[TANDREKILY_RADIUS_RESULT] = {0, 0, record[TANDREKILY_RECORD_ERRORS], 1, 1, length, 4, 7};
    accept_packet("RADIUS: each type", input, length, record, result);
}

// A packet of User-Names without data. Of an odd length the last one has a byte.
static uint8_t *names(size_t length) {
    static uint8_t packet[PACKET_MOST + 2];
    packet[0] = 4;
    packet[2] = (uint8_t)(length >> 8);
    packet[3] = (uint8_t)length;
    for (size_t at = 20; at < length; at += 2) {
        packet[at] = 1;
        packet[at + 1] = at + 3 == length ? 3 : 2;
    }
    return packet;
}

// The most attributes that a packet holds, and a byte more than a packet may have.
static void long_packets(void) {
    static uint8_t records[STORE_MOST];
    const size_t most = TANDREKILY_RADIUS_RECORDS;
    for (size_t i = 0; i < most; i++) {
        uint8_t *record = records + i * TANDREKILY_RECORD_SIZE;
        bytes_of("00000001 00 000002 00000000 00000000 01 01 00 00 00000000 00000000 00000000 FFFFFFFF", record);
        record[TANDREKILY_RECORD_PLACE + 2] = (uint8_t)((22 + 2 * i) >> 8);
        record[TANDREKILY_RECORD_PLACE + 3] = (uint8_t)(22 + 2 * i);
    }
    accept_packet("RADIUS: 4,096 bytes", names(PACKET_MOST), PACKET_MOST + 1, records, (uint64_t[]){0, 0, 0, most, most, 4096, 4, 0});
    refuse_packet("RADIUS: 4,096 bytes, a record too few", names(PACKET_MOST), PACKET_MOST, most * TANDREKILY_RECORD_SIZE - 1, 6, most);
    refuse_packet("RADIUS: 4,095 of 4,096 bytes", names(PACKET_MOST), PACKET_MOST - 1, STORE_MOST, 1, 1);
    refuse_packet("RADIUS: 4,097 bytes", names(PACKET_MOST + 1), PACKET_MOST + 1, STORE_MOST, 3, 0);
}

static void radius_reader(void) {
    uint8_t input[MOST], records[MOST];
    for (size_t i = 0; i < sizeof packets_refused / sizeof *packets_refused; i++) {
        const struct packet_refusal *r = &packets_refused[i];
        refuse_packet(r->name, input, bytes_of(r->input, input), r->room, r->number, r->amount);
    }
    for (size_t i = 0; i < sizeof packets / sizeof *packets; i++) {
        const struct packet *p = &packets[i];
        bytes_of(p->records, records);
        accept_packet(p->name, input, bytes_of(p->input, input), records, p->result);
    }
    for (unsigned type = 0; type < 256; type++)
        for (uint8_t size = 0; size <= 5; size++) check_type(type, size);
    long_packets();
}

// A Reply-Message of this text, of which so many bytes are well-formed.
static void check_text(const char *hex, uint64_t valid) {
    uint8_t input[MOST], record[TANDREKILY_RECORD_SIZE];
    size_t length = bytes_of(PACKET("0000") "1200", input);
    size_t size = bytes_of(hex, input + length);
    bool broken = valid < size;
    input[21] = (uint8_t)(TANDREKILY_ATTRIBUTE_HEAD + size);
    length += size;
    input[2] = (uint8_t)(length >> 8);
    input[3] = (uint8_t)length;
    bytes_of("00000012 00 000000 00000000 00000016 01 0A 00 00 00000000 00000000 00000000 FFFFFFFF", record);
    record[TANDREKILY_RECORD_LENGTH + 2] = input[21];
    if (broken) bytes_of("00 01", record + TANDREKILY_RECORD_KIND);
    if (broken) record[TANDREKILY_RECORD_VALUE + 7] = (uint8_t)valid;
    accept_packet(hex, input, length, record, (uint64_t[]){0, 0, broken, 1, 1, length, 4, 7});
}

// Those that fit an attribute.
static void radius_texts(void) {
    for (size_t i = 0; i < sizeof well_formed / sizeof *well_formed; i++)
        if (strlen(well_formed[i]) < 500) check_text(well_formed[i], UINT64_MAX);
    for (size_t i = 0; i < sizeof ill_formed / sizeof *ill_formed; i++)
        if (ill_formed[i].valid < 250) check_text(ill_formed[i].text, ill_formed[i].valid);
}

// The pool is "bob", and this its record.
#define ATTRIBUTE "00000001 00 000005 00000000 00000000 01 01 00 00 00000000 00000000 00000000 FFFFFFFF"
#define UNFIT "00000001 00 000005 00000000 00000001 01 01 00 00 00000000 00000000 00000000 FFFFFFFF"

struct packet_written {
    const char *name, *table;
    size_t room;
    uint64_t number, amount;
    const char *packet;
};

static const struct packet_written packets_written[] = {
    {"RADIUS write: no record", "", 20, 0, 0, PACKET("0014")},
    {"RADIUS write: a record", ATTRIBUTE, 25, 0, 0, PACKET("0019") NAME},
    {"RADIUS write: two of the same bytes", ATTRIBUTE ATTRIBUTE, 33, 0, 0, PACKET("001E") NAME NAME},
    {"RADIUS write: type 0", "00000000 00 000004 00000000 00000001 01 00 00 00 00000000 00000000 00000000 FFFFFFFF", 24, 0, 0,
     PACKET("0018") "00046F62"},
    {"RADIUS write: type 255", "000000FF 00 000003 00000000 00000002 01 00 00 00 00000000 00000000 00000000 FFFFFFFF", 24, 0, 0,
     PACKET("0017") "FF0362"},
    {"RADIUS write: no data at the pool's end",
     "00000001 00 000002 00000000 00000003 01 01 00 00 00000000 00000000 00000000 FFFFFFFF", 22, 0, 0, PACKET("0016") "0102"},
    {"RADIUS write: kind, errors, byte 23 and value are not read",
     "00000001 00 000005 00000000 00000000 01 FF FF 00 000000FF FFFFFFFF FFFFFFFF FFFFFFFF", 25, 0, 0, PACKET("0019") NAME},
    {"RADIUS write: type 256", "00000100 00 000005 00000000 00000000 01 01 00 00 00000000 00000000 00000000 FFFFFFFF", 64, 9, 0, ""},
    {"RADIUS write: a type of 4 bytes",
     "01000001 00 000005 00000000 00000000 01 01 00 00 00000000 00000000 00000000 FFFFFFFF", 64, 9, 0, ""},
    {"RADIUS write: a flag", "00000001 40 000005 00000000 00000000 01 01 00 00 00000000 00000000 00000000 FFFFFFFF", 64, 9, 0, ""},
    {"RADIUS write: length 0", "00000001 00 000000 00000000 00000002 01 01 00 00 00000000 00000000 00000000 FFFFFFFF", 64, 9, 0, ""},
    {"RADIUS write: length 1", "00000001 00 000001 00000000 00000001 01 01 00 00 00000000 00000000 00000000 FFFFFFFF", 64, 9, 0, ""},
    {"RADIUS write: a length whose low byte is good",
     "00000001 00 010005 00000000 00000000 01 01 00 00 00000000 00000000 00000000 FFFFFFFF", 64, 9, 0, ""},
    {"RADIUS write: a vendor", "00000001 00 000005 00000001 00000000 01 01 00 00 00000000 00000000 00000000 FFFFFFFF", 64, 9, 0, ""},
    {"RADIUS write: a vendor's first byte",
     "00000001 00 000005 01000000 00000000 01 01 00 00 00000000 00000000 00000000 FFFFFFFF", 64, 9, 0, ""},
    {"RADIUS write: a vendor and a place that would wrap",
     "00000001 00 000005 FFFFFFFF FFFFFFFF 01 01 00 00 00000000 00000000 00000000 FFFFFFFF", 64, 9, 0, ""},
    {"RADIUS write: data a byte past the pool", UNFIT, 64, 9, 0, ""},
    {"RADIUS write: no data past the pool",
     "00000001 00 000002 00000000 00000004 01 01 00 00 00000000 00000000 00000000 FFFFFFFF", 64, 9, 0, ""},
    {"RADIUS write: the largest place",
     "00000001 00 000005 00000000 FFFFFFFF 01 01 00 00 00000000 00000000 00000000 FFFFFFFF", 64, 9, 0, ""},
    {"RADIUS write: a place whose low bytes are good",
     "00000001 00 000005 00000000 00010000 01 01 00 00 00000000 00000000 00000000 FFFFFFFF", 64, 9, 0, ""},
    {"RADIUS write: depth 0", "00000001 00 000005 00000000 00000000 00 01 00 00 00000000 00000000 00000000 FFFFFFFF", 64, 9, 0, ""},
    {"RADIUS write: depth 2", "00000001 00 000005 00000000 00000000 02 01 00 00 00000000 00000000 00000000 FFFFFFFF", 64, 9, 0, ""},
    {"RADIUS write: a byte of padding",
     "00000001 00 000005 00000000 00000000 01 01 00 01 00000000 00000000 00000000 FFFFFFFF", 64, 9, 0, ""},
    {"RADIUS write: the first pad",
     "00000001 00 000005 00000000 00000000 01 01 00 00 01000000 00000000 00000000 FFFFFFFF", 64, 9, 0, ""},
    {"RADIUS write: the second pad",
     "00000001 00 000005 00000000 00000000 01 01 00 00 00010000 00000000 00000000 FFFFFFFF", 64, 9, 0, ""},
    {"RADIUS write: the third pad",
     "00000001 00 000005 00000000 00000000 01 01 00 00 00000100 00000000 00000000 FFFFFFFF", 64, 9, 0, ""},
    {"RADIUS write: parent 0", "00000001 00 000005 00000000 00000000 01 01 00 00 00000000 00000000 00000000 00000000", 64, 9, 0, ""},
    {"RADIUS write: the record before as a parent",
     ATTRIBUTE ATTRIBUTE "00000001 00 000005 00000000 00000000 01 01 00 00 00000000 00000000 00000000 00000001", 64, 9, 2, ""},
    {"RADIUS write: a parent whose low bytes are the mark's",
     "00000001 00 000005 00000000 00000000 01 01 00 00 00000000 00000000 00000000 0000FFFF", 64, 9, 0, ""},
    {"RADIUS write: a parent whose high bytes are the mark's",
     "00000001 00 000005 00000000 00000000 01 01 00 00 00000000 00000000 00000000 FFFFFFFE", 64, 9, 0, ""},
    {"RADIUS write: the second record of three", ATTRIBUTE UNFIT ATTRIBUTE, 64, 9, 1, ""},
    {"RADIUS write: two bad records", UNFIT UNFIT, 0, 9, 0, ""},
    {"RADIUS write: bytes left over", ATTRIBUTE ATTRIBUTE "00", 64, 9, 2, ""},
    {"RADIUS write: bytes left over and no record", "00", 64, 9, 0, ""},
    {"RADIUS write: bytes left over after a bad record", ATTRIBUTE UNFIT "00", 64, 9, 1, ""},
    {"RADIUS write: bytes left over and no room", ATTRIBUTE "00", 0, 9, 1, ""},
    {"RADIUS write: a byte too few", ATTRIBUTE, 24, 11, 25, ""},
    {"RADIUS write: a byte too few, and no record", "", 19, 11, 20, ""},
    {"RADIUS write: an output of length 0", ATTRIBUTE ATTRIBUTE, 0, 11, 30, ""},
};

// Where it is accepted, `packet` is what is written; else nothing is.
static void write_packet(const char *name, const uint8_t *table, size_t table_length, const uint8_t *pool, size_t pool_length,
                         size_t room, uint64_t number, uint64_t amount, const uint8_t *packet, size_t total) {
    static uint8_t out[PACKET_MOST + BEHIND];
    uint8_t authenticator[TANDREKILY_AUTHENTICATOR];
    uint64_t result[TANDREKILY_RADIUS_RESULT + 1];
    uint64_t expected[TANDREKILY_RADIUS_RESULT] = {number, amount};
    expected[TANDREKILY_LENGTH] = total;
    bytes_of("A0A1A2A3 A4A5A6A7 A8A9AAAB ACADAEAF", authenticator);
    memset(out, LENT, sizeof out);
    spoil(TANDREKILY_RADIUS_RESULT + 1, result);
    tandrekily_radius_write(4, 7, authenticator, table, table_length, pool, pool_length, out, room, result);
    check_radius(name, expected, result);
    check(name, "the packet is another", memcmp(out, packet, total) == 0);
    check(name, "bytes past the total were changed", all(LENT, out + total, sizeof out - total));
}

// So many records of this length, and those of `last` after them; the data of all are the same letters.
static size_t long_table(size_t records, uint32_t length, const char *last, uint8_t *table) {
    size_t used = records * TANDREKILY_RECORD_SIZE;
    for (size_t i = 0; i < used; i += TANDREKILY_RECORD_SIZE) {
        bytes_of("00000012 00 000000 00000000 00000000 01 0A 00 00 00000000 00000000 00000000 FFFFFFFF", table + i);
        table[i + TANDREKILY_RECORD_LENGTH + 1] = (uint8_t)(length >> 8);
        table[i + TANDREKILY_RECORD_LENGTH + 2] = (uint8_t)length;
    }
    return used + bytes_of(last, table + used);
}

// The packet of such a table, which is 4,096 bytes long.
static size_t long_packet(const uint8_t *table, size_t table_length, uint8_t *packet) {
    size_t total = bytes_of(PACKET("1000"), packet);
    for (size_t i = 0; i < table_length; i += TANDREKILY_RECORD_SIZE) {
        uint8_t size = table[i + TANDREKILY_RECORD_LENGTH + 2];
        memset(packet + total, 'a', size);
        packet[total] = 0x12;
        packet[total + 1] = size;
        total += size;
    }
    return total;
}

static void write_long(const char *name, size_t records, uint32_t length, const char *last, uint64_t number, uint64_t amount,
                       size_t room) {
    static uint8_t table[STORE_MOST], packet[PACKET_MOST];
    uint8_t pool[MOST];
    size_t table_length = long_table(records, length, last, table);
    size_t total = number == TANDREKILY_ACCEPTED ? long_packet(table, table_length, packet) : 0;
    memset(pool, 'a', sizeof pool);
    write_packet(name, table, table_length, pool, sizeof pool, room, number, amount, packet, total);
}

// 15 records of 255 bytes and one of 251 are 4,096 with the header.
#define OF_251 "00000012 00 0000FB 00000000 00000000 01 0A 00 00 00000000 00000000 00000000 FFFFFFFF"
#define OF_252 "00000012 00 0000FC 00000000 00000000 01 0A 00 00 00000000 00000000 00000000 FFFFFFFF"

static void radius_writer(void) {
    uint8_t table[MOST], pool[MOST], packet[MOST];
    size_t pool_length = bytes_of("626F62", pool);
    for (size_t i = 0; i < sizeof packets_written / sizeof *packets_written; i++) {
        const struct packet_written *w = &packets_written[i];
        size_t table_length = bytes_of(w->table, table), total = bytes_of(w->packet, packet);
        write_packet(w->name, table, table_length, pool, pool_length, w->room, w->number, w->amount, packet, total);
    }
    write_long("RADIUS write: 4,096 bytes", 15, 255, OF_251, 0, 0, PACKET_MOST);
    write_long("RADIUS write: 4,096 bytes of attributes without data", 2038, 2, "", 0, 0, PACKET_MOST + 1);
    write_long("RADIUS write: 4,096 bytes, and room for a byte less", 15, 255, OF_251, 11, 4096, PACKET_MOST - 1);
    write_long("RADIUS write: 4,097 bytes", 15, 255, OF_252, 10, 0, PACKET_MOST + 1);
    write_long("RADIUS write: 4,097 bytes, and no room", 15, 255, OF_252, 10, 0, 0);
    write_long("RADIUS write: 4,098 bytes of attributes without data", 2039, 2, "", 10, 0, PACKET_MOST + 2);
    write_long("RADIUS write: 4,097 bytes, and a bad record after them", 15, 255, OF_252 DEEPER "00", 9, 16, 0);
    write_long("RADIUS write: length 256", 1, 256, "", 9, 0, PACKET_MOST);
}

// ---- joining

// A record in which every other byte is something too, byte 23 among them.
#define ROW(place, depth, parent) "0102030A 4F 00000D 000028AF" place depth "08 0C 03 11223377 01020304 05060708" parent
#define LEFT_35 "0102030A 4F 00000D 000028AF 0000001C 01 08 0C 03 11223377 01020304 05060708 FFFFFF"
#define TOP ROW("0000001C", "01", "FFFFFFFF")
#define FAR_TOP ROW("FFFFFFFF", "01", "FFFFFFFF")
#define FAR_MEMBER ROW("0000001C", "02", "FFFFFFFF")

// Where it is refused, `moved` is empty: the table stays as it was.
struct shifting {
    const char *name, *table;
    size_t bytes, records;
    uint64_t number, amount;
    const char *moved;
};

static const struct shifting shifts[] = {
    {"shift: no record", "", 36, 5, 0, 0, ""},
    {"shift: no record, and the largest numbers", "", SIZE_MAX, SIZE_MAX, 0, 0, ""},
    {"shift: a record in no group", TOP, 36, 5, 0, 0, ROW("00000040", "01", "FFFFFFFF")},
    {"shift: groups, one in another",
     TOP ROW("00000024", "02", "00000000") ROW("0000002C", "03", "00000001") ROW("00000038", "01", "FFFFFFFF")
     ROW("00000040", "02", "00000003"), 60, 7, 0, 0,
     ROW("00000058", "01", "FFFFFFFF") ROW("00000060", "02", "00000007") ROW("00000068", "03", "00000008")
     ROW("00000074", "01", "FFFFFFFF") ROW("0000007C", "02", "0000000A")},
    {"shift: by nothing", TOP ROW("00000024", "02", "00000000"), 0, 0, 0, 0, TOP ROW("00000024", "02", "00000000")},
    {"shift: by bytes alone", TOP ROW("00000024", "02", "00000000"), 4, 0, 0, 0,
     ROW("00000020", "01", "FFFFFFFF") ROW("00000028", "02", "00000000")},
    {"shift: by records alone", TOP ROW("00000024", "02", "00000000"), 0, 1, 0, 0,
     TOP ROW("00000024", "02", "00000001")},
    {"shift: four bytes", ROW("10203040", "02", "20304050"), 0x01020304, 0x05060708, 0, 0,
     ROW("11223344", "02", "25364758")},
    {"shift: a byte is carried", ROW("000000FF", "02", "000000FF"), 1, 1, 0, 0, ROW("00000100", "02", "00000100")},
    {"shift: two bytes are carried", ROW("0000FFFF", "02", "0000FFFF"), 1, 1, 0, 0, ROW("00010000", "02", "00010000")},
    {"shift: three bytes are carried", ROW("00FFFFFF", "02", "00FFFFFF"), 1, 1, 0, 0,
     ROW("01000000", "02", "01000000")},
    {"shift: depth 1 and a parent", ROW("0000001C", "01", "00000005"), 36, 5, 0, 0, ROW("00000040", "01", "00000005")},
    {"shift: depth 1 and any number of records", TOP ROW("0000001C", "01", "00000005"), 36, SIZE_MAX, 0, 0,
     ROW("00000040", "01", "FFFFFFFF") ROW("00000040", "01", "00000005")},
    {"shift: depth 0", ROW("0000001C", "00", "00000005"), 36, 5, 0, 0, ROW("00000040", "00", "0000000A")},
    {"shift: depth 64", ROW("0000001C", "40", "00000005"), 36, 5, 0, 0, ROW("00000040", "40", "0000000A")},
    {"shift: depth 129", ROW("0000001C", "81", "00000005"), 36, 5, 0, 0, ROW("00000040", "81", "0000000A")},
    {"shift: depth 255", ROW("0000001C", "FF", "00000005"), 36, 5, 0, 0, ROW("00000040", "FF", "0000000A")},
    {"shift: to the last place", ROW("FFFFFFFE", "01", "FFFFFFFF"), 1, 1, 0, 0, FAR_TOP},
    {"shift: past the last place", ROW("FFFFFFFE", "01", "FFFFFFFF"), 2, 1, 10, 0, ""},
    {"shift: at the last place", FAR_TOP, 0, 1, 0, 0, FAR_TOP},
    {"shift: from the last place", FAR_TOP, 1, 0, 10, 0, ""},
    {"shift: from place 0 to the last", ROW("00000000", "01", "FFFFFFFF"), UINT32_MAX, 0, 0, 0, FAR_TOP},
    {"shift: by 4,294,967,296 bytes", ROW("00000000", "01", "FFFFFFFF"), (size_t)UINT32_MAX + 1, 0, 10, 0, ""},
    {"shift: by the most bytes", ROW("00000001", "01", "FFFFFFFF"), SIZE_MAX, 0, 10, 0, ""},
    {"shift: a place that wraps to 0", FAR_TOP, SIZE_MAX - UINT32_MAX + 1, 0, 10, 0, ""},
    {"shift: to the last parent", ROW("0000001C", "02", "FFFFFFFE"), 0, 1, 0, 0, FAR_MEMBER},
    {"shift: past the last parent", ROW("0000001C", "02", "FFFFFFFE"), 0, 2, 10, 0, ""},
    {"shift: a mark below depth 1, by no record", FAR_MEMBER, 0, 0, 0, 0, FAR_MEMBER},
    {"shift: a mark below depth 1", FAR_MEMBER, 0, 1, 10, 0, ""},
    {"shift: a mark at depth 0", ROW("0000001C", "00", "FFFFFFFF"), 0, 1, 10, 0, ""},
    {"shift: from parent 0 to the last", ROW("0000001C", "02", "00000000"), 0, UINT32_MAX, 0, 0, FAR_MEMBER},
    {"shift: by 4,294,967,296 records", ROW("0000001C", "02", "00000000"), 0, (size_t)UINT32_MAX + 1, 10, 0, ""},
    {"shift: by the most records", ROW("0000001C", "02", "00000001"), 0, SIZE_MAX, 10, 0, ""},
    {"shift: a parent that wraps to 0", FAR_MEMBER, 0, SIZE_MAX - UINT32_MAX + 1, 10, 0, ""},
    {"shift: the first of three is too far", FAR_TOP TOP TOP, 1, 1, 10, 0, ""},
    {"shift: the second of three is too far", TOP FAR_TOP TOP, 1, 1, 10, 0, ""},
    {"shift: the last of three is too far", TOP TOP FAR_TOP, 1, 1, 10, 0, ""},
    {"shift: the parent of the last of three is too far", TOP TOP FAR_MEMBER, 1, 1, 10, 0, ""},
    {"shift: a byte left over and no record", "00", 36, 5, 9, 0, ""},
    {"shift: 35 bytes left over and no record", LEFT_35, 36, 5, 9, 0, ""},
    {"shift: a byte left over", TOP "00", 36, 5, 9, 1, ""},
    {"shift: 35 bytes left over", TOP TOP LEFT_35, 36, 5, 9, 2, ""},
    {"shift: a byte left over, and by nothing", TOP "00", 0, 0, 9, 1, ""},
    {"shift: a byte left over, and a record is too far", TOP FAR_TOP TOP "00", 1, 1, 9, 3, ""},
    {"shift: a byte left over, and the largest numbers", "00", SIZE_MAX, SIZE_MAX, 9, 0, ""},
};

enum { LONG_TABLE = 65537 * TANDREKILY_RECORD_SIZE };

// The table is `length` bytes, and then is `moved`. Neither what is behind it nor what is behind the result may change.
static void shift(const char *name, const uint8_t *table, size_t length, size_t bytes, size_t records, uint64_t number,
                  uint64_t amount, const uint8_t *moved) {
    static uint8_t lent_table[LONG_TABLE + BEHIND];
    uint64_t result[TANDREKILY_RESULT + 1];
    uint64_t expected[TANDREKILY_RESULT] = {number, amount};
    if (number == TANDREKILY_ACCEPTED) expected[TANDREKILY_RECORDS] = length / TANDREKILY_RECORD_SIZE;
    memcpy(lent_table, table, length);
    memset(lent_table + length, LENT, BEHIND);
    spoil(TANDREKILY_RESULT + 1, result);
    tandrekily_shift(lent_table, length, bytes, records, result);
    check_result(name, expected, result);
    check(name, "a number after the result was changed", is_lent(result[TANDREKILY_RESULT]));
    check(name, "the table is another", memcmp(lent_table, moved, length) == 0);
    check(name, "bytes after the table were changed", all(LENT, lent_table + length, BEHIND));
}

static void put_row(const uint8_t *like, uint32_t place, uint32_t parent, uint8_t *row) {
    memcpy(row, like, TANDREKILY_RECORD_SIZE);
    for (int i = 0; i < 4; i++) row[TANDREKILY_RECORD_PLACE + i] = (uint8_t)(place >> (24 - 8 * i));
    set_parent(row, parent);
}

// More records than two bytes count. Each is moved, or none where the last is too far.
static void shift_long(void) {
    static uint8_t table[LONG_TABLE], moved[LONG_TABLE];
    uint8_t member[TANDREKILY_RECORD_SIZE];
    bytes_of(FAR_MEMBER, member);
    for (uint32_t i = 0; i < LONG_TABLE / TANDREKILY_RECORD_SIZE; i++) {
        put_row(member, 8 * i, i, table + i * TANDREKILY_RECORD_SIZE);
        put_row(member, 8 * i + 524316, i + 65539, moved + i * TANDREKILY_RECORD_SIZE);
    }
    shift("shift: a long table", table, sizeof table, 524316, 65539, 0, 0, moved);
    set_parent(table + sizeof table - TANDREKILY_RECORD_SIZE, TANDREKILY_TOP_LEVEL);
    shift("shift: a long table, and the last is too far", table, sizeof table, 524316, 65539, 10, 0, table);
}

// What follows a header: nothing, and runs with groups, some of which do not tile, with flags of each sort.
static const char *const runs[] = {
    "", RESULT_CODE, FAILING, NESTED, BARE BRANCHES ONE BARE, CUT_NAME ADDRESS, CLASS EMPTY_GROUP TORN,
    "0000002C 9F 00000E 000028AF ABCD 1234", "000001BD 40 000018 000001BF 40 000010 00000000 0000041A" ONE,
};

// A message of one run, or of two.
static size_t message_of(const char *run, const char *other, uint8_t *out) {
    size_t length = bytes_of(MESSAGE("14"), out);
    length += bytes_of(run, out + length);
    length += bytes_of(other, out + length);
    out[2] = (uint8_t)(length >> 8);
    out[3] = (uint8_t)length;
    return length;
}

// Joined as tables they are what they are as one message.
static void join(decoder *decode, uint32_t by, const char *run, const char *other) {
    uint8_t input[MOST], table[MOST], whole[MOST];
    uint64_t first[TANDREKILY_RESULT], second[TANDREKILY_RESULT], all_of[TANDREKILY_RESULT];
    uint64_t moved[TANDREKILY_RESULT + 1];
    size_t length = message_of(run, other, input);
    decode(by, 64, input, length, whole, sizeof whole, all_of);
    length = message_of(run, "", input);
    decode(by, 64, input, length, table, sizeof table, first);
    size_t bytes = length - TANDREKILY_HEADER, records = (size_t)first[TANDREKILY_RECORDS];
    size_t used = records * TANDREKILY_RECORD_SIZE;
    length = message_of(other, "", input);
    decode(by, 64, input, length, table + used, sizeof table - used, second);
    size_t size = (size_t)second[TANDREKILY_RECORDS] * TANDREKILY_RECORD_SIZE;
    tandrekily_shift(table + used, size, bytes, records, moved);
    check("join", "not decoded", all_of[TANDREKILY_NUMBER] == TANDREKILY_ACCEPTED);
    check("join", "not moved", moved[TANDREKILY_NUMBER] == TANDREKILY_ACCEPTED);
    check("join", "other records", all_of[TANDREKILY_RECORDS] == records + moved[TANDREKILY_RECORDS]);
    check("join", "another table", memcmp(table, whole, sizeof table) == 0);
    check("join", "others tried", all_of[TANDREKILY_TRIED] == first[TANDREKILY_TRIED] + second[TANDREKILY_TRIED]);
    check("join", "other flags", all_of[TANDREKILY_ERRORS] == (first[TANDREKILY_ERRORS] | second[TANDREKILY_ERRORS]));
}

// Two packets of RADIUS, in the same way.
static void join_packets(void) {
    uint8_t input[MOST], table[MOST], moved[MOST];
    size_t length = bytes_of(PACKET("002D") "0B05414243" NAME "2C0561FF62" "0406C0000201" "050400FF", input);
    decode_packet(input, length, 5 * TANDREKILY_RECORD_SIZE);
    memcpy(moved, lent.store + 2 * TANDREKILY_RECORD_SIZE, 3 * TANDREKILY_RECORD_SIZE);
    length = bytes_of(PACKET("0023") "2C0561FF62" "0406C0000201" "050400FF", input);
    decode_packet(input, length, 3 * TANDREKILY_RECORD_SIZE);
    memcpy(table, lent.store, 3 * TANDREKILY_RECORD_SIZE);
    shift("shift: RADIUS", table, 3 * TANDREKILY_RECORD_SIZE, 10, 2, 0, 0, moved);
}

static void joining(void) {
    uint8_t table[MOST], moved[MOST];
    for (size_t i = 0; i < sizeof shifts / sizeof *shifts; i++) {
        const struct shifting *s = &shifts[i];
        size_t length = bytes_of(s->table, table);
        bytes_of(s->number == TANDREKILY_ACCEPTED ? s->moved : s->table, moved);
        shift(s->name, table, length, s->bytes, s->records, s->number, s->amount, moved);
    }
    shift_long();
    for (size_t i = 0; i < sizeof runs / sizeof *runs; i++)
        for (size_t j = 0; j < sizeof runs / sizeof *runs; j++) {
            join(message, SAWP, runs[i], runs[j]);
            join(message, RFC, runs[i], runs[j]);
            join(tandrekily_message_by, TANDREKILY_RFC_4006, runs[i], runs[j]);
            join(tandrekily_message_by, TANDREKILY_RFC_8506, runs[i], runs[j]);
        }
    join_packets();
}

int main(void) {
    decoders();
    long_group();
    editions();
    headers();
    searches();
    steps();
    long_avp();
    writer();
    texts();
    times();
    signs();
    unit_values();
    radius_reader();
    radius_texts();
    radius_writer();
    joining();
    printf("%d failures\n", failures);
    return failures == 0 ? 0 : 1;
}
