// A library that is wrong in one way, for the tests to notice: WRONG, in the environment, says in which. The linker puts these
// functions before the library's own (--wrap).
#include "tandrekily.h"
#include <stdlib.h>
#include <string.h>

typedef void decoder(bool, size_t, const uint8_t *, size_t, uint8_t *, size_t, uint64_t *);
decoder __real_tandrekily_message, __wrap_tandrekily_message;
decoder __real_tandrekily_avp, __wrap_tandrekily_avp;
void __real_tandrekily_header(const uint8_t *, size_t, uint64_t *);
void __wrap_tandrekily_header(const uint8_t *, size_t, uint64_t *);
void __real_tandrekily_find(const uint8_t *, size_t, uint32_t, uint64_t *);
void __wrap_tandrekily_find(const uint8_t *, size_t, uint32_t, uint64_t *);
size_t __real_tandrekily_next(const uint8_t *, size_t, size_t, uint64_t *);
size_t __wrap_tandrekily_next(const uint8_t *, size_t, size_t, uint64_t *);
typedef void writer(uint8_t, uint32_t, uint32_t, uint32_t, uint32_t, const uint8_t *, size_t, const uint8_t *, size_t, uint8_t *,
                    size_t, uint64_t *);
writer __real_tandrekily_write, __wrap_tandrekily_write;
bool __real_tandrekily_is_utf8(const uint8_t *, size_t);
bool __wrap_tandrekily_is_utf8(const uint8_t *, size_t);
size_t __real_tandrekily_utf8(const uint8_t *, size_t);
size_t __wrap_tandrekily_utf8(const uint8_t *, size_t);
int64_t __real_tandrekily_unix_seconds(uint32_t);
int64_t __wrap_tandrekily_unix_seconds(uint32_t);
typedef void decoder_by(uint32_t, size_t, const uint8_t *, size_t, uint8_t *, size_t, uint64_t *);
decoder_by __real_tandrekily_message_by, __wrap_tandrekily_message_by;
decoder_by __real_tandrekily_avp_by, __wrap_tandrekily_avp_by;
int32_t __real_tandrekily_integer32(uint32_t);
int32_t __wrap_tandrekily_integer32(uint32_t);
int64_t __real_tandrekily_integer64(uint64_t);
int64_t __wrap_tandrekily_integer64(uint64_t);
typedef uint8_t comparer(int64_t, int32_t, int64_t, int32_t, int32_t *);
comparer __real_tandrekily_compare, __wrap_tandrekily_compare;
typedef void radius_decoder(const uint8_t *, size_t, uint8_t *, size_t, uint8_t *, uint64_t *);
radius_decoder __real_tandrekily_radius, __wrap_tandrekily_radius;
typedef void radius_writer(uint8_t, uint8_t, const uint8_t *, const uint8_t *, size_t, const uint8_t *, size_t, uint8_t *, size_t,
                           uint64_t *);
radius_writer __real_tandrekily_radius_write, __wrap_tandrekily_radius_write;
void __wrap_tandrekily_shift(uint8_t *, size_t, size_t, size_t, uint64_t *);

// Each function's ways to be wrong are numbered from a hundred of its own, and RADIUS and joining have two of them; the
// first are the numbers of its result or outline.
enum { MESSAGE = 100, AVP = 200, HEADER = 300, WRITE = 400, IS_UTF8 = 500, UNIX_SECONDS = 600, FIND = 700, NEXT = 800 };
enum { MESSAGE_BY = 900, AVP_BY = 1000, INTEGER32 = 1100, INTEGER64 = 1200, COMPARE = 1300, UTF8 = 1400 };
enum { RADIUS = 1500, RADIUS_WRITE = 1700, SHIFT = 1800 };
enum { TOUCHED_IF_REFUSED = 20, TAIL_IF_ACCEPTED = 21, OTHER_READING = 22, OTHER_LIMIT = 23, BYTE = 40 };
enum { OTHER_CODE = 24, LAST = 25, NONE_IF_NOT_TILED = 26, NOT_TILED_IF_NONE = 27 };
enum { STAYS = 28, FURTHER = 29, LATER = 30 };
enum { OTHER_EDITION = 31, ANY_EDITION, LOW_BITS, EDITION_BEFORE_LIMIT, INPUT_BEFORE_EDITION, NO_EDITION, SIGN_EXTENDED };
enum { NO_BREAK = 76, BREAK_IN_A_BYTE, BREAK_IN_INPUT, BREAK_OF_GROUP, BREAK_OF_LENGTH, BREAK_OF_UNKNOWN };
enum { ZERO_FOR_MARK = 82, RECORD_BEFORE, PARENT_OF_BEFORE, FIRST_OF_DEPTH, WITHIN_GROUP, ALWAYS_MARK, FROM_ONE, IN_TWO_BYTES };
enum { ANY_PARENT = 82, ZERO_TAKEN, MARK_TAKEN, BEFORE_TAKEN, EARLIER_TAKEN, LOW_BYTES_TAKEN };
enum { PARENTS_FIRST = 88, PARENTS_LAST, NO_LONG_INDEX };
enum { A_SECOND_LATE, OLD_RULE, OTHER_WAY, SHORT_AT_THE_TURN, IN_32_BITS };
enum { OFF_BY_ONE, NO_SIGN };
enum { ONE_MORE, ONE_LESS, NOTHING, ALL, NOTHING_IF_BROKEN, NOTHING_IF_WELL_FORMED, CHARACTERS, EIGHTS, BROKEN_ONE_TOO };
enum { REST_TOO = 9, SURROGATES_TOO, OVERLONG_TOO, LOW_BYTE };
enum { OTHER_ANSWER, OPPOSITE, NEVER_EQUAL, ORDER_IF_REFUSED, TAKES_19, TAKES_MINUS_19, REFUSES_18, REFUSES_MINUS_18 };
enum { EXPONENT_LOW_BITS = 8, NO_EXPONENTS, FIRST_ALONE, SECOND_ALONE, ZEROS_TAKEN, SIGNS_TAKEN, DOUBLES, WRAPPED, WHOLE };
enum { RESULT_TOO_LONG = 91, AUTHENTICATOR_TOO_LONG, AUTHENTICATOR_IF_REFUSED, AUTHENTICATOR_BYTE = 100 };
enum { HEADER_FIRST = 8, NO_LEAST, NO_MOST, MOST_4095, SURPLUS_REFUSED, SURPLUS_READ, LEFT_OVER_TAKEN, ROOM_FIRST, LONG_NUMBERS };
enum { NAME_IS_TEXT = 22, SESSION_IS_STRING, UNKNOWN_IS_STRING, LOW_BITS_OF_TYPE, FIRST_FLAGS, LAST_FLAGS, SECOND_RECORD };
enum { ANY_TYPE = 8, ANY_LENGTH, NO_LEAST_LENGTH, ANY_DEPTH, ANY_FLAGS, ANY_VENDOR, ANY_PADDING, ANY_PADS, ANY_PLACE, PLACE_LOW_BITS };
enum { EMPTY_ANYWHERE = 22, KIND_READ, ERRORS_READ, ZERO_READ, VALUE_READ, LEFT_OVER_WRITTEN, LEFT_OVER_FIRST, TOTAL_4095 };
enum { ROOM_BEFORE_TOTAL = 30, LENGTH_BEFORE_TABLE, SECOND_DATA };
enum { MARK_MOVED = 13, MARK_BY_NUMBER, PARENTS_STAY, PLACES_STAY, PARENT_BY_BYTES, PLACE_BY_RECORDS, BY_OWN_COUNT };
enum { FIRST_STAYS = 22, LAST_STAYS, TOP_PLACES_ALONE, DEPTH_2_ALONE, DEPTH_0_IS_TOP, DEPTH_LOW_BITS, LOW_TWO_BYTES };
enum { LOW_TWO_PARENT_BYTES = 29, COUNT_IN_A_BYTE, COUNT_IN_TWO_BYTES, ZERO_CLEARED, BEHIND_TABLE, LENGTH_TOO };
enum { MARK_BY_BOTH = 35, MARK_BY_EITHER, TOO_DEEP_IS_TOP };
enum { ANY_PLACE_FITS = 76, ANY_PARENT_FITS, LAST_PLACE_REFUSED, LAST_PARENT_REFUSED, MARK_TESTED, NUMBERS_IN_32_BITS };
enum { SUMS_WRAP = 82, EMPTY_TESTED, FIRST_TESTED, LAST_NOT_TESTED, LEFT_OVER_MOVED, TOO_FAR_FIRST, LEFT_OVER_TOLD };
enum { INDEX_TOLD = 89, RECORDS_IF_REFUSED, MOVED_UP_TO_IT = 92, MOVED_BUT_IT, MOVED_IF_LEFT_OVER, PLACES_IF_REFUSED };
enum { LAST_BYTE = 100 };

static int wrong(int function) {
    return atoi(getenv("WRONG")) - function;
}

static void spoil_result(int way, uint64_t *result) {
    if (way >= 0 && way < TANDREKILY_RESULT) result[way] ^= 1;
}

static void spoil_outline(int way, uint64_t *outline) {
    if (way >= 0 && way < TANDREKILY_OUTLINE) outline[way] ^= 1;
}

// `used` bytes are the answer's.
static void spoil_bytes(int way, bool accepted, uint8_t *bytes, size_t length, size_t used) {
    if (way == TOUCHED_IF_REFUSED && !accepted && length > 0) bytes[length - 1] ^= 1;
    if (way == TAIL_IF_ACCEPTED && accepted && length > used) bytes[length - 1] ^= 1;
    if (way >= BYTE && way < BYTE + TANDREKILY_RECORD_SIZE && accepted && (size_t)(way - BYTE) < used) bytes[way - BYTE] ^= 1;
}

static size_t number_at(const uint8_t *at, int size) {
    size_t number = 0;
    for (int i = 0; i < size; i++) number = number << 8 | at[i];
    return number;
}

// How many bytes of a record's data would be well-formed text. The header before them has `head` bytes, and a vendor besides.
static size_t valid_data(size_t head, const uint8_t *record, const uint8_t *input) {
    bool vendor = record[TANDREKILY_RECORD_FLAGS] & TANDREKILY_AVP_VENDOR_BIT;
    size_t length = number_at(record + TANDREKILY_RECORD_LENGTH, 3) - head;
    if (vendor) length -= TANDREKILY_AVP_HEAD_WITH_VENDOR - TANDREKILY_AVP_HEAD;
    return __real_tandrekily_utf8(input + number_at(record + TANDREKILY_RECORD_PLACE, 4), length);
}

// Is a record of kind 0 one of those that get a number in this way? Of ill-formed text it is the right one.
static bool gets_break(int way, uint8_t errors) {
    if (way == BREAK_OF_GROUP) return errors & TANDREKILY_DATA_VALUE;
    if (way == BREAK_OF_LENGTH) return errors & TANDREKILY_DATA_LENGTH;
    return way == BREAK_OF_UNKNOWN && (errors & (TANDREKILY_DATA_VALUE | TANDREKILY_DATA_LENGTH)) == 0;
}

// Where a text broke is left out, cut to a byte or counted from the input's start, or other records of kind 0 have such a number too.
static void spoil_breaks(int way, size_t head, uint8_t *store, uint64_t records, const uint8_t *input) {
    for (uint8_t *record = store; records > 0; records--, record += TANDREKILY_RECORD_SIZE) {
        uint8_t *value = record + TANDREKILY_RECORD_VALUE;
        if (record[TANDREKILY_RECORD_KIND] != TANDREKILY_UNHANDLED) continue;
        if (way == NO_BREAK) memset(value, 0, 8);
        if (way == BREAK_IN_A_BYTE) memset(value, 0, 7);
        if (way == BREAK_IN_INPUT && value[7] != 0) value[7] += record[TANDREKILY_RECORD_PLACE + 3];
        if (gets_break(way, record[TANDREKILY_RECORD_ERRORS])) value[7] = (uint8_t)valid_data(head, record, input);
    }
}

// ---- parents

static uint32_t parent_at(const uint8_t *table, size_t index) {
    return (uint32_t)number_at(table + index * TANDREKILY_RECORD_SIZE + TANDREKILY_RECORD_PARENT, 4);
}

static void set_parent(uint8_t *table, size_t index, uint32_t parent) {
    uint8_t *at = table + index * TANDREKILY_RECORD_SIZE + TANDREKILY_RECORD_PARENT;
    for (int i = 0; i < 4; i++) at[i] = (uint8_t)(parent >> (24 - 8 * i));
}

static uint8_t depth_at(const uint8_t *table, size_t index) {
    return table[index * TANDREKILY_RECORD_SIZE + TANDREKILY_RECORD_DEPTH];
}

// The first record of the table that is one depth less than this one.
static uint32_t first_of_depth(const uint8_t *table, size_t index) {
    uint32_t first = 0;
    while (depth_at(table, first) + 1 != depth_at(table, index)) first++;
    return first;
}

// The parent as counted from the first member of the group that it is in itself.
static uint32_t within_group(const uint8_t *table, uint32_t parent) {
    uint32_t group = parent_at(table, parent);
    return group == TANDREKILY_TOP_LEVEL ? parent : parent - group - 1;
}

// What this way has for a record's parent. The earlier records still have the right ones.
static uint32_t parent_said(int way, const uint8_t *table, size_t index) {
    uint32_t parent = parent_at(table, index);
    if (way == ALWAYS_MARK) return TANDREKILY_TOP_LEVEL;
    if (way == PARENT_OF_BEFORE && index > 0) return parent_at(table, index - 1);
    if (parent == TANDREKILY_TOP_LEVEL) return way == ZERO_FOR_MARK ? 0 : parent;
    if (way == RECORD_BEFORE) return (uint32_t)index - 1;
    if (way == FIRST_OF_DEPTH) return first_of_depth(table, index);
    if (way == WITHIN_GROUP) return within_group(table, parent);
    if (way == IN_TWO_BYTES) return (uint16_t)parent;
    return parent + (way == FROM_ONE);
}

static void spoil_parents(int way, uint8_t *store, uint64_t records) {
    for (size_t i = (size_t)records; i-- > 0;) set_parent(store, i, parent_said(way, store, i));
}

// ---- the decoders

static void spoil_decoder(int way, decoder *decode, bool rfc, size_t limit, const uint8_t *input, size_t n, uint8_t *store,
                          size_t room, uint64_t *result) {
    decode(rfc ^ (way == OTHER_READING), limit + (way == OTHER_LIMIT), input, n, store, room, result);
    spoil_breaks(way, TANDREKILY_AVP_HEAD, store, result[TANDREKILY_RECORDS], input);
    spoil_parents(way, store, result[TANDREKILY_RECORDS]);
    size_t used = (size_t)result[TANDREKILY_RECORDS] * TANDREKILY_RECORD_SIZE;
    spoil_bytes(way, result[TANDREKILY_NUMBER] == TANDREKILY_ACCEPTED, store, room, used);
    spoil_result(way, result);
}

void __wrap_tandrekily_message(bool rfc, size_t limit, const uint8_t *input, size_t n, uint8_t *store, size_t room, uint64_t *result) {
    spoil_decoder(wrong(MESSAGE), __real_tandrekily_message, rfc, limit, input, n, store, room, result);
}

void __wrap_tandrekily_avp(bool rfc, size_t limit, const uint8_t *input, size_t n, uint8_t *store, size_t room, uint64_t *result) {
    spoil_decoder(wrong(AVP), __real_tandrekily_avp, rfc, limit, input, n, store, room, result);
}

void __wrap_tandrekily_header(const uint8_t *input, size_t n, uint64_t *result) {
    __real_tandrekily_header(input, n, result);
    spoil_result(wrong(HEADER), result);
}

// Puts the last AVP with the code in place of the first, which the outline has.
static void take_last(const uint8_t *input, size_t n, uint32_t code, uint64_t *outline) {
    uint64_t header[TANDREKILY_RESULT], seen[TANDREKILY_OUTLINE];
    size_t place = TANDREKILY_HEADER;
    __real_tandrekily_header(input, n, header);
    do {
        place = __real_tandrekily_next(input, (size_t)header[TANDREKILY_MESSAGE_LENGTH], place, seen);
        if (seen[TANDREKILY_OUTLINE_FOUND] && seen[TANDREKILY_OUTLINE_CODE] == code) memcpy(outline, seen, sizeof seen);
    } while (seen[TANDREKILY_OUTLINE_FOUND]);
}

void __wrap_tandrekily_find(const uint8_t *input, size_t n, uint32_t code, uint64_t *outline) {
    int way = wrong(FIND);
    __real_tandrekily_find(input, n, code ^ (way == OTHER_CODE), outline);
    uint64_t *number = &outline[TANDREKILY_OUTLINE_NUMBER];
    bool found = outline[TANDREKILY_OUTLINE_FOUND];
    if (way == LAST && found) take_last(input, n, code, outline);
    if (way == NONE_IF_NOT_TILED && *number == TANDREKILY_NOT_TILED) *number = TANDREKILY_ACCEPTED;
    if (way == NOT_TILED_IF_NONE && *number == TANDREKILY_ACCEPTED && !found) *number = TANDREKILY_NOT_TILED;
    spoil_outline(way, outline);
}

size_t __wrap_tandrekily_next(const uint8_t *message, size_t n, size_t place, uint64_t *outline) {
    int way = wrong(NEXT);
    size_t past = __real_tandrekily_next(message, n, place + (way == LATER ? 4 : 0), outline);
    bool found = outline[TANDREKILY_OUTLINE_FOUND];
    spoil_outline(way, outline);
    if (way == STAYS && found) return place;
    if (way == FURTHER && found) return past + 4;
    return past;
}

// ---- the writer

enum { TABLE_MOST = 65540 * TANDREKILY_RECORD_SIZE };

// Is this parent taken, though `right` is the one that the depths tell?
static bool takes_parent(int way, const uint8_t *table, size_t index, uint32_t right) {
    uint32_t parent = parent_at(table, index);
    if (way == ANY_PARENT || way == PARENTS_LAST) return true;
    if (way == ZERO_TAKEN) return parent == 0 && right == TANDREKILY_TOP_LEVEL;
    if (way == MARK_TAKEN) return parent == TANDREKILY_TOP_LEVEL;
    if (way == BEFORE_TAKEN) return parent + 1 == index;
    if (way == EARLIER_TAKEN) return parent < index && depth_at(table, parent) + 1 == depth_at(table, index);
    return way == LOW_BYTES_TAKEN && (uint16_t)parent == (uint16_t)right;
}

// Puts the right parent where another is taken. Returns how many records there are before the first with another.
static size_t forgive_parents(int way, uint8_t *table, size_t records) {
    uint32_t last[256];
    size_t told = records;
    memset(last, 0xFF, sizeof last);
    for (size_t i = 0; i < records; i++) {
        uint8_t depth = depth_at(table, i);
        uint32_t right = depth > 1 ? last[depth - 1] : TANDREKILY_TOP_LEVEL;
        if (way == NO_LONG_INDEX && depth > 1 && right > UINT16_MAX) set_parent(table, i, right ^ 1);
        if (parent_at(table, i) != right && told == records) told = i;
        if (takes_parent(way, table, i, right)) set_parent(table, i, right);
        last[depth] = (uint32_t)i;
    }
    return told;
}

void __wrap_tandrekily_write(uint8_t flags, uint32_t code, uint32_t app, uint32_t hop, uint32_t end, const uint8_t *table,
                             size_t table_length, const uint8_t *pool, size_t pool_length, uint8_t *out, size_t room,
                             uint64_t *result) {
    static uint8_t asked[TABLE_MOST];
    int way = wrong(WRITE);
    size_t records = table_length / TANDREKILY_RECORD_SIZE;
    memcpy(asked, table, table_length);
    size_t told = forgive_parents(way, asked, records);
    __real_tandrekily_write(flags, code, app, hop, end, asked, table_length, pool, pool_length, out, way == PARENTS_LAST ? 0 : room,
                            result);
    bool bad = result[TANDREKILY_NUMBER] == TANDREKILY_BAD_TABLE;
    if (way == PARENTS_FIRST && bad && told < records) result[TANDREKILY_AMOUNT] = told;
    if (way == PARENTS_LAST && !bad)
        __real_tandrekily_write(flags, code, app, hop, end, table, table_length, pool, pool_length, out, room, result);
    spoil_bytes(way, result[TANDREKILY_NUMBER] == TANDREKILY_ACCEPTED, out, room, (size_t)result[TANDREKILY_LENGTH]);
    spoil_result(way, result);
}

// ---- values

bool __wrap_tandrekily_is_utf8(const uint8_t *text, size_t n) {
    return __real_tandrekily_is_utf8(text, n) ^ (wrong(IS_UTF8) == 0);
}

static bool continues(uint8_t byte) {
    return (byte & 0xC0) == 0x80;
}

static size_t characters(const uint8_t *text, size_t n) {
    size_t count = 0;
    for (size_t i = 0; i < n; i++) count += !continues(text[i]);
    return count;
}

// Past the character that is broken at `at`, whatever there is of it.
static size_t past_broken(const uint8_t *text, size_t n, size_t at) {
    at++;
    while (at < n && continues(text[at])) at++;
    return at;
}

// All well-formed bytes, those after broken ones too.
static size_t well_formed(const uint8_t *text, size_t n) {
    size_t valid = __real_tandrekily_utf8(text, n);
    return valid == n ? n : valid + well_formed(text + valid + 1, n - valid - 1);
}

// As if this first byte and what follows it, `size` bytes in all, were a character.
static size_t taking(uint8_t first, size_t size, const uint8_t *text, size_t n) {
    size_t valid = __real_tandrekily_utf8(text, n);
    if (n - valid < size || text[valid] != first) return valid;
    return valid + size + taking(first, size, text + valid + size, n - valid - size);
}

size_t __wrap_tandrekily_utf8(const uint8_t *text, size_t n) {
    size_t valid = __real_tandrekily_utf8(text, n);
    bool broken = valid < n;
    switch (wrong(UTF8)) {
    case ONE_MORE: return valid + broken;
    case ONE_LESS: return valid - (valid > 0);
    case NOTHING: return 0;
    case ALL: return n;
    case NOTHING_IF_BROKEN: return broken ? 0 : n;
    case NOTHING_IF_WELL_FORMED: return broken ? valid : 0;
    case CHARACTERS: return characters(text, valid);
    case EIGHTS: return broken ? valid - valid % 8 : n;
    case BROKEN_ONE_TOO: return broken ? past_broken(text, n, valid) : n;
    case REST_TOO: return well_formed(text, n);
    case SURROGATES_TOO: return taking(0xED, 3, text, n);
    case OVERLONG_TOO: return taking(0xC0, 2, text, n);
    case LOW_BYTE: return (uint8_t)valid;
    default: return valid;
    }
}

int64_t __wrap_tandrekily_unix_seconds(uint32_t time) {
    int64_t seconds = __real_tandrekily_unix_seconds(time);
    int64_t era = INT64_C(1) << 32;
    bool top_bit = time >= 0x80000000;
    switch (wrong(UNIX_SECONDS)) {
    case A_SECOND_LATE: return seconds + 1;
    case OLD_RULE: return top_bit ? seconds : seconds - era;
    case OTHER_WAY: return top_bit ? seconds + era : seconds - era;
    case SHORT_AT_THE_TURN: return top_bit ? seconds : seconds - 1;
    case IN_32_BITS: return (int32_t)seconds;
    default: return seconds;
    }
}

// ---- by an edition

static bool is_edition(uint32_t edition) {
    return edition == TANDREKILY_RFC_4006 || edition == TANDREKILY_RFC_8506;
}

// The edition that is asked for in place of the one given; `n` bytes are the input.
static uint32_t edition_asked(int way, uint32_t edition, size_t n) {
    if (way == OTHER_EDITION && is_edition(edition)) return TANDREKILY_RFC_4006 + TANDREKILY_RFC_8506 - edition;
    if (way == ANY_EDITION && !is_edition(edition)) return TANDREKILY_RFC_8506;
    if (way == INPUT_BEFORE_EDITION && n == 0) return TANDREKILY_RFC_8506;
    return way == LOW_BITS ? (uint16_t)edition : edition;
}

static size_t limit_asked(int way, uint32_t edition, size_t limit) {
    return way == EDITION_BEFORE_LIMIT && !is_edition(edition) ? 64 : limit + (way == OTHER_LIMIT);
}

// An Integer32 below zero as 64 bits.
static void extend_signs(uint8_t *store, uint64_t records) {
    for (uint8_t *record = store; records > 0; records--, record += TANDREKILY_RECORD_SIZE) {
        uint8_t *value = record + TANDREKILY_RECORD_VALUE;
        if (record[TANDREKILY_RECORD_KIND] == TANDREKILY_INTEGER_32 && value[4] >= 0x80) memset(value, 0xFF, 4);
    }
}

static void spoil_decoder_by(int way, decoder_by *decode_by, decoder *decode, uint32_t edition, size_t limit, const uint8_t *input,
                             size_t n, uint8_t *store, size_t room, uint64_t *result) {
    limit = limit_asked(way, edition, limit);
    if (way == NO_EDITION && is_edition(edition)) decode(true, limit, input, n, store, room, result);
    else decode_by(edition_asked(way, edition, n), limit, input, n, store, room, result);
    if (way == SIGN_EXTENDED) extend_signs(store, result[TANDREKILY_RECORDS]);
    spoil_breaks(way, TANDREKILY_AVP_HEAD, store, result[TANDREKILY_RECORDS], input);
    spoil_parents(way, store, result[TANDREKILY_RECORDS]);
    size_t used = (size_t)result[TANDREKILY_RECORDS] * TANDREKILY_RECORD_SIZE;
    spoil_bytes(way, result[TANDREKILY_NUMBER] == TANDREKILY_ACCEPTED, store, room, used);
    spoil_result(way, result);
}

void __wrap_tandrekily_message_by(uint32_t edition, size_t limit, const uint8_t *input, size_t n, uint8_t *store, size_t room,
                                  uint64_t *result) {
    spoil_decoder_by(wrong(MESSAGE_BY), __real_tandrekily_message_by, __real_tandrekily_message, edition, limit, input, n, store,
                     room, result);
}

void __wrap_tandrekily_avp_by(uint32_t edition, size_t limit, const uint8_t *input, size_t n, uint8_t *store, size_t room,
                              uint64_t *result) {
    spoil_decoder_by(wrong(AVP_BY), __real_tandrekily_avp_by, __real_tandrekily_avp, edition, limit, input, n, store, room, result);
}

// ---- signed numbers and Unit-Values

int32_t __wrap_tandrekily_integer32(uint32_t bits) {
    int32_t number = __real_tandrekily_integer32(bits);
    if (wrong(INTEGER32) == NO_SIGN) return number & INT32_MAX;
    return number ^ (wrong(INTEGER32) == OFF_BY_ONE);
}

int64_t __wrap_tandrekily_integer64(uint64_t bits) {
    int64_t number = __real_tandrekily_integer64(bits);
    if (wrong(INTEGER64) == NO_SIGN) return number & INT64_MAX;
    return number ^ (wrong(INTEGER64) == OFF_BY_ONE);
}

static bool in_range(int32_t exponent) {
    return -18 <= exponent && exponent <= 18;
}

// The exponent that is asked about in place of the one given. Where it is not `tested`, one of any size is taken.
static int32_t exponent_asked(int way, bool tested, int32_t exponent) {
    if (!tested && !in_range(exponent)) return 0;
    if (way == TAKES_19 && exponent == 19) return 18;
    if (way == TAKES_MINUS_19 && exponent == -19) return -18;
    if (way == REFUSES_18 && exponent == 18) return 19;
    if (way == REFUSES_MINUS_18 && exponent == -18) return -19;
    if (way == NO_EXPONENTS && in_range(exponent)) return 0;
    return way == EXPONENT_LOW_BITS ? (int16_t)exponent : exponent;
}

// Do the digits alone tell the order, so that the exponents are not tested?
static bool told_by_digits(int way, int64_t digits, int64_t other_digits) {
    if (way == ZEROS_TAKEN) return digits == 0 && other_digits == 0;
    return way == SIGNS_TAKEN && (digits < 0) != (other_digits < 0);
}

static double in_double(int64_t digits, int32_t exponent) {
    double value = (double)digits;
    for (; exponent > 0; exponent--) value *= 10;
    for (; exponent < 0; exponent++) value /= 10;
    return value;
}

// In 64 bits, times ten to so much: what passes them is lost, and so is what a division leaves.
static int64_t in_64_bits(int64_t digits, int32_t exponent) {
    for (; exponent > 0; exponent--) digits = (int64_t)((uint64_t)digits * 10);
    for (; exponent < 0; exponent++) digits /= 10;
    return digits;
}

static int32_t order_of(bool less, bool greater) {
    return less ? TANDREKILY_LESS : greater ? TANDREKILY_GREATER : TANDREKILY_EQUAL;
}

// The order of two Unit-Values that are not refused, by arithmetic that isn't exact.
static int32_t inexact(int way, int64_t digits, int32_t exponent, int64_t other_digits, int32_t other_exponent) {
    if (way == DOUBLES) {
        double a = in_double(digits, exponent), b = in_double(other_digits, other_exponent);
        return order_of(a < b, a > b);
    }
    int32_t up = way == WRAPPED ? 18 : 0;
    int64_t a = in_64_bits(digits, exponent + up), b = in_64_bits(other_digits, other_exponent + up);
    return order_of(a < b, a > b);
}

uint8_t __wrap_tandrekily_compare(int64_t digits, int32_t exponent, int64_t other_digits, int32_t other_exponent, int32_t *order) {
    int way = wrong(COMPARE);
    bool told = told_by_digits(way, digits, other_digits);
    int32_t first = exponent_asked(way, !told && way != SECOND_ALONE, exponent);
    int32_t second = exponent_asked(way, !told && way != FIRST_ALONE, other_exponent);
    uint8_t number = __real_tandrekily_compare(digits, first, other_digits, second, order);
    if (number != TANDREKILY_ACCEPTED && way == ORDER_IF_REFUSED) *order = TANDREKILY_EQUAL;
    if (number == TANDREKILY_ACCEPTED) {
        if (way == OPPOSITE) *order = -*order;
        if (way == NEVER_EQUAL && *order == TANDREKILY_EQUAL) *order = TANDREKILY_GREATER;
        if (way >= DOUBLES && way <= WHOLE) *order = inexact(way, digits, exponent, other_digits, other_exponent);
    }
    return number ^ (way == OTHER_ANSWER);
}

// ---- RADIUS

enum { PACKET_MOST = 4096, PACKET_HEADER = 20 };

static void spoil_radius(int way, uint64_t *result) {
    if (way >= 0 && way < TANDREKILY_RADIUS_RESULT) result[way] ^= 1;
    if (way == RESULT_TOO_LONG) result[TANDREKILY_RADIUS_RESULT] = 0;
}

static bool refuse(uint64_t *result, uint64_t number, uint64_t amount) {
    memset(result, 0, TANDREKILY_RADIUS_RESULT * sizeof *result);
    result[TANDREKILY_NUMBER] = number;
    result[TANDREKILY_AMOUNT] = amount;
    return true;
}

// The header's tests in another order or with other bounds: is the input refused by them?
static bool refused_by_header(int way, const uint8_t *input, size_t n, uint64_t *result) {
    if (way == HEADER_FIRST && n < PACKET_HEADER) return refuse(result, TANDREKILY_INCOMPLETE, PACKET_HEADER - n);
    if (n < 4) return false;
    size_t length = number_at(input + 2, 2);
    bool other_bounds = (way == NO_LEAST && length < PACKET_HEADER) || (way == NO_MOST && length > PACKET_MOST);
    if (other_bounds && n < length) return refuse(result, TANDREKILY_INCOMPLETE, length - n);
    if (way == MOST_4095 && length == PACKET_MOST) return refuse(result, TANDREKILY_BAD_LENGTH, 0);
    if (way == SURPLUS_REFUSED && n > length) return refuse(result, TANDREKILY_BAD_LENGTH, 0);
    return false;
}

static uint8_t type_asked(int way, uint8_t type) {
    if (way == NAME_IS_TEXT && type == 1) return 11;
    if (way == SESSION_IS_STRING && type == 44) return 1;
    if (way == UNKNOWN_IS_STRING && type >= 64) return 1;
    return way == LOW_BITS_OF_TYPE ? type % 64 : type;
}

static void set_length(uint8_t *packet, size_t length) {
    packet[2] = (uint8_t)(length >> 8);
    packet[3] = (uint8_t)length;
}

// The input that is asked about in place of the one given: of another length, or with other types.
static const uint8_t *input_asked(int way, const uint8_t *input, size_t n) {
    static uint8_t packet[PACKET_MOST + 8];
    if (n < PACKET_HEADER || n > sizeof packet) return input;
    memcpy(packet, input, n);
    if (way == SURPLUS_READ && number_at(input + 2, 2) <= n) set_length(packet, n);
    for (size_t at = PACKET_HEADER; at + 1 < n && packet[at + 1] > 1; at += packet[at + 1]) packet[at] = type_asked(way, packet[at]);
    return packet;
}

// An address or an integer that is too long is taken for its first four bytes, as Diameter's are.
static void take_four(uint8_t *record, const uint8_t *input) {
    bool is_long = record[TANDREKILY_RECORD_LENGTH + 2] > TANDREKILY_ATTRIBUTE_HEAD + 4;
    if (!is_long || record[TANDREKILY_RECORD_ERRORS] != TANDREKILY_DATA_LENGTH) return;
    record[TANDREKILY_RECORD_KIND] = TANDREKILY_UNSIGNED_32;
    memcpy(record + TANDREKILY_RECORD_VALUE + 4, input + number_at(record + TANDREKILY_RECORD_PLACE, 4), 4);
}

// A record has the type that was given, whatever type was asked about.
static void spoil_records(int way, uint8_t *store, const uint8_t *input, uint64_t *result) {
    uint64_t records = result[TANDREKILY_RECORDS];
    for (uint64_t i = 0; i < records; i++) {
        uint8_t *record = store + i * TANDREKILY_RECORD_SIZE;
        record[TANDREKILY_RECORD_CODE + 3] = input[number_at(record + TANDREKILY_RECORD_PLACE, 4) - TANDREKILY_ATTRIBUTE_HEAD];
        if (way == LONG_NUMBERS) take_four(record, input);
    }
    if (way == SECOND_RECORD && records > 1) store[TANDREKILY_RECORD_SIZE + TANDREKILY_RECORD_PLACE + 3] ^= 1;
    if (way == FIRST_FLAGS && records > 0) result[TANDREKILY_ERRORS] = store[TANDREKILY_RECORD_ERRORS];
    if (way == LAST_FLAGS && records > 0)
        result[TANDREKILY_ERRORS] = store[(records - 1) * TANDREKILY_RECORD_SIZE + TANDREKILY_RECORD_ERRORS];
}

// As if the last byte of a packet were not of it, where it is one that is left over.
static void drop_last(const uint8_t *input, size_t n, uint8_t *store, size_t room, uint8_t *authenticator, uint64_t *result) {
    static uint8_t packet[PACKET_MOST + 8];
    size_t length = number_at(input + 2, 2);
    memcpy(packet, input, n);
    set_length(packet, length - 1);
    __real_tandrekily_radius(packet, n, store, room, authenticator, result);
    if (result[TANDREKILY_NUMBER] == TANDREKILY_ACCEPTED) result[TANDREKILY_LENGTH] = length;
}

static void spoil_authenticator(int way, bool accepted, uint8_t *authenticator) {
    if (way == AUTHENTICATOR_IF_REFUSED && !accepted) authenticator[0] = 0;
    if (way == AUTHENTICATOR_TOO_LONG && accepted) authenticator[TANDREKILY_AUTHENTICATOR] = 0;
    if (way >= AUTHENTICATOR_BYTE && way < AUTHENTICATOR_BYTE + TANDREKILY_AUTHENTICATOR && accepted)
        authenticator[way - AUTHENTICATOR_BYTE] ^= 1;
}

void __wrap_tandrekily_radius(const uint8_t *input, size_t n, uint8_t *store, size_t room, uint8_t *authenticator, uint64_t *result) {
    int way = wrong(RADIUS);
    if (refused_by_header(way, input, n, result)) return;
    __real_tandrekily_radius(input_asked(way, input, n), n, store, room, authenticator, result);
    bool not_tiled = result[TANDREKILY_NUMBER] == TANDREKILY_NOT_TILED;
    if (way == LEFT_OVER_TAKEN && not_tiled) drop_last(input, n, store, room, authenticator, result);
    if (way == ROOM_FIRST && not_tiled && room == 0) refuse(result, TANDREKILY_NO_RECORDS, 1);
    bool accepted = result[TANDREKILY_NUMBER] == TANDREKILY_ACCEPTED;
    spoil_records(way, store, input, result);
    spoil_breaks(way, TANDREKILY_ATTRIBUTE_HEAD, store, result[TANDREKILY_RECORDS], input);
    spoil_parents(way, store, result[TANDREKILY_RECORDS]);
    spoil_bytes(way, accepted, store, room, (size_t)result[TANDREKILY_RECORDS] * TANDREKILY_RECORD_SIZE);
    spoil_authenticator(way, accepted, authenticator);
    spoil_radius(way, result);
}

// Does the record have a field that is not to be read, and this way reads it?
static bool reads_more(int way, const uint8_t *record) {
    if (way == KIND_READ) return record[TANDREKILY_RECORD_KIND] > TANDREKILY_TIME;
    if (way == ERRORS_READ) return record[TANDREKILY_RECORD_ERRORS] != 0;
    if (way == ZERO_READ) return record[TANDREKILY_RECORD_ZERO] != 0;
    return way == VALUE_READ && record[TANDREKILY_RECORD_VALUE] != 0;
}

static void forgive_length(int way, uint8_t *length) {
    if (way == ANY_LENGTH) memset(length, 0, 2);
    if (way == NO_LEAST_LENGTH && number_at(length, 3) < TANDREKILY_ATTRIBUTE_HEAD) length[2] = TANDREKILY_ATTRIBUTE_HEAD;
}

static void forgive_place(int way, size_t end, size_t pool_length, uint8_t *place) {
    bool empty = end == number_at(place, 4);
    bool past = end > pool_length;
    if ((way == ANY_PLACE && past) || (way == EMPTY_ANYWHERE && past && empty)) memset(place, 0, 4);
    if (way == PLACE_LOW_BITS) memset(place, 0, 2);
}

static void forgive_parent(int way, uint8_t *parent) {
    bool zero = number_at(parent, 4) == 0;
    if (way == ANY_PARENT || (way == ZERO_TAKEN && zero)) memset(parent, 0xFF, 4);
    if (way == LOW_BYTES_TAKEN) memset(parent, 0xFF, 2);
}

// Makes what breaks the rule that this way does not know keep it; what it should not read makes it break one.
static void forgive(int way, size_t pool_length, uint8_t *record) {
    uint8_t *place = record + TANDREKILY_RECORD_PLACE;
    size_t size = record[TANDREKILY_RECORD_LENGTH + 2] - (size_t)TANDREKILY_ATTRIBUTE_HEAD;
    if (way == ANY_TYPE) memset(record + TANDREKILY_RECORD_CODE, 0, 3);
    if (way == ANY_DEPTH) record[TANDREKILY_RECORD_DEPTH] = 1;
    if (way == ANY_FLAGS) record[TANDREKILY_RECORD_FLAGS] = 0;
    if (way == ANY_VENDOR) memset(record + TANDREKILY_RECORD_VENDOR, 0, 4);
    if (way == ANY_PADDING) record[TANDREKILY_RECORD_PADDING] = 0;
    if (way == ANY_PADS) memset(record + TANDREKILY_RECORD_PADS, 0, 3);
    if (reads_more(way, record)) record[TANDREKILY_RECORD_DEPTH] = 0;
    forgive_length(way, record + TANDREKILY_RECORD_LENGTH);
    forgive_parent(way, record + TANDREKILY_RECORD_PARENT);
    forgive_place(way, number_at(place, 4) + size, pool_length, place);
}

static size_t total_of(const uint8_t *table, size_t table_length) {
    size_t total = PACKET_HEADER;
    for (size_t i = 0; i + TANDREKILY_RECORD_SIZE <= table_length; i += TANDREKILY_RECORD_SIZE)
        total += number_at(table + i + TANDREKILY_RECORD_LENGTH, 3);
    return total;
}

// The writer's refusals in another order or with another bound: is the table refused by them?
static bool refused_by_table(int way, const uint8_t *table, size_t table_length, size_t room, uint64_t *result) {
    size_t total = total_of(table, table_length);
    uint64_t number = result[TANDREKILY_NUMBER];
    bool left_over = table_length % TANDREKILY_RECORD_SIZE != 0;
    if (way == LEFT_OVER_FIRST && left_over) return refuse(result, TANDREKILY_BAD_TABLE, table_length / TANDREKILY_RECORD_SIZE);
    if (way == LENGTH_BEFORE_TABLE && total > PACKET_MOST) return refuse(result, TANDREKILY_TOO_LONG, 0);
    if (way == TOTAL_4095 && total == PACKET_MOST) return refuse(result, TANDREKILY_TOO_LONG, 0);
    if (way == ROOM_BEFORE_TOTAL && number == TANDREKILY_TOO_LONG && room < total) return refuse(result, TANDREKILY_NO_ROOM, total);
    return false;
}

void __wrap_tandrekily_radius_write(uint8_t code, uint8_t identifier, const uint8_t *authenticator, const uint8_t *table,
                                    size_t table_length, const uint8_t *pool, size_t pool_length, uint8_t *out, size_t room,
                                    uint64_t *result) {
    static uint8_t asked[TABLE_MOST];
    int way = wrong(RADIUS_WRITE);
    size_t whole = table_length - table_length % TANDREKILY_RECORD_SIZE;
    memcpy(asked, table, table_length);
    for (size_t i = 0; i < whole; i += TANDREKILY_RECORD_SIZE) forgive(way, pool_length, asked + i);
    size_t length = way == LEFT_OVER_WRITTEN ? whole : table_length;
    __real_tandrekily_radius_write(code, identifier, authenticator, asked, length, pool, pool_length, out, room, result);
    refused_by_table(way, table, table_length, room, result);
    bool accepted = result[TANDREKILY_NUMBER] == TANDREKILY_ACCEPTED;
    size_t used = (size_t)result[TANDREKILY_LENGTH];
    if (way == SECOND_DATA && accepted && whole > TANDREKILY_RECORD_SIZE) out[used - 1] ^= 1;
    spoil_bytes(way, accepted, out, room, used);
    spoil_radius(way, result);
}

// ---- joining

// Is the record taken for one in no group?
static bool is_top(int way, const uint8_t *table, size_t index) {
    uint8_t depth = depth_at(table, index);
    bool mark = parent_at(table, index) == TANDREKILY_TOP_LEVEL;
    if (way == MARK_BY_NUMBER) return mark;
    if (way == MARK_BY_BOTH) return mark && depth == 1;
    if (way == MARK_BY_EITHER) return mark || depth == 1;
    if (way == DEPTH_0_IS_TOP) return depth <= 1;
    if (way == TOO_DEEP_IS_TOP) return depth == 1 || depth > 64;
    return (way == DEPTH_LOW_BITS ? depth & 0x7F : depth) == 1;
}

// Does a number that grows by so much keep to its four bytes? `any` is the way that takes all, and `less` the one whose
// bound is one less.
static bool fits(int way, int any, int less, uint32_t number, size_t more) {
    uint32_t left = UINT32_MAX - number;
    if (way == NUMBERS_IN_32_BITS) more = (uint32_t)more;
    if (way == SUMS_WRAP) return number + more <= UINT32_MAX;
    return way == any || (way == less ? more < left : more <= left);
}

static uint32_t place_at(const uint8_t *table, size_t index) {
    return (uint32_t)number_at(table + index * TANDREKILY_RECORD_SIZE + TANDREKILY_RECORD_PLACE, 4);
}

static bool record_fits(int way, const uint8_t *table, size_t index, size_t bytes, size_t records) {
    bool has_index = !is_top(way, table, index) || way == MARK_TESTED;
    if (!fits(way, ANY_PLACE_FITS, LAST_PLACE_REFUSED, place_at(table, index), bytes)) return false;
    return !has_index || fits(way, ANY_PARENT_FITS, LAST_PARENT_REFUSED, parent_at(table, index), records);
}

// The index of the first record that does not fit, or how many there are.
static size_t first_too_far(int way, const uint8_t *table, size_t count, size_t bytes, size_t records) {
    size_t tested = way == FIRST_TESTED && count > 1 ? 1 : count - (way == LAST_NOT_TESTED && count > 0);
    for (size_t i = 0; i < tested; i++)
        if (!record_fits(way, table, i, bytes, records)) return i;
    return count;
}

static void move_place(int way, uint8_t *table, size_t index, size_t more) {
    uint8_t *at = table + index * TANDREKILY_RECORD_SIZE + TANDREKILY_RECORD_PLACE;
    uint32_t place = place_at(table, index) + (uint32_t)more;
    if (way == PLACES_STAY || (way == TOP_PLACES_ALONE && depth_at(table, index) != 1)) return;
    for (int i = way == LOW_TWO_BYTES ? 2 : 0; i < 4; i++) at[i] = (uint8_t)(place >> (24 - 8 * i));
}

static void move_parent(int way, uint8_t *table, size_t index, size_t more) {
    uint32_t parent = parent_at(table, index) + (uint32_t)more;
    if (is_top(way, table, index) && way != MARK_MOVED) return;
    if (way == PARENTS_STAY || (way == DEPTH_2_ALONE && depth_at(table, index) != 2)) return;
    set_parent(table, index, way == LOW_TWO_PARENT_BYTES ? (uint16_t)parent : parent);
}

static void move_records(int way, uint8_t *table, size_t count, size_t bytes, size_t records) {
    if (way == COUNT_IN_A_BYTE) count = (uint8_t)count;
    if (way == COUNT_IN_TWO_BYTES) count = (uint16_t)count;
    for (size_t i = way == FIRST_STAYS; i + (way == LAST_STAYS) < count; i++) {
        move_place(way, table, i, way == PLACE_BY_RECORDS ? records : bytes);
        move_parent(way, table, i, way == PARENT_BY_BYTES ? bytes : way == BY_OWN_COUNT ? count : records);
        if (way == ZERO_CLEARED) table[i * TANDREKILY_RECORD_SIZE + TANDREKILY_RECORD_ZERO] = 0;
    }
}

// What is changed although the table is refused.
static void move_refused(int way, uint8_t *table, size_t far, size_t count, size_t bytes, size_t records) {
    if (way == MOVED_UP_TO_IT) move_records(way, table, far, bytes, records);
    if (way == MOVED_IF_LEFT_OVER && far == count) move_records(way, table, count, bytes, records);
    for (size_t i = 0; i < count; i++) {
        bool moved = way == MOVED_BUT_IT && i != far;
        if (moved) move_parent(way, table, i, records);
        if (moved || way == PLACES_IF_REFUSED) move_place(way, table, i, bytes);
    }
}

static void spoil_shifted(int way, bool accepted, uint8_t *table, size_t length, uint64_t *result) {
    bool has_last = accepted && length > 0;
    spoil_bytes(way, accepted, table, length, length);
    if (way >= LAST_BYTE && way < LAST_BYTE + TANDREKILY_RECORD_SIZE && has_last)
        table[length - TANDREKILY_RECORD_SIZE + (size_t)(way - LAST_BYTE)] ^= 1;
    if (way == BEHIND_TABLE && accepted) table[length] ^= 1;
    if (way == LENGTH_TOO && accepted) result[TANDREKILY_LENGTH] = length;
    if (way == RECORDS_IF_REFUSED && !accepted) result[TANDREKILY_RECORDS] = length / TANDREKILY_RECORD_SIZE;
    if (way == RESULT_TOO_LONG) result[TANDREKILY_RESULT] = 0;
    spoil_result(way, result);
}

// What comes with a refusal. `far` records are before the first that does not fit.
static uint64_t amount_told(int way, bool bad, size_t length, size_t far) {
    if (bad) return way == LEFT_OVER_TOLD ? length % TANDREKILY_RECORD_SIZE : length / TANDREKILY_RECORD_SIZE;
    return way == INDEX_TOLD ? far : 0;
}

// A second writing of the rules, since most ways can't be made of what the library answers. In no way wrong, it passes
// the tests.
void __wrap_tandrekily_shift(uint8_t *table, size_t length, size_t bytes, size_t records, uint64_t *result) {
    int way = wrong(SHIFT);
    size_t count = length / TANDREKILY_RECORD_SIZE;
    size_t far = first_too_far(way, table, count, bytes, records);
    bool too_far = far < count || (way == EMPTY_TESTED && bytes > UINT32_MAX);
    bool left_over = length % TANDREKILY_RECORD_SIZE != 0 && way != LEFT_OVER_MOVED;
    bool accepted = !left_over && !too_far;
    memset(result, 0, TANDREKILY_RESULT * sizeof *result);
    if (accepted) {
        result[TANDREKILY_RECORDS] = count;
        move_records(way, table, count, bytes, records);
    } else {
        bool bad = left_over && !(way == TOO_FAR_FIRST && too_far);
        result[TANDREKILY_NUMBER] = bad ? TANDREKILY_BAD_TABLE : TANDREKILY_TOO_LONG;
        result[TANDREKILY_AMOUNT] = amount_told(way, bad, length, far);
        move_refused(way, table, far, count, bytes, records);
    }
    spoil_shifted(way, accepted, table, length, result);
}
