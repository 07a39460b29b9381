// Tandrekily for C and C++: decodes and writes Diameter messages (RFC 6733), those of credit-control too (RFC 4006, RFC 8506), and
// RADIUS packets (RFC 2865, RFC 2866).
// Link libtandrekily.a, for x86-64 Linux.
//
// What a caller passes:
//   - With each pointer that has a length, so many bytes that may be read. Those of `store` and `out`, and of the
//     `table` of `tandrekily_shift`, may be written too.
//   - `result` points to TANDREKILY_RESULT numbers, and for RADIUS to TANDREKILY_RADIUS_RESULT; `outline` points to
//     TANDREKILY_OUTLINE, and `order` to one.
//   - `authenticator` points to TANDREKILY_AUTHENTICATOR bytes. They may be written by `tandrekily_radius`, and are only read by
//     `tandrekily_radius_write`.
//   - No null pointer. Where a length is 0, any other pointer does, and nothing is read or written through it.
//   - `store`, `out`, `result`, `outline`, `order`, and a `table` or an `authenticator` that may be written, share no
//     byte with anything else that is passed.
// Nothing else is asked: each function answers for any bytes and any numbers. Before a call the bytes of what may be written may be
// anything.
//
// What a caller gets:
//   - `result` and `outline` are written whole by every call, with zeros where nothing is returned.
//   - A refusal changes no byte of `store`, `out`, `table`, `order` or `authenticator`.
//   - Nothing is allocated or kept between calls, so calls may run in several threads at once.
//   - A call takes less than 64 KiB of stack; bench/stack measures it at the deepest nesting.
//   - An acceptance writes the whole of `store`: the records, and zero after them. So lend no more than the message needs: a
//     large store is cleared again for each small message.
#ifndef TANDREKILY_H
#define TANDREKILY_H

#include <stdbool.h>
#include <stddef.h>
#include <stdint.h>

#ifdef __cplusplus
extern "C" {
#endif

// The version of this library.
#define TANDREKILY_VERSION "0.2.0"

// ---- results

// The places in a result. All after the amount are 0 in a refusal. RADIUS has other fields from place 6 on: tandrekily_radius_place.
enum tandrekily_place {
    TANDREKILY_NUMBER = 0,      // the answer's number, listed below
    TANDREKILY_AMOUNT = 1,      // what a refusal returns besides; 0 if accepted
    TANDREKILY_ERRORS = 2,      // error flags of all that was read, joined
    TANDREKILY_RECORDS = 3,     // records in the store, or moved
    TANDREKILY_TRIED = 4,       // AVP headers tried, those in groups that do not tile too; attributes of RADIUS
    TANDREKILY_LENGTH = 5,      // bytes consumed, or written
    TANDREKILY_MESSAGE_VERSION = 6, // from here on the fields of a message's header
    TANDREKILY_MESSAGE_LENGTH = 7,
    TANDREKILY_MESSAGE_FLAGS = 8,
    TANDREKILY_COMMAND_CODE = 9,
    TANDREKILY_APPLICATION_ID = 10,
    TANDREKILY_HOP_BY_HOP = 11,
    TANDREKILY_END_TO_END = 12,
    TANDREKILY_RESULT = 13      // how many numbers a result has
};

enum tandrekily_answer {
    TANDREKILY_ACCEPTED = 0,
    TANDREKILY_INCOMPLETE = 1,  // bytes are absent; the amount says how many
    TANDREKILY_NOT_VERSION = 2, // the first byte is not 1
    TANDREKILY_BAD_LENGTH = 3,  // the length field is shorter than the header, or over 4,096 in RADIUS
    TANDREKILY_NOT_TILED = 4,   // complete AVPs or attributes do not cover the message to its last byte
    TANDREKILY_TOO_DEEP = 5,    // AVPs are nested deeper than the limit
    TANDREKILY_NO_RECORDS = 6,  // the store is too short; the amount is the records needed
    TANDREKILY_BAD_DEPTH = 7,   // the limit is not 1..64
    TANDREKILY_BAD_HEADER = 8,  // the command code is over 16,777,215
    TANDREKILY_BAD_TABLE = 9,   // the amount is the index of the first bad record, or the record count if bytes are
                                // left over; a table to be moved is bad for that alone
    TANDREKILY_TOO_LONG = 10,   // the message would be over 16,777,215 bytes, or 4,096 in RADIUS; a place or a parent,
                                // moved, would be over 4,294,967,295
    TANDREKILY_NO_ROOM = 11,    // the output is too short; the amount is the bytes needed
    TANDREKILY_BAD_EDITION = 12, // the edition is neither 4006 nor 8506
    TANDREKILY_BAD_EXPONENT = 13 // an exponent is not -18..18
};

// Bits, joined by or.
enum tandrekily_error_flag {
    TANDREKILY_DATA_VALUE = 1,        // ill-formed text, or a group whose members do not tile
    TANDREKILY_DATA_LENGTH = 2,       // more or fewer data than the kind takes
    TANDREKILY_NON_ZERO_RESERVED = 4, // reserved bits are set
    TANDREKILY_NON_ZERO_PADDING = 8   // padding is not zero
};

// ---- records

// A record has 36 bytes, its numbers are big-endian, and a group stands before its members. These are the places in it. That of an
// attribute of RADIUS is laid out the same.
enum tandrekily_record {
    TANDREKILY_RECORD_CODE = 0,     // 4 bytes
    TANDREKILY_RECORD_FLAGS = 4,    // 1
    TANDREKILY_RECORD_LENGTH = 5,   // 3: the AVP's header and data, without padding
    TANDREKILY_RECORD_VENDOR = 8,   // 4: 0 without the vendor bit
    TANDREKILY_RECORD_PLACE = 12,   // 4: where the data start in the input
    TANDREKILY_RECORD_DEPTH = 16,   // 1: 1 at the top level
    TANDREKILY_RECORD_KIND = 17,    // 1
    TANDREKILY_RECORD_ERRORS = 18,  // 1: this AVP's error flags
    TANDREKILY_RECORD_PADDING = 19, // 1: how many bytes of padding, 0..3
    TANDREKILY_RECORD_PADS = 20,    // 3: these bytes, then zeros
    TANDREKILY_RECORD_ZERO = 23,    // 1
    TANDREKILY_RECORD_VALUE = 24,   // 8: a number, an Integer32 or Enumerated as its 32 bits, an Integer64 as its 64, an IPv4
                                    // address; of ill-formed text, which has kind 0, at which byte of the data it broke, as
                                    // `tandrekily_utf8` says; else 0
    TANDREKILY_RECORD_PARENT = 32,  // 4: the index of the record of its group, or TANDREKILY_TOP_LEVEL at depth 1
    TANDREKILY_RECORD_SIZE = 36
};

// The parent of a record that is in no group. The parent of any other is the index in the table of the last earlier record that is one
// depth less.
#define TANDREKILY_TOP_LEVEL UINT32_C(4294967295)

// The data of a record are its length less one of these, by the vendor bit of its flags.
enum tandrekily_avp_head {
    TANDREKILY_AVP_VENDOR_BIT = 0x80,
    TANDREKILY_AVP_HEAD = 8,
    TANDREKILY_AVP_HEAD_WITH_VENDOR = 12
};

enum tandrekily_kind {
    TANDREKILY_UNHANDLED = 0,   // an unknown code, or data that are not of the code's kind
    TANDREKILY_OCTET_STRING = 1,
    TANDREKILY_INTEGER_32 = 2,  // codes of the editions alone have kind 2 or 3
    TANDREKILY_INTEGER_64 = 3,
    TANDREKILY_UNSIGNED_32 = 4,
    TANDREKILY_UNSIGNED_64 = 5,
    TANDREKILY_FLOAT_32 = 6,    // no code has kind 6 or 7
    TANDREKILY_FLOAT_64 = 7,
    TANDREKILY_GROUPED = 8,
    TANDREKILY_ENUMERATED = 9,
    TANDREKILY_UTF8_STRING = 10,
    TANDREKILY_DIAMETER_IDENTITY = 11,
    TANDREKILY_DIAMETER_URI = 12,
    TANDREKILY_ADDRESS = 13,
    TANDREKILY_TIME = 14
};

// ---- decoding

// Decodes the message at the front of `input` into records in `store`: as RFC 6733 says where `rfc`, else as the Rust crate
// sawp-diameter does. The store holds `store_length` / 36 records, and `limit` is the deepest level that may be read.
//   accepted: the header, the message's error flags, records, tried, the message's length; the rest of the store is zero
//   refused, in this order: BAD_DEPTH, INCOMPLETE, NOT_VERSION, INCOMPLETE of 4 bytes, BAD_LENGTH under 4, INCOMPLETE of
//   the length, BAD_LENGTH under 20, NOT_TILED, TOO_DEEP, NO_RECORDS
// With a store of length 0 it says how many records are needed.
void tandrekily_message(bool rfc, size_t limit, const uint8_t *input, size_t input_length, uint8_t *store, size_t store_length,
                        uint64_t result[TANDREKILY_RESULT]);

// Reads the header at the front of `input` alone. The bytes of the whole message must be there.
//   accepted: the header, its own error flags, 20 as the length
//   refused: INCOMPLETE, NOT_VERSION or BAD_LENGTH, in the order of a message
void tandrekily_header(const uint8_t *input, size_t input_length, uint64_t result[TANDREKILY_RESULT]);

// Decodes the one AVP at the front of `input`, at depth 1, into records in `store`.
//   accepted: no header; its error flags, records, tried, and its padded size as the length; the rest of the store is zero
//   refused, in this order: BAD_DEPTH, INCOMPLETE or BAD_LENGTH, TOO_DEEP, NO_RECORDS
void tandrekily_avp(bool rfc, size_t limit, const uint8_t *input, size_t input_length, uint8_t *store, size_t store_length,
                    uint64_t result[TANDREKILY_RESULT]);

// ---- decoding by an edition

// The editions of the credit-control dictionary, by the numbers of their RFCs. The codes and kinds of section 8 there are added to
// those of RFC 6733, and all else is as that one says.
enum tandrekily_edition {
    TANDREKILY_RFC_4006 = 4006,
    TANDREKILY_RFC_8506 = 8506
};

// As `tandrekily_message`, by an edition.
//   refused besides: BAD_EDITION, after BAD_DEPTH and before the rest
void tandrekily_message_by(uint32_t edition, size_t limit, const uint8_t *input, size_t input_length, uint8_t *store,
                           size_t store_length, uint64_t result[TANDREKILY_RESULT]);

// As `tandrekily_avp`, by an edition.
//   refused besides: BAD_EDITION, after BAD_DEPTH and before the rest
void tandrekily_avp_by(uint32_t edition, size_t limit, const uint8_t *input, size_t input_length, uint8_t *store,
                       size_t store_length, uint64_t result[TANDREKILY_RESULT]);

// ---- one AVP of a message

// The places in an outline: what is given of an AVP without a look at its data or into a group. They are the fields of its record.
enum tandrekily_outline {
    TANDREKILY_OUTLINE_NUMBER = 0,  // the answer's number
    TANDREKILY_OUTLINE_AMOUNT = 1,  // what a refusal returns besides
    TANDREKILY_OUTLINE_FOUND = 2,   // 1 if an AVP was found; if not, all after it are 0
    TANDREKILY_OUTLINE_CODE = 3,
    TANDREKILY_OUTLINE_FLAGS = 4,
    TANDREKILY_OUTLINE_LENGTH = 5,  // the AVP's header and data, without padding
    TANDREKILY_OUTLINE_VENDOR = 6,  // 0 without the vendor bit
    TANDREKILY_OUTLINE_PLACE = 7,   // where the data start in the input
    TANDREKILY_OUTLINE_PADDING = 8, // how many bytes of padding, 0..3
    TANDREKILY_OUTLINE_PADS = 9,    // these bytes as a number of three, the unused ones 0
    TANDREKILY_OUTLINE = 10         // how many numbers an outline has
};

// A message's header has so many bytes; its first AVP stands behind them.
enum { TANDREKILY_HEADER = 20 };

// Finds the first AVP with a code at the top level of the message at the front of `input`, as Session-Id by 263. It reads the headers
// of the AVPs up to that one and enters no group. A vendor doesn't hide an AVP: look at the outline's.
//   accepted: the outline, or not found
//   refused: as `tandrekily_header` refuses; then NOT_TILED, if the AVPs break off and none before that place has the code
void tandrekily_find(const uint8_t *input, size_t input_length, uint32_t code, uint64_t outline[TANDREKILY_OUTLINE]);

// Steps over the AVP that stands at `place` of a message, whose bytes are `message`, its header's among them and no more than its
// length. Starting with TANDREKILY_HEADER and then with what it returned, it goes over the top level of the message.
//   accepted: the outline, and the place past the AVP is returned; or not found at the end, and `place` is returned
//   refused: NOT_TILED where no AVP is complete, and `place` is returned
// It answers a place past the end as it answers the end. It looks at no byte before `place`, so it does not test the
// header; `tandrekily_header` does. With a `message_length` under 20, TANDREKILY_HEADER is a place past the end.
size_t tandrekily_next(const uint8_t *message, size_t message_length, size_t place, uint64_t outline[TANDREKILY_OUTLINE]);

// ---- writing

// Writes the message of the records in `table` to the front of `out`. Their places point into `pool`; a decoder's records
// with its input as the pool give the message again. All lengths are computed, a group's from its members; the record's
// error flags, byte 23 and value are not read. A parent is not written, but one that the depths do not tell is BAD_TABLE.
//   accepted: the message's length; the rest of `out` stays as it was
//   refused, in this order: BAD_HEADER, BAD_TABLE, TOO_LONG, NO_ROOM
// With an output of length 0 it says how many bytes are needed.
void tandrekily_write(uint8_t flags, uint32_t command_code, uint32_t application_id, uint32_t hop_by_hop, uint32_t end_to_end,
                      const uint8_t *table, size_t table_length, const uint8_t *pool, size_t pool_length, uint8_t *out,
                      size_t out_length, uint64_t result[TANDREKILY_RESULT]);

// ---- joining

// Moves the records of `table` to where they stand behind those of another table. A caller who has decoded two messages
// so gets the table of the message that holds the AVPs of both, without decoding it: the first's records, and behind
// them the second's, moved.
//   - `bytes` is then the first message's length less TANDREKILY_HEADER, and `records` how many records the first has.
//   - The AVP headers tried are those of both together. The error flags are those of the joined message's own header
//     and those of all AVPs, joined.
// Every place grows by `bytes`. Every parent grows by `records`, but at depth 1, where it is no index, it stays. No
// other byte changes. The table ends with its last record: zeros behind that in a store are no records, but would be
// moved too.
//   accepted: the records, which are all moved; an empty table is accepted whatever the numbers
//   refused, in this order: BAD_TABLE, TOO_LONG
// A table of RADIUS is moved in the same way: the header of a packet has TANDREKILY_HEADER bytes too.
void tandrekily_shift(uint8_t *table, size_t table_length, size_t bytes, size_t records,
                      uint64_t result[TANDREKILY_RESULT]);

// ---- RADIUS

// The places in a result of RADIUS that follow TANDREKILY_LENGTH; up to there it is as any other. Both are 0 in a refusal and in what
// the writer answers.
enum tandrekily_radius_place {
    TANDREKILY_RADIUS_CODE = 6,
    TANDREKILY_RADIUS_IDENTIFIER = 7,
    TANDREKILY_RADIUS_RESULT = 8 // how many numbers a result of RADIUS has
};

enum tandrekily_radius_size {
    TANDREKILY_ATTRIBUTE_HEAD = 2,   // the data of a record are its length less this
    TANDREKILY_AUTHENTICATOR = 16,   // bytes of an authenticator
    TANDREKILY_RADIUS_MOST = 4096,   // bytes of the longest packet
    TANDREKILY_RADIUS_RECORDS = 2038 // a store for so many has room for any packet
};

// Decodes the packet at the front of `input` into records in `store`, which holds `store_length` / 36 of them. What is past the
// packet's length is not looked at. A record's code is the attribute's type, its length that of header and data, its depth 1 and its
// parent TANDREKILY_TOP_LEVEL; flags, vendor and padding are 0. Its kind is, by the type's format in RFC 2865 and RFC 2866:
//   text: UTF8_STRING; where it is ill-formed UNHANDLED with DATA_VALUE, and the value is at which byte it broke
//   an address: ADDRESS; an integer: UNSIGNED_32; the value is the number. Not of 4 bytes it is UNHANDLED with DATA_LENGTH
//   a string, or any other format: OCTET_STRING
//   a type that the RFCs do not have: UNHANDLED
// The answer:
//   accepted: code, identifier, the packet's error flags, records, tried (the same number), the packet's length; the authenticator; the
//   rest of the store is zero
//   refused, in this order: INCOMPLETE of 4 bytes, BAD_LENGTH where it is not 20..4096, INCOMPLETE of the length, NOT_TILED, NO_RECORDS
// With a store of length 0 it says how many records are needed.
void tandrekily_radius(const uint8_t *input, size_t input_length, uint8_t *store, size_t store_length,
                       uint8_t authenticator[TANDREKILY_AUTHENTICATOR], uint64_t result[TANDREKILY_RADIUS_RESULT]);

// Writes the packet of the records in `table` to the front of `out`. Their places point into `pool`; a decoder's records with its input
// as the pool give the packet again. A record is good where its code is at most 255, its length 2..255, its depth 1, its parent
// TANDREKILY_TOP_LEVEL, flags, vendor, padding and the three bytes of padding 0, and its data within the pool. Kind, error flags, byte
// 23 and value are not read.
//   accepted: the packet's length; the rest of `out` stays as it was
//   refused, in this order: BAD_TABLE, TOO_LONG, NO_ROOM
// With an output of length 0 it says how many bytes are needed.
void tandrekily_radius_write(uint8_t code, uint8_t identifier, const uint8_t authenticator[TANDREKILY_AUTHENTICATOR],
                             const uint8_t *table, size_t table_length, const uint8_t *pool, size_t pool_length, uint8_t *out,
                             size_t out_length, uint64_t result[TANDREKILY_RADIUS_RESULT]);

// ---- values

// Is the text well-formed UTF-8 (RFC 3629)? The empty text is.
bool tandrekily_is_utf8(const uint8_t *text, size_t text_length);

// The length in bytes of the longest prefix of the text that is well-formed UTF-8: the text's own where all of it is. It ends with a
// whole character, so that of 61 E2 82 is 1.
size_t tandrekily_utf8(const uint8_t *text, size_t text_length);

// The value of a Time in Unix seconds. Time goes on after 2036 as RFC 6733, section 4.3.1, asks (RFC 4330, section 3):
//   0x80000000 to 0xFFFFFFFF: `time` - 2,208,988,800, from 1968-01-20 03:14:08 to 2036-02-07 06:28:15 UTC
//   0 to 0x7FFFFFFF: `time` + 2,085,978,496, from 2036-02-07 06:28:16 to 2104-02-26 09:42:23 UTC
// 0 is a time like any other.
int64_t tandrekily_unix_seconds(uint32_t time);

// The number behind the value of an Integer32, and of an Enumerated where RFC 6733 is followed.
int32_t tandrekily_integer32(uint32_t bits);

// The number behind the value of an Integer64.
int64_t tandrekily_integer64(uint64_t bits);

// ---- Unit-Values

// How the first of two numbers stands to the second.
enum tandrekily_order {
    TANDREKILY_LESS = -1,
    TANDREKILY_EQUAL = 0,
    TANDREKILY_GREATER = 1
};

// Compares two Unit-Values exactly, each its Value-Digits times ten to its Exponent. Where a Unit-Value has no Exponent it is 0
// (RFC 4006 and RFC 8506, section 8.8).
//   accepted: 0 is returned, and `order` is one of the above
//   refused: BAD_EXPONENT is returned, and `order` stays as it was
uint8_t tandrekily_compare(int64_t digits, int32_t exponent, int64_t other_digits, int32_t other_exponent, int32_t *order);

#ifdef __cplusplus
}
#endif

#endif
