//! Decodes a message, prints its AVPs, and writes it back: the examples of the documentation as one program.

use tandrekily::{decode, kinds, write, Fields, Header, Limits, Reading, Record, Refusal, Value};

/// A header, and a Result-Code with a fifth byte of data.
const MESSAGE: [u8; 36] = [
    1, 0, 0, 36, 0, 0, 0, 0, 0, 0, 0, 0, 0, 0, 0, 0, 0, 0, 0, 0, //
    0, 0, 1, 12, 0, 0, 0, 13, 0, 0, 7, 209, 0, 0, 0, 0,
];

fn decode_and_write_back() -> Result<(), Refusal> {
    let mut store = [0; 64 * Record::SIZE];
    let decoded = decode(&MESSAGE, Reading::Sawp, Limits::default(), &mut store)?;
    println!("{} bytes, error flags {}", decoded.length, decoded.errors);
    for avp in decoded.records() {
        match avp.value() {
            Value::Unsigned32(number) => println!("code {}: {number}", avp.record.code),
            other => println!("code {}: {other:?}", avp.record.code),
        }
    }
    let mut out = [0; 36];
    write(decoded.header.into(), decoded.table(), &MESSAGE, &mut out)?;
    assert_eq!(out, MESSAGE);
    Ok(())
}

fn write_a_user_name() -> Result<(), Refusal> {
    let user_name = Record {
        code: 1,
        flags: Record::MANDATORY_FLAG,
        length: 8 + 3,
        depth: 1,
        kind: kinds::UTF8_STRING,
        padding: 1,
        ..Record::default()
    };
    let fields = Fields {
        flags: Header::REQUEST_FLAG,
        code: 271,
        ..Fields::default()
    };
    let mut out = [0; 64];
    let total = write(fields, &user_name.to_bytes(), b"bob", &mut out)?;
    assert_eq!(out[20..total], *b"\0\0\0\x01\x40\0\0\x0Bbob\0");
    println!("{total} bytes written");
    Ok(())
}

fn main() -> Result<(), Refusal> {
    decode_and_write_back()?;
    write_a_user_name()
}
