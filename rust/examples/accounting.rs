//! Prints the attributes of a file of RADIUS packets, laid one after the other, and writes each packet back.
//!
//! The file is named as the argument. With none, an Accounting-Request is read that this program holds itself.

use std::path::Path;
use std::process::ExitCode;
use std::{env, fs};

use tandrekily::radius::{decode, write, Header, Packet, MOST_LENGTH, MOST_RECORDS};
use tandrekily::{Record, Value};

/// A session begins: its User-Name, NAS-IP-Address, Acct-Status-Type and Acct-Session-Id, and an Acct-Delay-Time that is a byte short.
const PACKET: &[u8] = b"\x04\x07\0\x3C\
    \x9B\x1F\x43\x68\x4A\xD0\x25\xE7\x70\x8C\x11\xB2\x5E\x36\xC9\x0A\
    \x01\x07alice\
    \x04\x06\xC0\0\x02\x10\
    \x28\x06\0\0\0\x01\
    \x2C\x100000A3F1-18765\
    \x29\x05\0\0\0";

fn print(packet: &Packet) {
    let Header {
        code, identifier, ..
    } = packet.header;
    let count = packet.records().len();
    println!("code {code}, identifier {identifier}, {count} attributes");
    for attribute in packet.records() {
        let Record { code, errors, .. } = attribute.record;
        match attribute.value() {
            Value::Address(address) => println!("type {code}: {address}"),
            Value::Unsigned32(number) => println!("type {code}: {number}"),
            Value::Utf8String(text) => println!("type {code}: {text:?}"),
            Value::OctetString(bytes) => println!("type {code}: {}", bytes.escape_ascii()),
            other => println!("type {code}: {other:?}, error flags {errors}"),
        }
    }
}

/// Where a packet is refused there is no length by which to go on.
fn follow(bytes: &[u8]) -> Result<(), String> {
    let mut store = vec![0; MOST_RECORDS * Record::SIZE];
    let mut rest = bytes;
    while !rest.is_empty() {
        let packet = decode(rest, &mut store).map_err(|refusal| refusal.to_string())?;
        print(&packet);
        let mut out = [0; MOST_LENGTH];
        let total = write(packet.header, packet.table(), rest, &mut out)
            .map_err(|refusal| refusal.to_string())?;
        assert_eq!(out[..total], rest[..packet.length]);
        println!("{total} bytes written back, the same");
        rest = &rest[total..];
    }
    Ok(())
}

fn follow_file(path: &Path) -> Result<(), String> {
    let bytes = fs::read(path).map_err(|error| format!("{}: {error}", path.display()))?;
    follow(&bytes)
}

fn main() -> ExitCode {
    let answer = match env::args_os().nth(1) {
        Some(path) => follow_file(path.as_ref()),
        None => follow(PACKET),
    };
    if let Err(words) = answer {
        eprintln!("{words}");
        return ExitCode::FAILURE;
    }
    ExitCode::SUCCESS
}
