//! Prints an answer of credit-control as a tree, and says of each amount that it grants in which groups it stands and for which service
//! it is. A record has the index of its group, so nothing here looks for a group's end.

use std::iter::successors;

use tandrekily::{decode_by, Avp, Edition, Limits, Message, Record, Refusal, Value};

const CC_TOTAL_OCTETS: u32 = 421;
const RATING_GROUP: u32 = 432;
const VALUE_DIGITS: u32 = 447;

/// Session-Id and CC-Request-Type; then 10.50 euro for Rating-Group 100, and 5,000,000 octets for Rating-Group 200, each in a
/// Multiple-Services-Credit-Control.
const ANSWER: &[u8] = b"\x01\0\0\xB0\x40\0\x01\x10\0\0\0\x04\0\0\0\x01\0\0\0\x01\
    \0\0\x01\x07\x40\0\0\x0Fa.b;1;2\0\
    \0\0\x01\xA0\x40\0\0\x0C\0\0\0\x01\
    \0\0\x01\xC8\x40\0\0\x54\
    \0\0\x01\xAF\x40\0\0\x40\
    \0\0\x01\x9D\x40\0\0\x38\
    \0\0\x01\xBD\x40\0\0\x24\
    \0\0\x01\xBF\x40\0\0\x10\0\0\0\0\0\0\x04\x1A\
    \0\0\x01\xAD\x40\0\0\x0C\xFF\xFF\xFF\xFE\
    \0\0\x01\xA9\x40\0\0\x0C\0\0\x03\xD2\
    \0\0\x01\xB0\x40\0\0\x0C\0\0\0\x64\
    \0\0\x01\xC8\x40\0\0\x2C\
    \0\0\x01\xAF\x40\0\0\x18\
    \0\0\x01\xA5\x40\0\0\x10\0\0\0\0\0\x4C\x4B\x40\
    \0\0\x01\xB0\x40\0\0\x0C\0\0\0\xC8";

fn print_tree(message: &Message) {
    for avp in message.records() {
        let Record { code, depth, .. } = avp.record;
        let indent = 2 * usize::from(depth - 1);
        match avp.parent() {
            Some(group) => println!("{:indent$}{code} in {}", "", group.record.code),
            None => println!("{code}"),
        }
    }
}

/// The codes from the top level down, which a walk up meets the other way round.
fn path(avp: Avp) -> String {
    let codes = successors(Some(avp), Avp::parent).map(|avp| avp.record.code.to_string());
    let mut codes: Vec<String> = codes.collect();
    codes.reverse();
    codes.join(" > ")
}

/// The index of the record at the top level that the AVP is in.
fn service(avp: Avp) -> Option<u32> {
    successors(Some(avp), Avp::parent)
        .filter_map(|avp| avp.record.parent)
        .last()
}

/// The Rating-Group that is a member of the record with this index.
fn rating_group(message: &Message, group: Option<u32>) -> Option<u32> {
    let mut members = message.records().filter(|avp| avp.record.parent == group);
    members.find_map(|avp| match (avp.record.code, avp.value()) {
        (RATING_GROUP, Value::Unsigned32(number)) => Some(number),
        _ => None,
    })
}

fn main() -> Result<(), Refusal> {
    let mut store = [0; 32 * Record::SIZE];
    let message = decode_by(ANSWER, Edition::Rfc8506, Limits::default(), &mut store)?;
    print_tree(&message);
    for avp in message.records() {
        if matches!(avp.record.code, CC_TOTAL_OCTETS | VALUE_DIGITS) {
            let number =
                rating_group(&message, service(avp)).expect("a service has a Rating-Group");
            println!("{}, for Rating-Group {number}", path(avp));
        }
    }
    Ok(())
}
