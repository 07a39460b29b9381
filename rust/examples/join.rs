//! Joins two fragments of a credit-control report in two ways. One decodes each fragment, and puts the second's table,
//! moved, behind the first's. The other puts the AVPs of both into one message and decodes that. Both give the same.

use tandrekily::{decode_by, shift, Edition, Header, Limits, Reading, Record, Records, Refusal};

/// Session-Id; then the octets that were used for Rating-Group 100, in a Used-Service-Unit in a
/// Multiple-Services-Credit-Control. The last AVP has a reserved bit set.
const FIRST: &[u8] = b"\x01\0\0\x50\x80\0\x01\x10\0\0\0\x04\0\0\0\x01\0\0\0\x01\
    \0\0\x01\x07\x40\0\0\x0Fa.b;1;2\0\
    \0\0\x01\xC8\x40\0\0\x2C\
    \0\0\x01\xBE\x40\0\0\x18\
    \0\0\x01\xA5\x40\0\0\x10\0\0\0\0\0\x4C\x4B\x40\
    \0\0\x01\xB0\x41\0\0\x0C\0\0\0\x64";

/// The same with the seconds and octets that were used for Rating-Group 200. The first AVP has padding that is not
/// zero.
const SECOND: &[u8] = b"\x01\0\0\x5C\x80\0\x01\x10\0\0\0\x04\0\0\0\x02\0\0\0\x02\
    \0\0\x01\x07\x40\0\0\x0Fa.b;1;2\x09\
    \0\0\x01\xC8\x40\0\0\x38\
    \0\0\x01\xBE\x40\0\0\x24\
    \0\0\x01\xA4\x40\0\0\x0C\0\0\x0E\x10\
    \0\0\x01\xA5\x40\0\0\x10\0\0\0\0\0\x0F\x42\x40\
    \0\0\x01\xB0\x40\0\0\x0C\0\0\0\xC8";

/// A message's table, and what is said of the message besides.
#[derive(Debug, PartialEq)]
struct Decoded {
    table: Vec<u8>,
    length: usize,
    tried: usize,
    errors: u8,
}

impl Decoded {
    fn of(message: &[u8]) -> Result<Decoded, Refusal> {
        let mut store = [0; 16 * Record::SIZE];
        let decoded = decode_by(message, Edition::Rfc8506, Limits::default(), &mut store)?;
        Ok(Decoded {
            table: decoded.table().to_vec(),
            length: decoded.length,
            tried: decoded.tried,
            errors: decoded.errors,
        })
    }

    fn records(&self) -> usize {
        self.table.len() / Record::SIZE
    }

    /// The flags of all AVPs. Those of a header are no fragment's: the joined message has a header of its own.
    fn errors_of_avps(&self) -> u8 {
        let records = Records::new(&self.table, Reading::Rfc, &[]);
        records.fold(0, |errors, avp| errors | avp.record.errors)
    }

    /// Puts another table, moved, behind this one.
    fn append(&mut self, mut next: Decoded) -> Result<(), Refusal> {
        self.errors |= next.errors_of_avps();
        shift(&mut next.table, self.length - Header::SIZE, self.records())?;
        self.table.append(&mut next.table);
        self.length += next.length - Header::SIZE;
        self.tried += next.tried;
        Ok(())
    }

    fn print(&self, what: &str) {
        let (records, errors) = (self.records(), self.errors);
        println!(
            "{what}: {} bytes, {records} records, tried {}, error flags {errors}",
            self.length, self.tried
        );
    }
}

/// The first's header with the new length, and the AVPs of both.
fn join(first: &[u8], second: &[u8]) -> Vec<u8> {
    let mut message = [first, &second[Header::SIZE..]].concat();
    let length = (message.len() as u32).to_be_bytes();
    message[1..4].copy_from_slice(&length[1..]);
    message
}

fn main() -> Result<(), Refusal> {
    let mut tables = Decoded::of(FIRST)?;
    tables.print("the first");
    let next = Decoded::of(SECOND)?;
    next.print("the second");
    tables.append(next)?;
    tables.print("joined as tables");
    let whole = Decoded::of(&join(FIRST, SECOND))?;
    whole.print("joined as messages");
    assert_eq!(tables, whole);
    Ok(())
}
