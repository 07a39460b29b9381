//! Answers in the words of docs/FORMAT.md. Only the functions of the Rust file above compute them.

use super::*;
use sawp::error::Error;

/// Why the Rust refuses, by error kind and amount.
#[derive(Debug, Clone, Copy, PartialEq, Eq)]
pub enum Refusal {
    /// `Incomplete(n)`
    Incomplete(usize),
    /// `Error(Tag)`
    NotVersion,
    /// `Error(LengthValue)`
    BadLength,
    /// `Error(Many0)`
    NotTiled,
}

/// What an acceptance gives, before any limit is asked.
#[derive(Debug, Clone, PartialEq, Eq)]
pub struct Reading {
    /// The header's fields, laid out as on the wire; an AVP alone has none.
    pub header: Option<[u8; 20]>,
    pub flags: u8,
    /// All records. None are made where `deepest` is over `DEPTH_MAX`: every limit refuses those.
    pub records: Vec<[u8; RECORD]>,
    /// How many headers are tried.
    pub tried: usize,
    /// The greatest depth at which a header is tried; 0 if none is.
    pub deepest: usize,
    /// How much of the input was taken.
    pub length: usize,
}

/// Bytes of a record.
pub const RECORD: usize = 36;
/// The parent of a record at depth 1.
pub const TOP_LEVEL: u32 = u32::MAX;
/// The greatest depth limit.
pub const DEPTH_MAX: usize = 64;

fn refusal(error: nom::Err<NomError<&[u8]>>) -> Refusal {
    use nom::Err;
    match error {
        Err::Incomplete(nom::Needed::Size(n)) => Refusal::Incomplete(n.get()),
        Err::Error(e) if e.code == ErrorKind::Tag => Refusal::NotVersion,
        Err::Error(e) if e.code == ErrorKind::LengthValue => Refusal::BadLength,
        Err::Error(e) if e.code == ErrorKind::Many0 => Refusal::NotTiled,
        other => panic!("an error that docs/FORMAT.md does not know: {:?}", other),
    }
}

/// `Header::parse`
pub fn header(input: &[u8]) -> std::result::Result<Reading, Refusal> {
    let (rest, (header, flags)) = Header::parse(input).map_err(refusal)?;
    Ok(Reading {
        header: Some(wire(&header)),
        flags: flags.bits(),
        records: Vec::new(),
        tried: 0,
        deepest: 0,
        length: input.len() - rest.len(),
    })
}

/// `Diameter::parse`; the kind and amount of a refusal are those of `Header::parse` or of `parse_avps`.
pub fn message(input: &[u8]) -> std::result::Result<Reading, Refusal> {
    let whole = Diameter {}.parse(input, Direction::Unknown);
    let (after, (header, _)) = match Header::parse(input) {
        Ok(read) => read,
        Err(error) => {
            let why = refusal(error);
            let expected = match why {
                Refusal::Incomplete(_) => Error::Incomplete,
                _ => Error::Refused,
            };
            assert_eq!(whole.err(), Some(expected));
            return Err(why);
        }
    };
    let run = &after[..header.length()];
    let (rest, message) = match whole {
        Ok((rest, Some(message))) => (rest, message),
        Ok((_, None)) => panic!("accepted, with no message"),
        Err(error) => {
            assert_eq!(error, Error::Refused);
            return Err(refusal(parse_avps(run).expect_err("refused as a message")));
        }
    };
    assert_eq!(header, message.header);
    let (tried, deepest) = tries(run);
    Ok(Reading {
        header: Some(wire(&message.header)),
        flags: message.error_flags.bits(),
        records: records(&message.avps, input, Header::SIZE, deepest),
        tried,
        deepest,
        length: input.len() - rest.len(),
    })
}

/// `AVP::parse`
pub fn avp(input: &[u8]) -> std::result::Result<Reading, Refusal> {
    let (rest, (avp, flags)) = AVP::parse(input).map_err(refusal)?;
    let length = input.len() - rest.len();
    let (tried, deepest) = tries(&input[..length]);
    Ok(Reading {
        header: None,
        flags: flags.bits(),
        records: records(&[avp], input, 0, deepest),
        tried,
        deepest,
        length,
    })
}

fn wire(h: &Header) -> [u8; 20] {
    assert!(h.length < 1 << 24 && h.code < 1 << 24);
    let mut w = [0; 20];
    w[0..4].copy_from_slice(&h.length.to_be_bytes());
    w[0] = h.version;
    w[4..8].copy_from_slice(&h.code.to_be_bytes());
    w[4] = h.flags;
    w[8..12].copy_from_slice(&h.app_id.to_be_bytes());
    w[12..16].copy_from_slice(&h.hop_id.to_be_bytes());
    w[16..20].copy_from_slice(&h.end_id.to_be_bytes());
    w
}

/// The deepest level at which a header is tried in a message that doesn't tile.
pub fn deepest_untiled(input: &[u8]) -> usize {
    let (after, (header, _)) = Header::parse(input).expect("the header isn't what is refused");
    tries(&after[..header.length()]).1
}

// How many headers are tried in a run, and how deep. `many0` decides where it stops, `AVP::parse` what is complete.
fn tries(run: &[u8]) -> (usize, usize) {
    let (mut tried, mut deepest) = (0, 0);
    try_run(run, 1, &mut tried, &mut deepest);
    (tried, deepest)
}

fn try_run(run: &[u8], depth: usize, tried: &mut usize, deepest: &mut usize) {
    let mut payloads = Vec::new();
    let try_one = |input| {
        if !<[u8]>::is_empty(input) {
            *tried += 1;
            *deepest = depth.max(*deepest);
        }
        let (rest, (avp, _)) = combinator::complete(AVP::parse)(input)?;
        if is_grouped(&avp.attribute.code) {
            payloads.push(&input[head_size(&avp)..avp.length as usize]);
        }
        Ok((rest, ()))
    };
    many0::<_, _, NomError<&[u8]>, _>(try_one)(run).expect("many0 does not fail here");
    for payload in payloads {
        try_run(payload, depth + 1, tried, deepest);
    }
}

// A code is Grouped if the Rust takes no data at all for an empty group.
fn is_grouped(code: &AttributeCode) -> bool {
    matches!(Value::new(code, &[]), Ok((_, (Value::Grouped(_), _))))
}

// A code is text if the Rust takes no data at all for an empty one.
fn is_text(code: &AttributeCode) -> bool {
    matches!(
        Value::new(code, &[]),
        Ok((_, (Value::UTF8String(_) | Value::DiameterIdentity(_) | Value::DiameterURI(_), _)))
    )
}

// Where text broke; 0 for what is none. `String::from_utf8` is what the Rust itself asks.
fn valid_up_to(code: &AttributeCode, data: &[u8]) -> u64 {
    match String::from_utf8(data.to_vec()) {
        Err(error) if is_text(code) => error.utf8_error().valid_up_to() as u64,
        _ => 0,
    }
}

fn head_size(avp: &AVP) -> usize {
    match avp.vendor_id {
        Some(_) => AVP::PRE_LENGTH_SIZE + 4,
        None => AVP::PRE_LENGTH_SIZE,
    }
}

fn records(avps: &[AVP], input: &[u8], at: usize, deepest: usize) -> Vec<[u8; RECORD]> {
    let mut out = Vec::new();
    if deepest <= DEPTH_MAX {
        put_records(avps, input, at, 1, &mut out);
        put_parents(&mut out);
    }
    out
}

// The Rust gives no parents: each is found by walking back over the depths, and nothing is asked of how the groups were entered.
fn put_parents(records: &mut [[u8; RECORD]]) {
    for i in 0..records.len() {
        let parent = match records[i][16] {
            1 => TOP_LEVEL,
            depth => records[..i]
                .iter()
                .rposition(|earlier| earlier[16] == depth - 1)
                .expect("a member stands after its group") as u32,
        };
        records[i][32..].copy_from_slice(&parent.to_be_bytes());
    }
}

// A group before its members, all without their parents. Answers the place after the last AVP.
fn put_records(avps: &[AVP], input: &[u8], start: usize, depth: u8, out: &mut Vec<[u8; RECORD]>) -> usize {
    let mut at = start;
    for avp in avps {
        let size = avp.length as usize + avp.padding.len();
        let place = at + head_size(avp);
        let data = &input[place..at + avp.length as usize];
        // the error flags are those of its own bytes, read alone
        let (rest, (again, flags)) = AVP::parse(&input[at..at + size]).expect("read before");
        assert!(rest.is_empty() && again == *avp);

        let (kind, value) = kind_and_value(avp, data);
        let mut r = [0; RECORD];
        r[0..4].copy_from_slice(&avp.attribute.raw.to_be_bytes());
        r[4..8].copy_from_slice(&avp.length.to_be_bytes());
        r[4] = avp.flags;
        r[8..12].copy_from_slice(&avp.vendor_id.unwrap_or(0).to_be_bytes());
        r[12..16].copy_from_slice(&(place as u32).to_be_bytes());
        r[16] = depth;
        r[17] = kind;
        r[18] = flags.bits();
        r[19] = avp.padding.len() as u8;
        r[20..20 + avp.padding.len()].copy_from_slice(&avp.padding);
        r[24..32].copy_from_slice(&value.to_be_bytes());
        out.push(r);

        if let Value::Grouped(members) = &avp.value {
            let end = put_records(members, input, place, depth + 1, out);
            assert_eq!(end, at + avp.length as usize);
        }
        at += size;
    }
    at
}

// A value that the Rust keeps as bytes must be the bytes at its place.
fn kind_and_value(avp: &AVP, data: &[u8]) -> (u8, u64) {
    let kept = |bytes: &[u8]| assert_eq!(bytes, data);
    match &avp.value {
        Value::Unhandled(v) => {
            kept(v);
            (0, valid_up_to(&avp.attribute.code, data))
        }
        Value::OctetString(v) => {
            kept(v);
            (1, 0)
        }
        Value::Unsigned32(v) => (4, *v as u64),
        Value::Unsigned64(v) => (5, *v),
        Value::Grouped(_) => (8, 0),
        Value::Enumerated(v) => (9, *v as u64),
        Value::UTF8String(v) => {
            kept(v.as_bytes());
            (10, 0)
        }
        Value::DiameterIdentity(v) => {
            kept(v.as_bytes());
            (11, 0)
        }
        Value::DiameterURI(v) => {
            kept(v.as_bytes());
            (12, 0)
        }
        Value::Address(IpAddr::V4(v)) => {
            kept(&v.octets());
            (13, u32::from(*v) as u64)
        }
        Value::Address(IpAddr::V6(v)) => {
            kept(&v.octets());
            (13, 0)
        }
        Value::Time(v) => (14, *v as u64),
        Value::Integer32(_) | Value::Integer64(_) | Value::Float32(_) | Value::Float64(_) => {
            panic!("no code yields this kind")
        }
    }
}
