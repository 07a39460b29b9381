//! AVPs and messages laid out by RFC 6733, sections 3 and 4.1, for making inputs.

/// Bytes of a message's header.
pub const HEADER: usize = 20;
/// The vendor bit of an AVP's flags.
pub const VENDOR: u8 = 0x80;

/// Zero bytes of padding after `n` bytes of data.
pub fn padding(n: usize) -> usize {
    (4 - n % 4) % 4
}

/// An AVP with the vendor number if its flags have the bit, the right length, and zero padding.
pub fn avp(code: u32, flags: u8, vendor: u32, data: &[u8]) -> Vec<u8> {
    let head = if flags & VENDOR != 0 { 12 } else { 8 };
    let mut out = avp_head(code, flags, head + data.len());
    if flags & VENDOR != 0 {
        out.extend(vendor.to_be_bytes());
    }
    out.extend(data);
    out.resize(out.len() + padding(data.len()), 0);
    out
}

/// Code, flags and length alone.
pub fn avp_head(code: u32, flags: u8, length: usize) -> Vec<u8> {
    let mut out = code.to_be_bytes().to_vec();
    out.push(flags);
    out.extend(&(length as u32).to_be_bytes()[1..]);
    out
}

/// An AVP without the vendor bit.
pub fn plain(code: u32, data: &[u8]) -> Vec<u8> {
    avp(code, 0x40, 0, data)
}

/// A 32-bit number in an AVP.
pub fn number(code: u32, value: u32) -> Vec<u8> {
    plain(code, &value.to_be_bytes())
}

/// A message with the right length around a run of AVPs.
pub fn message(flags: u8, code: u32, application: u32, hop: u32, end: u32, run: &[u8]) -> Vec<u8> {
    let mut out = ((HEADER + run.len()) as u32).to_be_bytes().to_vec();
    out[0] = 1;
    out.extend(code.to_be_bytes());
    out[4] = flags;
    out.extend(application.to_be_bytes());
    out.extend(hop.to_be_bytes());
    out.extend(end.to_be_bytes());
    out.extend(run);
    out
}

/// Some message around a run, where its header doesn't matter.
pub fn around(run: &[u8]) -> Vec<u8> {
    message(0x80, 271, 3, 0x01020304, 0x05060708, run)
}

/// Sets the header's length to all of `bytes`.
pub fn fix_length(bytes: &mut [u8]) {
    let length = (bytes.len() as u32).to_be_bytes();
    if bytes.len() >= 4 {
        bytes[1..4].copy_from_slice(&length[1..]);
    }
}

/// The messages that instructions are counted for.
pub fn measured() -> [(&'static str, Vec<u8>); 3] {
    [("typical", typical()), ("small64k", small()), ("nested30", nested())]
}

// An accounting request of 20 AVPs, two of them groups with 2 and 3 members.
fn typical() -> Vec<u8> {
    let run = [
        plain(263, b"gateway-01.example.net;1876543210;523;accounting"),
        plain(264, b"gateway-01.example.net"),
        plain(296, b"example.net"),
        plain(283, b"example.net"),
        number(480, 2),
        number(485, 1),
        number(259, 3),
        plain(1, b"alice@example.net"),
        number(85, 300),
        number(278, 1_400_000_000),
        number(55, 3_900_000_000),
        plain(282, b"relay4.core.example.net"),
        plain(
            284,
            &[
                plain(280, b"proxy2.example.net"),
                plain(33, b"\x00\x01\x02\x03\xA0\xA1\xA2\xA3"),
            ]
            .concat(),
        ),
        plain(260, &[number(266, 10415), number(258, 4), number(259, 3)].concat()),
        number(483, 1),
    ]
    .concat();
    message(0xC0, 271, 3, 0x1B2C3D4E, 0x5A6B7C8D, &run)
}

// Nothing but AVPs without data, as many as 64 KiB hold.
fn small() -> Vec<u8> {
    around(&plain(44, b"").repeat((65_536 - HEADER) / 8))
}

// 29 groups, each in the one before, and a number in the last.
fn nested() -> Vec<u8> {
    let mut run = number(268, 2001);
    for _ in 0..29 {
        run = plain(279, &run);
    }
    around(&run)
}
