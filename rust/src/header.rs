//! The Diameter header (RFC 6733, section 3).

/// The header of a message. The names are those of the Rust crate sawp-diameter.
#[derive(Clone, Copy, Debug, Default, PartialEq, Eq, Hash)]
pub struct Header {
    /// Always 1.
    pub version: u8,
    /// The length of the whole message, the header included: 24 bits.
    pub length: u32,
    /// The command flags.
    pub flags: u8,
    /// The command code: 24 bits.
    pub code: u32,
    /// The Application-ID.
    pub app_id: u32,
    /// The Hop-by-Hop Identifier.
    pub hop_id: u32,
    /// The End-to-End Identifier.
    pub end_id: u32,
}

impl Header {
    /// How many bytes a header has.
    pub const SIZE: usize = 20;

    /// The 'R' bit.
    pub const REQUEST_FLAG: u8 = 0b1000_0000;

    /// The 'P' bit.
    pub const PROXIABLE_FLAG: u8 = 0b0100_0000;

    /// The 'E' bit.
    pub const ERROR_FLAG: u8 = 0b0010_0000;

    /// The 'T' bit.
    pub const POTENTIALLY_RETRANSMITTED_FLAG: u8 = 0b0001_0000;

    /// The bits that are reserved.
    pub const RESERVED_MASK: u8 = 0b0000_1111;

    /// Is the message a request? Else it is an answer.
    pub fn is_request(&self) -> bool {
        self.flags & Self::REQUEST_FLAG != 0
    }

    /// May the message be proxied, relayed or redirected? Else it must be processed locally.
    pub fn is_proxiable(&self) -> bool {
        self.flags & Self::PROXIABLE_FLAG != 0
    }

    /// Does the message contain a protocol error?
    pub fn is_error(&self) -> bool {
        self.flags & Self::ERROR_FLAG != 0
    }

    /// Was the message perhaps sent before, over a link that failed?
    pub fn is_potentially_retransmitted(&self) -> bool {
        self.flags & Self::POTENTIALLY_RETRANSMITTED_FLAG != 0
    }

    /// The bits that are reserved, as they were sent.
    pub fn get_reserved(&self) -> u8 {
        self.flags & Self::RESERVED_MASK
    }
}

/// What [`write`](crate::write) takes of a header: all but the version, which is 1, and the length, which is computed.
///
/// The fields of a header that was decoded are `Fields::from(header)`.
#[derive(Clone, Copy, Debug, Default, PartialEq, Eq, Hash)]
pub struct Fields {
    /// The command flags.
    pub flags: u8,
    /// The command code: at most 16,777,215.
    pub code: u32,
    /// The Application-ID.
    pub app_id: u32,
    /// The Hop-by-Hop Identifier.
    pub hop_id: u32,
    /// The End-to-End Identifier.
    pub end_id: u32,
}

impl From<Header> for Fields {
    fn from(header: Header) -> Fields {
        Fields {
            flags: header.flags,
            code: header.code,
            app_id: header.app_id,
            hop_id: header.hop_id,
            end_id: header.end_id,
        }
    }
}
