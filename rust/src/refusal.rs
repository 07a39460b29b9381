//! Why an input, a table or a limit is refused.

use core::error::Error;
use core::fmt::{Display, Formatter, Result};

/// Why nothing was decoded, found, written, moved or compared. A refusal has changed no byte of the store, the output
/// or the table.
///
/// Where more than one holds, the first is given, in this order: to decode a message, [`BadDepth`](Refusal::BadDepth), then, by an
/// edition, [`BadEdition`](Refusal::BadEdition), then [`Incomplete`](Refusal::Incomplete), [`NotVersion`](Refusal::NotVersion) and [`BadLength`](Refusal::BadLength) as the header's
/// bytes are read, then [`NotTiled`](Refusal::NotTiled), [`TooDeep`](Refusal::TooDeep), [`NoRecords`](Refusal::NoRecords); to
/// find an AVP, those of the header and then [`NotTiled`](Refusal::NotTiled); to write, the writer's four in the order below. Those of
/// RADIUS are said at [`radius::decode`](crate::radius::decode) and [`radius::write`](crate::radius::write()); those of
/// a table to be moved at [`shift`](crate::shift).
///
/// ```
/// use tandrekily::{header, Refusal};
///
/// let refusal = header(&[1, 0]).unwrap_err();
/// assert_eq!(refusal, Refusal::Incomplete(2));
/// assert_eq!((refusal.number(), refusal.amount()), (1, 2));
/// assert_eq!(refusal.to_string(), "at least 2 more bytes are needed");
/// ```
#[derive(Clone, Copy, Debug, PartialEq, Eq, Hash)]
#[non_exhaustive]
pub enum Refusal {
    /// Bytes are absent: how many.
    ///
    /// More may turn out to be needed once these are there, since a length can't be read before its own bytes are.
    Incomplete(usize),
    /// The first byte isn't 1.
    NotVersion,
    /// The message's length is under 4, or under 20 with that many bytes there; for one AVP alone, its length is under its header's
    /// size; for a packet of RADIUS, its length is not 20 to 4,096.
    BadLength,
    /// The AVPs or attributes don't cover the message to its last byte; to find one, none has the code before the place where they
    /// break off.
    NotTiled,
    /// The message is nested deeper than the limit.
    TooDeep,
    /// There are more records than there is room for: how many are needed.
    NoRecords(usize),
    /// The depth limit isn't 1 to 64.
    BadDepth,
    /// Writer: the command code doesn't fit 24 bits.
    BadHeader,
    /// Writer: the table breaks a rule. The index of the first record that does, or the number of records where bytes are left
    /// over after the last one. A table to be moved breaks a rule by that alone.
    BadTable(usize),
    /// Writer: the message's length would not fit 24 bits, or a packet's would be over 4,096. Moving a table: a place
    /// or a parent would not fit 32 bits.
    TooLong,
    /// Writer: the output is too short: how long the message is.
    NoRoom(usize),
    /// The edition is neither 4006 nor 8506.
    BadEdition,
    /// Comparison: an exponent isn't -18 to 18.
    BadExponent,
}

impl Refusal {
    /// The library has no number but these: that is part of what is proved of it.
    pub(crate) fn of(number: u64, amount: usize) -> Refusal {
        match number {
            1 => Refusal::Incomplete(amount),
            2 => Refusal::NotVersion,
            3 => Refusal::BadLength,
            4 => Refusal::NotTiled,
            5 => Refusal::TooDeep,
            6 => Refusal::NoRecords(amount),
            7 => Refusal::BadDepth,
            8 => Refusal::BadHeader,
            9 => Refusal::BadTable(amount),
            10 => Refusal::TooLong,
            11 => Refusal::NoRoom(amount),
            12 => Refusal::BadEdition,
            13 => Refusal::BadExponent,
            _ => unreachable!("the library is not the one of this crate: it answered {number}"),
        }
    }

    /// The refusal's number, as the library and its documents count them.
    pub fn number(self) -> u8 {
        match self {
            Refusal::Incomplete(_) => 1,
            Refusal::NotVersion => 2,
            Refusal::BadLength => 3,
            Refusal::NotTiled => 4,
            Refusal::TooDeep => 5,
            Refusal::NoRecords(_) => 6,
            Refusal::BadDepth => 7,
            Refusal::BadHeader => 8,
            Refusal::BadTable(_) => 9,
            Refusal::TooLong => 10,
            Refusal::NoRoom(_) => 11,
            Refusal::BadEdition => 12,
            Refusal::BadExponent => 13,
        }
    }

    /// The amount that comes with the refusal, and 0 where there is none.
    pub fn amount(self) -> usize {
        match self {
            Refusal::Incomplete(n)
            | Refusal::NoRecords(n)
            | Refusal::BadTable(n)
            | Refusal::NoRoom(n) => n,
            _ => 0,
        }
    }
}

impl Display for Refusal {
    fn fmt(&self, f: &mut Formatter<'_>) -> Result {
        match self {
            Refusal::Incomplete(n) => write!(f, "at least {n} more bytes are needed"),
            Refusal::NotVersion => f.write_str("the version is not 1"),
            Refusal::BadLength => {
                f.write_str("a length is shorter than its own header, or too long")
            }
            Refusal::NotTiled => f.write_str("the AVPs or attributes do not fill the message"),
            Refusal::TooDeep => f.write_str("AVPs are nested deeper than the limit"),
            Refusal::NoRecords(n) => write!(f, "there is no room for {n} records"),
            Refusal::BadDepth => f.write_str("the depth limit is not 1 to 64"),
            Refusal::BadHeader => f.write_str("the command code does not fit 24 bits"),
            Refusal::BadTable(n) => write!(f, "the table breaks a rule at record {n}"),
            Refusal::TooLong => {
                f.write_str("the message would be too long, or a place or a parent too large")
            }
            Refusal::NoRoom(n) => write!(f, "there is no room for {n} bytes"),
            Refusal::BadEdition => f.write_str("the edition is neither 4006 nor 8506"),
            Refusal::BadExponent => f.write_str("an exponent is not -18 to 18"),
        }
    }
}

impl Error for Refusal {}
