//! The editions of the credit-control dictionary.

use crate::Refusal;

/// An edition of the credit-control dictionary, by which [`decode_by`](crate::decode_by) and
/// [`decode_avp_by`](crate::decode_avp_by) read. Codes and kinds are those of section 8 of its RFC; all else is as in
/// [`Reading::Rfc`](crate::Reading::Rfc).
///
/// ```
/// use tandrekily::{Edition, Refusal};
///
/// assert_eq!(u32::from(Edition::Rfc8506), 8506);
/// assert_eq!(Edition::try_from(4006), Ok(Edition::Rfc4006));
/// assert_eq!(Edition::try_from(69_542), Err(Refusal::BadEdition));
/// ```
#[derive(Clone, Copy, Debug, PartialEq, Eq, Hash)]
pub enum Edition {
    /// RFC 4006, with which older gateways stay.
    Rfc4006,
    /// RFC 8506, which has more codes.
    Rfc8506,
}

impl Edition {
    /// The number of its RFC.
    pub fn number(self) -> u32 {
        match self {
            Edition::Rfc4006 => 4006,
            Edition::Rfc8506 => 8506,
        }
    }
}

impl From<Edition> for u32 {
    fn from(edition: Edition) -> u32 {
        edition.number()
    }
}

impl TryFrom<u32> for Edition {
    type Error = Refusal;

    /// Any other number is [`BadEdition`](Refusal::BadEdition).
    fn try_from(number: u32) -> Result<Edition, Refusal> {
        match number {
            4006 => Ok(Edition::Rfc4006),
            8506 => Ok(Edition::Rfc8506),
            _ => Err(Refusal::BadEdition),
        }
    }
}
