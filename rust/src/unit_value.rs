//! Unit-Values of credit-control (RFC 4006 and RFC 8506, sections 8.8 to 8.10).

use core::cmp::Ordering;

use crate::{ffi, Refusal};

/// An amount: the digits times ten to the exponent. Where the AVP Exponent is absent it is 0, as in the default.
///
/// Amounts are compared by [`compare`](UnitValue::compare) alone. They are neither `Ord` nor `Eq`: one number is written in several
/// ways, and an exponent may be refused.
///
/// ```
/// use core::cmp::Ordering;
/// use tandrekily::{Refusal, UnitValue};
///
/// let fifteen = UnitValue { digits: 15, ..UnitValue::default() };
/// let tenths = UnitValue { digits: 150, exponent: -1 };
/// assert_eq!(fifteen.compare(tenths), Ok(Ordering::Equal));
///
/// let far = UnitValue { digits: 0, exponent: 19 };
/// assert_eq!(far.compare(fifteen), Err(Refusal::BadExponent));
/// ```
#[derive(Clone, Copy, Debug, Default)]
pub struct UnitValue {
    /// Value-Digits (447).
    pub digits: i64,
    /// Exponent (429).
    pub exponent: i32,
}

impl UnitValue {
    /// How this amount stands to another, exactly. [`BadExponent`](Refusal::BadExponent) where an exponent isn't -18 to 18.
    pub fn compare(self, other: UnitValue) -> Result<Ordering, Refusal> {
        match ffi::compare(self, other) {
            (0, sign) => Ok(sign.cmp(&0)),
            (number, _) => Err(Refusal::of(number.into(), 0)),
        }
    }
}
