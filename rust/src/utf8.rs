//! Where a text breaks.

use core::error::Error;
use core::fmt::{Display, Formatter, Result};

/// A text is not well-formed UTF-8, as [`utf8()`](crate::utf8()) found: up to where it is.
///
/// ```
/// use tandrekily::utf8;
///
/// let text = b"a\xE2\x82";
/// let error = utf8(text).unwrap_err();
/// assert_eq!(error.valid_up_to(), 1);
/// assert_eq!(utf8(&text[..1]), Ok(()));
/// assert_eq!(error.to_string(), "the text is ill-formed from byte 1 on");
/// ```
#[derive(Clone, Copy, Debug, PartialEq, Eq)]
pub struct Utf8Error {
    pub(crate) valid_up_to: usize,
}

impl Utf8Error {
    /// The length in bytes of the longest prefix that is well-formed. It is less than the text's, and the prefix ends with a whole
    /// character.
    pub fn valid_up_to(&self) -> usize {
        self.valid_up_to
    }
}

impl Display for Utf8Error {
    fn fmt(&self, f: &mut Formatter<'_>) -> Result {
        let Utf8Error { valid_up_to } = self;
        write!(f, "the text is ill-formed from byte {valid_up_to} on")
    }
}

impl Error for Utf8Error {}
