//! Tables that are moved, so that those of two messages become that of one.

use crate::answer::Answer;
use crate::{ffi, Refusal};

/// Moves the records of a table to where they stand behind those of another table, and returns how many there are.
///
/// A caller who has decoded two messages so gets the table of the message that holds the AVPs of both, without decoding
/// it: the first's records, and behind them the second's, moved. Then `bytes` is the first message's length less
/// [`Header::SIZE`](crate::Header::SIZE), and `records` is how many records the first has. The AVP headers tried are
/// those of both together. The error flags are those of the joined message's own header and those of all AVPs, joined.
///
/// Every [place](crate::Record::place) grows by `bytes`. Every [parent](crate::Record::parent) grows by `records`, but
/// at depth 1, where it is no index, it stays. No other byte changes. The table ends with its last record: zeros
/// behind that in a store are no records, but would be moved too.
///
/// Refused are, in this order: [`BadTable`](Refusal::BadTable) where bytes are left over, and
/// [`TooLong`](Refusal::TooLong) where a place or a parent would not fit 32 bits. The table then is as it was lent.
///
/// A table of [RADIUS](crate::radius) is moved in the same way: the header of a packet has as many bytes.
///
/// ```
/// use tandrekily::{decode, shift, Header, Limits, Reading, Record};
///
/// // Headers, and behind each a Failed-AVP with a Result-Code.
/// let first = b"\x01\0\0\x28\0\0\0\0\0\0\0\0\0\0\0\0\0\0\0\0\
///     \0\0\x01\x17\0\0\0\x14\0\0\x01\x0C\0\0\0\x0C\0\0\x07\xD1";
/// let second = b"\x01\0\0\x28\0\0\0\0\0\0\0\0\0\0\0\0\0\0\0\0\
///     \0\0\x01\x17\0\0\0\x14\0\0\x01\x0C\0\0\0\x0C\0\0\x07\xD2";
/// let mut store = [0; 4 * Record::SIZE];
/// let (front, back) = store.split_at_mut(2 * Record::SIZE);
/// decode(first, Reading::Rfc, Limits::default(), front)?;
/// decode(second, Reading::Rfc, Limits::default(), back)?;
/// assert_eq!(shift(back, first.len() - Header::SIZE, 2)?, 2);
///
/// // The same from one message that has the AVPs of both.
/// let joined = b"\x01\0\0\x3C\0\0\0\0\0\0\0\0\0\0\0\0\0\0\0\0\
///     \0\0\x01\x17\0\0\0\x14\0\0\x01\x0C\0\0\0\x0C\0\0\x07\xD1\
///     \0\0\x01\x17\0\0\0\x14\0\0\x01\x0C\0\0\0\x0C\0\0\x07\xD2";
/// let mut other = [0; 4 * Record::SIZE];
/// decode(joined, Reading::Rfc, Limits::default(), &mut other)?;
/// assert_eq!(store, other);
/// # Ok::<(), tandrekily::Refusal>(())
/// ```
pub fn shift(table: &mut [u8], bytes: usize, records: usize) -> Result<usize, Refusal> {
    let answer = Answer::of(ffi::shift(table, bytes, records))?;
    Ok(answer.records)
}
