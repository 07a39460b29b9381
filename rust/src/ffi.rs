//! The unsafe boundary: fifteen functions of the proved library, and one safe wrapper for each. No other file may have
//! `unsafe`.
//! The library has two more, `tandrekily_integer32` and `tandrekily_integer64`, for which Rust has casts.
//!
//! The declarations are those of `crates/tandrekily_c/src`. What every call below relies on:
//!
//! - A slice is passed as two arguments, its pointer and its length. Both come from one Rust slice, so the bytes are there for the
//!   whole call. The pointer of an empty slice points to nothing, and with a length of 0 nothing is read or written through it.
//! - The functions are proved for all arguments of these types, so nothing is asked of the bytes or the numbers. They write only
//!   to what they take as `&mut`, keep no pointer after the call, and don't unwind.
//! - What is lent as `*mut` comes from `&mut`, so by Rust's own rules nothing else that is passed overlaps it.
//! - `bool` is C's, and `true` and `false` are its only two values in either direction.
//! - The archive is for x86-64 with pointers of 64 bits. No linker joins it to a program for another machine.

/// The numbers of a result, in the order in which [`Answer::of`](crate::answer::Answer::of) takes them apart.
pub type Numbers = [u64; 13];

/// The numbers of an outline, in the order in which [`Outline::of`](crate::Outline::of) takes them apart.
pub type OutlineNumbers = [u64; 10];

/// The numbers of a result of RADIUS, in the order in which [`radius`](crate::radius) takes them apart.
pub type RadiusNumbers = [u64; 8];

/// A result before the call. The library writes all of it.
const NOTHING: Numbers = [0; 13];

/// An outline before the call. The library writes all of it too.
const NO_OUTLINE: OutlineNumbers = [0; 10];

/// A result of RADIUS before the call. The library writes all of it too.
const NO_PACKET: RadiusNumbers = [0; 8];

extern "C" {
    fn tandrekily_message(
        rfc: bool,
        limit: usize,
        input: *const u8,
        input_len: usize,
        store: *mut u8,
        store_len: usize,
        result: *mut Numbers,
    );

    fn tandrekily_message_by(
        edition: u32,
        limit: usize,
        input: *const u8,
        input_len: usize,
        store: *mut u8,
        store_len: usize,
        result: *mut Numbers,
    );

    fn tandrekily_header(input: *const u8, input_len: usize, result: *mut Numbers);

    fn tandrekily_avp(
        rfc: bool,
        limit: usize,
        input: *const u8,
        input_len: usize,
        store: *mut u8,
        store_len: usize,
        result: *mut Numbers,
    );

    fn tandrekily_avp_by(
        edition: u32,
        limit: usize,
        input: *const u8,
        input_len: usize,
        store: *mut u8,
        store_len: usize,
        result: *mut Numbers,
    );

    fn tandrekily_find(input: *const u8, input_len: usize, code: u32, result: *mut OutlineNumbers);

    fn tandrekily_next(
        message: *const u8,
        message_len: usize,
        place: usize,
        result: *mut OutlineNumbers,
    ) -> usize;

    fn tandrekily_write(
        flags: u8,
        code: u32,
        app_id: u32,
        hop_id: u32,
        end_id: u32,
        table: *const u8,
        table_len: usize,
        pool: *const u8,
        pool_len: usize,
        out: *mut u8,
        out_len: usize,
        result: *mut Numbers,
    );

    fn tandrekily_shift(
        table: *mut u8,
        table_len: usize,
        bytes: usize,
        records: usize,
        result: *mut Numbers,
    );

    fn tandrekily_is_utf8(text: *const u8, text_len: usize) -> bool;

    fn tandrekily_utf8(text: *const u8, text_len: usize) -> usize;

    fn tandrekily_unix_seconds(time: u32) -> i64;

    fn tandrekily_compare(
        digits: i64,
        exponent: i32,
        other_digits: i64,
        other_exponent: i32,
        order: *mut i32,
    ) -> u8;

    fn tandrekily_radius(
        input: *const u8,
        input_len: usize,
        store: *mut u8,
        store_len: usize,
        authenticator: *mut [u8; 16],
        result: *mut RadiusNumbers,
    );

    fn tandrekily_radius_write(
        code: u8,
        identifier: u8,
        authenticator: *const [u8; 16],
        table: *const u8,
        table_len: usize,
        pool: *const u8,
        pool_len: usize,
        out: *mut u8,
        out_len: usize,
        result: *mut RadiusNumbers,
    );
}

pub fn message(rfc: bool, limit: usize, input: &[u8], store: &mut [u8]) -> Numbers {
    let mut result = NOTHING;
    // SAFETY: `input` and `store` are two live slices, the second of them exclusive, so they don't overlap; `result` is 13 numbers
    // of this frame. Any limit is answered.
    unsafe {
        tandrekily_message(
            rfc,
            limit,
            input.as_ptr(),
            input.len(),
            store.as_mut_ptr(),
            store.len(),
            &mut result,
        );
    }
    result
}

pub fn message_by(edition: u32, limit: usize, input: &[u8], store: &mut [u8]) -> Numbers {
    let mut result = NOTHING;
    // SAFETY: as for `message`. Any edition is answered.
    unsafe {
        tandrekily_message_by(
            edition,
            limit,
            input.as_ptr(),
            input.len(),
            store.as_mut_ptr(),
            store.len(),
            &mut result,
        );
    }
    result
}

pub fn header(input: &[u8]) -> Numbers {
    let mut result = NOTHING;
    // SAFETY: `input` is a live slice, which is only read; `result` is 13 numbers of this frame.
    unsafe { tandrekily_header(input.as_ptr(), input.len(), &mut result) };
    result
}

pub fn avp(rfc: bool, limit: usize, input: &[u8], store: &mut [u8]) -> Numbers {
    let mut result = NOTHING;
    // SAFETY: as for `message`, whose arguments these are.
    unsafe {
        tandrekily_avp(
            rfc,
            limit,
            input.as_ptr(),
            input.len(),
            store.as_mut_ptr(),
            store.len(),
            &mut result,
        );
    }
    result
}

pub fn avp_by(edition: u32, limit: usize, input: &[u8], store: &mut [u8]) -> Numbers {
    let mut result = NOTHING;
    // SAFETY: as for `message_by`, whose arguments these are.
    unsafe {
        tandrekily_avp_by(
            edition,
            limit,
            input.as_ptr(),
            input.len(),
            store.as_mut_ptr(),
            store.len(),
            &mut result,
        );
    }
    result
}

pub fn find(input: &[u8], code: u32) -> OutlineNumbers {
    let mut result = NO_OUTLINE;
    // SAFETY: `input` is a live slice, which is only read; `result` is 10 numbers of this frame. Any code is answered.
    unsafe { tandrekily_find(input.as_ptr(), input.len(), code, &mut result) };
    result
}

/// The second number is the place past the AVP. It is `place` where there is none: at the end, past it, or where no AVP
/// is complete.
pub fn next(message: &[u8], place: usize) -> (OutlineNumbers, usize) {
    let mut result = NO_OUTLINE;
    // SAFETY: `message` is a live slice, which is only read; `result` is 10 numbers of this frame. Any place is answered, one past
    // the end too.
    let past = unsafe { tandrekily_next(message.as_ptr(), message.len(), place, &mut result) };
    (result, past)
}

pub fn write(fields: crate::Fields, table: &[u8], pool: &[u8], out: &mut [u8]) -> Numbers {
    let mut result = NOTHING;
    // SAFETY: `table` and `pool` are live slices, which are only read and so may overlap; `out` is exclusive and overlaps neither;
    // `result` is 13 numbers of this frame. Any table is answered, whatever its places and lengths say.
    unsafe {
        tandrekily_write(
            fields.flags,
            fields.code,
            fields.app_id,
            fields.hop_id,
            fields.end_id,
            table.as_ptr(),
            table.len(),
            pool.as_ptr(),
            pool.len(),
            out.as_mut_ptr(),
            out.len(),
            &mut result,
        );
    }
    result
}

pub fn shift(table: &mut [u8], bytes: usize, records: usize) -> Numbers {
    let mut result = NOTHING;
    // SAFETY: `table` is a live slice, which is exclusive; `result` is 13 numbers of this frame. Any table and any
    // numbers are answered.
    unsafe { tandrekily_shift(table.as_mut_ptr(), table.len(), bytes, records, &mut result) };
    result
}

pub fn is_utf8(text: &[u8]) -> bool {
    // SAFETY: `text` is a live slice, which is only read. The answer is a compiled `bool`, so it is 0 or 1.
    unsafe { tandrekily_is_utf8(text.as_ptr(), text.len()) }
}

/// How many bytes at the front are well-formed.
pub fn utf8(text: &[u8]) -> usize {
    // SAFETY: `text` is a live slice, which is only read. A number comes out.
    unsafe { tandrekily_utf8(text.as_ptr(), text.len()) }
}

pub fn unix_seconds(time: u32) -> i64 {
    // SAFETY: a number goes in and a number comes out; every `u32` is answered.
    unsafe { tandrekily_unix_seconds(time) }
}

/// The answer's number, and where that is 0 the order: less is -1, equal 0, greater 1.
pub fn compare(one: crate::UnitValue, other: crate::UnitValue) -> (u8, i32) {
    let mut order = 0;
    // SAFETY: `order` is a number of this frame. Any digits and exponents are answered.
    let number = unsafe {
        tandrekily_compare(
            one.digits,
            one.exponent,
            other.digits,
            other.exponent,
            &mut order,
        )
    };
    (number, order)
}

/// The second is the authenticator, and zeros where the packet is refused.
pub fn radius(input: &[u8], store: &mut [u8]) -> (RadiusNumbers, [u8; 16]) {
    let mut result = NO_PACKET;
    let mut authenticator = [0; 16];
    // SAFETY: `input` and `store` are two live slices, the second of them exclusive, so they don't overlap; `authenticator` is 16 bytes
    // and `result` 8 numbers of this frame.
    unsafe {
        tandrekily_radius(
            input.as_ptr(),
            input.len(),
            store.as_mut_ptr(),
            store.len(),
            &mut authenticator,
            &mut result,
        );
    }
    (result, authenticator)
}

pub fn radius_write(
    header: crate::radius::Header,
    table: &[u8],
    pool: &[u8],
    out: &mut [u8],
) -> RadiusNumbers {
    let mut result = NO_PACKET;
    // SAFETY: the authenticator is 16 bytes of this frame, which are only read; the rest is as for `write`, with 8 numbers.
    unsafe {
        tandrekily_radius_write(
            header.code,
            header.identifier,
            &header.authenticator,
            table.as_ptr(),
            table.len(),
            pool.as_ptr(),
            pool.len(),
            out.as_mut_ptr(),
            out.len(),
            &mut result,
        );
    }
    result
}
