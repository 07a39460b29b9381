//! Unit-Values compared, case by case and against decimals written out.

mod random;

use std::cmp::Ordering::{self, Equal, Greater, Less};

use random::Random;
use tandrekily::{Refusal, UnitValue};

fn of(digits: i64, exponent: i32) -> UnitValue {
    UnitValue { digits, exponent }
}

/// Asserts how the first stands to the second, and the second to the first.
fn check(one: (i64, i32), other: (i64, i32), order: Ordering) {
    let (a, b) = (of(one.0, one.1), of(other.0, other.1));
    assert_eq!(a.compare(b), Ok(order), "{a:?} to {b:?}");
    assert_eq!(b.compare(a), Ok(order.reverse()), "{b:?} to {a:?}");
}

fn check_refused(one: (i64, i32), other: (i64, i32)) {
    let (a, b) = (of(one.0, one.1), of(other.0, other.1));
    assert_eq!(a.compare(b), Err(Refusal::BadExponent), "{a:?} to {b:?}");
    assert_eq!(b.compare(a), Err(Refusal::BadExponent), "{b:?} to {a:?}");
}

#[test]
fn one_number_written_in_two_ways() {
    check((15, 0), (150, -1), Equal);
    check((-15, 0), (-150, -1), Equal);
    check((0, -18), (0, 18), Equal);
    check((1, 18), (1_000_000_000_000_000_000, 0), Equal);
    check((i64::MIN, -18), (i64::MIN, -18), Equal);
}

#[test]
fn signs() {
    check((-1, 18), (1, -18), Less);
    check((-1, -18), (0, 18), Less);
    check((0, -18), (1, -18), Less);
    check((-15, 0), (-149, -1), Less);
    check((-15, 0), (-151, -1), Greater);
}

#[test]
fn the_ends() {
    check((i64::MIN, 0), (i64::MAX, 0), Less);
    check((i64::MAX, 18), (i64::MAX, -18), Greater);
    check((i64::MIN, 18), (i64::MIN, -18), Less);
    check((1, 18), (i64::MAX, -18), Greater);
    check((i64::MAX, 1), (i64::MAX, 0), Greater);
}

/// Of these the nearest `f64` are the same.
#[test]
fn past_what_a_double_holds() {
    check(
        (9_007_199_254_740_993, 0),
        (9_007_199_254_740_992, 0),
        Greater,
    );
    check(
        (922_337_203_685_477_580, 1),
        (9_223_372_036_854_775_801, 0),
        Less,
    );
    check((1, 0), (999_999_999_999_999_999, -18), Greater);
}

/// Even where the digits would tell.
#[test]
fn an_exponent_past_either_end_is_refused() {
    for exponent in [-19, 19, 65_536, i32::MIN, i32::MAX] {
        for digits in [0, 1, -1] {
            check_refused((digits, exponent), (1, 0));
            check_refused((digits, exponent), (digits, exponent));
        }
    }
}

/// Times ten to the 18 an amount is whole: its digits and its zeros, as text.
fn whole(value: UnitValue) -> String {
    let zeros = "0".repeat((value.exponent + 18) as usize);
    let text = format!("{}{zeros}", value.digits.unsigned_abs());
    text.trim_start_matches('0').into()
}

/// Of two without a sign the longer is more, and of two as long the later in the alphabet.
fn by_text(one: UnitValue, other: UnitValue) -> Ordering {
    let (a, b) = (whole(one), whole(other));
    let order = (a.len(), &a).cmp(&(b.len(), &b));
    match (one.digits < 0, other.digits < 0) {
        (false, false) => order,
        (true, true) => order.reverse(),
        (true, false) => Less,
        (false, true) => Greater,
    }
}

/// Digits of any size.
fn any(random: &mut Random) -> UnitValue {
    let digits = random.next() as i64 >> (random.next() % 64);
    of(digits, (random.next() % 37) as i32 - 18)
}

/// A number near the first one, zeros moved between digits and exponent: few pairs of any two are near each other.
fn near(random: &mut Random, one: UnitValue) -> UnitValue {
    let zeros = (random.next() % 19) as u32;
    let exponent = one.exponent - zeros as i32;
    match one.digits.checked_mul(10_i64.pow(zeros)) {
        Some(digits) if exponent >= -18 => {
            let step = (random.next() % 3) as i64 - 1;
            of(digits.saturating_add(step), exponent)
        }
        _ => any(random),
    }
}

#[test]
fn as_decimals_written_out() {
    let mut random = Random(7);
    let mut seen = [0; 3];
    for _ in 0..20_000 {
        let one = any(&mut random);
        let other = near(&mut random, one);
        let order = by_text(one, other);
        assert_eq!(one.compare(other), Ok(order), "{one:?} to {other:?}");
        assert_eq!(other.compare(one), Ok(order.reverse()));
        seen[(order as i8 + 1) as usize] += 1;
    }
    assert!(seen.iter().all(|&n| n > 2_000), "{seen:?}");
}
