//! The refusals (docs/FORMAT.md, 7.1): each number with its name, and each name from a call that is refused for it.

use tandrekily::{decode, decode_by, kinds, write};
use tandrekily::{Fields, Limits, Reading, Record, Refusal, UnitValue};

/// Number, name and amount, as in the table of "Numbers returned". An amount of 7 stands for any.
const TABLE: [(u8, &str, usize, Refusal); 13] = [
    (1, "Incomplete", 7, Refusal::Incomplete(7)),
    (2, "NotVersion", 0, Refusal::NotVersion),
    (3, "BadLength", 0, Refusal::BadLength),
    (4, "NotTiled", 0, Refusal::NotTiled),
    (5, "TooDeep", 0, Refusal::TooDeep),
    (6, "NoRecords", 7, Refusal::NoRecords(7)),
    (7, "BadDepth", 0, Refusal::BadDepth),
    (8, "BadHeader", 0, Refusal::BadHeader),
    (9, "BadTable", 7, Refusal::BadTable(7)),
    (10, "TooLong", 0, Refusal::TooLong),
    (11, "NoRoom", 7, Refusal::NoRoom(7)),
    (12, "BadEdition", 0, Refusal::BadEdition),
    (13, "BadExponent", 0, Refusal::BadExponent),
];

const LENT: u8 = 0xA5;

/// An AVP with 4 bytes of data, at the front of the pool.
const WORD: Record = Record {
    code: 268,
    flags: 0,
    length: 12,
    vendor_id: 0,
    place: 0,
    depth: 1,
    kind: kinds::UNSIGNED32,
    errors: 0,
    padding: 0,
    pads: [0; 3],
    bits: 0,
    parent: None,
};

#[test]
fn numbers_names_and_amounts() {
    for (number, name, amount, refusal) in TABLE {
        assert_eq!(refusal.number(), number, "{name}");
        assert_eq!(refusal.amount(), amount, "{name}");
        let shown = format!("{refusal:?}");
        assert_eq!(shown.split('(').next(), Some(name));
    }
}

#[test]
fn words_name_the_amount() {
    for (_, name, amount, refusal) in TABLE {
        assert_eq!(
            refusal.to_string().contains('7'),
            amount == 7,
            "{name}: {refusal}"
        );
    }
}

fn depth(depth: usize) -> Option<Refusal> {
    let limits = Limits {
        depth,
        ..Limits::default()
    };
    decode(
        &[1, 0, 0, 20, 0, 0, 0, 0, 0, 0, 0, 0, 0, 0, 0, 0, 0, 0, 0, 0],
        Reading::Rfc,
        limits,
        &mut [],
    )
    .err()
}

#[test]
fn the_depth_limit() {
    assert_eq!(depth(0), Some(Refusal::BadDepth));
    assert_eq!(depth(1), None);
    assert_eq!(depth(64), None);
    assert_eq!(depth(65), Some(Refusal::BadDepth));
    assert_eq!(depth(usize::MAX), Some(Refusal::BadDepth));
}

#[test]
fn the_edition() {
    let refused = decode_by(&[], 4007_u32, Limits::default(), &mut []).err();
    assert_eq!(refused, Some(Refusal::BadEdition));
}

#[test]
fn the_exponent() {
    let of = |exponent| UnitValue {
        digits: 1,
        exponent,
    };
    assert_eq!(of(-19).compare(of(0)), Err(Refusal::BadExponent));
    assert!(of(-18).compare(of(18)).is_ok());
    assert_eq!(of(0).compare(of(19)), Err(Refusal::BadExponent));
}

/// Writes and, where it is refused, sees that no byte of the output has changed.
fn try_write(code: u32, table: &[u8], pool: &[u8], room: usize) -> Result<usize, Refusal> {
    let fields = Fields {
        code,
        ..Fields::default()
    };
    let mut out = vec![LENT; room];
    let answer = write(fields, table, pool, &mut out);
    assert!(answer.is_ok() || out == vec![LENT; room]);
    answer
}

#[test]
fn the_command_code() {
    assert_eq!(try_write(0x100_0000, &[], &[], 20), Err(Refusal::BadHeader));
    assert_eq!(try_write(0xFF_FFFF, &[], &[], 20), Ok(20));
}

#[test]
fn the_table() {
    let pool = [0; 4];
    let good = WORD.to_bytes();
    let bad = Record { place: 1, ..WORD }.to_bytes();
    assert_eq!(try_write(0, &[good, good].concat(), &pool, 44), Ok(44));
    assert_eq!(
        try_write(0, &[good, bad].concat(), &pool, 44),
        Err(Refusal::BadTable(1))
    );
    assert_eq!(
        try_write(0, &[&good[..], &[0]].concat(), &pool, 44),
        Err(Refusal::BadTable(1))
    );
}

/// Two groups with a member each.
const GROUPS: [Record; 4] = [GROUP, member(0), GROUP, member(2)];

const GROUP: Record = Record {
    code: 279,
    kind: kinds::GROUPED,
    ..WORD
};

const fn member(group: u32) -> Record {
    Record {
        depth: 2,
        parent: Some(group),
        ..WORD
    }
}

fn table(rows: &[Record]) -> Vec<u8> {
    rows.iter().flat_map(Record::to_bytes).collect()
}

#[test]
fn the_parent() {
    assert_eq!(try_write(0, &table(&GROUPS), &[0; 4], 60), Ok(60));
    let far = [4, 1 << 16, (1 << 16) + 2, 1 << 24, u32::MAX - 1];
    for (index, row) in GROUPS.iter().enumerate() {
        let tried = (0..4).chain(far).map(Some).chain([None]);
        for parent in tried.filter(|&parent| parent != row.parent) {
            let mut rows = GROUPS;
            rows[index].parent = parent;
            let answer = try_write(0, &table(&rows), &[0; 4], 60);
            assert_eq!(answer, Err(Refusal::BadTable(index)), "{parent:?}");
        }
    }
}

/// The first record that breaks a rule is named, whichever rule it is.
#[test]
fn a_parent_among_other_rules() {
    let outside = Record { place: 1, ..WORD };
    let stray = Record {
        parent: Some(0),
        ..WORD
    };
    let refused = |rows: &[Record]| try_write(0, &table(rows), &[0; 4], 0);
    assert_eq!(refused(&[outside, stray]), Err(Refusal::BadTable(0)));
    assert_eq!(refused(&[WORD, stray, outside]), Err(Refusal::BadTable(1)));
    let left_over = [&table(&[WORD, stray, WORD])[..], &[0]].concat();
    let answer = try_write(0, &left_over, &[0; 4], 0);
    assert_eq!(answer, Err(Refusal::BadTable(1)));
    let answer = try_write(0x100_0000, &table(&[stray]), &[0; 4], 0);
    assert_eq!(answer, Err(Refusal::BadHeader));
}

#[test]
fn the_room() {
    assert_eq!(
        try_write(0, &WORD.to_bytes(), &[0; 4], 31),
        Err(Refusal::NoRoom(32))
    );
    assert_eq!(try_write(0, &WORD.to_bytes(), &[0; 4], 32), Ok(32));
}

/// Two AVPs that are each within 24 bits, and together are not.
#[test]
fn the_total() {
    let half = Record {
        length: 0x80_0000,
        ..WORD
    };
    let pool = vec![0; 0x80_0000 - 8];
    let table = [half.to_bytes(), half.to_bytes()].concat();
    assert_eq!(try_write(0, &table, &pool, 0), Err(Refusal::TooLong));
    assert_eq!(
        try_write(0, &half.to_bytes(), &pool, 0),
        Err(Refusal::NoRoom(0x80_0014))
    );
}
