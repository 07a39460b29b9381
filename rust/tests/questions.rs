//! The flag questions of a header, a record and an outline, over all 256 bytes of flags.

use tandrekily::{Header, Outline, Record};

#[test]
fn of_a_header() {
    for flags in 0..=u8::MAX {
        let header = Header {
            flags,
            ..Header::default()
        };
        let asked = [
            header.is_request(),
            header.is_proxiable(),
            header.is_error(),
            header.is_potentially_retransmitted(),
        ];
        assert_eq!(
            asked,
            [7, 6, 5, 4].map(|bit| flags >> bit & 1 == 1),
            "{flags:08b}"
        );
        assert_eq!(header.get_reserved(), flags % 16);
    }
}

#[test]
fn of_a_record() {
    for flags in 0..=u8::MAX {
        let record = Record {
            flags,
            ..Record::default()
        };
        let asked = [
            record.is_vendor_specific(),
            record.is_mandatory(),
            record.is_protected(),
        ];
        assert_eq!(
            asked,
            [7, 6, 5].map(|bit| flags >> bit & 1 == 1),
            "{flags:08b}"
        );
        assert_eq!(record.get_reserved(), flags % 32);
        assert_eq!(record.header_size(), if flags < 128 { 8 } else { 12 });
    }
}

#[test]
fn of_an_outline() {
    for flags in 0..=u8::MAX {
        let outline = Outline {
            flags,
            ..Outline::default()
        };
        assert_eq!(outline.is_vendor_specific(), flags >= 128, "{flags:08b}");
        assert_eq!(outline.header_size(), if flags < 128 { 8 } else { 12 });
    }
}
