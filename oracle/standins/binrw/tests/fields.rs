use binrw::{BinRead, BinWrite, Endian, binrw};

#[binrw]
#[derive(Debug, PartialEq)]
struct Record {
    tag: [u8; 2],
    small: u8,
    middle: u16,
    big: u32,
}

const RECORD: Record = Record {
    tag: *b"ab",
    small: 1,
    middle: 0x0203,
    big: 0x04050607,
};
const BIG: [u8; 9] = [b'a', b'b', 1, 2, 3, 4, 5, 6, 7];
const LITTLE: [u8; 9] = [b'a', b'b', 1, 3, 2, 7, 6, 5, 4];

fn written(value: &impl BinWrite, endian: Endian) -> Vec<u8> {
    let mut out = vec![];
    value.write_options(&mut out, endian, ()).unwrap();
    out
}

#[test]
fn records_are_read_and_written_in_both_byte_orders() {
    for (endian, bytes) in [(Endian::Big, BIG), (Endian::Little, LITTLE)] {
        assert_eq!(
            Record::read_options(&mut &bytes[..], endian, ()).unwrap(),
            RECORD
        );
        assert_eq!(written(&RECORD, endian), bytes);
    }
}

#[test]
fn a_short_record_is_an_error() {
    assert!(Record::read_options(&mut &BIG[..8], Endian::Big, ()).is_err());
}

#[test]
fn an_absent_number_is_written_as_nothing() {
    assert_eq!(written(&Some(1), Endian::Big), [0, 0, 0, 1]);
    assert_eq!(written(&None, Endian::Big), []);
}
