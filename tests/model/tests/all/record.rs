//! The rules of the record, one by one.

use crate::help::{add, need, put, request, shift};
use model::record::{number_at, parse, write, Op, RECORD_BYTES};

/// A valid record with operations of all four codes.
fn valid() -> [u8; RECORD_BYTES] {
    write(&request(0x0403_0201, 9, &[put(1, 2), add(3, 4), need(5, 6), shift(7, 8, 9)]))
}

/// Whether the valid record is still valid with one byte changed.
fn holds_with(at: usize, byte: u8) -> bool {
    let mut record = valid();
    record[at] = byte;
    parse(&record).is_some()
}

/// A valid record with so many puts.
fn with_puts(count: usize) -> [u8; RECORD_BYTES] {
    write(&request(1, 0, &vec![put(63, 1); count]))
}

#[test]
fn what_is_written_is_read_back() {
    let ops = [put(1, 2), add(3, 4), need(5, 6), shift(7, 8, 9)];
    assert_eq!(parse(&valid()), Some(request(0x0403_0201, 9, &ops)));
}

#[test]
fn the_bytes_stand_where_the_table_says() {
    let mut expected = vec![1, 2, 3, 4, 9, 4, 0, 0];
    expected.extend([1, 1, 0, 0, 2, 0, 0, 0, 2, 3, 0, 0, 4, 0, 0, 0]);
    expected.extend([3, 5, 0, 0, 6, 0, 0, 0, 4, 7, 8, 0, 9, 0, 0, 0]);
    expected.resize(RECORD_BYTES, 0);
    assert_eq!(valid().to_vec(), expected);
    assert_eq!(number_at(&[0, 0x78, 0x56, 0x34, 0x12], 1), 0x1234_5678);
}

#[test]
fn a_record_is_64_bytes() {
    let mut long = valid().to_vec();
    long.push(0);
    assert!(parse(&long).is_none());
    for length in 0..RECORD_BYTES {
        assert!(parse(&long[..length]).is_none(), "{length} bytes");
    }
}

#[test]
fn the_id_is_not_0() {
    assert!(parse(&write(&request(0, 0, &[put(0, 0)]))).is_none());
    for id in [1, 256, 65_536, 1 << 24, u32::MAX] {
        assert!(parse(&write(&request(id, 0, &[put(0, 0)]))).is_some(), "id {id}");
    }
}

#[test]
fn the_class_is_0_to_15() {
    for class in 0..=255 {
        assert_eq!(holds_with(4, class), class <= 15, "class {class}");
    }
}

#[test]
fn operations_are_1_to_7() {
    for count in 1..=7 {
        assert!(parse(&with_puts(count)).is_some(), "{count} operations");
    }
    let mut record = with_puts(7);
    for count in (0..=255).filter(|count| !(1..=7).contains(count)) {
        record[5] = count;
        assert!(parse(&record).is_none(), "{count} operations");
    }
    assert!(parse(&write(&request(1, 0, &[]))).is_none());
}

#[test]
fn bytes_6_and_7_are_zero() {
    for byte in 1..=255 {
        assert!(!holds_with(6, byte) && !holds_with(7, byte), "byte {byte}");
    }
}

#[test]
fn codes_are_1_to_4() {
    for code in 0..=255 {
        assert_eq!(holds_with(8, code), (1..=4).contains(&code), "code {code}");
    }
}

#[test]
fn cells_are_0_to_63() {
    for cell in 0..=255 {
        assert_eq!(holds_with(9, cell), cell <= 63, "cell {cell}");
        assert_eq!(holds_with(8 + 24 + 1, cell), cell <= 63 && cell != 8, "cell {cell} of a move");
    }
}

#[test]
fn the_second_cell_is_zero_except_for_move() {
    for second in 1..=255 {
        for op in 0..3 {
            assert!(!holds_with(8 + 8 * op + 2, second), "second {second}");
        }
    }
}

#[test]
fn the_second_cell_of_a_move_is_a_cell_other_than_the_first() {
    for second in 0..=255 {
        let right = second <= 63 && second != 7;
        assert_eq!(holds_with(8 + 24 + 2, second), right, "second {second}");
    }
}

#[test]
fn the_fourth_byte_of_an_operation_is_zero() {
    for op in 0..4 {
        for byte in 1..=255 {
            assert!(!holds_with(8 + 8 * op + 3, byte));
        }
    }
}

#[test]
fn the_amount_may_be_any_number() {
    for amount in [0, 1, 255, 256, 65_535, 1 << 31, u32::MAX] {
        for op in [put(0, amount), add(0, amount), need(0, amount), shift(0, 1, amount)] {
            let read = parse(&write(&request(1, 0, &[op]))).map(|request| request.ops);
            assert_eq!(read, Some(vec![op]));
        }
    }
}

#[test]
fn operations_past_the_number_are_all_zero() {
    for at in 8 + 4 * 8..RECORD_BYTES {
        for byte in [1, 4, 128, 255] {
            assert!(!holds_with(at, byte), "byte {at}");
        }
    }
    let mut record = with_puts(2);
    record[5] = 1;
    assert!(parse(&record).is_none(), "an operation past the number");
    record[5] = 3;
    assert!(parse(&record).is_none(), "an empty operation within the number");
}

#[test]
fn each_code_reads_as_its_operation() {
    let read = |code: u8, second: u8| {
        let mut record = with_puts(1);
        record[8] = code;
        record[10] = second;
        parse(&record).map(|request| request.ops[0])
    };
    assert_eq!(read(1, 0), Some(Op::Put { cell: 63, amount: 1 }));
    assert_eq!(read(2, 0), Some(Op::Add { cell: 63, amount: 1 }));
    assert_eq!(read(3, 0), Some(Op::Need { cell: 63, amount: 1 }));
    assert_eq!(read(4, 0), Some(Op::Move { cell: 63, second: 0, amount: 1 }));
}
