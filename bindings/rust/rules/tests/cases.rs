//! The specification's own cases through the safe calls.

use rules::{analyse, analyse_into, check_sheet, check_sheet_into, write_sheet, write_sheet_into};
use rules::{Analysis, Buffers, Counts, Error, Verdict};

/// Rule set E.
const E: &[u8] =
    b"\x01\0\x02\0z\x01\0\x02\x01s\x02\0\x04even\x02\0\x03odd\x03\0\x02\0\0\x03\0\x03\0\x01\x01\
    \x03\0\x03\x01\x01\0\x04\0\x02\x01p\x05\0\x04\0\0\0\0\x05\0\x08\x01\x01\0\x01\x01\x80\0\x80\
    \x06\0\x04\x01\x80\0\x80\x06\0\x04\x01\x81\0\x80";

/// E's sheet.
const SHEET: &[u8] = b"\x10\0\x02\0\x01\x10\0\x02\0\x02\x11\0\x02\0\0";

fn analysis() -> Analysis {
    Analysis {
        states: vec![1, 2],
        tables: vec![0, 1, 0],
        marks: vec![1, 0],
        verdicts: vec![Verdict::Clear, Verdict::Open],
        atoms: 1,
        rounds: 1,
    }
}

fn error<T>(number: u8, place: usize) -> Result<T, Error> {
    Err(Error { number, place })
}

#[test]
fn rule_set_e() {
    assert_eq!(analyse(E), Ok(analysis()));
    assert_eq!(write_sheet(E), Ok((analysis(), SHEET.to_vec())));
}

#[test]
fn sheets() {
    assert_eq!(check_sheet(E, SHEET), Ok(()));
    let more = [SHEET, b"\x11\0\x02\0\x01"].concat();
    assert_eq!(check_sheet(E, &more), Ok(()));
    assert_eq!(check_sheet(E, &SHEET[..10]), error(13, 0));
    assert_eq!(check_sheet(E, b""), error(11, 0));
    assert_eq!(
        check_sheet(E, &[SHEET, &SHEET[10..]].concat()),
        error(12, 3)
    );
    assert_eq!(check_sheet(E, &SHEET[1..]), error(10, 0));
}

#[test]
fn refusals() {
    assert_eq!(analyse(b""), error(7, 0));
    assert_eq!(analyse(b"\x01\0\x02"), error(2, 0));
    assert_eq!(write_sheet(&[0; 32_769]), error(1, 0));
    assert_eq!(check_sheet(b"\x07\0\0", SHEET), error(3, 0));
}

#[test]
fn texts() {
    let text = |number| Error { number, place: 3 }.to_string();
    assert_eq!(text(2), "field 3 is cut");
    assert_eq!(text(13), "the sheet is not closed under clause 3");
    assert!((1..=14).all(|number| !text(number).starts_with("unknown")));
}

#[test]
fn buffers_of_the_caller() {
    let (mut states, mut tables, mut marks, mut verdicts) = ([9; 3], [9; 4], [9; 3], [9; 3]);
    let mut sheet = [9; 16];
    let counts = Counts {
        states: 2,
        atoms: 1,
        rounds: 1,
    };
    for (marks_len, result) in [(3, Ok(counts)), (2, Ok(counts)), (1, error(9, 0))] {
        let buffers = Buffers {
            states: &mut states,
            tables: &mut tables,
            marks: &mut marks[..marks_len],
            verdicts: &mut verdicts,
        };
        assert_eq!(analyse_into(E, buffers), result);
        assert_eq!((states, tables), ([1, 2, 9], [0, 1, 0, 9]));
        assert_eq!((marks, verdicts), ([1, 0, 9], [0, 1, 9]));
    }
    for (sheet_len, result) in [(14, error(14, 0)), (16, Ok((counts, 15)))] {
        let buffers = Buffers {
            states: &mut states,
            tables: &mut tables,
            marks: &mut marks,
            verdicts: &mut verdicts,
        };
        assert_eq!(
            write_sheet_into(E, buffers, &mut sheet[..sheet_len]),
            result
        );
    }
    assert_eq!(sheet, *[SHEET, &[9]].concat());
    (tables, marks) = ([9; 4], [9; 3]);
    assert_eq!(check_sheet_into(E, SHEET, &mut tables, &mut marks), Ok(()));
    assert_eq!((tables, marks), ([0, 1, 0, 9], [0, 0, 9]));
}
