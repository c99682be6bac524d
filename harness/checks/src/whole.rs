//! Whole sessions in one call: the rows, and the lines that the program prints of them.

use interface::{u32_at, Desk, ROWS_LEN, ROW_LEN, ROW_NUMBERS};
use sessions::layout::{FIELD_LEN, PASS_COUNT_AT};

use crate::guard::Guarded;
use crate::reference::row_numbers;

/// What rows hold before a call.
const BEFORE: u8 = 0xc3;

/// Holds the rows of a file to the model's, in a buffer of the right size and in a longer one, and
/// sees that a buffer one byte short is 6.
pub fn hold(desk: &dyn Desk, bytes: &[u8]) -> Result<(), String> {
    let model = model::run(bytes);
    let number = *model.as_ref().err().unwrap_or(&0);
    let rows: Vec<[u32; ROW_NUMBERS]> = model.iter().flatten().map(row_numbers).collect();
    for (length, number) in [
        (ROWS_LEN, number),
        (ROWS_LEN + 7, number),
        (ROWS_LEN - 1, 6),
    ] {
        let expected = if number == 0 { &rows[..] } else { &[] };
        hold_rows(desk, bytes, length, number, expected)?;
    }
    Ok(())
}

/// Holds one call: its number, the rows, and every byte behind them.
fn hold_rows(
    desk: &dyn Desk,
    bytes: &[u8],
    length: usize,
    number: u32,
    expected: &[[u32; ROW_NUMBERS]],
) -> Result<(), String> {
    let mut rows = Guarded::new(&vec![BEFORE; length]);
    let got = desk.session(bytes, rows.content_mut());
    if got != number {
        return Err(format!(
            "whole session, {length} bytes of rows: expected {number}, got {got}\n"
        ));
    }
    if !rows.intact() {
        return Err("whole session: written outside the rows\n".into());
    }
    for (pass, expected) in expected.iter().enumerate() {
        let got = numbers(rows.content(), pass);
        if got != *expected {
            return Err(format!(
                "whole session, row {pass}: expected {expected:?}, got {got:?}\n"
            ));
        }
    }
    let rest = &rows.content()[expected.len() * ROW_LEN..];
    match rest.iter().position(|byte| *byte != BEFORE) {
        None => Ok(()),
        Some(at) => Err(format!(
            "whole session: byte {at} behind the rows was written\n"
        )),
    }
}

/// The numbers of a pass's row.
fn numbers(rows: &[u8], pass: usize) -> [u32; ROW_NUMBERS] {
    std::array::from_fn(|i| u32_at(rows, pass * ROW_LEN + FIELD_LEN * i))
}

/// The lines of `deskcheck` made of a whole session's rows.
pub fn lines(desk: &dyn Desk, bytes: &[u8]) -> String {
    let mut rows = vec![0; ROWS_LEN];
    let number = desk.session(bytes, &mut rows);
    if number != 0 {
        return format!("session {number}\n");
    }
    let passes = u32_at(bytes, PASS_COUNT_AT) as usize;
    (0..passes).map(|pass| line(numbers(&rows, pass))).collect()
}

/// Nine numbers as a line.
fn line(numbers: [u32; ROW_NUMBERS]) -> String {
    let words = numbers.map(|number| number.to_string());
    format!("{}\n", words.join(" "))
}
