//! The listing that the program `mark` prints.

use std::fmt::Write;

use super::marker::{mark_sheet, placed};
use super::{mark, read, Book, Sheet, MOVES_LENGTH};

/// When the windows open.
const OPENS: [&str; 24] = [
    "0800", "0825", "0850", "0915", "0940", "1005", "1030", "1055", "1120", "1145", "1210", "1235", "1300", "1325",
    "1350", "1415", "1440", "1505", "1530", "1555", "1620", "1645", "1710", "1735",
];

/// The listing of a day file, or the line of its refusal.
pub fn listing(file: &[u8]) -> Vec<u8> {
    if let Err(refusal) = mark(file, &mut [0; MOVES_LENGTH]) {
        return format!("refused {} at {}\n", refusal.number, refusal.offset).into_bytes();
    }
    match read(file) {
        Ok((book, Some(sheet))) => lines(&book, &sheet).expect("a string takes every line").into_bytes(),
        _ => unreachable!("the marker took this file"),
    }
}

/// The lines for a feasible sheet.
fn lines(book: &Book, sheet: &Sheet) -> Result<String, std::fmt::Error> {
    let mut text = String::new();
    writeln!(text, "seats {} windows {}", book.seats, book.windows)?;
    for window in 0..book.windows {
        let (opens, supply) = (OPENS[window], book.supplies[window]);
        let placed = placed(book, sheet, window);
        writeln!(text, "window {} opens {opens} supply {supply} placed {placed}", window + 1)?;
    }
    for seat in 0..book.seats {
        let total: u32 = sheet[seat].iter().map(|&cell| cell as u32).sum();
        writeln!(text, "seat {} class {} total {total}", seat + 1, book.classes[seat])?;
    }
    let (marked, path) = mark_sheet(book, sheet);
    writeln!(text, "mark {}", marked.mark)?;
    if marked.mark == 1 {
        writeln!(text, "left window {} seat {}", marked.window, marked.seat)?;
    }
    for m in path {
        writeln!(text, "move window {} from {} to {}", m.window + 1, m.giver + 1, m.taker + 1)?;
    }
    Ok(text)
}
