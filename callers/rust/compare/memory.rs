//! The writer, which takes a book in memory.

use super::buffer::Buffer;
use super::calls::{raw_book, same, written};
use super::credits::raw;
use super::files;
use super::idle;
use super::reference::{self, Book, FILE_LENGTH, MOST_BALANCE, SEATS, WINDOWS};
use super::rng::Rng;
use super::Seen;

/// A book in memory: mostly one within its bounds, with anything in the entries that are not used.
pub fn draw(rng: &mut Rng) -> raw::Book {
    let book = files::book(rng);
    let mut raw_book = raw_book(&book, None);
    raw_book.has_sheet = [0, 1, 1, 2, u32::MAX][rng.below(5)];
    raw_book.has_first = [0, 0, 1, 2, u32::MAX][rng.below(5)];
    raw_book.has_balances = [0, 0, 1, 2, u32::MAX][rng.below(5)];
    raw_book.has_weights = [0, 0, 1, 2, u32::MAX][rng.below(5)];
    let (named, carries) = (raw_book.has_first != 0, raw_book.has_balances != 0);
    raw_book.first = if named { rng.between(1, book.seats) } else { rng.below(65536) } as u16;
    raw_book.weights = if raw_book.has_weights != 0 { book.table() } else { [0; 8].map(|_| rng.below(65536) as u16) };
    for seat in 0..SEATS {
        let bound = if carries && seat < book.seats { MOST_BALANCE as usize + 1 } else { 65536 };
        raw_book.balances[seat] = rng.below(bound) as u16;
        for window in 0..WINDOWS {
            let used = seat < book.seats && window < book.windows;
            raw_book.sheet[seat][window] = rng.below(65536) as u16;
            raw_book.caps[seat][window] = if used { book.caps[seat][window] } else { rng.below(65536) as u16 };
        }
    }
    (book.seats..SEATS).for_each(|seat| raw_book.classes[seat] = rng.below(65536) as u16);
    (book.windows..WINDOWS).for_each(|window| raw_book.supplies[window] = rng.below(65536) as u16);
    if rng.once_in(3) {
        // More than one at times, so that two lines meet.
        (0..rng.between(1, 3)).for_each(|_| spoil(rng, &mut raw_book));
    }
    raw_book
}

/// One entry beyond its bounds, used or not.
fn spoil(rng: &mut Rng, book: &mut raw::Book) {
    let number = [0, 33, 25, 65536, usize::MAX, 1 << 63][rng.below(6)];
    let credits = [4096, 4095, 65535][rng.below(3)];
    match rng.below(8) {
        0 => book.seats = number,
        1 => book.windows = number,
        2 => book.classes[rng.below(SEATS)] = [0, 9, 65535][rng.below(3)],
        3 => book.supplies[rng.below(WINDOWS)] = credits,
        4 => book.first = [0, book.seats as u16 + 1, 257, 65535][rng.below(4)],
        5 => book.balances[rng.below(SEATS)] = [50_001, 50_000, 65535][rng.below(3)],
        6 => files::spoil_weight(rng, &mut book.weights),
        _ => book.caps[rng.below(SEATS)][rng.below(WINDOWS)] = credits,
    }
}

/// The file, the refusal and the bytes that are left alone, whole; and a file written reads back the same.
pub fn write(rng: &mut Rng, seen: &mut Seen, book: &raw::Book) -> Result<(), String> {
    let raw::Book { seats, windows, classes, supplies, caps, .. } = *book;
    let first = (book.has_first != 0).then_some(book.first);
    let balances = (book.has_balances != 0).then_some(book.balances);
    let weights = (book.has_weights != 0).then_some(book.weights);
    let plain_book = Book { seats, windows, classes, supplies, caps, first, balances, weights };
    let sheet = (book.has_sheet != 0).then_some(&book.sheet);
    let need = reference::write(&plain_book, sheet, &mut [0; FILE_LENGTH]).unwrap_or(100);
    let mut buffer = Buffer::of_about(rng, need);
    let mut twin = buffer.twin();
    let library = raw::write(*book, buffer.lend());
    let plain = written(reference::write(&plain_book, sheet, &mut twin));
    seen.refusals[plain.refusal as usize] += 1;
    same("write", library, plain)?;
    same("write: the file", buffer.front(library.length)?, &twin[..library.length])?;
    if library.refusal == 0 {
        idle::count_written(seen, &twin[..library.length]);
        written_again(&twin[..library.length])
    } else {
        Ok(())
    }
}

/// A file that was written reads as a book, and that book's file is the same.
fn written_again(file: &[u8]) -> Result<(), String> {
    let book = raw::read(file);
    let mut again = vec![0; file.len()];
    let length = raw::write(book.book, &mut again).length;
    same("read and written again", (book.refusal, &again[..length]), (0, file))
}
