//! Rows of wanted totals, and the call that looks for a sheet with these totals.

use super::books::{planned, windows_alone};
use super::buffer::Buffer;
use super::calls::same;
use super::chain::totals;
use super::credits::raw;
use super::files;
use super::idle;
use super::pairs::lawful;
use super::reference::{self, feasible, Book, Fulfilled, Refusal, Sheet, SEATS, WINDOWS};
use super::rng::Rng;
use super::Seen;

/// A day file and a row of wanted totals.
#[derive(Clone, Debug, PartialEq)]
pub struct Request {
    pub file: Vec<u8>,
    pub row: Vec<u8>,
}

/// What may come of wanted totals, by place in the count. The last ones count replies again: sheets that hand out all there is, sheets that
/// are not found by serving the seats in turn, groups that want one credit more than they can get, groups in which every seat by itself can
/// have what it wants, and buffers that are too short where there would be a group.
pub const REPLIES: [&str; 12] = [
    "sheets",
    "groups of one seat",
    "groups of several",
    "groups of all seats",
    "files refused",
    "rows refused",
    "buffers refused",
    "sheets of all there is",
    "sheets where serving the seats in turn is not enough",
    "groups with one credit too many",
    "groups in which each seat can have its want",
    "buffers refused before a group",
];
const SHEET: usize = 0;
const ONE_SEAT: usize = 1;
const SEVERAL: usize = 2;
const ALL_SEATS: usize = 3;
const FILE_REFUSED: usize = 4;
const ROW_REFUSED: usize = 5;
const BUFFER_REFUSED: usize = 6;
const ALL_THERE_IS: usize = 7;
const NOT_IN_TURN: usize = 8;
const ONE_TOO_MANY: usize = 9;
const NONE_ALONE: usize = 10;
const BUFFER_BEFORE_GROUP: usize = 11;

/// How long a refused row is, by place in the count. A row of one want can be short of a want only as one of no bytes.
pub const LENGTHS: [&str; 7] =
    ["no bytes", "a byte short", "a byte long", "a want short", "a want long", "128 bytes for fewer seats", "others"];

/// A book's file or, at times, a damaged one or any file; and a row that is mostly of the right length for the book.
pub fn draw(rng: &mut Rng) -> Request {
    let book = files::book(rng);
    let row: Vec<u8> = wants(rng, &book).iter().flat_map(|want| want.to_le_bytes()).collect();
    let row = if rng.once_in(12) { of_other_length(rng, row) } else { row };
    let file = match rng.below(16) {
        0 => files::draw(rng),
        1 => {
            let file = files::with_any_sheet(rng, &book);
            files::damaged(rng, file)
        }
        _ => files::with_any_sheet(rng, &book),
    };
    Request { file, row }
}

fn wants(rng: &mut Rng, book: &Book) -> Vec<u32> {
    match rng.below(14) {
        0 => vec![0; book.seats],
        1 => totals(book, &planned(book)),
        2 => of_a_sheet(rng, book),
        3..=5 => nearly_of_a_sheet(rng, book),
        6 => of_one_seat(rng, book),
        7..=11 => of_a_group(rng, book),
        12 => huge(rng, book),
        _ => any(rng, book),
    }
}

/// No bytes, some too few or too many, a want too few or too many, or as many as the most seats have.
fn of_other_length(rng: &mut Rng, mut row: Vec<u8>) -> Vec<u8> {
    let length = row.len();
    let other = match rng.below(9) {
        0 => 0,
        1 => length - 1,
        2 => length + 1,
        3 => length - 4,
        4 => length + 4,
        5 | 6 => 4 * SEATS,
        7 => length / 2,
        _ => rng.below(300),
    };
    row.resize(other, 0);
    row
}

fn of_a_sheet(rng: &mut Rng, book: &Book) -> Vec<u32> {
    totals(book, &lawful(rng, book))
}

/// Totals of the plan or of any lawful sheet, but for a credit or some more or less, or from one seat to another, once or a few times.
fn nearly_of_a_sheet(rng: &mut Rng, book: &Book) -> Vec<u32> {
    let mut wants = if rng.once_in(2) { totals(book, &planned(book)) } else { of_a_sheet(rng, book) };
    for _ in 0..rng.between(1, 3) {
        let (seat, other) = (rng.below(book.seats), rng.below(book.seats));
        let credits = if rng.once_in(2) { 1 } else { rng.between(1, 100) as u32 };
        match rng.below(3) {
            0 => wants[seat] += credits,
            1 => wants[seat] = wants[seat].saturating_sub(credits),
            _ => shift(&mut wants, other, seat, credits),
        }
    }
    wants
}

/// What the seats of a group can get: over the windows the lesser of the supply and their caps added together.
fn can_get(book: &Book, group: u32) -> u64 {
    let members = || (0..book.seats).filter(|seat| group >> seat & 1 == 1);
    let caps = |window: usize| members().map(|seat| book.caps[seat][window] as u64).sum::<u64>();
    (0..book.windows).map(|window| caps(window).min(book.supplies[window] as u64)).sum()
}

fn wants_of(wants: &[u32], group: u32) -> u64 {
    wants.iter().enumerate().filter(|(seat, _)| group >> seat & 1 == 1).map(|(_, &want)| want as u64).sum()
}

/// All that one seat can get, or a credit more or less; the others want nothing, or what a sheet gives them.
fn of_one_seat(rng: &mut Rng, book: &Book) -> Vec<u32> {
    let mut wants = if rng.once_in(2) { vec![0; book.seats] } else { of_a_sheet(rng, book) };
    let seat = rng.below(book.seats);
    wants[seat] = (can_get(book, 1 << seat) as u32 + rng.below(3) as u32).saturating_sub(1);
    wants
}

/// Just what a group can get, shared out among its seats window by window; at times a credit more for one of them, or some that go from one
/// to another. The other seats want nothing, or all that is left for them.
fn of_a_group(rng: &mut Rng, book: &Book) -> Vec<u32> {
    let group = (0..book.seats).fold(1 << rng.below(book.seats), |set, seat| set | (rng.below(2) as u32) << seat);
    let first = rng.below(book.seats);
    let sheet = windows_alone(&only(book, group), first);
    let mut wants = totals(book, &sheet);
    if rng.once_in(2) {
        let rest = totals(book, &windows_alone(&left_over(&only(book, !group), &sheet), first));
        wants.iter_mut().zip(rest).for_each(|(want, more)| *want += more);
    }
    let members: Vec<usize> = (0..book.seats).filter(|seat| group >> seat & 1 == 1).collect();
    let (seat, other) = (members[rng.below(members.len())], members[rng.below(members.len())]);
    match rng.below(4) {
        0 => (),
        1 | 2 => wants[seat] += 1,
        _ => shift(&mut wants, other, seat, rng.between(1, 50) as u32),
    }
    wants
}

/// The same book, in which no seat but those of a group may have credits.
fn only(book: &Book, group: u32) -> Book {
    let mut book = book.clone();
    (0..book.seats).filter(|seat| group >> seat & 1 == 0).for_each(|seat| book.caps[seat] = [0; WINDOWS]);
    book
}

/// The same book with as many credits less in each window as the sheet hands out.
fn left_over(book: &Book, sheet: &Sheet) -> Book {
    let mut left = book.clone();
    for window in 0..book.windows {
        left.supplies[window] -= sheet.iter().map(|row| row[window]).sum::<u16>();
    }
    left
}

/// One seat wants fewer credits, by so many if it wants as many, and another as many more.
fn shift(wants: &mut [u32], from: usize, to: usize, most: u32) {
    let credits = most.min(wants[from]);
    wants[from] -= credits;
    wants[to] += credits;
}

/// Some seats want as much as four bytes can say, or nearly; or two of them as much as adds up to little in 32 bits.
fn huge(rng: &mut Rng, book: &Book) -> Vec<u32> {
    let mut wants = of_a_sheet(rng, book);
    let (seat, other) = (rng.below(book.seats), rng.below(book.seats));
    match rng.below(4) {
        0 => wants[seat] = u32::MAX - rng.below(3) as u32,
        1 => wants[seat] = 1 << rng.between(16, 31),
        2 => {
            wants[seat] = rng.below(1 << 32) as u32;
            wants[other] = wants[seat].wrapping_neg().wrapping_add(rng.below(3) as u32);
        }
        _ => wants.fill(u32::MAX),
    }
    wants
}

/// Any wants, up to what one seat could get at the most or far less.
fn any(rng: &mut Rng, book: &Book) -> Vec<u32> {
    let most = 1 << rng.below(18);
    (0..book.seats).map(|_| rng.below(most) as u32).collect()
}

/// The library's reply against that of plain Rust: the same refusal, a sheet where that has one, a group where that has one. Which sheet
/// and which group is left open, so they are tested by the paper's words. Neither the file nor the row may change.
pub fn fulfil(rng: &mut Rng, seen: &mut Seen, request: &Request) -> Result<(), String> {
    let Request { file, row } = request;
    let before = request.clone();
    let need = reference::read(file).map_or(100, |(book, _)| 2 * book.seats * book.windows);
    let mut buffer = Buffer::of_about(rng, need);
    let mut twin = buffer.twin();
    let library = raw::fulfil(file, row, buffer.lend());
    let plain = reference::fulfil(file, row, &mut twin);
    let nothing = raw::FulfilResult { refusal: 0, offset: 0, length: 0, group: 0 };
    let right = match plain {
        Ok(Fulfilled::Sheet { length }) => raw::FulfilResult { length, ..nothing },
        Ok(Fulfilled::Group { .. }) => raw::FulfilResult { group: library.group, ..nothing },
        Err(Refusal { number, offset }) => raw::FulfilResult { refusal: number, offset, ..nothing },
    };
    same("fulfil", library, right)?;
    same("fulfil: the file and the row", request, &before)?;
    let body = buffer.front(library.length)?;
    match plain {
        Ok(Fulfilled::Sheet { .. }) => check_sheet(seen, request, body),
        Ok(Fulfilled::Group { .. }) => check_group(seen, request, library.group),
        Err(refusal) => {
            count_refusal(seen, request, refusal.number);
            Ok(())
        }
    }
}

/// The book of a request that was taken, and the wanted totals.
fn book_and_wants(request: &Request) -> (Book, Vec<u32>) {
    let (book, _) = reference::read(&request.file).expect("a file that was taken");
    let want = |bytes: &[u8]| bytes.iter().rev().fold(0, |want, &byte| want << 8 | byte as u32);
    (book, request.row.chunks(4).map(want).collect())
}

/// The body is that of a lawful sheet with just the wanted totals.
fn check_sheet(seen: &mut Seen, request: &Request, body: &[u8]) -> Result<(), String> {
    let (book, wants) = book_and_wants(request);
    let mut sheet = files::NO_CREDITS;
    for (cell, pair) in body.chunks(2).enumerate() {
        sheet[cell / book.windows][cell % book.windows] = u16::from_le_bytes([pair[0], pair[1]]);
    }
    same("fulfil: the refusal of the sheet", feasible(&book, &sheet), Ok(()))?;
    same("fulfil: the totals", &totals(&book, &sheet), &wants)?;
    let everyone = u32::MAX >> (SEATS - book.seats);
    seen.replies[SHEET] += 1;
    seen.replies[ALL_THERE_IS] += (wants_of(&wants, everyone) == can_get(&book, everyone)) as usize;
    seen.replies[NOT_IN_TURN] += !enough_in_turn(&book, &wants) as usize;
    idle::count_sheet(seen, &book);
    Ok(())
}

/// Whether every seat gets its want where each in turn takes, window by window, what it may have of what is left.
fn enough_in_turn(book: &Book, wants: &[u32]) -> bool {
    let mut left = book.supplies;
    (0..book.seats).all(|seat| {
        let missing = (0..book.windows).fold(wants[seat], |missing, window| {
            let taken = missing.min(book.caps[seat][window].min(left[window]) as u32);
            left[window] -= taken as u16;
            missing - taken
        });
        missing == 0
    })
}

/// The group has some seats, all of them of the book, and wants more than it can get.
fn check_group(seen: &mut Seen, request: &Request, group: u32) -> Result<(), String> {
    let (book, wants) = book_and_wants(request);
    let everyone = u32::MAX >> (SEATS - book.seats);
    let (wanted, most) = (wants_of(&wants, group), can_get(&book, group));
    if group == 0 || group & !everyone != 0 || wanted <= most {
        return Err(format!("fulfil: the group {group:#b} of {} seats wants {wanted} and can get {most}", book.seats));
    }
    let place = match group.count_ones() {
        1 => ONE_SEAT,
        _ if group == everyone => ALL_SEATS,
        _ => SEVERAL,
    };
    let alone = |seat: usize| group >> seat & 1 == 0 || wants[seat] as u64 <= can_get(&book, 1 << seat);
    seen.replies[place] += 1;
    seen.replies[ONE_TOO_MANY] += (wanted == most + 1) as usize;
    seen.replies[NONE_ALONE] += (0..book.seats).all(alone) as usize;
    idle::count_group(seen, &book, group);
    Ok(())
}

/// Counts a refusal, by the row also how long that is, and by the buffer also if there would have been a group.
fn count_refusal(seen: &mut Seen, request: &Request, number: u32) {
    let Request { file, row } = request;
    seen.refusals[number as usize] += 1;
    match number {
        21 => {
            let right = 4 * reference::read(file).expect("a file that was taken").0.seats;
            seen.replies[ROW_REFUSED] += 1;
            seen.lengths[how_long(row.len(), right)] += 1;
        }
        16 => {
            let reply = reference::fulfil(file, row, &mut [0; 2 * SEATS * WINDOWS]);
            seen.replies[BUFFER_REFUSED] += 1;
            seen.replies[BUFFER_BEFORE_GROUP] += matches!(reply, Ok(Fulfilled::Group { .. })) as usize;
        }
        _ => seen.replies[FILE_REFUSED] += 1,
    }
}

/// The place of a length that is not the right one.
fn how_long(length: usize, right: usize) -> usize {
    let lengths = [0, right - 1, right + 1, right - 4, right + 4, 4 * SEATS];
    lengths.iter().position(|&other| other == length).unwrap_or(lengths.len())
}
