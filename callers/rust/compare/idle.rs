//! Idle seats, whose caps are all zero: books that have them, and how often each call met them. Plan and forecast refuse such a book, and
//! every other call takes it.

use super::reference::{self, feasible, Book, MOST_CREDITS, SEATS, WINDOWS};
use super::rng::Rng;
use super::Seen;

/// How plans were refused by 22, by place in the count: first by the seat. The last ones count them again: those with further idle seats,
/// with none but idle seats, with a buffer that is too short besides, and with a sheet that the marker would refuse.
pub const REFUSED: [&str; 8] = [
    "at the only seat",
    "at the first of several",
    "in the middle",
    "at the last",
    "with further idle seats",
    "with idle seats alone",
    "with too short a buffer",
    "with a sheet that is not lawful",
];
const ONLY_SEAT: usize = 0;
const FIRST_SEAT: usize = 1;
const MIDDLE: usize = 2;
const LAST_SEAT: usize = 3;
const FURTHER: usize = 4;
const ALL_IDLE: usize = 5;
const SHORT_BUFFER: usize = 6;
const NOT_LAWFUL: usize = 7;

/// What came of books with an idle seat elsewhere, by place in the count.
pub const TAKEN: [&str; 7] = [
    "files read",
    "books written",
    "first of a pair chosen",
    "second chosen",
    "sheets for wanted totals",
    "groups with an idle seat",
    "groups without one",
];
const READ: usize = 0;
const WRITTEN: usize = 1;
const CHOSEN: usize = 2;
const SHEET: usize = 4;
const GROUP_WITH: usize = 5;
const GROUP_WITHOUT: usize = 6;

/// Books that are planned, though one of their seats is nearly idle, by place in the count.
pub const NEARLY: [&str; 5] = [
    "with one cap of 1 for a seat",
    "with one in the last window",
    "with a seat that can get nothing",
    "with caps whose low bytes are 0",
    "with caps of 65,536 together",
];
const ONE_CAP: usize = 0;
const LAST_WINDOW: usize = 1;
const GETS_NOTHING: usize = 2;
const LOW_BYTES: usize = 3;
const WRAPPING: usize = 4;

/// How often each of these came up; the files refused by 22 also by their entries, 3 to 7, and the sheets of books with an idle seat by
/// their marks.
#[derive(Default)]
pub struct Counts {
    pub refused: [usize; REFUSED.len()],
    pub entries: [usize; 5],
    pub marks: [usize; 5],
    pub taken: [usize; TAKEN.len()],
    pub nearly: [usize; NEARLY.len()],
}

impl Counts {
    /// All that must come up.
    pub fn all(&self) -> impl Iterator<Item = &usize> {
        let Counts { refused, entries, marks, taken, nearly } = self;
        refused.iter().chain(entries).chain(&marks[1..]).chain(taken).chain(nearly)
    }
}

/// One book in six has idle seats; some of the others have a seat that is nearly idle.
pub fn at_times(rng: &mut Rng, book: Book) -> Book {
    match rng.below(36) {
        0..=5 => with_idle_seats(rng, book),
        6 | 7 => with_one_cap(rng, book),
        8 if book.windows > 16 => with_wrapping_caps(rng, book),
        _ => book,
    }
}

/// The same book with idle seats: the first, the last, any one, some or all.
fn with_idle_seats(rng: &mut Rng, mut book: Book) -> Book {
    let seats = match rng.below(8) {
        0 => 1,
        1 => 1 << (book.seats - 1),
        2..=4 => 1 << rng.below(book.seats),
        5 | 6 => 1 << rng.below(book.seats) | rng.below(1 << 32) as u32,
        _ => u32::MAX,
    };
    (0..book.seats).filter(|seat| seats >> seat & 1 == 1).for_each(|seat| book.caps[seat] = [0; WINDOWS]);
    book
}

/// The same book, in which one seat has a cap in one window and no other, of 1 or of 256; at times the window has nothing to give.
fn with_one_cap(rng: &mut Rng, mut book: Book) -> Book {
    let (seat, last) = (rng.below(book.seats), book.windows - 1);
    let window = [0, last, rng.below(book.windows)][rng.below(3)];
    book.caps[seat] = [0; WINDOWS];
    book.caps[seat][window] = [1, 1, 256][rng.below(3)];
    if rng.once_in(3) {
        book.supplies[window] = 0;
    }
    book
}

/// The same book of 17 windows or more, in which the caps of one seat add up to 65,536, which is 0 in two bytes.
fn with_wrapping_caps(rng: &mut Rng, mut book: Book) -> Book {
    let seat = rng.below(book.seats);
    book.caps[seat] = [0; WINDOWS];
    book.caps[seat][..16].fill(MOST_CREDITS);
    book.caps[seat][book.windows - 1] = 16;
    book
}

/// The idle seats of a book, as a set.
fn idle_seats(book: &Book) -> u32 {
    (0..book.seats).fold(0, |set, seat| set | (book.is_idle(seat) as u32) << seat)
}

/// The idle seats of a file's book; none where the file is refused.
fn idle_in(file: &[u8]) -> u32 {
    reference::read(file).map_or(0, |(book, _)| idle_seats(&book))
}

/// A plan was refused by 22 at an offset, with a buffer that would have been long enough or not.
pub fn count_refused(seen: &mut Seen, file: &[u8], offset: usize, short_buffer: bool) {
    let (book, sheet) = reference::read(file).expect("a file that the reader takes");
    let (idle, everyone) = (idle_seats(&book), u32::MAX >> (SEATS - book.seats));
    let entries = file[0] as usize;
    let place = match (offset - 2 - 6 * entries) / 2 {
        _ if book.seats == 1 => ONLY_SEAT,
        0 => FIRST_SEAT,
        seat if seat + 1 == book.seats => LAST_SEAT,
        _ => MIDDLE,
    };
    let counts = &mut seen.idle;
    counts.refused[place] += 1;
    counts.refused[FURTHER] += (idle.count_ones() > 1) as usize;
    counts.refused[ALL_IDLE] += (idle == everyone) as usize;
    counts.refused[SHORT_BUFFER] += short_buffer as usize;
    counts.refused[NOT_LAWFUL] += sheet.is_some_and(|sheet| feasible(&book, &sheet).is_err()) as usize;
    counts.entries[entries - 3] += 1;
}

/// A book was planned.
pub fn count_planned(seen: &mut Seen, book: &Book) {
    let sum = |seat: usize| book.caps[seat].iter().map(|&cap| cap as u32).sum::<u32>();
    let gets_nothing =
        |seat: usize| (0..book.windows).all(|window| book.caps[seat][window].min(book.supplies[window]) == 0);
    let nearly_idle: Vec<usize> = (0..book.seats).filter(|&seat| sum(seat) == 1).collect();
    let counts = &mut seen.idle.nearly;
    counts[ONE_CAP] += !nearly_idle.is_empty() as usize;
    counts[LAST_WINDOW] +=
        (book.windows > 1 && nearly_idle.iter().any(|&seat| book.caps[seat][book.windows - 1] == 1)) as usize;
    counts[GETS_NOTHING] += (0..book.seats).any(gets_nothing) as usize;
    counts[LOW_BYTES] += (0..book.seats).any(|seat| book.caps[seat].iter().all(|cap| cap % 256 == 0)) as usize;
    counts[WRAPPING] += (0..book.seats).any(|seat| sum(seat) == 1 << 16) as usize;
}

/// A file was read.
pub fn count_read(seen: &mut Seen, file: &[u8]) {
    seen.idle.taken[READ] += (idle_in(file) != 0) as usize;
}

/// A book was written as this file.
pub fn count_written(seen: &mut Seen, file: &[u8]) {
    seen.idle.taken[WRITTEN] += (idle_in(file) != 0) as usize;
}

/// A file's sheet has this mark.
pub fn count_mark(seen: &mut Seen, file: &[u8], mark: u32) {
    seen.idle.marks[mark as usize] += (idle_in(file) != 0) as usize;
}

/// Of two files of a book this one was chosen, 1 or 2.
pub fn count_choice(seen: &mut Seen, book: &Book, file: u32) {
    seen.idle.taken[CHOSEN + file as usize - 1] += (idle_seats(book) != 0) as usize;
}

/// There is a sheet for wanted totals.
pub fn count_sheet(seen: &mut Seen, book: &Book) {
    seen.idle.taken[SHEET] += (idle_seats(book) != 0) as usize;
}

/// There is a group that wants too much.
pub fn count_group(seen: &mut Seen, book: &Book, group: u32) {
    let idle = idle_seats(book);
    let place = if idle & group != 0 { GROUP_WITH } else { GROUP_WITHOUT };
    seen.idle.taken[place] += (idle != 0) as usize;
}
