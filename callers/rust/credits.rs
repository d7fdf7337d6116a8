//! The library's calls for Rust: slices in, `Result` out.
//!
//! Seats and windows count from 1 in marks, moves and groups, as in the files, and from 0 in the arrays of a [`Book`].
//! Link with `-L native=out/staticlib -l static=credits`, which `bin/library` builds.
#![allow(dead_code)]

use std::fmt;

#[path = "credits/raw.rs"]
pub mod raw;

#[cfg(test)]
#[path = "credits/tests.rs"]
mod tests;

/// The most seats and windows that a book has.
pub const SEATS: usize = 32;
pub const WINDOWS: usize = 24;

/// The longest day file; a buffer of this length takes every file that [`write`] and [`plan`] make.
pub const FILE_LENGTH: usize = 3310;

/// The longest sheet body.
pub const SHEET_LENGTH: usize = 2 * SEATS * WINDOWS;

/// The length that the marker asks of its buffer: 31 moves of three bytes.
pub const MOVES_LENGTH: usize = 93;

/// The length that [`listing`] asks of its buffer.
pub const LISTING_LENGTH: usize = 3453;

/// One number per seat and window.
pub type Grid = [[u16; WINDOWS]; SEATS];

/// A book in memory, with its sheet if it has one. Entries beyond `seats` and `windows` are not used; [`read`] makes them 0.
/// Where no seat is named as the first of today's order, seat 1 comes first; where there are no balances, they are zeros; and where there
/// are no weights, they are those of paper 01: 1, 2, 3, 5, 8, 12, 20 and 40.
#[derive(Clone, Debug, PartialEq, Eq)]
pub struct Book {
    pub seats: usize,
    pub windows: usize,
    pub classes: [u16; SEATS],
    pub supplies: [u16; WINDOWS],
    pub caps: Grid,
    pub sheet: Option<Grid>,
    /// The seat that comes first today, counted from 1.
    pub first: Option<u16>,
    /// Each seat's balance, which is what it received on earlier days.
    pub balances: Option<[u16; SEATS]>,
    /// The weights of classes 1 to 8, by which levels are divided.
    pub weights: Option<[u16; 8]>,
}

/// Why a call turns its input away; the numbers are those of paper 01's table, which paper 02 goes on with.
#[derive(Clone, Copy, Debug, PartialEq, Eq)]
#[repr(u32)]
pub enum Reason {
    UnderTwoBytes = 1,
    NumberOfEntries = 2,
    EndsWithinContents = 3,
    Kind = 4,
    Start = 5,
    FileEnd = 6,
    SeatsLength = 7,
    WindowsLength = 8,
    GridLength = 9,
    Class = 10,
    Supply = 11,
    Cap = 12,
    NoSheet = 13,
    CellAboveCap = 14,
    WindowAboveSupply = 15,
    ShortBuffer = 16,
    OtherBook = 17,
    /// Checked after `Cap` and before `Balances`.
    FirstSeat = 18,
    /// Checked after `FirstSeat` and before `Weights`.
    Balances = 19,
    /// Checked after `Balances` and before `NoSheet`.
    Weights = 20,
    /// Checked after `Weights` and before `ShortBuffer`.
    WantedLength = 21,
    /// A seat whose caps are all zero. Checked by [`plan`] and [`forecast`] alone, after `Weights` and before `ShortBuffer`.
    IdleSeat = 22,
}

/// A reason and the offset that belongs to it. No byte of any buffer has changed.
#[derive(Clone, Copy, Debug, PartialEq, Eq)]
pub struct Refusal {
    pub reason: Reason,
    pub offset: usize,
}

/// One of the two files that [`better`] takes.
#[derive(Clone, Copy, Debug, PartialEq, Eq)]
pub enum Which {
    First,
    Second,
}

/// The better of two sheets: the file that it is in, and its body, which is a part of that file.
#[derive(Clone, Copy, Debug, PartialEq, Eq)]
pub struct Better<'a> {
    pub file: Which,
    pub body: &'a [u8],
}

/// A refusal with the file that it is of; without one it is of both.
#[derive(Clone, Copy, Debug, PartialEq, Eq)]
pub struct PairRefusal {
    pub file: Option<Which>,
    pub refusal: Refusal,
}

/// One credit in a window, from a giver to a taker, all counted from 1.
#[derive(Clone, Copy, Debug, PartialEq, Eq)]
pub struct Move {
    pub window: u8,
    pub giver: u8,
    pub taker: u8,
}

/// What the marker says of a lawful sheet.
#[derive(Clone, Debug, PartialEq, Eq)]
pub enum Mark {
    /// Mark 1: the window has credits left while the seat is below its cap there.
    Wasteful { window: u32, seat: u32 },
    /// Mark 2: played in this order, the moves lead to a sheet with a higher list.
    Improvable { chain: Vec<Move> },
    /// Mark 3: the list is the highest, but the moves lead to the totals that the seat rule wants.
    Tied { chain: Vec<Move> },
    /// Mark 4.
    Settled,
}

/// What [`fulfil`] says of wanted totals.
#[derive(Clone, Debug, PartialEq, Eq)]
pub enum Fulfilled {
    /// A lawful sheet of the book with just these totals. Entries that are not used are 0.
    Sheet(Grid),
    /// There is no such sheet: these seats together want more than they can get, which is, summed over the windows, the lesser of the
    /// supply and their caps added together.
    Group(Vec<u8>),
}

/// What a plan of a day file will take.
#[derive(Clone, Copy, Debug, PartialEq, Eq)]
pub struct Forecast {
    /// The length of the planned file, and so of the shortest buffer that [`plan`] takes.
    pub length: usize,
    /// For each window the credits that it will have placed: the lesser of the supply and the caps there added together. Entries beyond the
    /// book's windows are 0.
    pub placed: [u32; WINDOWS],
}

impl Reason {
    const ALL: [Reason; 22] = [
        Reason::UnderTwoBytes,
        Reason::NumberOfEntries,
        Reason::EndsWithinContents,
        Reason::Kind,
        Reason::Start,
        Reason::FileEnd,
        Reason::SeatsLength,
        Reason::WindowsLength,
        Reason::GridLength,
        Reason::Class,
        Reason::Supply,
        Reason::Cap,
        Reason::NoSheet,
        Reason::CellAboveCap,
        Reason::WindowAboveSupply,
        Reason::ShortBuffer,
        Reason::OtherBook,
        Reason::FirstSeat,
        Reason::Balances,
        Reason::Weights,
        Reason::WantedLength,
        Reason::IdleSeat,
    ];

    /// The number in the table.
    pub fn number(self) -> u32 {
        self as u32
    }
}

impl fmt::Display for Refusal {
    fn fmt(&self, f: &mut fmt::Formatter) -> fmt::Result {
        write!(f, "refused {} at {}", self.reason.number(), self.offset)
    }
}

impl std::error::Error for Refusal {}

impl fmt::Display for PairRefusal {
    fn fmt(&self, f: &mut fmt::Formatter) -> fmt::Result {
        let files = match self.file {
            Some(Which::First) => "first file",
            Some(Which::Second) => "second file",
            None => "both files",
        };
        write!(f, "{files}: {}", self.refusal)
    }
}

impl std::error::Error for PairRefusal {}

impl Mark {
    /// Marks 3 and 4 pass: the sheet's list is the highest of its book.
    pub fn passes(&self) -> bool {
        matches!(self, Mark::Tied { .. } | Mark::Settled)
    }
}

/// Reads a day file.
pub fn read(file: &[u8]) -> Result<Book, Refusal> {
    let result = raw::read(file);
    unless_refused(result.refusal, result.offset)?;
    let book = result.book;
    Ok(Book {
        seats: book.seats,
        windows: book.windows,
        classes: book.classes,
        supplies: book.supplies,
        caps: book.caps,
        sheet: (book.has_sheet != 0).then_some(book.sheet),
        first: (book.has_first != 0).then_some(book.first),
        balances: (book.has_balances != 0).then_some(book.balances),
        weights: (book.has_weights != 0).then_some(book.weights),
    })
}

/// Writes the day file of a book to the front of `out` and gives its length. Bytes after it keep their values.
pub fn write(book: &Book, out: &mut [u8]) -> Result<usize, Refusal> {
    let raw_book = raw::Book {
        seats: book.seats,
        windows: book.windows,
        classes: book.classes,
        supplies: book.supplies,
        caps: book.caps,
        has_sheet: book.sheet.is_some() as u32,
        sheet: book.sheet.unwrap_or([[0; WINDOWS]; SEATS]),
        has_first: book.first.is_some() as u32,
        first: book.first.unwrap_or(0),
        has_balances: book.balances.is_some() as u32,
        balances: book.balances.unwrap_or([0; SEATS]),
        has_weights: book.weights.is_some() as u32,
        weights: book.weights.unwrap_or([0; 8]),
    };
    length(raw::write(raw_book, out))
}

/// Marks the sheet of a day file.
pub fn mark(file: &[u8]) -> Result<Mark, Refusal> {
    let mut moves = [0; MOVES_LENGTH];
    let result = raw::mark(file, &mut moves);
    unless_refused(result.refusal, result.offset)?;
    let triples = moves.chunks_exact(3).take(result.moves as usize);
    let chain = triples.map(|triple| Move { window: triple[0], giver: triple[1], taker: triple[2] }).collect();
    Ok(match result.mark {
        1 => Mark::Wasteful { window: result.window, seat: result.seat },
        2 => Mark::Improvable { chain },
        3 => Mark::Tied { chain },
        _ => Mark::Settled,
    })
}

/// Plans the book of a day file and writes the file with the standard sheet to the front of `out`; gives its length.
/// Of all settled sheets this is the highest, read seat by seat and window by window. A book with an idle seat is refused.
pub fn plan(file: &[u8], out: &mut [u8]) -> Result<usize, Refusal> {
    length(raw::plan(file, out))
}

/// Writes the text that the program `mark` prints of a file to the front of `out` and gives its length.
/// A file that is turned away has a text too, so a short buffer is the only refusal.
pub fn listing(file: &[u8], out: &mut [u8]) -> Result<usize, Refusal> {
    length(raw::listing(file, out))
}

/// Chooses of two day files of one book the one whose sheet has the higher list, and on equal lists the first.
pub fn better<'a>(first: &'a [u8], second: &'a [u8]) -> Result<Better<'a>, PairRefusal> {
    let result = raw::better(first, second);
    let (which, file) = if result.file == 1 { (Which::First, first) } else { (Which::Second, second) };
    unless_refused(result.refusal, result.offset)
        .map_err(|refusal| PairRefusal { file: (result.file != 0).then_some(which), refusal })?;
    Ok(Better { file: which, body: &file[result.start..][..result.length] })
}

/// Looks for a lawful sheet of a day file's book with just the wanted totals, one for each seat. A sheet that the file holds is not used.
pub fn fulfil(file: &[u8], wanted: &[u32]) -> Result<Fulfilled, Refusal> {
    let row: Vec<u8> = wanted.iter().flat_map(|want| want.to_le_bytes()).collect();
    let mut body = [0; SHEET_LENGTH];
    let result = raw::fulfil(file, &row, &mut body);
    unless_refused(result.refusal, result.offset)?;
    if result.group != 0 {
        let members = (1..=SEATS as u8).filter(|seat| result.group >> (seat - 1) & 1 == 1);
        return Ok(Fulfilled::Group(members.collect()));
    }
    Ok(Fulfilled::Sheet(grid_of(&body[..result.length], wanted.len())))
}

/// Tells from a day file what a plan of it will take. Cells of a sheet that the file holds are neither used nor checked. What [`plan`]
/// refuses is refused here too, but for a short buffer.
pub fn forecast(file: &[u8]) -> Result<Forecast, Refusal> {
    let result = raw::forecast(file);
    unless_refused(result.refusal, result.offset)?;
    Ok(Forecast { length: result.length, placed: result.placed })
}

/// The cells of the sheet body of a book with so many seats, which is at least one.
fn grid_of(body: &[u8], seats: usize) -> Grid {
    let mut grid = [[0; WINDOWS]; SEATS];
    for (row, bytes) in grid.iter_mut().zip(body.chunks_exact(body.len() / seats)) {
        let cells = bytes.chunks_exact(2).map(|pair| u16::from_le_bytes([pair[0], pair[1]]));
        row.iter_mut().zip(cells).for_each(|(cell, credits)| *cell = credits);
    }
    grid
}

/// `Err` for every number but 0.
fn unless_refused(number: u32, offset: usize) -> Result<(), Refusal> {
    match number.checked_sub(1) {
        None => Ok(()),
        Some(index) => Err(Refusal { reason: Reason::ALL[index as usize], offset }),
    }
}

fn length(result: raw::WriteResult) -> Result<usize, Refusal> {
    unless_refused(result.refusal, result.offset)?;
    Ok(result.length)
}
