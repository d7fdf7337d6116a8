//! The calls that take a file.

use super::books;
use super::buffer::Buffer;
use super::chain::{self, moves, totals, Bytes};
use super::credits::raw;
use super::forecasts::forecast;
use super::idle;
use super::reference::{self, settled_sheet, Book, Layout, Refusal, Sheet, MOST_WEIGHT, MOVES_LENGTH, SEATS, WINDOWS};
use super::rng::Rng;
use super::Seen;

const LISTING_LENGTH: usize = 3453;

/// A book with no entry at all.
pub const NOTHING: raw::Book = raw::Book {
    seats: 0,
    windows: 0,
    classes: [0; SEATS],
    supplies: [0; WINDOWS],
    caps: [[0; WINDOWS]; SEATS],
    has_sheet: 0,
    sheet: [[0; WINDOWS]; SEATS],
    has_first: 0,
    first: 0,
    has_balances: 0,
    balances: [0; SEATS],
    has_weights: 0,
    weights: [0; 8],
};

/// How a file meets line 20, by place in the count: the length of the weights, or the first weight that is wrong.
pub const LINE_20: [&str; 5] =
    ["length", "weight 0", "weight above 1000", "weight equal to the one before", "weight below the one before"];

/// What a planned file's first seat can do, by place in the count.
pub const FIRST_SEATS: [&str; 3] =
    ["without a first seat", "with one that changes no total", "with one that changes totals"];

/// What a planned file's balances can do, by place in the count.
pub const BALANCES: [&str; 4] =
    ["without balances", "with zeros", "with some that change no total", "with some that change totals"];

/// What a planned file's own weights can do, by place in the count.
pub const WEIGHTS: [&str; 4] =
    ["without weights", "with those of paper 01", "with others that change no total", "with others that change totals"];

/// Whether the plain version's settled sheet had other cells before it was made standard, by place in the count.
pub const STANDARDS: [&str; 2] = ["as first settled", "with other cells than first settled"];

pub fn all(rng: &mut Rng, seen: &mut Seen, file: &[u8]) -> Result<(), String> {
    read(seen, file)?;
    mark(rng, seen, file)?;
    plan(rng, seen, file)?;
    forecast(rng, seen, file)?;
    listing(rng, file)
}

/// `Err` with the name of what differs and the beginning of both values.
pub fn same<T: PartialEq + std::fmt::Debug>(what: &str, library: T, plain: T) -> Result<(), String> {
    if library == plain {
        return Ok(());
    }
    let begin = |value: T| format!("{value:?}").chars().take(300).collect::<String>();
    Err(format!("{what}: the library has {}, plain Rust {}", begin(library), begin(plain)))
}

/// A book in memory as the library's calls take and give it.
pub fn raw_book(book: &Book, sheet: Option<&Sheet>) -> raw::Book {
    raw::Book {
        seats: book.seats,
        windows: book.windows,
        classes: book.classes,
        supplies: book.supplies,
        caps: book.caps,
        has_sheet: sheet.is_some() as u32,
        sheet: sheet.copied().unwrap_or(NOTHING.sheet),
        has_first: book.first.is_some() as u32,
        first: book.first.unwrap_or(0),
        has_balances: book.balances.is_some() as u32,
        balances: book.carried(),
        has_weights: book.weights.is_some() as u32,
        weights: book.weights.unwrap_or(NOTHING.weights),
    }
}

fn read(seen: &mut Seen, file: &[u8]) -> Result<(), String> {
    let plain = match reference::read(file) {
        Ok((book, sheet)) => raw::ReadResult { refusal: 0, offset: 0, book: raw_book(&book, sheet.as_ref()) },
        Err(refusal) => raw::ReadResult { refusal: refusal.number, offset: refusal.offset, book: NOTHING },
    };
    if plain.refusal == 20 {
        seen.line_20[how_20_is_met(file, plain.offset)] += 1;
    }
    idle::count_read(seen, file);
    same("read", raw::read(file), plain)
}

/// How a file meets line 20 at an offset, which is a length field of the contents or a weight.
fn how_20_is_met(file: &[u8], offset: usize) -> usize {
    let field = |at: usize| u16::from_le_bytes([file[at], file[at + 1]]);
    match field(offset) {
        _ if offset < 2 + 6 * field(0) as usize => 0,
        0 => 1,
        weight if weight > MOST_WEIGHT => 2,
        weight if weight == field(offset - 2) => 3,
        _ => 4,
    }
}

fn mark(rng: &mut Rng, seen: &mut Seen, file: &[u8]) -> Result<(), String> {
    let mut buffer = Buffer::of_about(rng, MOVES_LENGTH);
    let mut twin = buffer.twin();
    let library = raw::mark(file, buffer.lend());
    let plain = reference::mark(file, &mut twin);
    let (refusal, marked) = match plain {
        Ok(marked) => (Refusal { number: 0, offset: 0 }, marked),
        Err(refusal) => (refusal, reference::Marked::default()),
    };
    let reference::Marked { mark, window, seat, moves: number } = marked;
    seen.refusals[refusal.number as usize] += 1;
    seen.marks[mark as usize] += 1;
    seen.longest_chain = seen.longest_chain.max(number);
    idle::count_mark(seen, file, mark);
    let Refusal { number: refusal, offset } = refusal;
    same("mark", library, raw::MarkResult { refusal, offset, mark, window, seat, moves: number })?;
    let length = 3 * number as usize;
    let chain = moves(buffer.front(length)?);
    check_chain(file, mark, &chain, &moves(&twin[..length]))
}

/// A chain of the library against that of plain Rust, for a file with a sheet.
fn check_chain(file: &[u8], mark: u32, chain: &[Bytes], right: &[Bytes]) -> Result<(), String> {
    match reference::read(file) {
        Ok((book, Some(sheet))) => chain::check(&book, &sheet, mark, chain, right),
        _ => Ok(()),
    }
}

/// What a call that writes says, by number, offset and length.
pub fn written(plain: Result<usize, Refusal>) -> raw::WriteResult {
    match plain {
        Ok(length) => raw::WriteResult { refusal: 0, offset: 0, length },
        Err(refusal) => raw::WriteResult { refusal: refusal.number, offset: refusal.offset, length: 0 },
    }
}

fn plan(rng: &mut Rng, seen: &mut Seen, file: &[u8]) -> Result<(), String> {
    let need = reference::read(file).map_or(100, |(book, _)| Layout::of(&book, true).length);
    let mut buffer = Buffer::of_about(rng, need);
    let mut twin = buffer.twin();
    let library = raw::plan(file, buffer.lend());
    let plain = written(reference::plan(file, &mut twin));
    seen.refusals[plain.refusal as usize] += 1;
    if plain.refusal == 22 {
        idle::count_refused(seen, file, plain.offset, twin.len() < need);
    }
    same("plan", library, plain)?;
    let planned = buffer.front(library.length)?;
    if let Some(at) = (0..library.length).find(|&at| planned[at] != twin[at]) {
        return same(&format!("plan: the file from byte {at} on"), &planned[at..], &twin[at..library.length]);
    }
    if library.refusal == 0 {
        check_plan(seen, planned)?;
    }
    Ok(())
}

/// The library gives its own plan mark 4. Counts what the first seat, balances, weights and the step to the standard sheet did to the plan.
fn check_plan(seen: &mut Seen, planned: &[u8]) -> Result<(), String> {
    let settled = raw::MarkResult { refusal: 0, offset: 0, mark: 4, window: 0, seat: 0, moves: 0 };
    same("plan: the mark", raw::mark(planned, &mut [0; MOVES_LENGTH]), settled)?;
    let Ok((book, Some(sheet))) = reference::read(planned) else {
        return Err("plan: not a file with a sheet".to_string());
    };
    seen.first_seats[what_first_does(&book, &sheet)] += 1;
    seen.balances[what_balances_do(&book, &sheet)] += 1;
    seen.weights[what_weights_do(&book, &sheet)] += 1;
    seen.standards[(settled_sheet(&book) != sheet) as usize] += 1;
    idle::count_planned(seen, &book);
    Ok(())
}

/// Whether the book names a first seat, and whether its settled totals are others than those with seat 1 first.
fn what_first_does(book: &Book, settled: &Sheet) -> usize {
    if book.first.is_none() {
        return 0;
    }
    1 + has_other_totals(&Book { first: None, ..book.clone() }, settled) as usize
}

/// Whether the book has balances, whether any is not 0, and whether its settled totals are others than those without them.
fn what_balances_do(book: &Book, settled: &Sheet) -> usize {
    match book.balances {
        None => 0,
        Some(balances) if balances == NOTHING.balances => 1,
        _ => 2 + has_other_totals(&Book { balances: None, ..book.clone() }, settled) as usize,
    }
}

/// Whether the book has weights, whether any is not paper 01's, and whether its settled totals are others than those without them.
fn what_weights_do(book: &Book, settled: &Sheet) -> usize {
    match book.weights {
        None => 0,
        Some(weights) if weights == reference::WEIGHTS => 1,
        _ => 2 + has_other_totals(&Book { weights: None, ..book.clone() }, settled) as usize,
    }
}

/// Whether a book's settled totals are others than those of a sheet.
fn has_other_totals(book: &Book, sheet: &Sheet) -> bool {
    totals(book, &books::planned(book)) != totals(book, sheet)
}

fn listing(rng: &mut Rng, file: &[u8]) -> Result<(), String> {
    let mut buffer = Buffer::of_about(rng, LISTING_LENGTH);
    let text = reference::listing(file);
    let plain = if buffer.lend().len() < LISTING_LENGTH {
        Err(Refusal { number: 16, offset: LISTING_LENGTH })
    } else {
        Ok(text.len())
    };
    let library = raw::listing(file, buffer.lend());
    let front = buffer.front(library.length)?;
    if plain.is_err() {
        return same("listing", library, written(plain));
    }
    check_listing(file, &String::from_utf8_lossy(front), &String::from_utf8_lossy(&text))
}

/// The same lines up to the moves, which are those of a chain that will do.
fn check_listing(file: &[u8], library: &str, plain: &str) -> Result<(), String> {
    let split = |text: &str| {
        let (moves, others): (Vec<String>, Vec<String>) =
            text.split_inclusive('\n').map(String::from).partition(|line| line.starts_with("move "));
        (others, moves)
    };
    let ((lines, moves), (right_lines, right_moves)) = (split(library), split(plain));
    let mark = if right_lines.iter().any(|line| line == "mark 2\n") { 2 } else { 3 };
    same("listing", &lines, &right_lines)?;
    let moves: Option<Vec<Bytes>> = moves.iter().map(|line| move_of(line)).collect();
    let right: Vec<Bytes> = right_moves.iter().filter_map(|line| move_of(line)).collect();
    check_chain(file, mark, &moves.ok_or(format!("listing: {library}"))?, &right)
}

/// The move of a line `move window W from G to T`, if the line reads exactly so.
fn move_of(line: &str) -> Option<Bytes> {
    let numbers: Vec<u8> = line.split_whitespace().filter_map(|word| word.parse().ok()).collect();
    let [window, giver, taker] = numbers[..] else { return None };
    (line == format!("move window {window} from {giver} to {taker}\n")).then_some([window, giver, taker])
}
