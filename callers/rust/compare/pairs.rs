//! Pairs of day files, and the call that chooses between their sheets.

use super::books::{file_of, full_caps, planned, same_totals, spoilt, with_weights};
use super::calls::same;
use super::chain::{list, moves, play};
use super::credits::raw;
use super::files::{self, NO_CREDITS};
use super::idle;
use super::reference::{
    self, feasible, Book, PairRefusal, Sheet, MOST_BALANCE, MOST_CREDITS, MOST_WEIGHT, MOVES_LENGTH, SEATS, WEIGHTS,
    WINDOWS,
};
use super::rng::Rng;
use super::Seen;

/// The first file and the second.
pub type Pair = [Vec<u8>; 2];

/// A book and a lawful sheet of it.
type Day = (Book, Sheet);

/// What may come of a pair: the file of a refusal has its number as place, then come the orders of the lists. The others count pairs again.
/// Of one book are those with other first seats, those that have nothing else different, and those in which zeros stand against no
/// balances or paper 01's weights against none. Of two books are those that differ in balances alone or in weights alone, those of them in
/// which one has none, and those in which no weight that differs is of a seat's class.
pub const OUTCOMES: [&str; 15] = [
    "books differ",
    "first refused",
    "second refused",
    "first list lower",
    "equal lists",
    "first list higher",
    "other first seats",
    "only first seats differ",
    "zeros against no balances",
    "only balances differ",
    "other balances against none",
    "01's weights against none",
    "only weights differ",
    "other weights against none",
    "only unused weights differ",
];
const OTHER_FIRST: usize = 6;
const ONLY_FIRST: usize = 7;
const ZEROS_OR_NONE: usize = 8;
const OTHER_BALANCES: usize = 9;
const BALANCES_OR_NONE: usize = 10;
const BUILT_IN_OR_NONE: usize = 11;
const OTHER_WEIGHTS: usize = 12;
const WEIGHTS_OR_NONE: usize = 13;
const UNUSED_WEIGHTS: usize = 14;

pub fn draw(rng: &mut Rng) -> Pair {
    if rng.once_in(12) {
        let file = files::draw(rng);
        return [file.clone(), file];
    }
    let mut days = match rng.below(18) {
        0 => cut_in_two_ways(rng),
        1 | 2 => like_seats(rng),
        3 | 4 => levels_dealt(rng),
        5 => {
            let day = any_day(rng);
            [day.clone(), day]
        }
        6..=9 => {
            let day = any_day(rng);
            [day.clone(), other_book(rng, day)]
        }
        _ => {
            let (book, sheet) = any_day(rng);
            // Not every way leads to another sheet, so some are tried.
            let other = (0..8).map(|_| other_sheet(rng, &book, &sheet)).find(|other| *other != sheet);
            [(book.clone(), sheet), (book, other.unwrap_or(sheet))]
        }
    };
    // Other first seats make no other book, nor do zeros or paper 01's weights.
    if rng.once_in(2) {
        days = days.map(|(book, sheet)| (files::any_first(rng, book), sheet));
    }
    if rng.once_in(2) {
        days = days.map(|(book, sheet)| (same_meaning(rng, book), sheet));
    }
    if rng.once_in(2) {
        days.swap(0, 1);
    }
    // Faults come together, so that the refusals of two files often meet.
    let one_in = if rng.once_in(4) { 2 } else { 50 };
    days.map(|(book, sheet)| handed_in(rng, one_in, &book, &sheet))
}

/// The same book with zeros or without them, if it has no other balances; and with paper 01's weights or without, if it has no others.
fn same_meaning(rng: &mut Rng, book: Book) -> Book {
    let zeros = [0; SEATS];
    let balances = if book.carried() == zeros { rng.once_in(2).then_some(zeros) } else { book.balances };
    let weights = if book.table() == WEIGHTS { rng.once_in(2).then_some(WEIGHTS) } else { book.weights };
    Book { balances, weights, ..book }
}

/// The day's file; at times without its sheet, with other cells, damaged, or any file at all.
fn handed_in(rng: &mut Rng, one_in: usize, book: &Book, sheet: &Sheet) -> Vec<u8> {
    if !rng.once_in(one_in) {
        return file_of(book, Some(sheet));
    }
    match rng.below(4) {
        0 => file_of(book, None),
        1 => file_of(book, Some(&files::with_other_cells(rng, book, sheet))),
        2 => files::damaged(rng, file_of(book, Some(sheet))),
        _ => files::draw(rng),
    }
}

fn any_day(rng: &mut Rng) -> Day {
    let book = files::book(rng);
    let sheet = lawful(rng, &book);
    (book, sheet)
}

pub fn lawful(rng: &mut Rng, book: &Book) -> Sheet {
    loop {
        let sheet = files::sheet(rng, book);
        if feasible(book, &sheet).is_ok() {
            return sheet;
        }
    }
}

/// Another sheet of the book: any, the planned one, a chain or a credit away, or with the same totals.
fn other_sheet(rng: &mut Rng, book: &Book, sheet: &Sheet) -> Sheet {
    match rng.below(6) {
        0 => lawful(rng, book),
        1 => planned(book),
        2 => after_chain(book, sheet),
        3 => spoilt(rng, book, sheet, 1, 1),
        4 => one_credit_less(rng, sheet),
        _ => same_totals(rng, book, sheet),
    }
}

/// The sheet after the marker's chain, if there is one.
fn after_chain(book: &Book, sheet: &Sheet) -> Sheet {
    let mut chain = [0; MOVES_LENGTH];
    let marked = reference::mark(&file_of(book, Some(sheet)), &mut chain).expect("a lawful sheet");
    let mut after = *sheet;
    moves(&chain[..3 * marked.moves as usize]).iter().for_each(|m| play(&mut after, m));
    after
}

fn one_credit_less(rng: &mut Rng, sheet: &Sheet) -> Sheet {
    let mut sheet = *sheet;
    let mut held: Vec<&mut u16> = sheet.iter_mut().flatten().filter(|cell| **cell > 0).collect();
    let place = rng.below(held.len().max(1));
    if let Some(cell) = held.get_mut(place) {
        **cell -= 1;
    }
    sheet
}

/// Two seats of one class, with the same caps and the same balance, the other way round in the other sheet.
fn like_seats(rng: &mut Rng) -> [Day; 2] {
    let mut book = files::book(rng);
    let (seat, other) = (rng.below(book.seats), rng.below(book.seats));
    book.classes[other] = book.classes[seat];
    book.caps[other] = book.caps[seat];
    if let Some(balances) = &mut book.balances {
        balances[other] = balances[seat];
    }
    let sheet = lawful(rng, &book);
    let mut swapped = sheet;
    swapped.swap(seat, other);
    [(book.clone(), sheet), (book, swapped)]
}

/// The same whole levels dealt out to other seats, whose totals differ where their weights do; at times a credit is missing, and at times
/// a part of what a seat has in both sheets is its balance. Own weights are so low that one window can hold three credits of each.
fn levels_dealt(rng: &mut Rng) -> [Day; 2] {
    let (seats, windows) = files::size(rng);
    let mut book = full_caps(rng, seats, windows);
    book.supplies[..windows].fill(MOST_CREDITS);
    if rng.once_in(2) {
        let most = MOST_CREDITS as usize / (3 * seats);
        book = with_weights(rng, book, 1, most.min(MOST_WEIGHT as usize));
    }
    let mut levels: Vec<u16> = (0..seats).map(|_| rng.below(4) as u16).collect();
    let dealt = [0; 2].map(|_| {
        levels.rotate_left(rng.below(seats));
        let height = |seat: usize| levels[seat] * book.weight(seat);
        (0..seats).map(height).collect::<Vec<_>>()
    });
    if rng.once_in(2) {
        let balances = book.balances.insert([0; SEATS]);
        for seat in 0..seats {
            balances[seat] = rng.between(0, dealt[0][seat].min(dealt[1][seat]) as usize) as u16;
        }
    }
    let (balances, missing) = (book.carried(), rng.once_in(2));
    dealt.map(|heights| {
        let mut sheet = NO_CREDITS;
        for seat in 0..seats {
            sheet[seat][rng.below(windows)] = heights[seat] - balances[seat];
        }
        (book.clone(), if missing { one_credit_less(rng, &sheet) } else { sheet })
    })
}

/// Another book with the same sheet, as far as there is room for it: another number, no balances, no or other weights, a seat or a window
/// more; or any day.
fn other_book(rng: &mut Rng, (mut book, sheet): Day) -> Day {
    let (seat, window) = (rng.below(book.seats), rng.below(book.windows));
    let class = book.classes[seat] as usize;
    match rng.below(11) {
        0 => book.classes[seat] = ((class + rng.below(7)) % 8 + 1) as u16,
        1 => book.supplies[window] = next_to(rng, book.supplies[window], MOST_CREDITS),
        2 => book.caps[seat][window] = next_to(rng, book.caps[seat][window], MOST_CREDITS),
        3 => book.balances = None,
        4 => {
            let balances = book.balances.get_or_insert([0; SEATS]);
            balances[seat] = next_to(rng, balances[seat], MOST_BALANCE);
        }
        5 if book.seats < SEATS => {
            book.classes[book.seats] = class as u16;
            book.seats += 1;
        }
        6 if book.windows < WINDOWS => book.windows += 1,
        7 => book.weights = None,
        8 => book = files::any_weights(rng, book),
        9 => book.weights = Some(next_table(rng, book.table())),
        _ => return any_day(rng),
    }
    (book, sheet)
}

/// The same weights but for one, of any class, which is one more or one less.
fn next_table(rng: &mut Rng, weights: [u16; 8]) -> [u16; 8] {
    let rises = |weights: &[u16; 8]| weights.windows(2).all(|pair| pair[0] < pair[1]);
    let step = |(class, step): (usize, i16)| {
        let mut other = weights;
        other[class] = weights[class].wrapping_add_signed(step);
        other
    };
    let steps = (0..8).flat_map(|class| [(class, -1), (class, 1)]).map(step);
    let tables: Vec<_> = steps.filter(|other| rises(other) && other[0] >= 1 && other[7] <= MOST_WEIGHT).collect();
    tables[rng.below(tables.len())]
}

/// One more, or at times one less, with which the sheet may not be lawful.
fn next_to(rng: &mut Rng, credits: u16, most: u16) -> u16 {
    if credits == most || credits > 0 && rng.once_in(4) {
        credits - 1
    } else {
        credits + 1
    }
}

/// The same bytes from the classes on, cut up by other numbers of seats and windows.
fn cut_in_two_ways(rng: &mut Rng) -> [Day; 2] {
    let (number, other) = (rng.between(1, WINDOWS), rng.between(1, WINDOWS));
    let numbers: Vec<u16> = (0..number + other + number * other).map(|_| rng.between(1, 8) as u16).collect();
    [(number, other), (other, number)].map(|(seats, windows)| {
        let mut book = Book::empty(seats, windows);
        let (classes, rest) = numbers.split_at(seats);
        let (supplies, caps) = rest.split_at(windows);
        book.classes[..seats].copy_from_slice(classes);
        book.supplies[..windows].copy_from_slice(supplies);
        for (row, caps) in book.caps.iter_mut().zip(caps.chunks(windows)) {
            row[..windows].copy_from_slice(caps);
        }
        (book, NO_CREDITS)
    })
}

/// Every field of the result; and neither file changes, in one place of memory or in two.
pub fn better(seen: &mut Seen, pair: &Pair) -> Result<(), String> {
    let [first, second] = pair;
    let before = pair.clone();
    let library = raw::better(first, second);
    let (refusal, offset, file, start, length) = match reference::better(first, second) {
        Ok(chosen) => (0, 0, chosen.file, chosen.start, chosen.length),
        Err(PairRefusal { file, refusal }) => (refusal.number, refusal.offset, file, 0, 0),
    };
    let plain = raw::BetterResult { refusal, offset, file, start, length };
    same("better", library, plain)?;
    if first == second {
        same("better, of a file and itself", raw::better(first, first), plain)?;
    }
    same("better: the files", pair, &before)?;
    seen.refusals[refusal as usize] += 1;
    seen.pairs[if refusal == 0 { check_choice(seen, pair, &library)? } else { file as usize }] += 1;
    check_optional(seen, pair, &library)
}

/// Files of one book are not turned away for the first seats that they name, nor for zeros or paper 01's weights in one of them; but for
/// other balances and other weights they are.
fn check_optional(seen: &mut Seen, pair: &Pair, library: &raw::BetterResult) -> Result<(), String> {
    let [Ok((book, sheet)), Ok((other_book, other))] = [0, 1].map(|place| reference::read(&pair[place])) else {
        return Ok(());
    };
    let without = |book: &Book| Book { first: None, balances: None, weights: None, ..book.clone() };
    if without(&book) != without(&other_book) {
        return Ok(());
    }
    if book.carried() != other_book.carried() || book.table() != other_book.table() {
        if library.refusal == 17 {
            count_two_books(seen, &book, &other_book);
        }
        return same("better, with other balances or weights: a choice", library.refusal == 0, false);
    }
    if library.refusal == 0 {
        let other_first = book.first != other_book.first;
        seen.pairs[OTHER_FIRST] += other_first as usize;
        let only_first = other_first && (book.balances, book.weights) == (other_book.balances, other_book.weights);
        seen.pairs[ONLY_FIRST] += (only_first && sheet == other) as usize;
        seen.pairs[ZEROS_OR_NONE] += (book.balances != other_book.balances) as usize;
        seen.pairs[BUILT_IN_OR_NONE] += (book.weights != other_book.weights) as usize;
    }
    same("better, with one book: refused by 17", library.refusal == 17, false)
}

/// Counts two books that differ in nothing but balances or weights; where they differ in both, nothing.
fn count_two_books(seen: &mut Seen, book: &Book, other: &Book) {
    if book.table() == other.table() {
        seen.pairs[OTHER_BALANCES] += 1;
        seen.pairs[BALANCES_OR_NONE] += (book.balances.is_some() != other.balances.is_some()) as usize;
    } else if book.carried() == other.carried() {
        let same_weights = (0..book.seats).all(|seat| book.weight(seat) == other.weight(seat));
        seen.pairs[OTHER_WEIGHTS] += 1;
        seen.pairs[WEIGHTS_OR_NONE] += (book.weights.is_some() != other.weights.is_some()) as usize;
        seen.pairs[UNUSED_WEIGHTS] += same_weights as usize;
    }
}

/// The body has the cells of that file's sheet, and the order of the lists gives that file. Gives the order's place.
fn check_choice(seen: &mut Seen, pair: &Pair, chosen: &raw::BetterResult) -> Result<usize, String> {
    let [Ok((book, Some(sheet))), Ok((_, Some(other)))] = [0, 1].map(|place| reference::read(&pair[place])) else {
        return Err("better: not two files with sheets".to_string());
    };
    let (file, right) = [(&pair[0], &sheet), (&pair[1], &other)][chosen.file as usize - 1];
    let cells = right[..book.seats].iter().flat_map(|row| &row[..book.windows]);
    let body: Vec<u8> = cells.flat_map(|cell| cell.to_le_bytes()).collect();
    same("better: the body", file.get(chosen.start..chosen.start + chosen.length), Some(&body))?;
    let order = list(&book, &sheet).cmp(&list(&book, &other));
    same("better: the file by its list", chosen.file, if order.is_lt() { 2 } else { 1 })?;
    idle::count_choice(seen, &book, chosen.file);
    Ok((4 + order as i8) as usize)
}
