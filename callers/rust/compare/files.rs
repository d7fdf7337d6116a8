//! Day files: accepted ones, damaged ones and noise.

use super::books::{
    close_balances, file_of, greatest, keep_busy, planned, same_totals, spoilt, windows_alone, with_first,
    with_weights, BALANCES, KINDS, TABLES,
};
use super::idle;
use super::reference::{Book, Sheet, SEATS, WINDOWS};
use super::rng::Rng;

/// A file on which the shortest chain has 24 moves, the most there are.
const LADDER: &[u8] = include_bytes!("../../../examples/full-ladder.day");

pub const NO_CREDITS: Sheet = [[0; WINDOWS]; SEATS];

/// Values at which something changes.
const EDGES: [u16; 23] =
    [0, 1, 2, 3, 4, 5, 6, 7, 8, 9, 16, 24, 26, 48, 50, 64, 66, 1000, 1001, 4095, 4096, 50_000, 50_001];

pub fn draw(rng: &mut Rng) -> Vec<u8> {
    match rng.below(12) {
        0 => noise(rng),
        1..=3 => parts(rng),
        4 | 5 => {
            let file = accepted(rng);
            damaged(rng, file)
        }
        _ => accepted(rng),
    }
}

/// Seats and windows of a book: few, any or all.
pub fn size(rng: &mut Rng) -> (usize, usize) {
    match rng.below(16) {
        0 | 1 => (SEATS, WINDOWS),
        2..=4 => (rng.between(1, SEATS), rng.between(1, WINDOWS)),
        5..=7 => (rng.between(1, 8), rng.between(1, 8)),
        _ => (rng.between(1, 4), rng.between(1, 4)),
    }
}

/// Any kind of book, some with the greatest numbers, and one in six with idle seats.
pub fn book(rng: &mut Rng) -> Book {
    let book = if rng.once_in(24) { greatest(rng) } else { busy_book(rng) };
    idle::at_times(rng, book)
}

/// A book without idle seats, half of them with a first seat, half with balances, and half with weights.
fn busy_book(rng: &mut Rng) -> Book {
    let (seats, windows) = size(rng);
    let mut book = KINDS[rng.below(KINDS.len())].1(rng, seats, windows);
    if rng.once_in(2) {
        // Small numbers, where levels often tie; and few classes.
        let (most, last_class) = (rng.between(1, 6), rng.between(1, 2));
        book.caps.iter_mut().flatten().for_each(|cap| *cap = (*cap).min(rng.between(0, most) as u16));
        book.supplies.iter_mut().for_each(|supply| *supply %= (most * seats) as u16 + 1);
        book.classes.iter_mut().for_each(|class| *class = (*class).min(last_class as u16));
        (0..seats).for_each(|seat| keep_busy(rng, &mut book, seat, most));
    }
    let book = any_first(rng, book);
    let book = any_balances(rng, book);
    any_weights(rng, book)
}

/// Half of the books name a first seat, which is any of theirs.
pub fn any_first(rng: &mut Rng, book: Book) -> Book {
    if rng.once_in(2) {
        with_first(rng, book)
    } else {
        Book { first: None, ..book }
    }
}

/// Half of the books have balances, of any kind.
pub fn any_balances(rng: &mut Rng, book: Book) -> Book {
    match rng.below(8) {
        0..=3 => Book { balances: None, ..book },
        4 => close_balances(rng, book),
        kind => BALANCES[kind - 5].1(rng, book),
    }
}

/// Half of the books have weights: low ones with which levels are often equal, or of a kind that is timed.
pub fn any_weights(rng: &mut Rng, book: Book) -> Book {
    match rng.below(10) {
        0..=4 => Book { weights: None, ..book },
        5 => with_weights(rng, book, 1, 12),
        kind => TABLES[kind - 6].1(rng, book),
    }
}

/// A sheet as one may hand it in.
pub fn sheet(rng: &mut Rng, book: &Book) -> Sheet {
    let first = rng.below(book.seats);
    match rng.below(16) {
        0 => planned(book),
        1 => windows_alone(book, first),
        2 => spoilt(rng, book, &windows_alone(book, first), 100, 100),
        3..=7 => {
            let (moves, most) = (1 << rng.below(7), 1 << rng.below(12));
            spoilt(rng, book, &planned(book), moves, most)
        }
        8 => spoilt(rng, book, &planned(book), 3, 1),
        // Settled on a day on which another seat comes first.
        9 | 10 => planned(&any_first(rng, book.clone())),
        11 => with_other_cells(rng, book, &planned(book)),
        // Settled as well, and mostly not the standard sheet.
        12 => same_totals(rng, book, &planned(book)),
        // Settled with other balances, or with none.
        13 => planned(&any_balances(rng, book.clone())),
        // Settled with other weights, or with those of paper 01.
        14 => planned(&any_weights(rng, book.clone())),
        _ => with_other_cells(rng, book, &NO_CREDITS),
    }
}

/// Some cells get any number, mostly a lower one: the sheet is wasteful, or not lawful.
pub fn with_other_cells(rng: &mut Rng, book: &Book, sheet: &Sheet) -> Sheet {
    let mut sheet = *sheet;
    for _ in 0..rng.between(1, 5) {
        let (seat, window) = (rng.below(book.seats), rng.below(book.windows));
        let cap = book.caps[seat][window] as usize;
        let value = if rng.once_in(4) { rng.below(cap + 3) } else { rng.below(sheet[seat][window] as usize + 1) };
        sheet[seat][window] = if rng.once_in(20) { rng.below(65536) } else { value } as u16;
    }
    sheet
}

/// A file that the reader takes, with or without a sheet.
fn accepted(rng: &mut Rng) -> Vec<u8> {
    if rng.once_in(1000) {
        return LADDER.to_vec();
    }
    let book = book(rng);
    with_any_sheet(rng, &book)
}

/// The file of a book, mostly with a sheet.
pub fn with_any_sheet(rng: &mut Rng, book: &Book) -> Vec<u8> {
    let sheet = (!rng.once_in(6)).then(|| sheet(rng, book));
    file_of(book, sheet.as_ref())
}

/// A file with bytes flipped, fields changed (the last ones, too, which may be the first seat, balances or weights), its end cut off or
/// grown.
pub fn damaged(rng: &mut Rng, mut file: Vec<u8>) -> Vec<u8> {
    for _ in 0..rng.between(1, 3) {
        let length = file.len();
        if length < 2 {
            break;
        }
        match rng.below(8) {
            0 => file[rng.below(length)] ^= 1 << rng.below(8),
            1 => set_field(&mut file, 2 * rng.below(length / 2), EDGES[rng.below(EDGES.len())]),
            2 => set_field(&mut file, 2 * rng.below(22.min(length / 2)), rng.below(65536) as u16),
            3 => file.truncate(rng.below(length + 1)),
            4 => file.truncate(length - rng.between(1, 2)),
            5 => set_field(&mut file, length - 2, EDGES[rng.below(EDGES.len())]),
            6 => set_field(&mut file, length - 2 * rng.between(1, 8.min(length / 2)), rng.below(1002) as u16),
            _ => file.extend(vec![rng.below(256) as u8; rng.between(1, 3)]),
        }
    }
    file
}

fn set_field(file: &mut [u8], at: usize, value: u16) {
    file[at..at + 2].copy_from_slice(&value.to_le_bytes());
}

/// A kind and the body that goes with it.
type Part = (usize, Vec<u8>);

/// A table of contents, mostly in order, over bodies of which some are longer, shorter, odd or of values at the edge.
fn parts(rng: &mut Rng) -> Vec<u8> {
    let (seats, windows) = size(rng);
    let (seats, windows) = (seats + rng.below(34) / 33, windows + rng.below(34) / 33);
    let mut parts = vec![(1, fields(rng, seats, 8)), (2, fields(rng, windows, 4095))];
    parts.push((3, fields(rng, seats * windows, 4095)));
    for kind in optional_kinds(rng) {
        let body = match kind {
            4 => fields(rng, seats * windows, 4095),
            6 => fields(rng, seats, 50_000),
            7 => weights(rng),
            _ => fields(rng, 1, seats),
        };
        parts.push((kind, body));
    }
    if rng.once_in(2) {
        let at = rng.below(parts.len());
        let length = other_length(rng, parts[at].1.len());
        parts[at].1.resize(length, 1);
    }
    assemble(rng, &parts)
}

/// A little longer, any short length, or at times far more than a file has.
fn other_length(rng: &mut Rng, length: usize) -> usize {
    match rng.below(16) {
        0 => rng.below(60_000),
        1..=8 => length + rng.between(1, 2),
        _ => rng.below(70),
    }
}

/// The kinds after kind 3: mostly in order, and at times turned round, twice, unknown or one too many.
fn optional_kinds(rng: &mut Rng) -> Vec<usize> {
    let turned = [&[5, 4][..], &[6, 4], &[6, 5], &[7, 4], &[7, 6], &[4, 6, 5], &[4, 5, 7, 6], &[3, 5]];
    let twice = [&[4, 4][..], &[5, 5], &[6, 6], &[7, 7], &[4, 6, 6], &[6, 7, 7], &[5, 5, 5], &[7, 7, 7, 7]];
    let unknown = [&[8][..], &[4, 8], &[6, 8], &[7, 8], &[4, 5, 8], &[4, 5, 6, 8], &[5, 6, 7, 8], &[4, 5, 6, 7, 8]];
    if rng.once_in(9) {
        let lists = [turned, twice, unknown].concat();
        return lists[rng.below(lists.len())].to_vec();
    }
    let there = rng.below(16);
    (4..8).filter(|kind| there >> (kind - 4) & 1 == 1).collect()
}

/// Eight weights that rise; in one file of four some do not, or are out of bounds.
fn weights(rng: &mut Rng) -> Vec<u8> {
    let mut weights = any_weights(rng, Book::empty(1, 1)).table();
    if rng.once_in(4) {
        (0..rng.between(1, 2)).for_each(|_| spoil_weight(rng, &mut weights));
    }
    weights.iter().flat_map(|weight| weight.to_le_bytes()).collect()
}

/// One weight out of bounds or just within, the same as the one before or one less, or any.
pub fn spoil_weight(rng: &mut Rng, weights: &mut [u16; 8]) {
    let place = rng.below(8);
    let before = weights[place.saturating_sub(1)];
    weights[place] = match rng.below(4) {
        0 => [0, 1, 1000, 1001, 65535][rng.below(5)],
        1 => before,
        2 => before.saturating_sub(1),
        _ => rng.below(1002) as u16,
    };
}

/// That many fields from 1 to `most`, one in some hundred just beyond.
fn fields(rng: &mut Rng, number: usize, most: usize) -> Vec<u8> {
    let bad = rng.once_in(4).then(|| rng.below(number));
    let value = |place| if bad == Some(place) { [0, most + 1, 65535][rng.below(3)] } else { rng.between(1, most) };
    (0..number).map(value).flat_map(|value| (value as u16).to_le_bytes()).collect()
}

/// The file of these parts; one kind, start or length in some may be wrong.
fn assemble(rng: &mut Rng, parts: &[Part]) -> Vec<u8> {
    let mut start = 2 + 6 * parts.len();
    let mut contents = vec![parts.len()];
    for (kind, body) in parts {
        contents.extend([*kind, start, body.len()]);
        start += body.len();
    }
    if rng.once_in(8) {
        let place = 1 + rng.below(contents.len() - 1);
        contents[place] = rng.below(10);
    }
    let contents = contents.iter().flat_map(|&field| (field as u16).to_le_bytes());
    contents.chain(parts.iter().flat_map(|(_, body)| body.iter().copied())).collect()
}

/// Any bytes, most often few; at times far more than a file has.
fn noise(rng: &mut Rng) -> Vec<u8> {
    let length = match rng.below(40) {
        0 => rng.below(70_000),
        1 => rng.below(4000),
        _ => rng.below(60),
    };
    let mut file: Vec<u8> = (0..length).map(|_| rng.below(256) as u8).collect();
    if length >= 2 && !rng.once_in(8) {
        file[..2].copy_from_slice(&[rng.between(3, 7) as u8, 0]);
    }
    file
}
