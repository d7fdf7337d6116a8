//! Random books and sheets for comparing and timing.
#![allow(dead_code)]

use super::reference::{
    plan_sheet, write, Book, Sheet, FILE_LENGTH, MOST_BALANCE, MOST_CREDITS, MOST_WEIGHT, SEATS, WEIGHTS, WINDOWS,
};
use super::rng::Rng;

/// Draws a book with that many seats and windows.
pub type Draw = fn(&mut Rng, usize, usize) -> Book;

/// The kinds of books that are timed, by name.
pub const KINDS: [(&str, Draw); 6] = [
    ("dense", dense),
    ("full caps", full_caps),
    ("a quarter filled", quarter),
    ("rings of two", rings),
    ("an eighth filled", eighth),
    ("low caps", low_caps),
];

/// Classes and supplies at random, and caps by seat and window; no seat is idle.
fn draw(rng: &mut Rng, seats: usize, windows: usize, cap: impl Fn(&mut Rng, usize, usize) -> usize) -> Book {
    let mut book = Book::empty(seats, windows);
    for window in 0..windows {
        book.supplies[window] = rng.between(0, 4095) as u16;
    }
    for seat in 0..seats {
        book.classes[seat] = rng.between(1, 8) as u16;
        for window in 0..windows {
            book.caps[seat][window] = cap(rng, seat, window) as u16;
        }
        keep_busy(rng, &mut book, seat, 4095);
    }
    book
}

/// A seat without any cap gets one, of up to `most` credits: a book with an idle seat is not planned.
pub fn keep_busy(rng: &mut Rng, book: &mut Book, seat: usize, most: usize) {
    if book.is_idle(seat) {
        book.caps[seat][rng.below(book.windows)] = rng.between(1, most) as u16;
    }
}

/// Any cap in every cell.
pub fn dense(rng: &mut Rng, seats: usize, windows: usize) -> Book {
    draw(rng, seats, windows, |rng, _, _| rng.between(0, 4095))
}

/// No cap binds.
pub fn full_caps(rng: &mut Rng, seats: usize, windows: usize) -> Book {
    draw(rng, seats, windows, |_, _, _| 4095)
}

/// Every cap is 0 but one in `n`.
fn sparse(rng: &mut Rng, seats: usize, windows: usize, n: usize) -> Book {
    draw(rng, seats, windows, |rng, _, _| if rng.once_in(n) { rng.between(0, 4095) } else { 0 })
}

pub fn quarter(rng: &mut Rng, seats: usize, windows: usize) -> Book {
    sparse(rng, seats, windows, 4)
}

pub fn eighth(rng: &mut Rng, seats: usize, windows: usize) -> Book {
    sparse(rng, seats, windows, 8)
}

/// Each seat uses two windows next to each other, all in one ring.
pub fn rings(rng: &mut Rng, seats: usize, windows: usize) -> Book {
    draw(rng, seats, windows, |rng, seat, window| {
        let place = (window + windows - seat % windows) % windows;
        if place < 2 {
            rng.between(0, 4095)
        } else {
            0
        }
    })
}

/// Supplies are scarce or plenty against caps of a few credits.
pub fn low_caps(rng: &mut Rng, seats: usize, windows: usize) -> Book {
    let mut book = draw(rng, seats, windows, |rng, _, _| rng.between(0, 12));
    for window in 0..windows {
        book.supplies[window] = rng.between(0, 8 * seats) as u16;
    }
    book
}

/// Gives a book something that it had not, or had otherwise.
pub type Change = fn(&mut Rng, Book) -> Book;

/// The same book with any of its seats first today.
pub fn with_first(rng: &mut Rng, book: Book) -> Book {
    Book { first: Some(rng.between(1, book.seats) as u16), ..book }
}

/// The kinds of balances that are timed, by name.
pub const BALANCES: [(&str, Change); 3] =
    [("near the totals", near_balances), ("of any height", any_balances), ("few and large", large_balances)];

/// Balances by seat.
fn with_balances(rng: &mut Rng, book: Book, balance: impl Fn(&mut Rng) -> usize) -> Book {
    let mut balances = [0; SEATS];
    balances[..book.seats].fill_with(|| balance(rng) as u16);
    Book { balances: Some(balances), ..book }
}

/// Any balances from `least` to `most`.
fn balances_between(rng: &mut Rng, book: Book, least: usize, most: usize) -> Book {
    with_balances(rng, book, |rng| rng.between(least, most))
}

/// Balances about as high as the seats' totals are: up to twice an even share of all supplies.
fn near_balances(rng: &mut Rng, book: Book) -> Book {
    let supplies: usize = book.supplies[..book.windows].iter().map(|&supply| supply as usize).sum();
    let most = (2 * supplies / book.seats).min(MOST_BALANCE as usize);
    balances_between(rng, book, 0, most)
}

/// Any balances, up to the highest.
fn any_balances(rng: &mut Rng, book: Book) -> Book {
    balances_between(rng, book, 0, MOST_BALANCE as usize)
}

/// One seat in four carries much, which puts it above all others; these carry nothing.
fn large_balances(rng: &mut Rng, book: Book) -> Book {
    let most = MOST_BALANCE as usize;
    with_balances(rng, book, |rng| if rng.once_in(4) { rng.between(most / 2, most) } else { 0 })
}

/// Balances that are a few credits apart, which decide ties: from 0 up, at times all zeros, or up to the highest.
pub fn close_balances(rng: &mut Rng, book: Book) -> Book {
    let apart = rng.below(4);
    let least = if rng.once_in(4) { MOST_BALANCE as usize - apart } else { 0 };
    balances_between(rng, book, least, least + apart)
}

/// The tables of weights that are timed, by name.
pub const TABLES: [(&str, Change); 4] =
    [("paper 01's", same_weights), ("1 to 8", lowest_weights), ("993 to 1000", highest_weights), ("any", any_weights)];

/// The same book with any weights from `least` to `most`.
pub fn with_weights(rng: &mut Rng, book: Book, least: usize, most: usize) -> Book {
    Book { weights: Some(rng.rising(least, most)), ..book }
}

/// The weights that the book has anyway.
fn same_weights(_: &mut Rng, book: Book) -> Book {
    Book { weights: Some(WEIGHTS), ..book }
}

/// The lowest weights that rise.
fn lowest_weights(rng: &mut Rng, book: Book) -> Book {
    with_weights(rng, book, 1, 8)
}

/// The highest weights that rise, which are nearly equal.
fn highest_weights(rng: &mut Rng, book: Book) -> Book {
    with_weights(rng, book, MOST_WEIGHT as usize - 7, MOST_WEIGHT as usize)
}

/// Any weights.
fn any_weights(rng: &mut Rng, book: Book) -> Book {
    with_weights(rng, book, 1, MOST_WEIGHT as usize)
}

/// Few seats whose heights and weights can be as great as there are: 148,280 credits, and 1,000.
pub fn greatest(rng: &mut Rng) -> Book {
    let seats = rng.between(2, 4);
    let mut book = full_caps(rng, seats, WINDOWS);
    book.supplies.fill(MOST_CREDITS);
    let book = balances_between(rng, book, MOST_BALANCE as usize - 3, MOST_BALANCE as usize);
    highest_weights(rng, book)
}

/// The file of a book, with or without a sheet.
pub fn file_of(book: &Book, sheet: Option<&Sheet>) -> Vec<u8> {
    let mut out = [0; FILE_LENGTH];
    let length = write(book, sheet, &mut out).expect("a book within its bounds");
    out[..length].to_vec()
}

/// The standard sheet of a book, be it one that is not planned for its idle seats.
pub fn planned(book: &Book) -> Sheet {
    plan_sheet(book)
}

/// Every window handed out by itself, to seats from that one on, up to their caps.
pub fn windows_alone(book: &Book, first: usize) -> Sheet {
    let mut sheet = [[0; WINDOWS]; SEATS];
    for window in 0..book.windows {
        let mut left = book.supplies[window];
        for step in 0..book.seats {
            let seat = (first + step) % book.seats;
            sheet[seat][window] = left.min(book.caps[seat][window]);
            left -= sheet[seat][window];
        }
    }
    sheet
}

/// The sheet after that many moves drawn at random, each of up to `most` credits; it stays lawful, and as wasteful as it was.
pub fn spoilt(rng: &mut Rng, book: &Book, sheet: &Sheet, moves: usize, most: usize) -> Sheet {
    let mut sheet = *sheet;
    for _ in 0..moves {
        let (window, giver, taker) = (rng.below(book.windows), rng.below(book.seats), rng.below(book.seats));
        if giver != taker {
            let credits = room(book, &sheet, window, giver, taker).min(rng.between(1, most) as u16);
            hand_over(&mut sheet, window, giver, taker, credits);
        }
    }
    sheet
}

/// A sheet with the same totals and window sums, and mostly with other cells: pairs of seats exchange as many credits in one window as in
/// another, where there is room.
pub fn same_totals(rng: &mut Rng, book: &Book, sheet: &Sheet) -> Sheet {
    let mut sheet = *sheet;
    for _ in 0..30 {
        let (seat, other) = (rng.below(book.seats), rng.below(book.seats));
        let (there, back) = (rng.below(book.windows), rng.below(book.windows));
        let most = room(book, &sheet, there, seat, other).min(room(book, &sheet, back, other, seat));
        let credits = most.min(rng.between(1, 40) as u16);
        hand_over(&mut sheet, there, seat, other, credits);
        hand_over(&mut sheet, back, other, seat, credits);
    }
    sheet
}

/// How many credits can go in a window from one seat to another.
pub fn room(book: &Book, sheet: &Sheet, window: usize, giver: usize, taker: usize) -> u16 {
    sheet[giver][window].min(book.caps[taker][window] - sheet[taker][window])
}

/// So many credits go in a window from one seat to another.
pub fn hand_over(sheet: &mut Sheet, window: usize, giver: usize, taker: usize, credits: u16) {
    sheet[giver][window] -= credits;
    sheet[taker][window] += credits;
}
