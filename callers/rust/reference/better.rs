//! The better of two sheets of one book (paper 02, E1), which E2 lets have different first seats, but E5 no different
//! balances and E6 no different weights.

use std::cmp::Ordering;

use super::marker::handed_in;
use super::{read, refuse_if, Book, Layout, Refusal, Sheet};

/// The file that is chosen, 1 or 2, and where in it the sheet body lies.
#[derive(Clone, Copy, Debug, PartialEq, Eq)]
pub struct Better {
    pub file: u32,
    pub start: usize,
    pub length: usize,
}

/// A refusal with the file that it is of: 1 or 2, or 0 where it is of both.
#[derive(Clone, Copy, Debug, PartialEq, Eq)]
pub struct PairRefusal {
    pub file: u32,
    pub refusal: Refusal,
}

/// A seat's level as the fraction that it is: balance plus total, and weight.
type Level = (u32, u32);

/// The sheet body of the file whose list is higher in dictionary order, and the first file's if the lists are equal.
pub fn better(first: &[u8], second: &[u8]) -> Result<Better, PairRefusal> {
    choose(first, second, |book, sheet, other| dictionary_order(&list(book, sheet), &list(book, other)).is_lt())
}

/// The second file's sheet body if its sheet is higher than the first's, and the first file's if not.
pub fn choose(
    first: &[u8],
    second: &[u8],
    is_higher: impl Fn(&Book, &Sheet, &Sheet) -> bool,
) -> Result<Better, PairRefusal> {
    let of = |file| move |refusal| PairRefusal { file, refusal };
    let (book, sheet) = read(first).map_err(of(1))?;
    let sheet = handed_in(&book, &sheet).map_err(of(1))?;
    let (other_book, other) = read(second).map_err(of(2))?;
    let other = handed_in(&other_book, &other).map_err(of(2))?;
    refuse_if(!same_numbers(&book, &other_book), 17, 0).map_err(of(0))?;
    let (file, book) = if is_higher(&book, sheet, other) { (2, &other_book) } else { (1, &book) };
    Ok(Better { file, start: Layout::of(book, true).sheet, length: 2 * book.seats * book.windows })
}

/// Whether classes, supplies, caps, and balances and weights in force are the same, the weights of unused classes too. The first seat
/// decides ties of settled totals and no list, so it may differ.
fn same_numbers(book: &Book, other: &Book) -> bool {
    book.seats == other.seats
        && book.windows == other.windows
        && book.classes == other.classes
        && book.supplies == other.supplies
        && book.caps == other.caps
        && book.carried() == other.carried()
        && book.table() == other.table()
}

/// All levels, lowest first.
fn list(book: &Book, sheet: &Sheet) -> Vec<Level> {
    let balances = book.carried();
    let total = |seat: usize| sheet[seat][..book.windows].iter().map(|&cell| cell as u32).sum::<u32>();
    let level = |seat: usize| (balances[seat] as u32 + total(seat), book.weight(seat) as u32);
    let mut levels: Vec<Level> = (0..book.seats).map(level).collect();
    levels.sort_by(compare);
    levels
}

/// Fractions by cross products.
fn compare(&(height, weight): &Level, &(other_height, other_weight): &Level) -> Ordering {
    (height * other_weight).cmp(&(other_height * weight))
}

/// The first place where two lists differ decides; without one they are equal.
fn dictionary_order(list: &[Level], other: &[Level]) -> Ordering {
    let places = list.iter().zip(other).map(|(level, other)| compare(level, other));
    places.fold(Ordering::Equal, Ordering::then)
}
