//! The library's way from wanted totals to a sheet in plain Rust, for the sake of its speed: the same steps in the same order, with
//! nothing proved.
//!
//! The first seat that wants more than it could get alone is a group by itself. Otherwise the seats are served in turn. If one is left
//! short, the book is settled from there with all weights equal, where each seat starts from a height that is lower the more it wants, so
//! that a seat stands at one height if it has just its want. The lowest seat that then has less than its want is a group with all seats
//! that it reaches. If there is none, each row is cut down to its want.

use super::reference::{fulfil_by, Book, Fulfilled, Refusal, Sheet, Wants, MOST_CREDITS, WINDOWS};
use super::same_method::Desk;
use super::same_standard::totals;

/// The height of a seat that has just its want: as many credits as there can be.
const JUST: u64 = WINDOWS as u64 * MOST_CREDITS as u64;

pub fn fulfil(file: &[u8], row: &[u8], out: &mut [u8]) -> Result<Fulfilled, Refusal> {
    fulfil_by(file, row, out, |book, wants| sheet_or_group(book, wants).0)
}

/// A sheet or, as its error, a group; and the turns of the three parts that settle.
pub fn sheet_or_group(book: &Book, wants: &Wants) -> (Result<Sheet, u32>, [usize; 3]) {
    if let Some(seat) = (0..book.seats).find(|&seat| wants[seat] > most_alone(book, seat)) {
        return (Err(1 << seat), [0; 3]);
    }
    let served = serve(book, wants);
    if short(&served, wants).is_none() {
        return (Ok(cut_down(served, wants)), [0; 3]);
    }
    let totals = totals(&served);
    let heights = std::array::from_fn(|seat| JUST - wants[seat] as u64 + totals[seat] as u64);
    let desk = Desk::settled_from(book, served, heights);
    let reply = match short(&desk.grid, wants) {
        Some(seat) => Err(desk.reached_by(seat)),
        None => Ok(cut_down(desk.grid, wants)),
    };
    (reply, desk.turns)
}

/// The first seat that has less than it wants.
fn short(grid: &Sheet, wants: &Wants) -> Option<usize> {
    totals(grid).iter().zip(wants).position(|(total, want)| total < want)
}

/// Each seat in turn takes what it wants, as far as its caps and what those before it left allow.
fn serve(book: &Book, wants: &Wants) -> Sheet {
    let mut left = book.supplies;
    let mut grid = book.caps;
    for (row, want) in grid.iter_mut().zip(wants) {
        let mut missing = *want;
        for (cell, left) in row.iter_mut().zip(&mut left) {
            *cell = missing.min((*cell).min(*left) as u32) as u16;
            missing -= *cell as u32;
            *left -= *cell;
        }
    }
    grid
}

/// What a seat can get if the others get nothing.
pub fn most_alone(book: &Book, seat: usize) -> u32 {
    book.caps[seat].iter().zip(&book.supplies).map(|(&cap, &supply)| cap.min(supply) as u32).sum()
}

/// Each cell keeps what the windows before it leave of the seat's want.
fn cut_down(mut grid: Sheet, wants: &Wants) -> Sheet {
    for (row, want) in grid.iter_mut().zip(wants) {
        let mut left = *want;
        for cell in row {
            *cell = left.min(*cell as u32) as u16;
            left -= *cell as u32;
        }
    }
    grid
}
