//! The planner.

use std::cmp::Ordering;

use super::exchange::{bits, Position, Reach};
use super::standard::standard;
use super::{read_to_plan, write, Book, Refusal, Sheet, SEATS, WINDOWS};

/// Plans the book of a day file and writes the whole file with the planned sheet to the front of `out`.
pub fn plan(file: &[u8], out: &mut [u8]) -> Result<usize, Refusal> {
    let book = read_to_plan(file)?;
    write(&book, Some(&plan_sheet(&book)), out)
}

/// The standard sheet of the book, which there is for one with idle seats too: these have no credits.
pub fn plan_sheet(book: &Book) -> Sheet {
    standard(book, settled_sheet(book))
}

/// A settled sheet of the book: every window is handed out, then seats of low level take from seats of high level
/// along exchange paths until a whole round has found nothing to take.
pub fn settled_sheet(book: &Book) -> Sheet {
    let mut position = Position::new(book, fill(book));
    while settle_round(&mut position) {}
    position.sheet
}

/// Hands out every window by itself, as far as caps allow: shares by weight among the seats below their caps,
/// and what they leave is shared again.
fn fill(book: &Book) -> Sheet {
    let weight = |seat: usize| book.weight(seat) as u32;
    let mut sheet = [[0; WINDOWS]; SEATS];
    for window in 0..book.windows {
        let mut left = book.supplies[window] as u32;
        loop {
            let below_cap = (0..book.seats).filter(|&seat| sheet[seat][window] < book.caps[seat][window]);
            let weights: u32 = below_cap.map(weight).sum();
            if left == 0 || weights == 0 {
                break;
            }
            let shared = left;
            for seat in 0..book.seats {
                let share = (shared * weight(seat)).div_ceil(weights).min(left);
                let given = share.min((book.caps[seat][window] - sheet[seat][window]) as u32);
                sheet[seat][window] += given as u16;
                left -= given;
            }
        }
    }
    sheet
}

/// Who comes first, each with balance plus total: the lower level, then the smaller weight, then the seat that is earlier today.
fn order(position: &Position, (a, height_a): (usize, i32), (b, height_b): (usize, i32)) -> Ordering {
    let (weight_a, weight_b) = (position.weights[a], position.weights[b]);
    let (place_a, place_b) = (position.places[a], position.places[b]);
    (height_a * weight_b, weight_a, place_a).cmp(&(height_b * weight_a, weight_b, place_b))
}

/// Again and again the first seat takes from the last one that it reaches, and a seat that may take nothing drops out.
/// Says whether anything moved.
fn settle_round(position: &mut Position) -> bool {
    let mut open = u32::MAX >> (SEATS - position.book.seats);
    let mut moved = false;
    while let Some(receiver) = first(position, open) {
        if let Some((reach, donor)) = best_donor(position, receiver) {
            push(position, &reach, donor);
            moved = true;
        } else {
            open &= !(1 << receiver);
        }
    }
    moved
}

/// The seat of the set that comes first.
fn first(position: &Position, seats: u32) -> Option<usize> {
    let heights = &position.heights;
    bits(seats).min_by(|&a, &b| order(position, (a, heights[a]), (b, heights[b])))
}

/// Of the seats that the receiver reaches, the last one with a credit less, if the receiver still comes before it then.
/// That is paper 01's "improves" or "ties wrongly".
fn best_donor(position: &Position, receiver: usize) -> Option<(Reach, usize)> {
    let heights = &position.heights;
    let reach = position.reach(receiver);
    let donor = bits(reach.seats).max_by(|&a, &b| order(position, (a, heights[a] - 1), (b, heights[b] - 1)))?;
    let comes_before = order(position, (receiver, heights[receiver]), (donor, heights[donor] - 1)).is_lt();
    comes_before.then_some((reach, donor))
}

/// Takes as many credits at once as the path has room for and as the receiver may take one after the other.
fn push(position: &mut Position, reach: &Reach, donor: usize) {
    let room = reach.backwards(donor).map(|m| position.room(m)).min().unwrap_or(0);
    let credits = most_credits(position, reach.receiver, donor).min(room as i32);
    for m in reach.backwards(donor) {
        position.play(m, credits as u16);
    }
}

/// The most credits that the receiver may take: before the last of them, (receiver's height) × (donor's weight) is below
/// (donor's height − 1) × (receiver's weight), or equal if the receiver has the smaller weight or else is earlier today.
fn most_credits(position: &Position, receiver: usize, donor: usize) -> i32 {
    let (weight, donor_weight) = (position.weights[receiver], position.weights[donor]);
    let gap = position.heights[donor] * weight - (position.heights[receiver] - 1) * donor_weight;
    let may_be_equal = (weight, position.places[receiver]) < (donor_weight, position.places[donor]);
    (if may_be_equal { gap } else { gap - 1 }) / (weight + donor_weight)
}
