//! The marker.

use super::exchange::{Move, Position};
use super::{read, refuse_if, Book, Layout, Refusal, Sheet, MOVES_LENGTH};

/// A mark with what belongs to it; fields that a mark does not use are 0.
#[derive(Clone, Copy, Debug, Default, PartialEq, Eq)]
pub struct Marked {
    /// 1 wasteful, 2 improvable, 3 tied, 4 settled.
    pub mark: u32,
    /// Mark 1: the lowest window with credits left, and the lowest seat below its cap there, both from 1.
    pub window: u32,
    pub seat: u32,
    /// Marks 2 and 3: the number of moves written.
    pub moves: u32,
}

/// Marks the sheet of a day file and writes the moves of marks 2 and 3 to the front of `moves`.
pub fn mark(file: &[u8], moves: &mut [u8]) -> Result<Marked, Refusal> {
    let (book, sheet) = read(file)?;
    let sheet = handed_in(&book, &sheet)?;
    refuse_if(moves.len() < MOVES_LENGTH, 16, MOVES_LENGTH)?;
    let (marked, path) = mark_sheet(&book, sheet);
    for (m, out) in path.iter().zip(moves.chunks_exact_mut(3)) {
        out.copy_from_slice(&[m.window + 1, m.giver + 1, m.taker + 1]);
    }
    Ok(marked)
}

/// Refusals 13 to 15: the sheet must be there, and feasible.
pub fn handed_in<'a>(book: &Book, sheet: &'a Option<Sheet>) -> Result<&'a Sheet, Refusal> {
    let sheet = sheet.as_ref().ok_or(Refusal { number: 13, offset: 0 })?;
    feasible(book, sheet)?;
    Ok(sheet)
}

/// Refusals 14 and 15: is the sheet feasible? (paper 01: lawful)
pub fn feasible(book: &Book, sheet: &Sheet) -> Result<(), Refusal> {
    let layout = Layout::of(book, true);
    for seat in 0..book.seats {
        for window in 0..book.windows {
            let above = sheet[seat][window] > book.caps[seat][window];
            refuse_if(above, 14, layout.sheet + 2 * (seat * book.windows + window))?;
        }
    }
    for window in 0..book.windows {
        let above = placed(book, sheet, window) > book.supplies[window] as u32;
        refuse_if(above, 15, layout.supplies + 2 * window)?;
    }
    Ok(())
}

/// A window's cells summed.
pub fn placed(book: &Book, sheet: &Sheet, window: usize) -> u32 {
    sheet[..book.seats].iter().map(|row| row[window] as u32).sum()
}

/// The mark of a feasible sheet, and the exchange path of marks 2 and 3, the receiver's move first.
pub fn mark_sheet(book: &Book, sheet: &Sheet) -> (Marked, Vec<Move>) {
    if let Some((window, seat)) = left_over(book, sheet) {
        let (window, seat) = (window as u32 + 1, seat as u32 + 1);
        return (Marked { mark: 1, window, seat, moves: 0 }, Vec::new());
    }
    let position = Position::new(book, *sheet);
    let with_path = |mark, path: Vec<Move>| (Marked { mark, moves: path.len() as u32, ..Marked::default() }, path);
    if let Some(path) = search(&position, |receiver, donor| position.improves(receiver, donor)) {
        return with_path(2, path);
    }
    if let Some(path) = search(&position, |receiver, donor| position.ties_wrongly(receiver, donor)) {
        return with_path(3, path);
    }
    with_path(4, Vec::new())
}

/// The lowest window with credits left while a seat is below its cap there, and the lowest such seat.
fn left_over(book: &Book, sheet: &Sheet) -> Option<(usize, usize)> {
    (0..book.windows).filter(|&window| placed(book, sheet, window) < book.supplies[window] as u32).find_map(|window| {
        let below_cap = |&seat: &usize| sheet[seat][window] < book.caps[seat][window];
        (0..book.seats).find(below_cap).map(|seat| (window, seat))
    })
}

/// A shortest path from the first receiver that reaches a donor of this kind to its lowest such donor.
fn search(position: &Position, is_wanted: impl Fn(usize, usize) -> bool) -> Option<Vec<Move>> {
    let seats = 0..position.book.seats;
    for receiver in seats.clone() {
        let wanted = seats.clone().fold(0, |mask, donor| mask | (is_wanted(receiver, donor) as u32) << donor);
        if wanted == 0 {
            continue;
        }
        let reach = position.reach(receiver);
        let donors = wanted & reach.seats;
        if donors != 0 {
            let mut path: Vec<Move> = reach.backwards(donors.trailing_zeros() as usize).collect();
            path.reverse();
            return Some(path);
        }
    }
    None
}
