//! What holds of every written chain, by the rules of paper 01.

use super::books::hand_over;
use super::reference::{Book, Sheet};

/// A move in three bytes: window, giver and taker, counted from 1.
pub type Bytes = [u8; 3];

/// The moves at the front of a buffer.
pub fn moves(bytes: &[u8]) -> Vec<Bytes> {
    bytes.chunks_exact(3).map(|triple| [triple[0], triple[1], triple[2]]).collect()
}

/// Holds a chain against one that is known to be right: same ends, same number of moves, each giver the next taker, no seat
/// twice, all moves possible on the sheet, and in the order written; then the list is higher at mark 2 and equal at mark 3.
pub fn check(book: &Book, sheet: &Sheet, mark: u32, chain: &[Bytes], right: &[Bytes]) -> Result<(), String> {
    let wrong = |what: &str| Err(format!("chain {chain:?}: {what}"));
    if chain.len() != right.len() {
        return wrong("another number of moves");
    }
    let (Some(first), Some(last)) = (chain.first(), chain.last()) else { return Ok(()) };
    if (first[2], last[1]) != (right[0][2], right[right.len() - 1][1]) {
        return wrong("another gainer or loser");
    }
    if chain.windows(2).any(|pair| pair[0][1] != pair[1][2]) {
        return wrong("a giver who is not the next taker");
    }
    let seats: Vec<u8> = chain.iter().map(|m| m[1]).chain([first[2]]).collect();
    if (1..seats.len()).any(|place| seats[..place].contains(&seats[place])) {
        return wrong("a seat twice");
    }
    let mut after = *sheet;
    for m in chain {
        if !possible(book, sheet, m) || !possible(book, &after, m) {
            return wrong("a move that is not possible");
        }
        play(&mut after, m);
    }
    let (list, list_before) = (list(book, &after), list(book, sheet));
    let fits = if mark == 2 { list > list_before } else { list == list_before };
    if fits {
        Ok(())
    } else {
        wrong("the wrong list after it")
    }
}

/// Plays a move that is possible.
pub fn play(sheet: &mut Sheet, m: &Bytes) {
    let [window, giver, taker] = m.map(|place| place as usize - 1);
    hand_over(sheet, window, giver, taker, 1);
}

fn possible(book: &Book, sheet: &Sheet, m: &Bytes) -> bool {
    let [window, giver, taker] = m.map(|place| (place as usize).wrapping_sub(1));
    let inside = window < book.windows && giver < book.seats && taker < book.seats;
    inside && sheet[giver][window] > 0 && sheet[taker][window] < book.caps[taker][window]
}

/// Each seat's total.
pub fn totals(book: &Book, sheet: &Sheet) -> Vec<u32> {
    sheet[..book.seats].iter().map(|row| row[..book.windows].iter().map(|&cell| cell as u32).sum()).collect()
}

/// The levels, lowest first, all times a million and rounded down. Two that differ do so by a millionth or more, since no weight is above
/// 1,000, and so the whole numbers are in the same order.
pub fn list(book: &Book, sheet: &Sheet) -> Vec<u64> {
    let (balances, totals) = (book.carried(), totals(book, sheet));
    let height = |seat: usize| balances[seat] as u64 + totals[seat] as u64;
    let mut levels: Vec<u64> =
        (0..book.seats).map(|seat| height(seat) * 1_000_000 / book.weight(seat) as u64).collect();
    levels.sort();
    levels
}
