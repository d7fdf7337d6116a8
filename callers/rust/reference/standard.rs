//! The standard sheet: of all settled sheets the one whose cells, read seat by seat and within a seat window by window, are highest in
//! dictionary order (paper 02, E4).
//!
//! Settled sheets are the feasible sheets with the settled totals, and each of them places as much in every window. So one of them is
//! taken, and its rows are fixed from the first seat on. A seat gives up what it can in its last window, then in the one before, and so
//! on, and gets as much in earlier windows, while later seats shift their credits the other way. With the rows before it fixed, the rows
//! that a seat can have are the bases of a polymatroid within bounds: the one that is lowest from its last window down is the one that is
//! highest from its first window up.

use super::exchange::bits;
use super::{Book, Sheet, SEATS, WINDOWS};

/// The standard sheet, made of any settled one.
pub fn standard(book: &Book, settled: Sheet) -> Sheet {
    let mut rows = Rows::new(book, settled);
    (0..book.seats).for_each(|seat| rows.fix(seat));
    rows.sheet
}

/// A sheet of which the rows before one seat are fixed.
struct Rows<'a> {
    book: &'a Book,
    sheet: Sheet,
    /// Per window the seats that are below their caps there.
    takers: [u32; WINDOWS],
    /// Per seat the windows in which it has a credit.
    held: [u32; SEATS],
    /// The seat whose row is being fixed, and those after it.
    seat: usize,
    later: u32,
    /// The windows in which that seat may get credits.
    wanted: u32,
    /// The windows that a search may enter.
    open: u32,
}

impl<'a> Rows<'a> {
    fn new(book: &'a Book, sheet: Sheet) -> Rows<'a> {
        let (takers, held) = ([0; WINDOWS], [0; SEATS]);
        let mut rows = Rows { book, sheet, takers, held, seat: 0, later: 0, wanted: 0, open: 0 };
        for seat in 0..book.seats {
            (0..book.windows).for_each(|window| rows.update_masks(seat, window));
        }
        rows
    }

    fn room(&self, seat: usize, window: usize) -> u16 {
        self.book.caps[seat][window] - self.sheet[seat][window]
    }

    /// Sets the bits of one cell.
    fn update_masks(&mut self, seat: usize, window: usize) {
        let (takes, holds) = (self.room(seat, window) > 0, self.sheet[seat][window] > 0);
        self.takers[window] = self.takers[window] & !(1 << seat) | (takes as u32) << seat;
        self.held[seat] = self.held[seat] & !(1 << window) | (holds as u32) << window;
    }

    /// Fixes the row of a seat whose earlier seats have theirs.
    fn fix(&mut self, seat: usize) {
        let windows = 0..self.book.windows;
        (self.seat, self.later, self.open) = (seat, u32::MAX << seat << 1, u32::MAX);
        self.wanted = windows.clone().fold(0, |set, window| set | ((self.room(seat, window) > 0) as u32) << window);
        for window in windows.rev() {
            self.wanted &= (1 << window) - 1;
            self.give_up(window);
        }
    }

    /// The seat gives up what it can in a window. Windows from which no way led on stay closed for the rest of the row: the later seats
    /// that take there have credits nowhere else, so that no other way passes them.
    fn give_up(&mut self, window: usize) {
        loop {
            let open = self.open;
            let credits = self.pass_on(window, self.sheet[self.seat][window]);
            if credits == 0 {
                return;
            }
            self.sheet[self.seat][window] -= credits;
            self.open = open;
        }
    }

    /// Finds a place for credits that are to leave a window, depth first: the seat itself gets them if it wants them there, or a later
    /// seat takes them and passes on as many of its own in another window. Says how many found their place, by the first way there is.
    fn pass_on(&mut self, window: usize, credits: u16) -> u16 {
        if self.wanted >> window & 1 == 1 {
            return self.get(window, credits);
        }
        if credits == 0 || self.open >> window & 1 == 0 {
            return 0;
        }
        self.open &= !(1 << window);
        while let Some((taker, other)) = self.next_step(window) {
            let most = credits.min(self.room(taker, window)).min(self.sheet[taker][other]);
            let passed = self.pass_on(other, most);
            if passed > 0 {
                self.shift(taker, other, window, passed);
                return passed;
            }
        }
        0
    }

    /// A later seat with room in this window and credits in another: where the seat wants them, or else where none has looked yet.
    fn next_step(&self, window: usize) -> Option<(usize, usize)> {
        let takers = || bits(self.takers[window] & self.later);
        let step = |taker: usize, others: u32| bits(self.held[taker] & others).next().map(|other| (taker, other));
        let wanted = takers().find_map(|taker| step(taker, self.wanted));
        wanted.or_else(|| takers().find_map(|taker| step(taker, self.open)))
    }

    /// The seat gets credits in a window as far as it has room.
    fn get(&mut self, window: usize, credits: u16) -> u16 {
        let credits = credits.min(self.room(self.seat, window));
        self.sheet[self.seat][window] += credits;
        if self.room(self.seat, window) == 0 {
            self.wanted &= !(1 << window);
        }
        credits
    }

    /// A later seat has credits in another window than before.
    fn shift(&mut self, seat: usize, from: usize, to: usize, credits: u16) {
        self.sheet[seat][from] -= credits;
        self.sheet[seat][to] += credits;
        self.update_masks(seat, from);
        self.update_masks(seat, to);
    }
}
