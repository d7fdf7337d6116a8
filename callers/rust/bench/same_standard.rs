//! The library's way from a settled sheet to the standard one in plain Rust, for the sake of its speed: the same steps in the same order,
//! on a grid that is changed in place and with nothing proved.
//!
//! The fast pass takes seats in order and each seat's windows in order. A search goes from the window to others by later seats that have
//! a credit in one and room in the next, until one of these has room in a later window in which the seat has credits. All of them then
//! exchange as many credits as go round. If the totals are as before, a sweep from the last seat up tests the sheet; where it does not
//! pass, the cells are raised credit by credit until no search finds anything.

use super::reference::{Book, Sheet, MOST_CREDITS, SEATS, WINDOWS};
use super::same_method::{lowest, members};

/// How many turns the fast pass takes on one row at most.
const TURNS: usize = 1024;

/// What it took: searches and exchanges of the fast pass, and the searches of the other one, which are none where the sweep passes.
#[derive(Clone, Copy, Debug, Default)]
pub struct Work {
    pub searches: usize,
    pub pushes: usize,
    pub left: usize,
}

/// The standard sheet, made of a settled one.
pub fn standard(book: &Book, settled: &Sheet) -> (Sheet, Work) {
    let mut raising = Raising::new(book, settled);
    raising.fast();
    let (searches, pushes) = (raising.searches, raising.pushes);
    if totals(&raising.grid) != totals(settled) {
        raising = Raising::new(book, settled);
    }
    raising.searches = 0;
    if !raising.is_standard() {
        raising.exact();
    }
    (raising.grid, Work { searches, pushes, left: raising.searches })
}

/// What each seat has.
pub fn totals(grid: &Sheet) -> [u32; SEATS] {
    grid.map(|row| row.iter().map(|&cell| cell as u32).sum())
}

/// A sheet whose cells are raised in reading order.
struct Raising<'a> {
    book: &'a Book,
    grid: Sheet,
    /// Per seat the windows in which it has room, and per window the seats that have credits.
    rooms: [u32; SEATS],
    holders: [u32; WINDOWS],
    /// The windows in which the seat in turn has credits.
    held: u32,
    searches: usize,
    pushes: usize,
}

/// What a search finds: per window the seat that takes there and the window in which this seat gives; and the goal, if it was reached.
struct Search {
    takers: [u8; WINDOWS],
    windows: [u8; WINDOWS],
    seen: u32,
    goal: Option<usize>,
}

impl Search {
    /// Windows that a giver of one window leads to.
    fn note(&mut self, windows: u32, giver: usize, window: usize) {
        for next in members(windows) {
            (self.takers[next], self.windows[next]) = (giver as u8, window as u8);
        }
        self.seen |= windows;
    }

    /// The exchanges from the goal back to the seat, each with window, giver and taker.
    fn cycle(&self, seat: usize, goal: usize) -> impl Iterator<Item = (usize, usize, usize)> + '_ {
        let (mut window, mut giver, mut ended) = (goal, seat, false);
        std::iter::from_fn(move || {
            let step = (window, giver, self.takers[window] as usize);
            let there = !ended;
            (window, giver) = (self.windows[window] as usize, step.2);
            ended = giver == seat;
            there.then_some(step)
        })
    }
}

impl<'a> Raising<'a> {
    fn new(book: &'a Book, sheet: &Sheet) -> Raising<'a> {
        let (rooms, holders) = ([0; SEATS], [0; WINDOWS]);
        let mut raising = Raising { book, grid: *sheet, rooms, holders, held: 0, searches: 0, pushes: 0 };
        for seat in 0..book.seats {
            (0..book.windows).for_each(|window| raising.note(seat, window));
        }
        raising
    }

    fn room(&self, seat: usize, window: usize) -> u16 {
        self.book.caps[seat][window] - self.grid[seat][window]
    }

    /// Notes whether a seat has room and credits in a window.
    fn note(&mut self, seat: usize, window: usize) {
        let (takes, gives) = (self.room(seat, window) > 0, self.grid[seat][window] > 0);
        self.rooms[seat] = self.rooms[seat] & !(1 << window) | (takes as u32) << window;
        self.holders[window] = self.holders[window] & !(1 << seat) | (gives as u32) << seat;
    }

    /// The windows in which a seat has credits.
    fn held_by(&self, seat: usize) -> u32 {
        (0..self.book.windows).fold(0, |set, window| set | ((self.grid[seat][window] > 0) as u32) << window)
    }

    fn fast(&mut self) {
        (0..self.book.seats).for_each(|seat| self.fast_row(seat));
    }

    /// The next window is the first with room. A search that finds nothing closes its windows for the rest of the row.
    fn fast_row(&mut self, seat: usize) {
        self.held = self.held_by(seat);
        let mut closed = 0;
        for _ in 0..TURNS {
            let open = self.rooms[seat] & !closed;
            if open == 0 || self.held & (u32::MAX << lowest(open) << 1) == 0 {
                return;
            }
            closed |= self.raise(seat, lowest(open), MOST_CREDITS);
        }
    }

    /// Cell by cell, credit by credit.
    fn exact(&mut self) {
        for seat in 0..self.book.seats {
            self.held = self.held_by(seat);
            for window in 0..self.book.windows {
                while self.raise(seat, window, 1) == 0 {}
            }
        }
    }

    /// Raises a cell by at most so many credits. Gives the empty set if it did, and else the windows that cannot be raised, this one too.
    fn raise(&mut self, seat: usize, window: usize, most: u16) -> u32 {
        let goals = self.held & (u32::MAX << window << 1);
        if self.rooms[seat] >> window & 1 == 0 || goals == 0 {
            return 1 << window;
        }
        self.searches += 1;
        let search = self.search(seat, window, goals);
        let Some(goal) = search.goal else { return search.seen };
        self.push(&search, seat, goal, most);
        self.pushes += 1;
        0
    }

    /// Searches from a window to a goal, by later seats, each of which is asked once.
    fn search(&self, seat: usize, window: usize, goals: u32) -> Search {
        let mut search = Search { takers: [0; WINDOWS], windows: [0; WINDOWS], seen: 1 << window, goal: None };
        search.takers[window] = seat as u8;
        let (mut front, mut left) = (1u32 << window, u32::MAX << seat << 1);
        while front != 0 {
            let from = lowest(front);
            front &= front - 1;
            let givers = self.holders[from] & left;
            left &= !givers;
            for giver in members(givers) {
                let hit = self.rooms[giver] & goals;
                if hit != 0 {
                    search.note(hit & hit.wrapping_neg(), giver, from);
                    search.goal = Some(lowest(hit));
                    return search;
                }
                let new = self.rooms[giver] & !search.seen;
                search.note(new, giver, from);
                front |= new;
            }
        }
        search
    }

    /// Moves as many credits round the cycle as every exchange lets through.
    fn push(&mut self, search: &Search, seat: usize, goal: usize, most: u16) {
        let lets_through =
            |(window, giver, taker): (usize, usize, usize)| self.grid[giver][window].min(self.room(taker, window));
        let credits = search.cycle(seat, goal).map(lets_through).fold(most, u16::min);
        for (window, giver, taker) in search.cycle(seat, goal) {
            self.grid[giver][window] -= credits;
            self.grid[taker][window] += credits;
            self.note(giver, window);
            self.note(taker, window);
        }
        if self.grid[seat][goal] == 0 {
            self.held &= !(1 << goal);
        }
    }

    /// From the last seat up: per window a set of windows, in which all lie that credits of it can come from by exchanges of later seats.
    /// No seat with room in a window has credits in a later window of its set.
    fn is_standard(&self) -> bool {
        let mut sets: [u32; WINDOWS] = std::array::from_fn(|window| 1 << window);
        for seat in (0..self.book.seats).rev() {
            let (rooms, held) = (self.rooms[seat], self.held_by(seat));
            if members(rooms).any(|window| sets[window] & held & (u32::MAX << window << 1) != 0) {
                return false;
            }
            let beyond = members(rooms).fold(0, |set, window| set | sets[window]);
            for set in sets.iter_mut().filter(|set| **set & held != 0) {
                *set |= beyond;
            }
        }
        true
    }
}
