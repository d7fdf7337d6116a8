//! The library's planner in plain Rust, for the sake of its speed: the same steps in the same order, on a grid that is changed in
//! place and with nothing proved.
//!
//! The file is read and tested, for idle seats too. Every window is handed out seat by seat. Then the lowest seat takes from the
//! highest one that it reaches along a shortest exchange path, many credits at once: first only where 64 or more can go, then down to
//! single credits. Then the marker's search looks for an exchange that is left, and plays it, until there is none. At last the settled
//! sheet is made standard.

use super::reference::{read_to_plan, write, Book, Refusal, Sheet, SEATS, WINDOWS};
use super::same_standard::{standard, totals, Work};

/// Plans the book of a day file and writes the whole file with the standard sheet to the front of `out`.
pub fn plan(file: &[u8], out: &mut [u8]) -> Result<usize, Refusal> {
    let book = read_to_plan(file)?;
    write(&book, Some(&standard(&book, &Desk::settled(&book).grid).0), out)
}

/// The same up to the settled sheet, which is written as it is.
pub fn settle_alone(file: &[u8], out: &mut [u8]) -> Result<usize, Refusal> {
    let book = read_to_plan(file)?;
    write(&book, Some(&Desk::settled(&book).grid), out)
}

/// What planning a book takes: the turns of the three parts that settle, and the work for the standard sheet; and the settled totals.
pub struct Counts {
    pub turns: [usize; 3],
    pub work: Work,
    pub totals: [u32; SEATS],
}

pub fn counts(book: &Book) -> Counts {
    let Desk { turns, grid, .. } = Desk::settled(book);
    Counts { turns, work: standard(book, &grid).1, totals: totals(&grid) }
}

/// A sheet in the making with the numbers that the method looks at.
pub struct Desk<'a> {
    book: &'a Book,
    pub grid: Sheet,
    weights: [u64; SEATS],
    /// Per seat its place in the order of the day.
    positions: [usize; SEATS],
    /// Per seat its height: balance plus total.
    heights: [u64; SEATS],
    /// Per window the seats with room, and the seats with credits, of at least the unit.
    takers: [u32; WINDOWS],
    givers: [u32; WINDOWS],
    pub turns: [usize; 3],
}

/// The seats that a receiver reaches, itself included, and for each the window in which it gives and who takes.
struct Tree {
    set: u32,
    windows: [u8; SEATS],
    takers: [u8; SEATS],
}

/// The lowest member of a set that is not empty.
pub fn lowest(set: u32) -> usize {
    set.trailing_zeros() as usize
}

/// The members of a set, lowest first.
pub fn members(mut set: u32) -> impl Iterator<Item = usize> {
    std::iter::from_fn(move || {
        let next = (set != 0).then(|| lowest(set));
        set &= set.wrapping_sub(1);
        next
    })
}

impl<'a> Desk<'a> {
    fn new(book: &'a Book) -> Desk<'a> {
        let first = book.first.unwrap_or(1) as usize;
        let (mut weights, mut positions) = ([1; SEATS], [0; SEATS]);
        for seat in 0..book.seats {
            weights[seat] = book.weight(seat) as u64;
            positions[seat] = if seat + 1 < first { book.seats + seat } else { seat };
        }
        Desk {
            book,
            grid: [[0; WINDOWS]; SEATS],
            weights,
            positions,
            heights: book.carried().map(u64::from),
            takers: [0; WINDOWS],
            givers: [0; WINDOWS],
            turns: [0; 3],
        }
    }

    fn settled(book: &'a Book) -> Desk<'a> {
        Desk::new(book).run()
    }

    /// Settled from a sheet, with all weights equal, seats of these heights on that sheet, and ties that go by seat number.
    pub fn settled_from(book: &'a Book, grid: Sheet, heights: [u64; SEATS]) -> Desk<'a> {
        let positions = std::array::from_fn(|seat| seat);
        Desk { grid, weights: [1; SEATS], positions, heights, ..Desk::new(book) }.run()
    }

    fn run(mut self) -> Desk<'a> {
        self.fill();
        self.turns[0] = self.even_out(64);
        self.turns[1] = self.even_out(1);
        self.turns[2] = self.settle();
        self
    }

    /// Hands out what is left of every window, seat by seat up to each cap.
    fn fill(&mut self) {
        for window in 0..self.book.windows {
            let mut left = self.book.supplies[window] - self.grid.iter().map(|row| row[window]).sum::<u16>();
            for seat in 0..self.book.seats {
                let credits = left.min(self.room(seat, window));
                self.grid[seat][window] += credits;
                self.heights[seat] += credits as u64;
                left -= credits;
            }
        }
    }

    fn room(&self, seat: usize, window: usize) -> u16 {
        self.book.caps[seat][window] - self.grid[seat][window]
    }

    /// Notes whether a seat has room and credits in a window.
    fn note(&mut self, seat: usize, window: usize, unit: u16) {
        let takes = (self.room(seat, window) >= unit) as u32;
        let gives = (self.grid[seat][window] >= unit) as u32;
        self.takers[window] = self.takers[window] & !(1 << seat) | takes << seat;
        self.givers[window] = self.givers[window] & !(1 << seat) | gives << seat;
    }

    fn note_all(&mut self, unit: u16) {
        for window in 0..self.book.windows {
            for seat in 0..self.book.seats {
                self.note(seat, window, unit);
            }
        }
    }

    /// Exchanges of at least `unit` credits from the highest donor to the lowest receiver. Where the two would exchange less,
    /// none of the seats reached takes part any more. Gives the number of turns.
    fn even_out(&mut self, unit: u16) -> usize {
        self.note_all(unit);
        let mut active = u32::MAX >> (SEATS - self.book.seats);
        for turn in 0..4096 {
            if active == 0 {
                return turn;
            }
            let receiver = self.lowest_receiver(active);
            let tree = self.reach(receiver);
            let donor = self.highest_donor(tree.set);
            let amount = self.wanted(receiver, donor);
            if amount < unit as u64 {
                active &= !tree.set;
            } else {
                self.push(&tree, receiver, donor, amount, unit);
            }
        }
        4096
    }

    /// Does one credit come before another? Each has a seat and a height; levels are compared by cross products.
    fn precedes(&self, (a, height_a): (usize, u64), (b, height_b): (usize, u64)) -> bool {
        let (weight_a, weight_b) = (self.weights[a], self.weights[b]);
        let (position_a, position_b) = (self.positions[a], self.positions[b]);
        (height_a * weight_b, weight_a, position_a) < (height_b * weight_a, weight_b, position_b)
    }

    /// The seat whose next credit comes first.
    fn lowest_receiver(&self, set: u32) -> usize {
        members(set).fold(lowest(set), |best, seat| {
            let first = self.precedes((seat, self.heights[seat]), (best, self.heights[best]));
            if first {
                seat
            } else {
                best
            }
        })
    }

    /// The seat whose last credit comes last.
    fn highest_donor(&self, set: u32) -> usize {
        let last = |seat: usize| (seat, self.heights[seat].saturating_sub(1));
        members(set).fold(lowest(set), |best, seat| if self.precedes(last(best), last(seat)) { seat } else { best })
    }

    /// How many credits can go from the donor to the receiver one by one, so that each comes after the receiver's next.
    fn wanted(&self, receiver: usize, donor: usize) -> u64 {
        let (weight, donor_weight) = (self.weights[receiver], self.weights[donor]);
        let first = (weight, self.positions[receiver]) < (donor_weight, self.positions[donor]);
        let gap = self.heights[donor] * weight + donor_weight;
        let level = self.heights[receiver] * donor_weight + !first as u64;
        (gap.saturating_sub(level) / (weight + donor_weight)).min(4095)
    }

    /// Breadth first, layer by layer: each window that a seat of the last layers can take in adds all who give there.
    fn reach(&self, receiver: usize) -> Tree {
        let mut tree = Tree { set: 1 << receiver, windows: [0; SEATS], takers: [0; SEATS] };
        let mut shut = u32::MAX >> (32 - self.book.windows);
        loop {
            let front = tree.set;
            for window in members(shut) {
                let ready = self.takers[window] & front;
                if ready != 0 {
                    let found = self.givers[window] & !tree.set;
                    for giver in members(found) {
                        tree.windows[giver] = window as u8;
                        tree.takers[giver] = lowest(ready) as u8;
                    }
                    tree.set |= found;
                    shut &= !(1 << window);
                }
            }
            if tree.set == front {
                return tree;
            }
        }
    }

    /// Moves as many of the credits as every step of the path lets through.
    fn push(&mut self, tree: &Tree, receiver: usize, donor: usize, amount: u64, unit: u16) {
        let step = |giver: usize| (tree.windows[giver] as usize, tree.takers[giver] as usize);
        let (mut giver, mut credits) = (donor, amount as u16);
        while giver != receiver {
            let (window, taker) = step(giver);
            credits = credits.min(self.grid[giver][window]).min(self.room(taker, window));
            giver = taker;
        }
        giver = donor;
        while giver != receiver {
            let (window, taker) = step(giver);
            self.grid[giver][window] -= credits;
            self.grid[taker][window] += credits;
            self.note(giver, window, unit);
            self.note(taker, window, unit);
            giver = taker;
        }
        self.heights[donor] -= credits as u64;
        self.heights[receiver] += credits as u64;
    }

    /// Plays exchanges that improve or tie wrongly, one credit each, until the marker's search finds none.
    /// Gives the number of exchanges.
    fn settle(&mut self) -> usize {
        self.note_all(1);
        let mut exchanges = 0;
        while let Some((receiver, donor)) = self.exchange() {
            let tree = self.reach(receiver);
            self.push(&tree, receiver, donor, 1, 1);
            exchanges += 1;
        }
        exchanges
    }

    /// The exchange that the marker would write.
    fn exchange(&self) -> Option<(usize, usize)> {
        let rooms = self.rooms();
        self.search(&rooms, Self::improves).or_else(|| self.search(&rooms, Self::ties_wrongly))
    }

    /// Per seat the windows in which it has room.
    fn rooms(&self) -> [u32; SEATS] {
        let mut rooms = [0; SEATS];
        for window in 0..self.book.windows {
            members(self.takers[window]).for_each(|seat| rooms[seat] |= 1 << window);
        }
        rooms
    }

    /// The seats that a seat reaches on the settled sheet, itself included.
    pub fn reached_by(&self, seat: usize) -> u32 {
        self.reached(&self.rooms(), seat)
    }

    /// The first receiver that reaches a donor of this kind, and its lowest such donor.
    fn search(&self, rooms: &[u32; SEATS], is_wanted: fn(&Self, usize, usize) -> bool) -> Option<(usize, usize)> {
        let seats = 0..self.book.seats;
        seats.clone().find_map(|receiver| {
            let wanted = seats.clone().fold(0, |set, donor| set | (is_wanted(self, receiver, donor) as u32) << donor);
            let donors = wanted & self.reached(rooms, receiver);
            (donors != 0).then(|| (receiver, lowest(donors)))
        })
    }

    /// The set that a receiver reaches; `rooms` has the windows in which each seat has room.
    fn reached(&self, rooms: &[u32; SEATS], receiver: usize) -> u32 {
        let (mut set, mut front, mut shut) = (1 << receiver, 1u32 << receiver, u32::MAX);
        while front != 0 {
            let taker = lowest(front);
            front &= front - 1;
            let open = rooms[taker] & shut;
            shut &= !open;
            for window in members(open) {
                let found = self.givers[window] & !set;
                front |= found;
                set |= found;
            }
        }
        set
    }

    fn improves(&self, receiver: usize, donor: usize) -> bool {
        let (weight, donor_weight) = (self.weights[receiver], self.weights[donor]);
        let low = self.heights[receiver] * donor_weight + weight;
        let high = self.heights[donor] * weight;
        low < high || low == high && weight < donor_weight
    }

    fn ties_wrongly(&self, receiver: usize, donor: usize) -> bool {
        self.weights[receiver] == self.weights[donor]
            && self.heights[donor] == self.heights[receiver] + 1
            && self.positions[receiver] < self.positions[donor]
    }
}
