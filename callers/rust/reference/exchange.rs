//! A sheet in the making, and the exchange paths on it (paper 01: chains, from gainer to loser).

use super::{Book, Sheet, SEATS, WINDOWS};

/// A credit in a window goes from the giver to the taker.
#[derive(Clone, Copy, Debug, Default, PartialEq, Eq)]
pub struct Move {
    pub window: u8,
    pub giver: u8,
    pub taker: u8,
}

impl Move {
    /// Window, giver and taker, to look up cells with.
    pub fn places(self) -> (usize, usize, usize) {
        (self.window as usize, self.giver as usize, self.taker as usize)
    }
}

/// A feasible sheet with what the search asks of it, kept up to date.
#[derive(Clone)]
pub struct Position<'a> {
    pub book: &'a Book,
    pub sheet: Sheet,
    /// Per seat its balance plus its total.
    pub heights: [i32; SEATS],
    pub weights: [i32; SEATS],
    /// Per seat its place in today's order.
    pub places: [usize; SEATS],
    /// Per seat the windows where it is below its cap.
    below_cap: [u32; SEATS],
    /// Per window the seats that have a credit there.
    holders: [u32; WINDOWS],
}

/// What a breadth-first search from one receiver finds.
pub struct Reach {
    pub receiver: usize,
    /// The seats that exchange paths reach, the receiver left out.
    pub seats: u32,
    /// Per seat reached, the move by which it gives.
    gives: [Move; SEATS],
}

/// The numbers of the bits that are set, lowest first.
pub fn bits(mut mask: u32) -> impl Iterator<Item = usize> {
    std::iter::from_fn(move || {
        let lowest = mask.trailing_zeros() as usize;
        mask &= mask.wrapping_sub(1);
        (lowest < 32).then_some(lowest)
    })
}

impl<'a> Position<'a> {
    pub fn new(book: &'a Book, sheet: Sheet) -> Position<'a> {
        let mut position = Position {
            book,
            sheet,
            heights: book.carried().map(i32::from),
            weights: [1; SEATS],
            places: [0; SEATS],
            below_cap: [0; SEATS],
            holders: [0; WINDOWS],
        };
        for seat in 0..book.seats {
            position.weights[seat] = book.weight(seat) as i32;
            position.places[seat] = book.place(seat);
            for window in 0..book.windows {
                position.heights[seat] += sheet[seat][window] as i32;
                position.update_masks(seat, window);
            }
        }
        position
    }

    /// Sets the bits of one cell.
    fn update_masks(&mut self, seat: usize, window: usize) {
        let cell = self.sheet[seat][window];
        let below = (cell < self.book.caps[seat][window]) as u32;
        let holds = (cell > 0) as u32;
        self.below_cap[seat] = self.below_cap[seat] & !(1 << window) | below << window;
        self.holders[window] = self.holders[window] & !(1 << seat) | holds << seat;
    }

    /// How many credits the move can take at once.
    pub fn room(&self, m: Move) -> u16 {
        let (window, giver, taker) = m.places();
        let spare = self.book.caps[taker][window] - self.sheet[taker][window];
        spare.min(self.sheet[giver][window])
    }

    /// Plays a move with a number of credits for which there is room.
    pub fn play(&mut self, m: Move, credits: u16) {
        let (window, giver, taker) = m.places();
        self.sheet[giver][window] -= credits;
        self.sheet[taker][window] += credits;
        self.heights[giver] -= credits as i32;
        self.heights[taker] += credits as i32;
        self.update_masks(giver, window);
        self.update_masks(taker, window);
    }

    /// Breadth-first search over all seats from which exchange paths lead to the receiver.
    /// The first taker to look into a window reaches all who hold credits there, so each window is looked into once.
    pub fn reach(&self, receiver: usize) -> Reach {
        let mut gives = [Move::default(); SEATS];
        let mut queue = [receiver as u8; SEATS];
        let (mut reached, mut unseen) = (1u32 << receiver, u32::MAX);
        let (mut next, mut end) = (0, 1);
        while next < end {
            let taker = queue[next];
            next += 1;
            let windows = self.below_cap[taker as usize] & unseen;
            unseen &= !windows;
            for window in bits(windows) {
                let fresh = self.holders[window] & !reached;
                reached |= fresh;
                for giver in bits(fresh) {
                    gives[giver] = Move { window: window as u8, giver: giver as u8, taker };
                    queue[end] = giver as u8;
                    end += 1;
                }
            }
        }
        Reach { receiver, seats: reached & !(1 << receiver), gives }
    }

    /// Would one credit more for the receiver and one less for the donor give a higher profile?
    pub fn improves(&self, receiver: usize, donor: usize) -> bool {
        let (low, high) = self.levels_between(receiver, donor);
        low < high || low == high && self.weights[receiver] < self.weights[donor]
    }

    /// Is the donor one credit above a receiver of the same weight that comes earlier in today's order?
    pub fn ties_wrongly(&self, receiver: usize, donor: usize) -> bool {
        self.weights[receiver] == self.weights[donor]
            && self.heights[donor] == self.heights[receiver] + 1
            && self.places[receiver] < self.places[donor]
    }

    /// The receiver's level and the donor's less one credit, both times both weights: at most 148,280 credits times 1,000.
    fn levels_between(&self, receiver: usize, donor: usize) -> (i32, i32) {
        let low = self.heights[receiver] * self.weights[donor];
        let high = (self.heights[donor] - 1) * self.weights[receiver];
        (low, high)
    }
}

impl Reach {
    /// The moves of a shortest exchange path to a donor reached, the donor's move first.
    pub fn backwards(&self, donor: usize) -> impl Iterator<Item = Move> + '_ {
        let mut seat = donor;
        std::iter::from_fn(move || {
            let last = self.gives[seat];
            let more = seat != self.receiver;
            seat = last.taker as usize;
            more.then_some(last)
        })
    }
}
