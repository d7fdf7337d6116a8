//! A plain Rust version of the library, written from papers 01 and 02 alone and sharing no line with the proved code.
//! It serves as a second opinion on the proved library.
//!
//! Seats and windows count from 0 inside and from 1 in files, results and listings.
//! Tests: `rustc -O --edition 2021 --test reference.rs && ./reference`.
#![allow(dead_code, unused_imports)]

#[path = "reference/better.rs"]
mod better;
#[path = "reference/day_file.rs"]
mod day_file;
#[path = "reference/exchange.rs"]
mod exchange;
#[path = "reference/forecast.rs"]
mod forecast;
#[path = "reference/fulfil.rs"]
mod fulfil;
#[path = "reference/idle.rs"]
mod idle;
#[path = "reference/listing.rs"]
mod listing;
#[path = "reference/marker.rs"]
mod marker;
#[path = "reference/planner.rs"]
mod planner;
#[path = "reference/standard.rs"]
mod standard;

#[cfg(test)]
#[path = "reference/brute_force.rs"]
mod brute_force;
#[cfg(test)]
#[path = "reference/tests.rs"]
mod tests;

pub use better::{better, choose, Better, PairRefusal};
pub use day_file::{read, write, Layout};
pub use forecast::{forecast, Forecast};
pub use fulfil::{fulfil, fulfil_by, sheet_or_group, Fulfilled, Wants};
pub use idle::read_to_plan;
pub use listing::listing;
pub use marker::{feasible, mark, Marked};
pub use planner::{plan, plan_sheet, settled_sheet};

/// The most seats and windows that a book has.
pub const SEATS: usize = 32;
pub const WINDOWS: usize = 24;

/// The highest supply and the highest cap.
pub const MOST_CREDITS: u16 = 4095;

/// The highest balance.
pub const MOST_BALANCE: u16 = 50_000;

/// The greatest weight.
pub const MOST_WEIGHT: u16 = 1000;

/// The weight of each class, class 1 first, in a file that has no weights of its own.
pub const WEIGHTS: [u16; 8] = [1, 2, 3, 5, 8, 12, 20, 40];

/// The longest file: 32 seats, 24 windows, a sheet, a first seat, balances and weights.
pub const FILE_LENGTH: usize = 3310;

/// The marker's output buffer: 31 moves of three bytes.
pub const MOVES_LENGTH: usize = 93;

/// One number per seat and window; unused cells are 0.
pub type Grid = [[u16; WINDOWS]; SEATS];

/// The credits that each seat has in each window.
pub type Sheet = Grid;

/// What a day file says of its seats and windows, the sheet left aside.
#[derive(Clone, Debug, PartialEq, Eq)]
pub struct Book {
    pub seats: usize,
    pub windows: usize,
    pub classes: [u16; SEATS],
    pub supplies: [u16; WINDOWS],
    pub caps: Grid,
    /// The seat that comes first today, from 1; seat 1 if none is named.
    pub first: Option<u16>,
    /// Per seat its balance, the credits received on earlier days; zeros if there are none.
    pub balances: Option<[u16; SEATS]>,
    /// The weight of each class, class 1 first; those of paper 01 if there are none.
    pub weights: Option<[u16; 8]>,
}

impl Book {
    /// A book of this size with nothing in it; every class is 1.
    pub fn empty(seats: usize, windows: usize) -> Book {
        let mut classes = [0; SEATS];
        classes[..seats].fill(1);
        let (supplies, caps) = ([0; WINDOWS], [[0; WINDOWS]; SEATS]);
        Book { seats, windows, classes, supplies, caps, first: None, balances: None, weights: None }
    }

    /// How many seats come before this one in today's order, which runs from the first seat up to the last and on from 1.
    /// The first seat must be one of the book.
    pub fn place(&self, seat: usize) -> usize {
        let first = self.first.map_or(0, |first| first as usize - 1);
        (seat + self.seats - first) % self.seats
    }

    /// Whether all of a seat's caps are zero.
    pub fn is_idle(&self, seat: usize) -> bool {
        self.caps[seat][..self.windows].iter().all(|&cap| cap == 0)
    }

    /// Per seat the balance that it carries over; zeros where the book has none.
    pub fn carried(&self) -> [u16; SEATS] {
        self.balances.unwrap_or([0; SEATS])
    }

    /// The weights in force, by class: the book's own, or paper 01's where it has none.
    pub fn table(&self) -> [u16; 8] {
        self.weights.unwrap_or(WEIGHTS)
    }

    /// The weight of a seat, whose class must be one of the eight.
    pub fn weight(&self, seat: usize) -> u16 {
        self.table()[self.classes[seat] as usize - 1]
    }
}

/// Why a file, a book or an output buffer is turned away: number and offset of paper 01's table, which paper 02 goes on with.
#[derive(Clone, Copy, Debug, PartialEq, Eq)]
pub struct Refusal {
    pub number: u32,
    pub offset: usize,
}

/// `Err` with this number and offset if the condition is met.
fn refuse_if(condition: bool, number: u32, offset: usize) -> Result<(), Refusal> {
    if condition {
        Err(Refusal { number, offset })
    } else {
        Ok(())
    }
}
