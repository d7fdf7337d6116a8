//! A planner by maximum flow and bisection, as one would write it over a library's `max_flow`: a network from a source over
//! seats and windows to a sink, and per level as many flows as it takes to find the highest level that all open seats can have.

use super::reference::{read_to_plan, write, Book, Refusal, Sheet, MOST_WEIGHT, SEATS, WINDOWS};

/// Two levels that differ do so by one of this many units or more.
const FINEST: u64 = MOST_WEIGHT as u64 * MOST_WEIGHT as u64;

/// Plans the book of a day file and writes the whole file with the planned sheet to the front of `out`.
pub fn plan(file: &[u8], out: &mut [u8]) -> Result<usize, Refusal> {
    let book = read_to_plan(file)?;
    let sheet = Levels::new(&book).plan();
    write(&book, Some(&sheet), out)
}

struct Edge {
    to: usize,
    capacity: u32,
}

/// A flow network by Dinic: edge 2k is an edge and 2k + 1 its reverse.
struct Network {
    edges: Vec<Edge>,
    leaving: Vec<Vec<usize>>,
    depth: Vec<usize>,
    next: Vec<usize>,
}

impl Network {
    fn new(nodes: usize) -> Network {
        let leaving = (0..nodes).map(|_| Vec::new()).collect();
        Network { edges: Vec::new(), leaving, depth: vec![0; nodes], next: vec![0; nodes] }
    }

    fn add(&mut self, from: usize, to: usize, capacity: u32) -> usize {
        let edge = self.edges.len();
        self.edges.push(Edge { to, capacity });
        self.edges.push(Edge { to: from, capacity: 0 });
        self.leaving[from].push(edge);
        self.leaving[to].push(edge + 1);
        edge
    }

    fn max_flow(&mut self, source: usize, sink: usize) -> u32 {
        let mut flow = 0;
        while self.layer(source, sink) {
            self.next.fill(0);
            loop {
                let pushed = self.push(source, sink, u32::MAX);
                if pushed == 0 {
                    break;
                }
                flow += pushed;
            }
        }
        flow
    }

    /// The distance of every node from the source; says whether the sink is reached.
    fn layer(&mut self, source: usize, sink: usize) -> bool {
        self.depth.fill(usize::MAX);
        self.depth[source] = 0;
        let mut queue = vec![source];
        let mut at = 0;
        while at < queue.len() {
            let node = queue[at];
            at += 1;
            for &edge in &self.leaving[node] {
                let Edge { to, capacity } = self.edges[edge];
                if capacity > 0 && self.depth[to] == usize::MAX {
                    self.depth[to] = self.depth[node] + 1;
                    queue.push(to);
                }
            }
        }
        self.depth[sink] != usize::MAX
    }

    /// Sends flow along one path of the layers.
    fn push(&mut self, node: usize, sink: usize, most: u32) -> u32 {
        if node == sink {
            return most;
        }
        while self.next[node] < self.leaving[node].len() {
            let edge = self.leaving[node][self.next[node]];
            let Edge { to, capacity } = self.edges[edge];
            if capacity > 0 && self.depth[to] == self.depth[node] + 1 {
                let pushed = self.push(to, sink, most.min(capacity));
                if pushed > 0 {
                    self.edges[edge].capacity -= pushed;
                    self.edges[edge ^ 1].capacity += pushed;
                    return pushed;
                }
            }
            self.next[node] += 1;
        }
        0
    }
}

/// The least multiple of all weights, in which levels are whole numbers; or the finest units, where that is less.
fn units(weights: &[u16; 8]) -> u64 {
    weights.iter().fold(1, |units, &weight| {
        let weight = weight as u64;
        (units * weight / common_divisor(units, weight)).min(FINEST)
    })
}

/// The greatest number that divides both.
fn common_divisor(mut number: u64, mut other: u64) -> u64 {
    while other > 0 {
        (number, other) = (other, number % other);
    }
    number
}

/// What each seat may have; a closed seat keeps it.
struct Levels<'a> {
    book: &'a Book,
    /// Levels count in so many units, rounded down: so many that no two levels become equal.
    units: u64,
    weights: [u64; SEATS],
    balances: [u64; SEATS],
    totals: [u64; SEATS],
    open: [bool; SEATS],
}

impl<'a> Levels<'a> {
    fn new(book: &'a Book) -> Levels<'a> {
        let mut weights = [1; SEATS];
        for seat in 0..book.seats {
            weights[seat] = book.weight(seat) as u64;
        }
        let mut open = [false; SEATS];
        open[..book.seats].fill(true);
        let units = units(&book.table());
        Levels { book, units, weights, balances: book.carried().map(u64::from), totals: [0; SEATS], open }
    }

    /// Raises all open seats to the highest level that all can have, gives single credits in order to those that can have
    /// one more and closes the others, until all are closed.
    fn plan(mut self) -> Sheet {
        let mut level = 0;
        while self.open.contains(&true) {
            level = self.highest_level(level);
            self.totals = self.at_level(level);
            self.give_next(level);
        }
        self.flow(&self.totals).1
    }

    /// The totals at a level, which counts in units: a seat below this level gets a further credit, and one whose balance is above it none.
    fn at_level(&self, level: u64) -> [u64; SEATS] {
        let mut totals = self.totals;
        for seat in (0..self.book.seats).filter(|&seat| self.open[seat]) {
            totals[seat] = (level * self.weights[seat]).div_ceil(self.units).saturating_sub(self.balances[seat]);
        }
        totals
    }

    /// The highest level that all open seats can have, by bisection from one that they can have up to one that some seat
    /// cannot have even if all others have nothing.
    fn highest_level(&self, from: u64) -> u64 {
        let open = (0..self.book.seats).filter(|&seat| self.open[seat]);
        let (mut possible, mut not) = (from, open.map(|seat| self.out_of_reach(seat)).min().unwrap_or(0));
        while possible + 1 < not {
            let middle = (possible + not) / 2;
            if self.is_possible(&self.at_level(middle)) {
                possible = middle;
            } else {
                not = middle;
            }
        }
        possible
    }

    /// A level that is too high for a seat.
    fn out_of_reach(&self, seat: usize) -> u64 {
        let most: u64 =
            self.book.caps[seat].iter().zip(&self.book.supplies).map(|(cap, supply)| *cap.min(supply) as u64).sum();
        (self.balances[seat] + most + 1) * self.units / self.weights[seat]
    }

    /// One more credit for each open seat that stands at this level, the lower weight and the seat that is earlier today first.
    fn give_next(&mut self, level: u64) {
        let mut seats: Vec<usize> = (0..self.book.seats).filter(|&seat| self.open[seat]).collect();
        seats.retain(|&seat| (self.balances[seat] + self.totals[seat]) * self.units / self.weights[seat] == level);
        seats.sort_by_key(|&seat| (self.weights[seat], self.book.place(seat)));
        for seat in seats {
            self.totals[seat] += 1;
            if !self.is_possible(&self.totals) {
                self.totals[seat] -= 1;
                self.open[seat] = false;
            }
        }
    }

    fn is_possible(&self, totals: &[u64; SEATS]) -> bool {
        self.flow(totals).0 as u64 == totals.iter().sum::<u64>()
    }

    /// The most that a sheet can place with these totals at most, and that sheet.
    fn flow(&self, totals: &[u64; SEATS]) -> (u32, Sheet) {
        let book = self.book;
        let (source, sink) = (book.seats + book.windows, book.seats + book.windows + 1);
        let mut network = Network::new(sink + 1);
        let mut cells = Vec::new();
        for seat in 0..book.seats {
            network.add(source, seat, totals[seat] as u32);
            for window in (0..book.windows).filter(|&window| book.caps[seat][window] > 0) {
                let edge = network.add(seat, book.seats + window, book.caps[seat][window] as u32);
                cells.push((seat, window, edge));
            }
        }
        for window in 0..book.windows {
            network.add(book.seats + window, sink, book.supplies[window] as u32);
        }
        let flow = network.max_flow(source, sink);
        let mut sheet = [[0; WINDOWS]; SEATS];
        for (seat, window, edge) in cells {
            sheet[seat][window] = network.edges[edge ^ 1].capacity as u16;
        }
        (flow, sheet)
    }
}
