//! From wanted totals to a sheet (paper 02, E7), as a maximum flow: out of each seat flows what it wants, through its caps, into the
//! windows' supplies.

use super::day_file::write_grid;
use super::exchange::bits;
use super::{read, refuse_if, Book, Refusal, Sheet, SEATS, WINDOWS};

/// The total that is wanted for each seat; 0 beyond the book's seats.
pub type Wants = [u32; SEATS];

/// The reply to wanted totals.
#[derive(Clone, Copy, Debug, PartialEq, Eq)]
pub enum Fulfilled {
    /// A lawful sheet with just these totals has been written, as a body of that length.
    Sheet { length: usize },
    /// These seats, the lowest bit for seat 1, want more than they can get.
    Group { seats: u32 },
}

/// Looks for a lawful sheet of the file's book with the totals of a row, four bytes each, and writes its body to the front of `out`.
pub fn fulfil(file: &[u8], row: &[u8], out: &mut [u8]) -> Result<Fulfilled, Refusal> {
    fulfil_by(file, row, out, sheet_or_group)
}

/// The same, by that way to a sheet or, as its error, to a group.
pub fn fulfil_by(
    file: &[u8],
    row: &[u8],
    out: &mut [u8],
    sheet_or_group: impl Fn(&Book, &Wants) -> Result<Sheet, u32>,
) -> Result<Fulfilled, Refusal> {
    let (book, _) = read(file)?;
    refuse_if(row.len() != 4 * book.seats, 21, 0)?;
    let length = 2 * book.seats * book.windows;
    refuse_if(out.len() < length, 16, length)?;
    let mut wants = [0; SEATS];
    for (want, bytes) in wants.iter_mut().zip(row.chunks_exact(4)) {
        *want = u32::from_le_bytes([bytes[0], bytes[1], bytes[2], bytes[3]]);
    }
    Ok(match sheet_or_group(&book, &wants) {
        Ok(sheet) => {
            write_grid(&sheet, &book, out);
            Fulfilled::Sheet { length }
        }
        Err(seats) => Fulfilled::Group { seats },
    })
}

/// A lawful sheet with just these totals, or the seats on the source's side of a least cut.
pub fn sheet_or_group(book: &Book, wants: &Wants) -> Result<Sheet, u32> {
    let mut flow = Flow { book, sheet: [[0; WINDOWS]; SEATS], missing: *wants, left: book.supplies };
    loop {
        let search = flow.search();
        match search.end {
            Some(window) => flow.send(&search, window),
            None if search.seats == 0 => return Ok(flow.sheet),
            None => return Err(search.seats),
        }
    }
}

/// A flow in the making: its sheet, what each seat misses of its want, and what each window has left.
struct Flow<'a> {
    book: &'a Book,
    sheet: Sheet,
    missing: Wants,
    left: [u16; WINDOWS],
}

/// A search for a way to a window that has credits left.
struct Search {
    /// The seats that were reached: those that miss credits, and those that could do with others than they have.
    seats: u32,
    /// Per seat reached the window whose credits it would give up; none if it misses credits.
    gives_up: [Option<usize>; SEATS],
    /// Per window reached the seat that would take credits there.
    taker: [usize; WINDOWS],
    end: Option<usize>,
}

/// One seat of a way: it takes credits in a window, and gives up as many in another if it misses none.
struct Step {
    seat: usize,
    takes: usize,
    gives_up: Option<usize>,
}

impl Search {
    /// The steps to a window, the last one first. The seat of the first one misses credits.
    fn way(&self, end: usize) -> Vec<Step> {
        let mut next = Some(end);
        let back = std::iter::from_fn(|| {
            let takes = next?;
            let seat = self.taker[takes];
            next = self.gives_up[seat];
            Some(Step { seat, takes, gives_up: next })
        });
        back.collect()
    }
}

impl Flow<'_> {
    /// Breadth first from all seats that miss credits: to the windows in which a seat is below its cap, and from there to the seats that
    /// have credits in them.
    fn search(&self) -> Search {
        let missing = (0..self.book.seats).filter(|&seat| self.missing[seat] > 0);
        let mut queue: Vec<usize> = missing.collect();
        let seats = queue.iter().fold(0, |set, seat| set | 1 << seat);
        let mut search = Search { seats, gives_up: [None; SEATS], taker: [0; WINDOWS], end: None };
        let (mut next, mut unseen) = (0, u32::MAX >> (32 - self.book.windows));
        while next < queue.len() {
            let seat = queue[next];
            next += 1;
            for window in bits(unseen).filter(|&window| self.sheet[seat][window] < self.book.caps[seat][window]) {
                unseen &= !(1 << window);
                search.taker[window] = seat;
                if self.left[window] > 0 {
                    return Search { end: Some(window), ..search };
                }
                let holds = |giver: &usize| search.seats >> giver & 1 == 0 && self.sheet[*giver][window] > 0;
                let givers: Vec<usize> = (0..self.book.seats).filter(holds).collect();
                for giver in givers {
                    search.seats |= 1 << giver;
                    search.gives_up[giver] = Some(window);
                    queue.push(giver);
                }
            }
        }
        search
    }

    /// Sends as many credits as all steps of a way let through.
    fn send(&mut self, search: &Search, end: usize) {
        let way = search.way(end);
        let first = way[way.len() - 1].seat;
        let lets_through = |step: &Step| {
            let room = self.book.caps[step.seat][step.takes] - self.sheet[step.seat][step.takes];
            step.gives_up.map_or(room, |window| room.min(self.sheet[step.seat][window]))
        };
        let most = way.iter().map(lets_through).fold(self.left[end], u16::min);
        let credits = self.missing[first].min(most as u32) as u16;
        for Step { seat, takes, gives_up } in way {
            self.sheet[seat][takes] += credits;
            gives_up.iter().for_each(|&window| self.sheet[seat][window] -= credits);
        }
        self.left[end] -= credits;
        self.missing[first] -= credits as u32;
    }
}
