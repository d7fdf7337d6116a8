//! A search for books that take long to plan, and for wanted totals that take long: random books, and from the hardest of some hundred
//! uphill by small changes.
//!
//! Time wavers from run to run, so the search climbs by what the method has to do, which it counts in the plain version of the same
//! method: in one climb the turns that settling takes, in the next the searches and exchanges that the standard sheet takes, and in the
//! third the turns that settling takes for wanted totals. What it ends with is timed in the library.

use std::time::{Duration, Instant};

use super::books::{file_of, keep_busy, BALANCES, TABLES};
use super::credits;
use super::reference::{Book, Wants, FILE_LENGTH, MOST_BALANCE, MOST_CREDITS, MOST_WEIGHT, SEATS, WINDOWS};
use super::rng::Rng;
use super::same_fulfil::{most_alone, sheet_or_group};
use super::same_method::{counts, Counts};
use super::same_standard::Work;
use super::timing::median;
use super::wanted::row_of;

/// A book, and totals that are wanted. No seat is idle, and none wants more than it can get alone: both would be told at once.
#[derive(Clone)]
struct Case {
    book: Book,
    wants: Wants,
}

/// What a case takes: the turns of the parts that settle, and the work for the standard sheet.
struct Taken {
    turns: [usize; 3],
    work: Work,
}

/// What a climb goes by: its name, what is done with a case, and what of that counts; and how long it takes in the library.
struct Climb {
    name: &'static str,
    take: fn(&Case) -> Taken,
    cost: fn(&Taken) -> usize,
    time: fn(&Case) -> f64,
}

const CLIMBS: [Climb; 3] = [
    Climb { name: "settling", take: plan, cost: settling, time: plan_time },
    Climb { name: "standard", take: plan, cost: raising, time: plan_time },
    Climb { name: "wanted totals", take: fulfil, cost: settling, time: fulfil_time },
];

fn plan(case: &Case) -> Taken {
    let Counts { turns, work, .. } = counts(&case.book);
    Taken { turns, work }
}

fn fulfil(case: &Case) -> Taken {
    Taken { turns: sheet_or_group(&case.book, &case.wants).1, work: Work::default() }
}

/// An exchange that is settled credit by credit, or a search of the slow pass, counts as this many turns or searches of the fast parts.
const SLOW: usize = 20;

/// The turns that settling takes.
fn settling(taken: &Taken) -> usize {
    let [coarse, fine, settling] = taken.turns;
    coarse + fine + SLOW * settling
}

/// What the standard sheet takes.
fn raising(taken: &Taken) -> usize {
    taken.work.searches + taken.work.pushes + SLOW * taken.work.left
}

/// How many books the search has met, how many of them have balances and weights and with how many totals were wanted, and on how many the
/// slow parts had something to do.
#[derive(Default)]
struct Met {
    books: usize,
    with_balances: usize,
    with_weights: usize,
    with_wants: usize,
    settling: usize,
    raising: usize,
}

/// Climbs from random books for that many seconds, and reports the book and the wanted totals that take longest.
pub fn search(seconds: u64) {
    let end = Instant::now() + Duration::from_secs(seconds);
    let (mut rng, mut met) = (Rng::new(17), Met::default());
    let (mut longest_plan, mut longest_row, mut climbs) = (0.0, 0.0, 0);
    while Instant::now() < end {
        let climb = &CLIMBS[climbs % CLIMBS.len()];
        let draw = [any_book, level_book, loaded_book, light_book][climbs / CLIMBS.len() % 4];
        let cases = (0..1000).map(|_| any_wants(&mut rng, draw));
        let start = cases.max_by_key(|case| met.cost(climb, case)).expect("1000 books");
        let until = end.min(Instant::now() + Duration::from_secs(seconds.div_ceil(16)));
        let (case, changes) = climb.uphill(&mut rng, &mut met, start.clone(), until);
        let time = (climb.time)(&case);
        println!("climb {climbs} by {}: {}", climb.name, (climb.take)(&start).in_words());
        println!("  after {changes} changes {}, {time:.0} µs", (climb.take)(&case).in_words());
        climbs += 1;
        let longest = if climb.is_for_wants() { &mut longest_row } else { &mut longest_plan };
        if time > *longest {
            *longest = time;
            keep(climb, &case);
        }
    }
    println!("{} books, {} of them with balances, {} with weights", met.books, met.with_balances, met.with_weights);
    println!("and {} with wanted totals", met.with_wants);
    println!("settling had something to do on {} of them", met.settling);
    println!("the fast pass to the standard sheet left something on {}", met.raising);
    println!("longest plan found: {longest_plan:.0} µs, out/worst.day");
    println!("longest wanted totals found: {longest_row:.0} µs, out/worst-wanted.day and out/worst-wanted.row");
}

/// A book with caps and supplies of any size: how high, how many and how scarce is drawn for the whole book. Half of the books name a first
/// seat, half have balances, and half have weights. No seat is idle.
fn any_book(rng: &mut Rng) -> Book {
    let mut book = Book::empty(32, 24);
    let (highest, one_in, sixteenths) = (1 << rng.below(13), rng.between(1, 8), rng.between(1, 16));
    let last_class = if rng.once_in(3) { 1 } else { 8 };
    for seat in 0..32 {
        book.classes[seat] = rng.between(1, last_class) as u16;
        for window in 0..24 {
            book.caps[seat][window] = if rng.once_in(one_in) { rng.between(1, highest).min(4095) as u16 } else { 0 };
        }
        keep_busy(rng, &mut book, seat, highest.min(4095));
    }
    for window in 0..24 {
        let caps: usize = book.caps.iter().map(|row| row[window] as usize).sum();
        book.supplies[window] = (caps * sixteenths / 16).min(4095) as u16;
    }
    book.first = rng.once_in(2).then(|| rng.between(1, 32) as u16);
    if rng.once_in(2) {
        book = BALANCES[rng.below(BALANCES.len())].1(rng, book);
    }
    if rng.once_in(2) {
        book = TABLES[rng.below(TABLES.len())].1(rng, book);
    }
    book
}

/// A book of one class in which few totals differ: there is so little that no seat's caps keep it below the others.
fn level_book(rng: &mut Rng) -> Book {
    let mut book = Book { classes: [1; SEATS], ..any_book(rng) };
    let least = book.caps.iter().map(|row| row.iter().map(|&cap| cap as usize).sum()).min().unwrap_or(0);
    let supply: usize = rng.below(least + 1) * SEATS / book.windows;
    book.supplies[..book.windows].fill(supply.min(4095) as u16);
    book
}

/// A book in which some seats have large balances, no two of them equal, and low caps: they have few credits, which all others are to have,
/// so that many small exchanges are needed.
fn loaded_book(rng: &mut Rng) -> Book {
    let mut book = any_book(rng);
    let (mut balances, most, one_in) = (book.carried(), rng.between(1, 70), rng.between(2, 4));
    for seat in 0..SEATS {
        if rng.once_in(one_in) {
            balances[seat] = MOST_BALANCE - (100 * seat + rng.below(100)) as u16;
            book.caps[seat][..book.windows].fill_with(|| rng.between(1, most) as u16);
        }
    }
    Book { balances: Some(balances), ..book }
}

/// A book in which a few seats are light and all others heavy, with narrow cells and wide ones: a light seat takes few credits before it
/// stands as high as the others, so that the fast part goes by small steps.
fn light_book(rng: &mut Rng) -> Book {
    let mut book = any_book(rng);
    let (light, most, one_in) = (rng.between(1, 4), rng.between(1, 64), rng.between(1, 4));
    for seat in 0..SEATS {
        book.classes[seat] = if seat < light { 1 } else { rng.between(7, 8) as u16 };
        book.caps[seat][..book.windows].fill_with(|| match rng.once_in(one_in) {
            true => rng.between(1, most) as u16,
            false => rng.once_in(3) as u16 * rng.between(64, 4095) as u16,
        });
        keep_busy(rng, &mut book, seat, most);
    }
    for window in 0..book.windows {
        let caps: usize = book.caps.iter().map(|row| row[window] as usize).sum();
        book.supplies[window] = (caps * rng.between(1, 15) / 16).min(4095) as u16;
    }
    Book { weights: Some([1, 994, 995, 996, 997, 998, 999, 1000]), ..book }
}

/// Wanted totals for a book that is drawn: any that a seat can get alone, or all or nothing of that; or such as the plan has, halved or
/// with a few credits more.
fn any_wants(rng: &mut Rng, draw: fn(&mut Rng) -> Book) -> Case {
    let book = draw(rng);
    let (kind, totals) = (rng.below(4), counts(&book).totals);
    let mut wants = [0; SEATS];
    for seat in 0..book.seats {
        let most = most_alone(&book, seat);
        wants[seat] = match kind {
            0 => rng.below(most as usize + 1) as u32,
            1 => rng.once_in(4) as u32 * most,
            2 => totals[seat] / 2,
            _ => most.min(totals[seat] + rng.below(20) as u32),
        };
    }
    Case { book, wants }
}

impl Taken {
    fn in_words(&self) -> String {
        let Taken { turns, work } = self;
        format!("{turns:?} turns, {} searches, {} exchanges, {} slow searches", work.searches, work.pushes, work.left)
    }
}

impl Met {
    fn cost(&mut self, climb: &Climb, case: &Case) -> usize {
        let taken = (climb.take)(case);
        self.books += 1;
        self.with_balances += case.book.balances.is_some() as usize;
        self.with_weights += case.book.weights.is_some() as usize;
        self.with_wants += climb.is_for_wants() as usize;
        self.settling += (taken.turns[2] > 0) as usize;
        self.raising += (taken.work.left > 0) as usize;
        (climb.cost)(&taken)
    }
}

impl Climb {
    fn is_for_wants(&self) -> bool {
        self.name == "wanted totals"
    }

    /// Small changes, kept where the case gets no easier; one that leaves a seat idle is not tried.
    fn uphill(&self, rng: &mut Rng, met: &mut Met, mut case: Case, end: Instant) -> (Case, usize) {
        let (mut best, mut changes) = (met.cost(self, &case), 0);
        while Instant::now() < end {
            let mut other = case.clone();
            for _ in 0..=rng.below(4) {
                change(rng, &mut other.book);
                change_want(rng, &mut other);
            }
            if (0..other.book.seats).any(|seat| other.book.is_idle(seat)) {
                continue;
            }
            let harder = met.cost(self, &other);
            changes += (harder > best) as usize;
            if harder >= best {
                (case, best) = (other, harder);
            }
        }
        (case, changes)
    }
}

/// At times another want, any or one that is near; and no seat wants more than it can get alone.
fn change_want(rng: &mut Rng, case: &mut Case) {
    let seat = rng.below(case.book.seats);
    match rng.below(6) {
        0 => case.wants[seat] = rng.below(most_alone(&case.book, seat) as usize + 1) as u32,
        1 => case.wants[seat] = (case.wants[seat] + rng.below(17) as u32).saturating_sub(8),
        _ => (),
    }
    (0..case.book.seats).for_each(|seat| case.wants[seat] = case.wants[seat].min(most_alone(&case.book, seat)));
}

/// Another class, supply, cap, first seat or, where there are balances or weights, one of these; or two seats' caps in a window the other
/// way round.
fn change(rng: &mut Rng, book: &mut Book) {
    let (seat, other, window) = (rng.below(book.seats), rng.below(book.seats), rng.below(book.windows));
    let cap = book.caps[seat][window];
    if let Some(balances) = book.balances.as_mut().filter(|_| rng.once_in(5)) {
        balances[seat] = credits_near(rng, balances[seat], MOST_BALANCE);
        return;
    }
    if let Some(weights) = book.weights.as_mut().filter(|_| rng.once_in(8)) {
        return change_weight(rng, weights);
    }
    match rng.below(9) {
        0 => book.classes[seat] = rng.between(1, 8) as u16,
        1 => book.supplies[window] = credits_near(rng, book.supplies[window], MOST_CREDITS),
        2 => book.caps[seat].swap(window, rng.below(book.windows)),
        3 => (book.caps[seat][window], book.caps[other][window]) = (book.caps[other][window], cap),
        4 => book.caps[seat][window] = 0,
        5 => book.first = Some(seat as u16 + 1),
        _ => book.caps[seat][window] = credits_near(rng, cap, MOST_CREDITS),
    }
}

/// Any weight for one class, between those of its neighbours.
fn change_weight(rng: &mut Rng, weights: &mut [u16; 8]) {
    let class = rng.below(8);
    let least = if class == 0 { 1 } else { weights[class - 1] + 1 };
    let most = if class == 7 { MOST_WEIGHT } else { weights[class + 1] - 1 };
    weights[class] = rng.between(least as usize, most as usize) as u16;
}

/// Any number of credits, or one that is near.
fn credits_near(rng: &mut Rng, credits: u16, most: u16) -> u16 {
    let near = (credits as usize + rng.below(17)).saturating_sub(8);
    let any = 1 << rng.below(most.ilog2() as usize + 2);
    (if rng.once_in(2) { near } else { rng.below(any) }).min(most as usize) as u16
}

/// The median of many runs of a call of the library, in microseconds.
fn median_time(mut call: impl FnMut()) -> f64 {
    let mut run = || {
        let begin = Instant::now();
        call();
        begin.elapsed().as_secs_f64() * 1e6
    };
    median(&mut (0..51).map(|_| run()).collect::<Vec<_>>())
}

fn plan_time(case: &Case) -> f64 {
    let (file, mut out) = (file_of(&case.book, None), [0; FILE_LENGTH]);
    median_time(|| assert!(credits::plan(&file, &mut out).is_ok()))
}

fn fulfil_time(case: &Case) -> f64 {
    let (file, row, mut out) = (file_of(&case.book, None), row_of(&case.book, &case.wants), [0; 2 * SEATS * WINDOWS]);
    median_time(|| assert_eq!(credits::raw::fulfil(&file, &row, &mut out).refusal, 0))
}

/// Keeps the file, and the row where totals are wanted.
fn keep(climb: &Climb, case: &Case) {
    let (file, row) = (file_of(&case.book, None), row_of(&case.book, &case.wants));
    std::fs::create_dir_all("out").expect("out");
    if climb.is_for_wants() {
        std::fs::write("out/worst-wanted.day", file).expect("out/worst-wanted.day");
        std::fs::write("out/worst-wanted.row", row).expect("out/worst-wanted.row");
    } else {
        std::fs::write("out/worst.day", file).expect("out/worst.day");
    }
}
