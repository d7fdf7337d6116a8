//! Times of the call that looks for a sheet with wanted totals.
//!
//! The library has no call that plans without the standard sheet. What its plan takes without that, "settled plan", is taken to be its
//! plan's time less the share that the standard sheet has of the plan in plain Rust of the same method: the library's plan x settled alone
//! / plain Rust's plan. These three are timed on the same file, in turn with the others.

use std::hint::black_box;

use super::books::{self, file_of, planned, spoilt, windows_alone, KINDS};
use super::credits::raw;
use super::reference::{self, Book, Fulfilled, Wants, SEATS, WINDOWS};
use super::rng::Rng;
use super::same_fulfil::{self, most_alone, sheet_or_group};
use super::same_standard::totals;
use super::timing::{side_by_side, Call, Times};
use super::{heading, line, planners, BOOKS, COUNTED, ROUNDS};

/// Draws wanted totals for a book.
type Hand = fn(&mut Rng, &Book) -> Wants;

/// The kinds of wanted totals that are timed, by name, with the seats that the group has, at the least and at the most; none for a sheet.
const WANTS: [(&str, Hand, [u32; 2]); 4] = [
    ("of a sheet", of_a_sheet, [0, 0]),
    ("half of the plan", |_, book| totals(&planned(book)).map(|total| total / 2), [0, 0]),
    ("a bit too much", a_little_more, [2, 32]),
    ("too much for one", too_much_for_one, [1, 1]),
];

const NAMES: [&str; 5] = ["library", "plain Rust", "other method", "plan", "settled plan"];

/// The totals of a lawful sheet, drawn at random, that hands out all there is.
fn of_a_sheet(rng: &mut Rng, book: &Book) -> Wants {
    let first = rng.below(book.seats);
    totals(&spoilt(rng, book, &windows_alone(book, first), 1000, 100))
}

/// The same with a few credits more for a few seats, of which each could have them alone.
fn a_little_more(rng: &mut Rng, book: &Book) -> Wants {
    loop {
        let mut wants = of_a_sheet(rng, book);
        for _ in 0..3 {
            wants[rng.below(book.seats)] += rng.between(1, 8) as u32;
        }
        if matches!(sheet_or_group(book, &wants).0, Err(group) if group.count_ones() > 1) {
            return wants;
        }
    }
}

/// The same, but one seat wants a credit more than it could have alone.
fn too_much_for_one(rng: &mut Rng, book: &Book) -> Wants {
    let (mut wants, seat) = (of_a_sheet(rng, book), rng.below(book.seats));
    wants[seat] = most_alone(book, seat) + 1;
    wants
}

pub fn row_of(book: &Book, wants: &Wants) -> Vec<u8> {
    wants[..book.seats].iter().flat_map(|want| want.to_le_bytes()).collect()
}

/// The calls that look for a sheet, each with its own output buffer.
pub fn fulfillers<'a>(file: &'a [u8], row: &'a [u8]) -> Vec<Call<'a>> {
    let call = |name, fulfil: fn(&[u8], &[u8], &mut [u8]) -> bool| {
        let mut out = [0; 2 * SEATS * WINDOWS];
        Call::new(name, move || assert!(fulfil(black_box(file), black_box(row), black_box(&mut out))))
    };
    vec![
        call("library", |file, row, out| raw::fulfil(file, row, out).refusal == 0),
        call("plain Rust", |file, row, out| same_fulfil::fulfil(file, row, out).is_ok()),
        call("other method", |file, row, out| reference::fulfil(file, row, out).is_ok()),
    ]
}

/// All calls on books that are drawn, with wanted totals of one kind; the plans of the same books; and what these take without the standard
/// sheet.
fn times(draw: impl Fn(&mut Rng) -> Book, hand: Hand) -> Times {
    let mut rng = Rng::new(7);
    let mut times = Times::default();
    for _ in 0..BOOKS {
        let book = draw(&mut rng);
        let row = row_of(&book, &hand(&mut rng, &book));
        let file = file_of(&book, None);
        let mut calls = fulfillers(&file, &row);
        calls.extend(planners(&file).into_iter().filter(|call| !["other method", "max flow"].contains(&call.name)));
        let medians = side_by_side(&mut calls, ROUNDS, 1);
        let [library, plain, other, plan, plain_plan, settled] = medians[..] else { panic!("six calls") };
        times.add(vec![library, plain, other, plan, plan * settled / plain_plan]);
    }
    times
}

pub fn table(csv: &mut String) {
    heading("fulfil, 32 seats, 24 windows", &NAMES);
    let mut ratios = [(); 3].map(|()| Vec::new());
    for ((wants, hand, _), (kind, draw)) in WANTS.iter().flat_map(|wants| KINDS.map(|kind| (wants, kind))) {
        let times = times(|rng| draw(rng, 32, 24), *hand);
        line(csv, "fulfil", &format!("{wants}: {kind}"), &NAMES, &times);
        let medians = times.medians();
        ratios.iter_mut().zip([1, 3, 4]).for_each(|(ratios, column)| ratios.push(medians[0] / medians[column]));
    }
    let [plain, plan, settled] = ratios.map(|mut ratios| {
        ratios.sort_by(f64::total_cmp);
        format!("{:.2} to {:.2}", ratios[0], ratios[ratios.len() - 1])
    });
    println!("The library fulfils in {plain} times what plain Rust takes, in {plan} times what its plan of the same book takes,");
    println!("and in {settled} times what that plan takes without the standard sheet.");
    println!("{}", agreement());
    count_settling();
}

/// Fulfilling as books grow, a quarter filled: the number that grows, and the size of the book.
pub fn growth_table(csv: &mut String, table: &str, title: &str, sizes: impl Iterator<Item = (usize, (usize, usize))>) {
    heading(title, &NAMES);
    for (case, (seats, windows)) in sizes {
        let times = times(|rng| books::quarter(rng, seats, windows), of_a_sheet);
        line(csv, table, &case.to_string(), &NAMES, &times);
    }
}

/// A sentence on what all make of the same wanted totals.
fn agreement() -> String {
    let (mut rng, mut rows) = (Rng::new(7), 0);
    for ((_, hand, members), (_, draw)) in WANTS.iter().flat_map(|wants| KINDS.map(|kind| (wants, kind))) {
        for _ in 0..BOOKS {
            let book = draw(&mut rng, 32, 24);
            let wants = hand(&mut rng, &book);
            assert_agree(&file_of(&book, None), &row_of(&book, &wants), *members);
            rows += 1;
        }
    }
    format!("On all {rows} rows library and plain Rust give the same bytes or the same group, the other method the same kind of reply.")
}

/// Library and plain Rust must give the same, and the other method a sheet where they do. A group has so many members.
fn assert_agree(file: &[u8], row: &[u8], [least, most]: [u32; 2]) {
    let [mut out, mut same_out, mut other_out] = [[0; 2 * SEATS * WINDOWS]; 3];
    let library = raw::fulfil(file, row, &mut out);
    let (length, group) = match same_fulfil::fulfil(file, row, &mut same_out).expect("a row for the book") {
        Fulfilled::Sheet { length } => (length, 0),
        Fulfilled::Group { seats } => (0, seats),
    };
    assert_eq!(library, raw::FulfilResult { refusal: 0, offset: 0, length, group });
    assert!(out == same_out, "the sheets differ");
    let other = reference::fulfil(file, row, &mut other_out).expect("a row for the book");
    assert_eq!(matches!(other, Fulfilled::Sheet { .. }), group == 0);
    assert!(least <= group.count_ones() && group.count_ones() <= most);
}

/// What the fast start leaves to settling, counted in plain Rust of the same method.
fn count_settling() {
    let mut rng = Rng::new(23);
    let (mut rows, mut settled, mut most) = (0, 0, 0);
    for ((_, hand, _), (_, draw)) in WANTS.iter().flat_map(|wants| KINDS.map(|kind| (wants, kind))) {
        for _ in 0..COUNTED / WANTS.len() {
            let book = draw(&mut rng, 32, 24);
            let [coarse, fine, settling] = sheet_or_group(&book, &hand(&mut rng, &book)).1;
            rows += 1;
            settled += (settling > 0) as usize;
            most = most.max(coarse + fine);
        }
    }
    println!("Settling has something to do on {settled} of {rows} rows, the fast start at most {most} turns.");
}
