//! Times the library beside plain Rust on the same files, in turn within one loop.
//!
//!   bench             all tables; the numbers also go to out/speed.csv
//!   bench worst [N]   looks N seconds (60) for books that take long to plan, and for wanted totals that take long
//!   bench stack       how much stack each call uses
//!
//! Columns: "library" is the proved library, "plain Rust" a version in plain Rust that does the same: for plan, better, fulfil and forecast
//! the same method step by step (bench/same_method.rs, bench/same_standard.rs, bench/same_better.rs, bench/same_fulfil.rs,
//! bench/same_forecast.rs), for the other calls the version of reference.rs. "other method" is the call of reference.rs, "settled alone"
//! the plain Rust of the same method without the last part of a plan, which makes the settled sheet standard, and "max flow" a planner by
//! maximum flow and bisection (bench/max_flow.rs), whose sheet is any settled one. Beside fulfil stand the library's "plan" of the same
//! book, and what that would take without the standard sheet, "settled plan" (bench/wanted.rs).

use std::fmt::Write;
use std::hint::black_box;

mod books;
mod credits;
mod reference;
mod rng;

#[path = "bench/forecasts.rs"]
mod forecasts;
#[path = "bench/max_flow.rs"]
mod max_flow;
#[path = "bench/same_better.rs"]
mod same_better;
#[path = "bench/same_forecast.rs"]
mod same_forecast;
#[path = "bench/same_fulfil.rs"]
mod same_fulfil;
#[path = "bench/same_method.rs"]
mod same_method;
#[path = "bench/same_standard.rs"]
mod same_standard;
#[path = "bench/stack.rs"]
mod stack;
#[path = "bench/timing.rs"]
mod timing;
#[path = "bench/wanted.rs"]
mod wanted;
#[path = "bench/worst.rs"]
mod worst;

use books::{file_of, planned, spoilt, windows_alone, with_first, Change, Draw, BALANCES, KINDS, TABLES};
use reference::{Book, Sheet, FILE_LENGTH};
use rng::Rng;
use same_method::Counts;
use timing::{side_by_side, Call, Times};

const BOOKS: usize = 25;
const ROUNDS: usize = 15;

/// Books of each kind on which it is counted what the fast parts leave to the slow ones.
const COUNTED: usize = 1000;

/// A file on which the shortest exchange path has 24 moves, the most there are.
const LADDER: &[u8] = include_bytes!("../../examples/full-ladder.day");

fn main() {
    let arguments: Vec<String> = std::env::args().skip(1).collect();
    match arguments.iter().map(String::as_str).collect::<Vec<_>>()[..] {
        [] => all_tables(),
        ["worst"] => worst::search(60),
        ["worst", seconds] => worst::search(seconds.parse().expect("a number of seconds")),
        ["stack"] => stack::report(),
        _ => panic!("bench [worst [SECONDS] | stack]"),
    }
}

fn all_tables() {
    println!("Microseconds per call; median over {BOOKS} books of the median over {ROUNDS} rounds.");
    println!(
        "All calls of a line take turns on the same file. Output buffers are lent again and not cleared in between."
    );
    let mut csv = String::from("table,case,column,microseconds\n");
    plan_table(&mut csv);
    first_table(&mut csv);
    count_settling("the first seat changes", with_first);
    balances_table(&mut csv);
    weights_table(&mut csv);
    mark_table(&mut csv);
    better_table(&mut csv);
    wanted::table(&mut csv);
    forecasts::table(&mut csv);
    file_table(&mut csv);
    least_table(&mut csv);
    let by_seats = || (1..=8).map(|step| (4 * step, (4 * step, 24)));
    let by_windows = || (1..=8).map(|step| (3 * step, (32, 3 * step)));
    growth_table(&mut csv, "seats", "plan by seats, 24 windows", by_seats());
    growth_table(&mut csv, "windows", "plan by windows, 32 seats", by_windows());
    wanted::growth_table(&mut csv, "fulfil seats", "fulfil by seats, 24 windows", by_seats());
    wanted::growth_table(&mut csv, "fulfil windows", "fulfil by windows, 32 seats", by_windows());
    std::fs::create_dir_all("out").and_then(|()| std::fs::write("out/speed.csv", csv)).expect("out/speed.csv");
    println!("\nThe numbers are in out/speed.csv.");
}

/// A line of a table: the times, and those of the library over the plain version's.
fn line(csv: &mut String, table: &str, case: &str, names: &[&str], times: &Times) {
    let medians = times.medians();
    print!("{case:34}");
    for (name, time) in names.iter().zip(&medians) {
        print!("{time:14.2}");
        writeln!(csv, "{table},{case},{name},{time:.2}").expect("a string takes every line");
    }
    writeln!(csv, "{table},{case},longest,{:.2}", times.longest()).expect("a string takes every line");
    println!("{:10.2}{:10.1}", medians[0] / medians[1], times.longest());
}

fn heading(table: &str, names: &[&str]) {
    print!("\n{table:34}");
    names.iter().for_each(|name| print!("{name:>14}"));
    println!("{:>10}{:>10}", "ratio", "longest");
}

/// The calls that plan a file, each with its own output buffer.
fn planners(file: &[u8]) -> Vec<Call<'_>> {
    let call = |name, plan: fn(&[u8], &mut [u8]) -> usize| {
        let mut out = [0; FILE_LENGTH];
        Call::new(name, move || assert!(plan(black_box(file), black_box(&mut out)) > 0))
    };
    vec![
        call("library", |file, out| credits::plan(file, out).unwrap()),
        call("plain Rust", |file, out| same_method::plan(file, out).unwrap()),
        call("other method", |file, out| reference::plan(file, out).unwrap()),
        call("settled alone", |file, out| same_method::settle_alone(file, out).unwrap()),
        call("max flow", |file, out| max_flow::plan(file, out).unwrap()),
    ]
}

fn names(calls: &[Call]) -> Vec<&'static str> {
    calls.iter().map(|call| call.name).collect()
}

/// The first so many planners on books of one kind and size. Max flow, the last, takes so long that fewer rounds do for it.
fn plan_times(draw: Draw, (seats, windows): (usize, usize), number: usize) -> Times {
    let mut rng = Rng::new(7);
    let mut times = Times::default();
    for _ in 0..BOOKS {
        let file = file_of(&draw(&mut rng, seats, windows), None);
        let mut calls = planners(&file);
        calls.truncate(number);
        let mut max_flow = calls.split_off(number.min(4));
        let mut medians = side_by_side(&mut calls, ROUNDS, 1);
        medians.extend(side_by_side(&mut max_flow, 3, 1));
        times.add(medians);
    }
    times
}

fn plan_table(csv: &mut String) {
    let names = names(&planners(&[]));
    heading("plan, 32 seats, 24 windows", &names);
    for (kind, draw) in KINDS {
        line(csv, "plan", kind, &names, &plan_times(draw, (32, 24), names.len()));
    }
    println!("{}", agreement(|_, book| book));
}

/// Planners on full-size books of one kind with something added; the last is the library on the same books without it.
fn times_with(draw: Draw, add: Change) -> Times {
    let mut rng = Rng::new(7);
    let mut times = Times::default();
    for _ in 0..BOOKS {
        let book = draw(&mut rng, 32, 24);
        let without = file_of(&book, None);
        let file = file_of(&add(&mut rng, book), None);
        let mut calls = planners(&file);
        calls.truncate(3);
        calls.extend(planners(&without).into_iter().take(1));
        times.add(side_by_side(&mut calls, ROUNDS, 1));
    }
    times
}

/// Planning books that name a first seat, beside the same books without it.
fn first_table(csv: &mut String) {
    let names = ["library", "plain Rust", "other method", "without it"];
    heading("plan, with any first seat", &names);
    for (kind, draw) in KINDS {
        line(csv, "first", kind, &names, &times_with(draw, with_first));
    }
    println!("{}", agreement(with_first));
}

/// A table of calls on books with something added. The last column is the library on the same books without it.
struct Beside {
    table: &'static str,
    title: &'static str,
    names: &'static [&'static str],
    times: fn(Draw, Change) -> Times,
}

const PLANNED_WITHOUT: [&str; 4] = ["library", "plain Rust", "other method", "without them"];
const MARKED_WITHOUT: [&str; 3] = ["library", "plain Rust", "without them"];

impl Beside {
    /// A line for each way to add something and each kind of book. Gives the least and the most that the library takes over what it takes
    /// without.
    fn lines(&self, csv: &mut String, ways: &[(&str, Change)]) -> String {
        heading(self.title, self.names);
        let mut ratios = Vec::new();
        for ((way, add), (kind, draw)) in ways.iter().flat_map(|way| KINDS.map(|kind| (way, kind))) {
            let times = (self.times)(draw, *add);
            line(csv, self.table, &format!("{way}: {kind}"), self.names, &times);
            let medians = times.medians();
            ratios.push(medians[0] / medians[medians.len() - 1]);
        }
        ratios.sort_by(f64::total_cmp);
        format!("{:.2} to {:.2}", ratios[0], ratios[ratios.len() - 1])
    }
}

/// Planning books with balances of each kind, beside the same books without them.
fn balances_table(csv: &mut String) {
    let (table, title) = ("balances", "plan, with balances");
    let ratios = Beside { table, title, names: &PLANNED_WITHOUT, times: times_with }.lines(csv, &BALANCES);
    println!("With balances the library takes {ratios} times as long as without them.");
    for (balances, add) in BALANCES {
        println!("Balances {balances}. {}", agreement(add));
        count_settling("balances change", add);
    }
}

/// Planning and marking books with each table of weights, beside the same books without it.
fn weights_table(csv: &mut String) {
    let (table, title) = ("weights", "plan, with own weights");
    let ratios = Beside { table, title, names: &PLANNED_WITHOUT, times: times_with }.lines(csv, &TABLES);
    println!("With own weights the library plans in {ratios} times what it takes without them.");
    let (table, title) = ("weighed", "mark of a plan, with own weights");
    let ratios = Beside { table, title, names: &MARKED_WITHOUT, times: mark_times_with }.lines(csv, &TABLES);
    println!("With own weights the library marks in {ratios} times what it takes without them.");
    for (weights, add) in TABLES {
        println!("Weights: {weights}. {}", agreement(add));
        count_settling("weights change", add);
    }
}

/// What the fast parts leave to the slow ones, counted in plain Rust of the same method, on full-size books with something added.
fn count_settling(what_changes: &str, add: Change) {
    let mut rng = Rng::new(23);
    let (mut settled, mut turned, mut most) = (0, 0, 0);
    let (mut left, mut most_pushes) = (0, 0);
    for (_, draw) in KINDS {
        for _ in 0..COUNTED {
            let plain = draw(&mut rng, 32, 24);
            let book = add(&mut rng, plain.clone());
            let Counts { turns: [coarse, fine, settling], work, totals } = same_method::counts(&book);
            settled += (settling > 0) as usize;
            turned += (totals != same_method::counts(&plain).totals) as usize;
            most = most.max(coarse + fine);
            left += (work.left > 0) as usize;
            most_pushes = most_pushes.max(work.pushes);
        }
    }
    let books = KINDS.len() * COUNTED;
    println!("Settling has something to do on {settled} of {books} books, the fast start at most {most} turns;");
    println!("on {turned} of them {what_changes} the totals.");
    println!("The fast pass to the standard sheet leaves something on {left} of them; it exchanges at most {most_pushes} times.");
}

/// A sentence on what all planners make of the same books, as they are or with something changed.
fn agreement(change: Change) -> String {
    let mut rng = Rng::new(7);
    for (_, draw) in KINDS {
        for _ in 0..BOOKS {
            let book = draw(&mut rng, 32, 24);
            assert_agree(&change(&mut rng, book));
        }
    }
    let books = KINDS.len() * BOOKS;
    format!(
        "On all {books} books library, plain Rust and other method give the same bytes, the other two the same totals."
    )
}

/// The planners of standard sheets must give the same bytes, and the others the same totals.
fn assert_agree(book: &Book) {
    let file = file_of(book, None);
    let planned = |plan: &dyn Fn(&[u8], &mut [u8]) -> Option<usize>| {
        let mut out = vec![0; FILE_LENGTH];
        let length = plan(&file, &mut out).expect("a book within its bounds");
        out.truncate(length);
        out
    };
    let library = planned(&|file, out| credits::plan(file, out).ok());
    let same = planned(&|file, out| same_method::plan(file, out).ok());
    let other = planned(&|file, out| reference::plan(file, out).ok());
    assert!(library == same && library == other, "the planned files differ");
    let settled = planned(&|file, out| same_method::settle_alone(file, out).ok());
    let flow = planned(&|file, out| max_flow::plan(file, out).ok());
    let totals = |file: &Vec<u8>| {
        let sheet = reference::read(file).expect("a planned file").1.expect("a planned sheet");
        sheet.map(|row| row.iter().map(|&cell| cell as u32).sum::<u32>())
    };
    assert!(totals(&settled) == totals(&library) && totals(&flow) == totals(&library), "the planners' totals differ");
}

/// Planning as books grow, a quarter filled: the number that grows, and the size of the book.
fn growth_table(csv: &mut String, table: &str, title: &str, sizes: impl Iterator<Item = (usize, (usize, usize))>) {
    let names = names(&planners(&[])[..3]);
    heading(title, &names);
    for (case, size) in sizes {
        line(csv, table, &case.to_string(), &names, &plan_times(books::quarter, size, names.len()));
    }
}

/// The two markers.
fn markers(file: &[u8]) -> Vec<Call<'_>> {
    let call = |name, mark: fn(&[u8], &mut [u8])| {
        let mut moves = [0; 93];
        Call::new(name, move || mark(black_box(file), black_box(&mut moves)))
    };
    vec![
        call("library", |file, moves| assert_eq!(credits::raw::mark(file, moves).refusal, 0)),
        call("plain Rust", |file, moves| assert!(reference::mark(file, moves).is_ok())),
    ]
}

/// Markers on planned sheets of full-size books of one kind with something added; the last is the library on the same books without it.
fn mark_times_with(draw: Draw, add: Change) -> Times {
    let mut rng = Rng::new(11);
    let mut times = Times::default();
    for _ in 0..BOOKS {
        let book = draw(&mut rng, 32, 24);
        let with = add(&mut rng, book.clone());
        let [file, without] = [with, book].map(|book| file_of(&book, Some(&planned(&book))));
        let mut calls = markers(&file);
        calls.extend(markers(&without).into_iter().take(1));
        times.add(side_by_side(&mut calls, ROUNDS, 8));
    }
    times
}

/// A sheet with a chain, a few moves away from a settled one.
fn nearly_settled(rng: &mut Rng, book: &Book) -> Sheet {
    let settled = planned(book);
    loop {
        let sheet = spoilt(rng, book, &settled, 4, 100);
        if reference::mark(&file_of(book, Some(&sheet)), &mut [0; 93]).unwrap().mark == 2 {
            return sheet;
        }
    }
}

fn mark_table(csv: &mut String) {
    let names = names(&markers(&[]));
    heading("mark, 32 seats, 24 windows", &names);
    type Hand = fn(&mut Rng, &Book) -> Sheet;
    let sheets: [(&str, Hand); 3] = [
        ("windows alone", |_, book| windows_alone(book, 0)),
        ("nearly settled", nearly_settled),
        ("planned", |_, book| planned(book)),
    ];
    for (sheet, hand) in sheets {
        for (kind, draw) in KINDS {
            let mut rng = Rng::new(11);
            let mut times = Times::default();
            for _ in 0..BOOKS {
                let book = draw(&mut rng, 32, 24);
                let file = file_of(&book, Some(&hand(&mut rng, &book)));
                times.add(side_by_side(&mut markers(&file), ROUNDS, 8));
            }
            line(csv, "mark", &format!("{sheet}: {kind}"), &names, &times);
        }
    }
    let mut times = Times::default();
    times.add(side_by_side(&mut markers(LADDER), 10 * ROUNDS, 8));
    line(csv, "mark", "chain of 24 moves", &names, &times);
}

/// The two that choose between the sheets of two files.
fn choosers<'a>(first: &'a [u8], second: &'a [u8]) -> Vec<Call<'a>> {
    let call = |name, better: fn(&[u8], &[u8]) -> usize| {
        Call::new(name, move || assert!(better(black_box(first), black_box(second)) > 0))
    };
    vec![
        call("library", |first, second| credits::better(first, second).unwrap().body.len()),
        call("plain Rust", |first, second| same_better::better(first, second).unwrap().length),
    ]
}

/// Choosing between the sheets of two full files, with the first place where their lists differ.
fn better_table(csv: &mut String) {
    let names = names(&choosers(&[], &[]));
    heading("better, 32 seats, 24 windows", &names);
    type Hands = fn(&Book) -> [Sheet; 2];
    let pairs: [(&str, Option<usize>, Hands); 3] = [
        ("lists differ at the first place", Some(0), |book| [windows_alone(book, 0), planned(book)]),
        ("equal lists: planned", None, |book| [planned(book); 2]),
        ("equal lists: windows alone", None, |book| [windows_alone(book, 0); 2]),
    ];
    for (case, place, hands) in pairs {
        let mut rng = Rng::new(13);
        let mut times = Times::default();
        for _ in 0..BOOKS {
            let book = books::dense(&mut rng, 32, 24);
            let [sheet, other] = hands(&book);
            assert_eq!(same_better::difference(&book, &sheet, &other).map(|(place, _)| place), place);
            let [first, second] = [sheet, other].map(|sheet| file_of(&book, Some(&sheet)));
            times.add(side_by_side(&mut choosers(&first, &second), ROUNDS, 8));
        }
        line(csv, "better", case, &names, &times);
    }
}

/// The same book with a first seat, balances and weights.
fn with_all_parts(rng: &mut Rng, book: Book) -> Book {
    let book = with_first(rng, book);
    let book = BALANCES[0].1(rng, book);
    TABLES[0].1(rng, book)
}

/// Reading and writing the longest file, with a full book.
fn file_table(csv: &mut String) {
    let mut rng = Rng::new(13);
    let (mut reading, mut writing) = (Times::default(), Times::default());
    for _ in 0..BOOKS {
        let book = books::dense(&mut rng, 32, 24);
        let book = with_all_parts(&mut rng, book);
        let sheet = planned(&book);
        let file = file_of(&book, Some(&sheet));
        let same = credits::raw::read(&file).book;
        let mut readers = [
            Call::new("library", || assert_eq!(black_box(credits::raw::read(black_box(&file))).refusal, 0)),
            Call::new("plain Rust", || assert!(black_box(reference::read(black_box(&file))).is_ok())),
        ];
        reading.add(side_by_side(&mut readers, ROUNDS, 32));
        let (mut out, mut other) = ([0; FILE_LENGTH], [0; FILE_LENGTH]);
        let mut writers = [
            Call::new("library", || {
                assert_eq!(credits::raw::write(black_box(same), black_box(&mut out)).length, FILE_LENGTH)
            }),
            Call::new("plain Rust", || {
                assert!(reference::write(black_box(&book), Some(&sheet), black_box(&mut other)).is_ok())
            }),
        ];
        writing.add(side_by_side(&mut writers, ROUNDS, 32));
    }
    let names = ["library", "plain Rust"];
    heading("the longest file, 3,310 bytes", &names);
    line(csv, "file", "read", &names, &reading);
    line(csv, "file", "write", &names, &writing);
}

/// Planning, marking, choosing, fulfilling and forecasting with the smallest books: what a call costs that has next to nothing to do.
fn least_table(csv: &mut String) {
    let mut rng = Rng::new(17);
    let [mut planning, mut marking, mut choosing, mut fulfilling, mut telling] = [(); 5].map(|()| Times::default());
    for _ in 0..BOOKS {
        let book = books::dense(&mut rng, 1, 1);
        let file = file_of(&book, None);
        planning.add(side_by_side(&mut planners(&file)[..2], ROUNDS, 256));
        let row = wanted::row_of(&book, &same_standard::totals(&planned(&book)));
        fulfilling.add(side_by_side(&mut wanted::fulfillers(&file, &row)[..2], ROUNDS, 256));
        telling.add(side_by_side(&mut forecasts::forecasters(&file), ROUNDS, 256));
        let file = file_of(&book, Some(&planned(&book)));
        marking.add(side_by_side(&mut markers(&file), ROUNDS, 256));
        choosing.add(side_by_side(&mut choosers(&file, &file.clone()), ROUNDS, 256));
    }
    let names = names(&markers(&[]));
    heading("one seat, one window", &names);
    line(csv, "least", "plan", &names, &planning);
    line(csv, "least", "mark", &names, &marking);
    line(csv, "least", "better", &names, &choosing);
    line(csv, "least", "fulfil", &names, &fulfilling);
    line(csv, "least", "forecast", &names, &telling);
}
