//! The library against the plain Rust version of reference.rs, on random and damaged files and books.
//!
//!   compare [N]   N files (200,000) through read, mark, plan, forecast and listing, N books through write, N pairs of files through
//!                 better, and N files with rows of wanted totals through fulfil
//!
//! Output buffers of any length are compared whole, with bytes around them, and so are the planned files in them. What the papers leave
//! free is tested by their rules: a chain has the right ends and the right number of moves, all of them possible, and ends in a list that
//! is higher (mark 2) or equal (mark 3); a sheet for wanted totals is lawful and has just these totals, and a group wants more than it can
//! get. A file that is forecast is then planned, and its plan counted. One book in six has idle seats: planning and the forecast refuse it,
//! and all other calls take it. The first difference ends the run with status 1, and what it was met with is kept under out/compare.

use std::path::PathBuf;
use std::process::ExitCode;

mod books;
mod credits;
mod reference;
mod rng;

#[path = "compare/buffer.rs"]
mod buffer;
#[path = "compare/calls.rs"]
mod calls;
#[path = "compare/chain.rs"]
mod chain;
#[path = "compare/files.rs"]
mod files;
#[path = "compare/forecasts.rs"]
mod forecasts;
#[path = "compare/idle.rs"]
mod idle;
#[path = "compare/memory.rs"]
mod memory;
#[path = "compare/pairs.rs"]
mod pairs;
#[path = "compare/wanted.rs"]
mod wanted;

use rng::Rng;

const FILES: usize = 200_000;

/// From this many files on, every refusal, every mark and every outcome must have come up.
const ENOUGH: usize = 20_000;

/// What was met so far: refusals and marks by number, the ways to meet line 20, what first seats, balances, weights and the step to the
/// standard sheet did to plans, what was forecast, what came of pairs and of wanted totals, how long refused rows of these were, and what
/// came of idle seats.
#[derive(Default)]
pub struct Seen {
    refusals: [usize; 23],
    line_20: [usize; calls::LINE_20.len()],
    marks: [usize; 5],
    longest_chain: u32,
    first_seats: [usize; calls::FIRST_SEATS.len()],
    balances: [usize; calls::BALANCES.len()],
    weights: [usize; calls::WEIGHTS.len()],
    standards: [usize; calls::STANDARDS.len()],
    forecasts: [usize; forecasts::FORECASTS.len()],
    pairs: [usize; pairs::OUTCOMES.len()],
    replies: [usize; wanted::REPLIES.len()],
    lengths: [usize; wanted::LENGTHS.len()],
    idle: idle::Counts,
}

fn main() -> ExitCode {
    let number = std::env::args().nth(1).map_or(FILES, |word| word.parse().expect("a number of files"));
    let mut rng = Rng::new(number as u64);
    let mut seen = Seen::default();
    for turn in 1..=number {
        if let Err(difference) = one_turn(&mut rng, &mut seen) {
            println!("DIFFERENCE after {turn} files: {difference}");
            return ExitCode::FAILURE;
        }
        if turn % number.div_ceil(10) == 0 {
            println!("{turn} of {number} files and as many books, pairs and rows of wanted totals: no difference");
        }
    }
    report(&seen);
    if number >= ENOUGH && seen.lacks_something() {
        println!("compare: something never came up");
        return ExitCode::FAILURE;
    }
    println!(
        "compare: {number} files, {number} books, {number} pairs and {number} rows of wanted totals, no difference"
    );
    ExitCode::SUCCESS
}

impl Seen {
    fn lacks_something(&self) -> bool {
        let counts = self.refusals[1..].iter().chain(&self.line_20).chain(&self.marks[1..]);
        let counts = counts.chain(&self.first_seats).chain(&self.balances).chain(&self.weights);
        let counts = counts.chain(&self.standards).chain(&self.forecasts);
        let counts = counts.chain(&self.pairs).chain(&self.replies).chain(&self.lengths).chain(self.idle.all());
        counts.copied().min() == Some(0)
    }
}

fn report(seen: &Seen) {
    let by_name = |names: &[&str], counts: &[usize]| {
        let counted = names.iter().zip(counts).map(|(name, count)| format!("{name} {count}"));
        counted.collect::<Vec<_>>().join(", ")
    };
    println!("refusals by number, 1 to 22: {:?}", &seen.refusals[1..]);
    println!("files refused by 20: {}", by_name(&calls::LINE_20, &seen.line_20));
    println!("marks by number: {:?}, the longest chain with {} moves", &seen.marks[1..], seen.longest_chain);
    println!("planned: {}", by_name(&calls::FIRST_SEATS, &seen.first_seats));
    println!("planned: {}", by_name(&calls::BALANCES, &seen.balances));
    println!("planned: {}", by_name(&calls::WEIGHTS, &seen.weights));
    println!("standard sheets: {}", by_name(&calls::STANDARDS, &seen.standards));
    println!("forecasts: {}", by_name(&forecasts::FORECASTS, &seen.forecasts));
    println!("pairs: {}", by_name(&pairs::OUTCOMES, &seen.pairs));
    println!("wanted totals: {}", by_name(&wanted::REPLIES, &seen.replies));
    println!("rows refused: {}", by_name(&wanted::LENGTHS, &seen.lengths));
    println!("plans refused by 22: {}", by_name(&idle::REFUSED, &seen.idle.refused));
    println!("of them with 3 to 7 entries: {:?}", seen.idle.entries);
    println!("marks by number with an idle seat: {:?}", &seen.idle.marks[1..]);
    println!("taken with an idle seat: {}", by_name(&idle::TAKEN, &seen.idle.taken));
    println!("planned: {}", by_name(&idle::NEARLY, &seen.idle.nearly));
}

/// One file through the calls that take a file, one book through the writer, one pair through the call that takes two, and one file with
/// wanted totals.
fn one_turn(rng: &mut Rng, seen: &mut Seen) -> Result<(), String> {
    let file = files::draw(rng);
    calls::all(rng, seen, &file).map_err(|difference| keep("differs.day", &file, difference))?;
    let book = memory::draw(rng);
    memory::write(rng, seen, &book)
        .map_err(|difference| keep("differs.txt", format!("{book:#?}").as_bytes(), difference))?;
    let pair = pairs::draw(rng);
    pairs::better(seen, &pair).map_err(|difference| {
        let difference = keep("differs_first.day", &pair[0], difference);
        keep("differs_second.day", &pair[1], difference)
    })?;
    let request = wanted::draw(rng);
    wanted::fulfil(rng, seen, &request).map_err(|difference| {
        let difference = keep("differs.day", &request.file, difference);
        keep("differs.row", &request.row, difference)
    })
}

/// Keeps a file, and says where it is.
fn keep(name: &str, bytes: &[u8], difference: String) -> String {
    let folder = PathBuf::from("out/compare");
    let path = folder.join(name);
    match std::fs::create_dir_all(folder).and_then(|()| std::fs::write(&path, bytes)) {
        Ok(()) => format!("{difference}; it is kept in {}", path.display()),
        Err(error) => format!("{difference}; {} could not be written: {error}", path.display()),
    }
}
