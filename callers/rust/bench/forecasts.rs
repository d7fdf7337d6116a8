//! Times of the call that tells what a plan will take.

use std::hint::black_box;

use super::books::{file_of, planned, Draw, KINDS};
use super::credits::raw;
use super::reference::{self, Book, Forecast, FILE_LENGTH};
use super::rng::Rng;
use super::timing::{side_by_side, Call, Times};
use super::{heading, line, names, same_forecast, with_all_parts, BOOKS, ROUNDS};

/// Makes a file of a book.
type Hand = fn(&mut Rng, Book) -> Vec<u8>;

/// The kinds of files that are timed, by name.
const FILES: [(&str, Hand); 2] = [("no sheet", |_, book| file_of(&book, None)), ("longest file", longest)];

/// The file of a full book with all parts that there are.
fn longest(rng: &mut Rng, book: Book) -> Vec<u8> {
    let book = with_all_parts(rng, book);
    let file = file_of(&book, Some(&planned(&book)));
    assert_eq!(file.len(), FILE_LENGTH);
    file
}

/// The two that forecast.
pub fn forecasters(file: &[u8]) -> Vec<Call<'_>> {
    let call = |name, length: fn(&[u8]) -> usize| Call::new(name, move || assert!(length(black_box(file)) > 0));
    vec![
        call("library", |file| black_box(raw::forecast(file)).length),
        call("plain Rust", |file| black_box(same_forecast::forecast(file)).unwrap().length),
    ]
}

/// Both on files of one kind.
fn times(draw: Draw, hand: Hand) -> Times {
    let mut rng = Rng::new(13);
    let mut times = Times::default();
    for _ in 0..BOOKS {
        let book = draw(&mut rng, 32, 24);
        let file = hand(&mut rng, book);
        assert_agree(&file);
        times.add(side_by_side(&mut forecasters(&file), ROUNDS, 32));
    }
    times
}

/// Library, plain Rust and the independent version must tell the same, and the plan must have that length.
fn assert_agree(file: &[u8]) {
    let told = raw::forecast(file);
    let Forecast { length, placed } = same_forecast::forecast(file).expect("a file within its bounds");
    assert_eq!(told, raw::ForecastResult { refusal: 0, offset: 0, length, placed });
    assert_eq!(reference::forecast(file), Ok(Forecast { length, placed }));
    assert_eq!(raw::plan(file, &mut [0; FILE_LENGTH]).length, length);
}

pub fn table(csv: &mut String) {
    let names = names(&forecasters(&[]));
    heading("forecast, 32 seats, 24 windows", &names);
    for ((file, hand), (kind, draw)) in FILES.iter().flat_map(|file| KINDS.map(|kind| (file, kind))) {
        line(csv, "forecast", &format!("{file}: {kind}"), &names, &times(draw, *hand));
    }
    let files = FILES.len() * KINDS.len() * BOOKS;
    println!("On all {files} files library and plain Rust tell the same, and the plan has that length.");
}
