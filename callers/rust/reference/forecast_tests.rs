//! What a plan will take: forecasts by hand, refusals, and random books that are planned and counted, with every sheet tried where they are
//! small.

use super::super::brute_force::{feasible_sheets, small_book, Rng};
use super::balance_tests::carrying;
use super::better_tests::refused_files;
use super::first_tests::first_is;
use super::weight_tests::{weighing, LOWEST};
use super::*;

/// Length, and the credits of the book's windows; all others must have none.
fn told(file: &[u8]) -> (usize, Vec<u32>) {
    let Forecast { length, placed } = forecast(file).unwrap();
    let windows = read(file).unwrap().0.windows;
    assert!(placed[windows..].iter().all(|&credits| credits == 0));
    (length, placed[..windows].to_vec())
}

/// What the cells of a sheet place in each window of the book.
fn counted(book: &Book, sheet: &Sheet) -> Vec<u32> {
    (0..book.windows).map(|window| sheet.iter().map(|row| row[window] as u32).sum()).collect()
}

#[test]
fn paper_01s_books_by_hand() {
    // Two bytes and six for each entry, then the bodies; the sheet is always there.
    for (book, length, placed) in [
        (k1(), 2 + 24 + 4 + 4 + 8 + 8, vec![4, 4]),
        (k3(), 2 + 24 + 4 + 2 + 4 + 4, vec![3]),
        (k5(), 2 + 24 + 4 + 2 + 4 + 4, vec![4]),
        (k8(), 2 + 24 + 6 + 4 + 12 + 12, vec![1, 3]),
        (k10(), 34, vec![2]),
        (book(&[1], &[0], &[&[5]]), 34, vec![0]),
        (book(&[1; 3], &[1, 2], &[&[1, 0], &[1, 1], &[0, 2]]), 60, vec![1, 2]),
        (first_is(k8(), 3), 60 + 6 + 2, vec![1, 3]),
        (carrying(k8(), &[0, 4, 0]), 60 + 6 + 6, vec![1, 3]),
        (weighing(k8(), LOWEST), 60 + 6 + 16, vec![1, 3]),
        (first_is(carrying(weighing(k8(), LOWEST), &[0, 4, 0]), 3), 60 + 8 + 12 + 22, vec![1, 3]),
    ] {
        assert_eq!(told(&file_of(&book, None)), (length, placed.clone()));
        // Nor do the cells of a sheet matter.
        assert_eq!(told(&file_of(&book, Some(&[[65535; WINDOWS]; SEATS]))), (length, placed));
    }
    let k11 = bytes("0300 010014000200 020016000200 030018000200 0100 0300 0200");
    assert_eq!(told(&k11), (34, vec![2]));
}

#[test]
fn caps_about_a_supply_and_far_above() {
    // One below the supply, the same and one above; and 65,536, which is 0 in two bytes.
    let mut rows = [&[0, 0, 0, 4095][..]; 17];
    rows[0] = &[4000, 4000, 4000, 4095];
    rows[16] = &[94, 95, 96, 16];
    let many = book(&[1; 17], &[4095; 4], &rows);
    assert_eq!(told(&file_of(&many, None)), (340, vec![4094, 4095, 4095, 4095]));
    let mut largest = first_is(carrying(weighing(Book::empty(32, 24), LOWEST), &[0; SEATS]), 32);
    largest.caps = [[MOST_CREDITS; WINDOWS]; SEATS];
    assert_eq!(told(&file_of(&largest, None)), (FILE_LENGTH, vec![0; WINDOWS]));
    largest.supplies = [MOST_CREDITS; WINDOWS];
    assert_eq!(told(&file_of(&largest, None)), (FILE_LENGTH, vec![4095; WINDOWS]));
}

#[test]
fn the_planners_refusals_but_16() {
    for (line, file, offset) in refused_files() {
        let expected = if (13..=15).contains(&line) { None } else { refusal(line, offset) };
        assert_eq!(forecast(&file).err(), expected, "line {line}");
        assert_eq!(plan(&file, &mut [0; FILE_LENGTH]).err(), expected, "line {line}");
        assert_eq!(plan(&file, &mut []).err(), expected.or(refusal(16, 60)), "line {line}");
    }
}

/// Paper 01's "wasteful": some window has credits left while a seat is below its cap there.
fn is_wasteful(book: &Book, sheet: &Sheet) -> bool {
    let sums = counted(book, sheet);
    let is_left = |window: usize| sums[window] < book.supplies[window] as u32;
    let below_cap = |window: usize| (0..book.seats).any(|seat| sheet[seat][window] < book.caps[seat][window]);
    (0..book.windows).any(|window| is_left(window) && below_cap(window))
}

/// No lawful sheet places more in any window than the forecast says, and just those that waste nothing place as much in all.
#[test]
fn every_sheet_of_small_books() {
    let (mut rng, mut books, mut counts) = (Rng::new(6), 0, [0; 2]);
    while books < 2000 {
        let book = small_book(&mut rng);
        if (0..book.seats).any(|seat| book.is_idle(seat)) {
            continue;
        }
        let Some(sheets) = feasible_sheets(&book) else { continue };
        let (_, placed) = told(&file_of(&book, None));
        for sheet in &sheets {
            let (sums, wasteful) = (counted(&book, sheet), is_wasteful(&book, sheet));
            assert!(sums.iter().zip(&placed).all(|(sum, most)| sum <= most), "{book:?} {sheet:?}");
            assert_eq!(sums == placed, !wasteful, "{book:?} {sheet:?}");
            counts[wasteful as usize] += 1;
        }
        books += 1;
    }
    println!("{books} books: {} sheets that waste nothing, {} wasteful ones", counts[0], counts[1]);
    assert!(counts.iter().all(|&count| count > 10_000));
}

/// A book of any size with caps and supplies that are scarce or plenty. A seat that would be idle has one cap of 1.
fn any_book(rng: &mut Rng) -> Book {
    let mut book = Book::empty(rng.between(1, SEATS), rng.between(1, WINDOWS));
    let (caps, supplies) = (1 << rng.below(13), 1 << rng.below(13));
    for window in 0..book.windows {
        book.supplies[window] = rng.below(supplies) as u16;
        (0..book.seats).for_each(|seat| book.caps[seat][window] = rng.below(caps) as u16);
    }
    for seat in 0..book.seats {
        if book.is_idle(seat) {
            book.caps[seat][rng.below(book.windows)] = 1;
        }
    }
    book.first = rng.once_in(2).then_some(1);
    book.balances = rng.once_in(2).then_some([0; SEATS]);
    book.weights = rng.once_in(2).then_some(LOWEST);
    book
}

#[test]
fn forecast_then_plan_then_count() {
    let mut rng = Rng::new(7);
    for _ in 0..3000 {
        let book = any_book(&mut rng);
        let file = file_of(&book, rng.once_in(2).then_some(&[[9; WINDOWS]; SEATS]));
        let (length, placed) = told(&file);
        let mut out = vec![0; length];
        assert_eq!(plan(&file, &mut out[..length - 1]).err(), refusal(16, length));
        assert_eq!(plan(&file, &mut out), Ok(length));
        assert_eq!(counted(&book, &read(&out).unwrap().1.unwrap()), placed);
        assert_eq!(forecast(&out), forecast(&file));
    }
}
