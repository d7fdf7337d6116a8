//! The standard sheet by hand: ways over several seats, the last window, first seats, balances, and seats that keep what they have.

use super::super::standard::standard;
use super::balance_tests::carrying;
use super::first_tests::first_is;
use super::*;

/// The planned file has this sheet, and so has that of every other settled sheet that is given.
fn assert_standard(book: &Book, expected: &[&[u16]], others: &[&[&[u16]]]) {
    let mut out = [0; FILE_LENGTH];
    let length = plan(&file_of(book, None), &mut out).unwrap();
    assert_eq!(read(&out[..length]).unwrap().1, Some(grid(expected)));
    for settled in others.iter().chain([&expected]) {
        assert_eq!(marked(book, settled).0.mark, 4, "{settled:?}");
        assert_eq!(standard(book, grid(settled)), grid(expected), "{settled:?}");
    }
}

/// The book of examples/standard.day.
fn three_by_three() -> Book {
    book(&[1, 1, 1], &[4, 2, 3], &[&[1, 2, 2], &[3, 0, 1], &[1, 2, 2]])
}

#[test]
fn all_settled_sheets_of_a_book_lead_to_one() {
    assert_standard(
        &three_by_three(),
        &[&[1, 2, 0], &[2, 0, 1], &[1, 0, 2]],
        &[
            // highest window by window: seat 1 gets a credit in window 2 from seat 3, which gets one in 1 from seat 2, which gets one in 3
            &[&[1, 1, 1], &[3, 0, 0], &[0, 1, 2]],
            &[&[1, 1, 1], &[2, 0, 1], &[1, 1, 1]],
            // highest from the last seat on
            &[&[1, 0, 2], &[2, 0, 1], &[1, 2, 0]],
            &[&[1, 0, 2], &[3, 0, 0], &[0, 2, 1]],
            &[&[0, 2, 1], &[3, 0, 0], &[1, 0, 2]],
            // lowest
            &[&[0, 1, 2], &[3, 0, 0], &[1, 1, 1]],
        ],
    );
}

#[test]
fn an_earlier_seat_keeps_what_it_has() {
    // Seat 2 has room in window 1 and a credit in window 2; only seat 1 could take it.
    let square = book(&[1, 1], &[1, 1], &[&[1, 1], &[1, 1]]);
    assert_standard(&square, &[&[1, 0], &[0, 1]], &[&[&[0, 1], &[1, 0]]]);
    // Seat 2 takes from seat 3 and leaves seat 1 alone, which has no room in window 1.
    let three = book(&[1, 1, 1], &[1, 2], &[&[0, 1], &[1, 1], &[1, 1]]);
    assert_standard(&three, &[&[0, 1], &[1, 0], &[0, 1]], &[&[&[0, 1], &[0, 1], &[1, 0]]]);
}

#[test]
fn many_credits_change_windows() {
    let most = MOST_CREDITS;
    let large = book(&[1, 1], &[most, most], &[&[most, most], &[most, most]]);
    assert_standard(&large, &[&[most, 0], &[0, most]], &[&[&[0, most], &[most, 0]], &[&[2000, 2095], &[2095, 2000]]]);
    // Seat 1 ends at its cap in window 1, and seat 2 at its own in window 3.
    let bounded = book(&[1, 1], &[9, 9, 9], &[&[5, 9, 9], &[9, 9, 4]]);
    let others: &[&[&[u16]]] = &[&[&[4, 1, 9], &[5, 8, 0]], &[&[0, 5, 9], &[9, 4, 0]]];
    assert_standard(&bounded, &[&[5, 4, 5], &[4, 5, 4]], others);
}

#[test]
fn the_last_window_and_the_last_seats_take_part() {
    let (mut large, mut sheet) = (Book::empty(SEATS, WINDOWS), [[0; WINDOWS]; SEATS]);
    (large.supplies[0], large.supplies[WINDOWS - 1]) = (1, 1);
    for seat in [SEATS - 2, SEATS - 1] {
        (large.caps[seat][0], large.caps[seat][WINDOWS - 1]) = (1, 1);
    }
    (sheet[SEATS - 2][WINDOWS - 1], sheet[SEATS - 1][0]) = (1, 1);
    let raised = standard(&large, sheet);
    assert_eq!((raised[SEATS - 2][0], raised[SEATS - 2][WINDOWS - 1]), (1, 0));
    assert_eq!((raised[SEATS - 1][0], raised[SEATS - 1][WINDOWS - 1]), (0, 1));
    assert_eq!(standard(&large, raised), raised);
}

#[test]
fn reading_starts_at_seat_1_whoever_comes_first() {
    let two = book(&[1, 1], &[2, 1], &[&[2, 1], &[2, 1]]);
    assert_standard(&two, &[&[2, 0], &[0, 1]], &[&[&[1, 1], &[1, 0]]]);
    // Seat 2 has the odd credit now; read from there the sheet would be the other.
    assert_standard(&first_is(two.clone(), 2), &[&[1, 0], &[1, 1]], &[&[&[0, 1], &[2, 0]]]);
    // So it has by its balance, which is no part of what is read.
    assert_standard(&carrying(two, &[1, 0]), &[&[1, 0], &[1, 1]], &[&[&[0, 1], &[2, 0]]]);
}
