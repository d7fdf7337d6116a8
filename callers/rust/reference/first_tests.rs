//! The seat that comes first today: who wins ties, and which files are turned away for it.

use super::*;

/// The same book with that seat first.
pub(super) fn first_is(book: Book, seat: u16) -> Book {
    Book { first: Some(seat), ..book }
}

pub(super) fn tied(moves: u32) -> Marked {
    Marked { mark: 3, moves, ..Marked::default() }
}

pub(super) const SETTLED: Marked = Marked { mark: 4, window: 0, seat: 0, moves: 0 };

/// Three seats of class 1 share a window of four credits: one of them gets two.
fn four_for_three() -> Book {
    book(&[1, 1, 1], &[4], &[&[4], &[4], &[4]])
}

#[test]
fn the_order_runs_up_to_the_last_seat_and_on_from_1() {
    let order = |book: Book| [0, 1, 2].map(|seat| book.place(seat));
    assert_eq!(order(four_for_three()), [0, 1, 2]);
    assert_eq!(order(first_is(four_for_three(), 1)), [0, 1, 2]);
    assert_eq!(order(first_is(four_for_three(), 2)), [2, 0, 1]);
    assert_eq!(order(first_is(four_for_three(), 3)), [1, 2, 0]);
}

#[test]
fn the_first_seat_wins_the_tie() {
    assert_eq!(planned_totals(&first_is(k3(), 1)), [2, 1]);
    assert_eq!(planned_totals(&first_is(k3(), 2)), [1, 2]);
    assert_eq!(planned_totals(&first_is(four_for_three(), 2)), [1, 2, 1]);
    assert_eq!(planned_totals(&first_is(four_for_three(), 3)), [1, 1, 2]);
    // With five credits the seat after the last one is seat 1.
    let five = Book { supplies: book(&[], &[5], &[]).supplies, ..four_for_three() };
    assert_eq!(planned_totals(&first_is(five.clone(), 2)), [1, 2, 2]);
    assert_eq!(planned_totals(&first_is(five, 3)), [2, 1, 2]);
    // K7: weight comes before the order; and K8, where seat 3 comes before seat 2 now.
    assert_eq!(planned_totals(&first_is(book(&[2, 1], &[1], &[&[1], &[1]]), 1)), [0, 1]);
    assert_eq!(planned_totals(&first_is(k8(), 3)), [1, 1, 2]);
}

#[test]
fn a_tie_is_wrong_by_the_order_of_the_day() {
    let k3 = |seat| first_is(k3(), seat);
    assert_eq!(marked(&k3(2), &[&[2], &[1]]), (tied(1), vec![1, 1, 2]));
    assert_eq!(marked(&k3(2), &[&[1], &[2]]), (SETTLED, vec![]));
    assert_eq!(marked(&k3(1), &[&[1], &[2]]), (tied(1), vec![1, 2, 1]));
    // K6: a chain that improves does so whoever comes first.
    assert_eq!(marked(&first_is(k5(), 2), &[&[1], &[3]]), (improvable(1), vec![1, 2, 1]));
}

#[test]
fn gainers_and_losers_are_searched_from_seat_1() {
    // The order is 3, 1, 2, and both 3 and 1 are one below seat 2: seat 1 is the first gainer, though seat 3 comes first.
    assert_eq!(marked(&first_is(four_for_three(), 3), &[&[1], &[2], &[1]]), (tied(1), vec![1, 2, 1]));
    // Seat 3 comes first and can gain from 1 and from 2: the lower of them loses.
    let two_above = book(&[1, 1, 1], &[5], &[&[5], &[5], &[5]]);
    assert_eq!(marked(&first_is(two_above, 3), &[&[2], &[2], &[1]]), (tied(1), vec![1, 1, 3]));
    // Two seats are two below: seat 1 gains first in every order.
    let two_below = book(&[1, 1, 1], &[2], &[&[2], &[2], &[2]]);
    for seat in 1..=3 {
        assert_eq!(marked(&first_is(two_below.clone(), seat), &[&[0], &[0], &[2]]), (improvable(1), vec![1, 3, 1]));
    }
}

#[test]
fn k3_with_seat_2_first_to_the_byte() {
    let contents = "0400 01001A000400 02001E000200 030020000400 050024000200";
    let file = bytes(&format!("{contents} 0100 0100 0300 0300 0300 0200"));
    let contents = "0500 010020000400 020024000200 030026000400 04002A000400 05002E000200";
    let planned = bytes(&format!("{contents} 0100 0100 0300 0300 0300 0100 0200 0200"));
    planned_to_the_byte(&first_is(k3(), 2), &file, &planned);
}

/// The file of a book without a sheet, and the file that is planned of it.
pub(super) fn planned_to_the_byte(book: &Book, file: &[u8], planned: &[u8]) {
    let length = planned.len();
    assert_eq!(file_of(book, None), file);
    assert_eq!(read(file), Ok((book.clone(), None)));
    let mut out = vec![0xee; length + 2];
    assert_eq!(plan(file, &mut out[..length - 1]).err(), refusal(16, length));
    assert_eq!(plan(file, &mut out), Ok(length));
    assert_eq!((&out[..length], &out[length..]), (planned, &[0xee; 2][..]));
    assert_eq!(plan(planned, &mut out), Ok(length));
    assert_eq!(out[..length], *planned);
    assert_eq!(mark(file, &mut []).err(), refusal(13, 0));
}

#[test]
fn seat_1_by_name_is_another_file_of_the_same_meaning() {
    let (named, plain) = (file_of(&first_is(k8(), 1), None), file_of(&k8(), None));
    assert_eq!((named.len(), plain.len()), (42 + 8, 42));
    assert_eq!(read(&named).unwrap().0.first, Some(1));
    let mut out = [0; FILE_LENGTH];
    let length = plan(&named, &mut out).unwrap();
    assert_eq!((out[0], &out[length - 2..length]), (5, &[1, 0][..]));
    assert_eq!(planned_totals(&first_is(k8(), 1)), planned_totals(&k8()));
}

#[test]
fn first_seats_turned_away_and_taken() {
    for (sheet, at) in [(None, 48), (Some(&[[0; WINDOWS]; SEATS]), 66)] {
        for (seat, expected) in
            [(0, refusal(18, at)), (1, None), (3, None), (4, refusal(18, at)), (65535, refusal(18, at))]
        {
            let mut file = file_of(&first_is(k8(), 1), sheet);
            file[at..].copy_from_slice(&u16::to_le_bytes(seat));
            assert_eq!(read(&file).err(), expected, "first seat {seat}");
            assert_eq!(write(&first_is(k8(), seat), sheet, &mut [0; FILE_LENGTH]).err(), expected, "first seat {seat}");
        }
    }
    assert_eq!(read(&file_of(&first_is(Book::empty(32, 1), 32), None)).err(), None);
    assert_eq!(write(&first_is(Book::empty(31, 1), 32), None, &mut []).err(), refusal(18, 26 + 62 + 2 + 62));
}

/// K8's file with these kinds after kind 3, each with its body.
pub(super) fn k8_and(optional: &[(u16, &[u8])]) -> Vec<u8> {
    let entries = 3 + optional.len() as u16;
    let (classes, mut end) = (2 + 6 * entries, 2 + 6 * entries + 22);
    let mut fields = vec![entries, 1, classes, 6, 2, classes + 6, 4, 3, classes + 10, 12];
    for (kind, body) in optional {
        fields.extend([*kind, end, body.len() as u16]);
        end += body.len() as u16;
    }
    let contents = fields.iter().flat_map(|field| field.to_le_bytes());
    let bodies = optional.iter().flat_map(|(_, body)| body.iter().copied());
    contents.chain(file_of(&k8(), None)[20..].iter().copied()).chain(bodies).collect()
}

#[test]
fn kinds_after_the_third_rise_and_are_known() {
    let (cells, seat, balances) = (&[0; 12][..], &[2, 0][..], &[0; 6][..]);
    let weights: &[u8] = &[1, 0, 2, 0, 3, 0, 4, 0, 5, 0, 6, 0, 7, 0, 8, 0];
    assert_eq!(k8_and(&[]), file_of(&k8(), None));
    for (optional, expected) in [
        (&[(4, cells)][..], None),
        (&[(5, seat)], None),
        (&[(6, balances)], None),
        (&[(4, cells), (5, seat)], None),
        (&[(4, cells), (6, balances)], None),
        (&[(5, seat), (6, balances)], None),
        (&[(4, cells), (5, seat), (6, balances)], None),
        (&[(7, weights)], None),
        (&[(4, cells), (7, weights)], None),
        (&[(5, seat), (7, weights)], None),
        (&[(6, balances), (7, weights)], None),
        (&[(4, cells), (5, seat), (6, balances), (7, weights)], None),
        (&[(5, seat), (4, cells)], refusal(4, 26)),
        (&[(6, balances), (5, seat)], refusal(4, 26)),
        (&[(4, cells), (6, balances), (5, seat)], refusal(4, 32)),
        (&[(7, weights), (6, balances)], refusal(4, 26)),
        (&[(4, cells), (7, weights), (5, seat)], refusal(4, 32)),
        (&[(5, seat), (5, seat)], refusal(4, 26)),
        (&[(4, cells), (4, cells)], refusal(4, 26)),
        (&[(6, balances), (6, balances)], refusal(4, 26)),
        (&[(6, balances), (7, weights), (7, weights)], refusal(4, 32)),
        (&[(4, cells), (8, seat)], refusal(4, 26)),
        (&[(8, seat), (5, seat)], refusal(4, 20)),
        (&[(4, cells), (5, seat), (6, balances), (8, weights)], refusal(4, 38)),
        (&[(3, cells), (5, seat)], refusal(4, 20)),
        (&[(0, seat)], refusal(4, 20)),
        (&[(4, cells), (5, seat), (6, balances), (7, weights), (8, seat)], refusal(2, 0)),
    ] {
        assert_eq!(read(&k8_and(optional)).err(), expected, "{optional:?}");
    }
}

#[test]
fn the_length_is_tested_before_the_value_and_after_the_caps() {
    for body in [&[][..], &[9], &[9, 0, 0], &[1, 0, 2, 0]] {
        assert_eq!(read(&k8_and(&[(5, body)])).err(), refusal(18, 24), "{body:?}");
        assert_eq!(read(&k8_and(&[(4, &[0; 12]), (5, body)])).err(), refusal(18, 30), "{body:?}");
    }
    // 9 and 12 come before it, 13 to 15 after it.
    assert_eq!(read(&k8_and(&[(4, &[0; 10]), (5, &[])])).err(), refusal(9, 24));
    let mut file = k8_and(&[(5, &[])]);
    file[36] = 1;
    file[37] = 16;
    assert_eq!(read(&file).err(), refusal(12, 36));
    assert_eq!(mark(&k8_and(&[(5, &[4, 0])]), &mut []).err(), refusal(18, 48));
    assert_eq!(mark(&k8_and(&[(4, &[9; 12]), (5, &[4, 0])]), &mut []).err(), refusal(18, 66));
    assert_eq!(mark(&k8_and(&[(4, &[9; 12]), (5, &[3, 0])]), &mut []).err(), refusal(14, 54));
    // A supply's offset in the file moves with each entry; the last supply is above 4,095.
    let spoilt = Book { supplies: book(&[], &[1, 4096], &[]).supplies, ..k8() };
    assert_eq!(write(&spoilt, None, &mut []).err(), refusal(11, 28));
    assert_eq!(write(&first_is(spoilt.clone(), 9), None, &mut []).err(), refusal(11, 34));
    assert_eq!(write(&first_is(spoilt, 9), Some(&[[0; WINDOWS]; SEATS]), &mut []).err(), refusal(11, 40));
}
