//! Balances carried over: whose level is lower by them, and which files are turned away for them.

use super::first_tests::{first_is, k8_and, planned_to_the_byte, tied, SETTLED};
use super::*;

/// The same book with these balances.
pub(super) fn carrying(book: Book, balances: &[u16]) -> Book {
    let mut row = [0; SEATS];
    row[..balances.len()].copy_from_slice(balances);
    Book { balances: Some(row), ..book }
}

/// Two seats of class 1 share a window of two credits.
fn two_for_two() -> Book {
    book(&[1, 1], &[2], &[&[2], &[2]])
}

#[test]
fn k5_and_k3_planned_with_balances() {
    for (balances, totals) in [
        ([0, 4], [3, 1]),
        ([0, 0], [2, 2]),
        ([0, 1], [2, 2]),
        ([1, 0], [1, 3]),
        ([4, 0], [0, 4]),
        // Equal balances are not the same at other weights.
        ([4, 4], [0, 4]),
        ([0, MOST_BALANCE], [4, 0]),
        ([MOST_BALANCE, MOST_BALANCE], [0, 4]),
    ] {
        assert_eq!(planned_totals(&carrying(k5(), &balances)), totals, "K5 with {balances:?}");
    }
    // An even sum leaves no tie; an odd one is seat 1's, or the first seat's.
    for (balances, totals, with_seat_2_first) in [
        ([0, 0], [2, 1], [1, 2]),
        ([1, 0], [1, 2], [1, 2]),
        ([0, 1], [2, 1], [2, 1]),
        ([1, 1], [2, 1], [1, 2]),
        ([2, 0], [1, 2], [0, 3]),
        ([0, 2], [3, 0], [2, 1]),
        ([0, 9], [3, 0], [3, 0]),
    ] {
        let k3 = carrying(k3(), &balances);
        assert_eq!(planned_totals(&k3), totals, "K3 with {balances:?}");
        assert_eq!(planned_totals(&first_is(k3, 2)), with_seat_2_first, "K3 with {balances:?}, seat 2 first");
    }
}

#[test]
fn a_tie_is_of_balance_plus_total() {
    let both = |balances: &[u16]| carrying(two_for_two(), balances);
    assert_eq!(marked(&both(&[0, 1]), &[&[1], &[1]]), (tied(1), vec![1, 2, 1]));
    assert_eq!(marked(&first_is(both(&[0, 1]), 2), &[&[1], &[1]]), (SETTLED, vec![]));
    assert_eq!(marked(&both(&[1, 0]), &[&[1], &[1]]), (SETTLED, vec![]));
    assert_eq!(marked(&first_is(both(&[1, 0]), 2), &[&[1], &[1]]), (tied(1), vec![1, 1, 2]));
    // K4, which is tied without balances.
    assert_eq!(marked(&carrying(k3(), &[1, 1]), &[&[1], &[2]]), (tied(1), vec![1, 2, 1]));
    assert_eq!(marked(&carrying(k3(), &[1, 0]), &[&[1], &[2]]), (SETTLED, vec![]));
    assert_eq!(marked(&carrying(k3(), &[0, 1]), &[&[1], &[2]]), (improvable(1), vec![1, 2, 1]));
}

#[test]
fn a_chain_improves_by_balance_plus_total() {
    // One credit above is a tie at most, two are not.
    assert_eq!(marked(&carrying(two_for_two(), &[0, 2]), &[&[1], &[1]]), (improvable(1), vec![1, 2, 1]));
    assert_eq!(marked(&carrying(two_for_two(), &[2, 0]), &[&[1], &[1]]), (improvable(1), vec![1, 1, 2]));
    // K6 is improvable without balances; with them it is settled, or the chain runs the other way.
    assert_eq!(marked(&carrying(k5(), &[0, 0]), &[&[1], &[3]]), (improvable(1), vec![1, 2, 1]));
    assert_eq!(marked(&carrying(k5(), &[1, 0]), &[&[1], &[3]]), (SETTLED, vec![]));
    assert_eq!(marked(&carrying(k5(), &[2, 0]), &[&[1], &[3]]), (improvable(1), vec![1, 1, 2]));
    // So is K2.
    assert_eq!(marked(&carrying(k1(), &[5, 0]), &[&[2, 0], &[2, 4]]), (SETTLED, vec![]));
    // At levels that would be equal the smaller weight gains: 1 of 1 before 2 of 2.
    let one = |balances: &[u16]| carrying(book(&[1, 2], &[1], &[&[1], &[1]]), balances);
    assert_eq!(marked(&one(&[1, 2]), &[&[0], &[1]]), (improvable(1), vec![1, 2, 1]));
    assert_eq!(marked(&one(&[1, 2]), &[&[1], &[0]]), (SETTLED, vec![]));
    assert_eq!(marked(&one(&[1, 1]), &[&[0], &[1]]), (SETTLED, vec![]));
}

#[test]
fn a_seat_gives_credits_and_no_balance() {
    let large = |caps: &[&[u16]]| carrying(book(&[1, 1], &[2], caps), &[0, MOST_BALANCE]);
    assert_eq!(marked(&large(&[&[2], &[2]]), &[&[1], &[1]]), (improvable(1), vec![1, 2, 1]));
    // Seat 1 could take one more, and seat 2 has none to give.
    assert_eq!(marked(&large(&[&[3], &[2]]), &[&[2], &[0]]), (SETTLED, vec![]));
    // K8, whose chain has two moves: it is over with the first where seat 2 is high, and passes seat 2 where seat 3 is.
    let k8 = |balances: &[u16]| carrying(k8(), balances);
    let sheet: &[&[u16]] = &[&[0, 0], &[1, 0], &[0, 3]];
    assert_eq!(marked(&k8(&[0, MOST_BALANCE, 0]), sheet), (improvable(1), vec![1, 2, 1]));
    assert_eq!(marked(&k8(&[0, 0, MOST_BALANCE]), sheet), (improvable(2), vec![1, 2, 1, 2, 3, 2]));
    assert_eq!(marked(&k8(&[MOST_BALANCE, 0, 0]), sheet), (improvable(1), vec![2, 3, 2]));
    assert_eq!(planned_totals(&k8(&[0, MOST_BALANCE, 0])), [1, 0, 3]);
    assert_eq!(planned_totals(&k8(&[MOST_BALANCE, 0, 0])), [0, 2, 2]);
    // What is left over is wasted whatever a seat has received.
    let wasteful = Marked { mark: 1, window: 1, seat: 1, moves: 0 };
    assert_eq!(marked(&carrying(k10(), &[MOST_BALANCE]), &[&[1]]), (wasteful, vec![]));
}

#[test]
fn the_listing_has_totals_without_balances() {
    let text = "seats 2 windows 1\nwindow 1 opens 0800 supply 4 placed 4\n\
                seat 1 class 1 total 3\nseat 2 class 2 total 1\n";
    for (balances, mark) in [([0, 4], "mark 4\n"), ([0, 1], "mark 2\nmove window 1 from 1 to 2\n")] {
        let file = file_of(&carrying(k5(), &balances), Some(&grid(&[&[3], &[1]])));
        assert_eq!(String::from_utf8(listing(&file)).unwrap(), format!("{text}{mark}"));
    }
}

#[test]
fn k5_with_balances_0_and_4_to_the_byte() {
    let contents = "0400 01001A000400 02001E000200 030020000400 060024000400";
    let file = bytes(&format!("{contents} 0100 0200 0400 0400 0400 0000 0400"));
    let contents = "0500 010020000400 020024000200 030026000400 04002A000400 06002E000400";
    let planned = bytes(&format!("{contents} 0100 0200 0400 0400 0400 0300 0100 0000 0400"));
    planned_to_the_byte(&carrying(k5(), &[0, 4]), &file, &planned);
}

#[test]
fn balances_of_zeros_are_another_file_of_the_same_meaning() {
    let (zeros, none) = (carrying(k8(), &[0, 0, 0]), k8());
    let (with, without) = (file_of(&zeros, None), file_of(&none, None));
    assert_eq!((with.len(), without.len()), (42 + 6 + 6, 42));
    assert_eq!((read(&with), read(&without)), (Ok((zeros.clone(), None)), Ok((none.clone(), None))));
    let mut out = [0; FILE_LENGTH];
    let length = plan(&with, &mut out).unwrap();
    assert_eq!((out[0], &out[length - 6..length]), (5, &[0; 6][..]));
    assert_eq!(read(&out[..length]).unwrap().0, zeros);
    assert_eq!(planned_totals(&zeros), planned_totals(&none));
    let sheet: &[&[u16]] = &[&[0, 0], &[1, 0], &[0, 3]];
    assert_eq!(marked(&zeros, sheet), marked(&none, sheet));
}

#[test]
fn balances_turned_away_and_taken() {
    let sheet = Some(&[[0; WINDOWS]; SEATS]);
    // The body moves with each part before it.
    for (book, sheet, at) in
        [(k8(), None, 48), (k8(), sheet, 66), (first_is(k8(), 1), None, 56), (first_is(k8(), 1), sheet, 74)]
    {
        for (seat, balance) in (0..3).flat_map(|seat| [0, 50_000, 50_001, 65535].map(|balance| (seat, balance))) {
            let expected = if balance > 50_000 { refusal(19, at + 2 * seat) } else { None };
            let mut file = file_of(&carrying(book.clone(), &[1, 1, 1]), sheet);
            file[at + 2 * seat..][..2].copy_from_slice(&u16::to_le_bytes(balance));
            assert_eq!(read(&file).err(), expected, "{balance} of seat {seat}");
            let mut balances = [1; 3];
            balances[seat] = balance;
            let written = write(&carrying(book.clone(), &balances), sheet, &mut [0; FILE_LENGTH]);
            assert_eq!(written.err(), expected, "{balance} of seat {seat}");
        }
    }
    // The lowest offset counts, and a seat that is not in the book does not.
    assert_eq!(write(&carrying(k8(), &[9, 50_001, 65535]), None, &mut []).err(), refusal(19, 50));
    assert_eq!(write(&carrying(k8(), &[9, 9, 9, 50_001]), None, &mut []).err(), refusal(16, 54));
}

#[test]
fn the_length_is_tested_before_the_values() {
    for length in [0, 1, 2, 4, 5, 7, 8, 64] {
        // Every value that is there is too high.
        let body = &[0xff; 64][..length];
        assert_eq!(read(&k8_and(&[(6, body)])).err(), refusal(19, 24), "{length} bytes");
        assert_eq!(read(&k8_and(&[(4, &[0; 12]), (6, body)])).err(), refusal(19, 30), "{length} bytes");
        assert_eq!(read(&k8_and(&[(4, &[0; 12]), (5, &[3, 0]), (6, body)])).err(), refusal(19, 36), "{length} bytes");
    }
    assert_eq!(read(&k8_and(&[(6, &[0xff; 6])])).err(), refusal(19, 48));
    assert_eq!(read(&k8_and(&[(6, &[0; 6])])).err(), None);
}

#[test]
fn balances_are_tested_after_the_first_seat_and_before_the_sheet() {
    let (cells, high) = (&[9; 12][..], &[0xff; 6][..]);
    // 18 comes before 19, by its length or by its value, wherever the two lie.
    assert_eq!(read(&k8_and(&[(5, &[]), (6, &[])])).err(), refusal(18, 24));
    assert_eq!(read(&k8_and(&[(5, &[4, 0]), (6, &[])])).err(), refusal(18, 54));
    assert_eq!(read(&k8_and(&[(5, &[4, 0]), (6, high)])).err(), refusal(18, 54));
    assert_eq!(read(&k8_and(&[(5, &[3, 0]), (6, &[])])).err(), refusal(19, 30));
    assert_eq!(read(&k8_and(&[(5, &[3, 0]), (6, high)])).err(), refusal(19, 56));
    // 9 and 12 come before it, 13 and 14 after it.
    assert_eq!(read(&k8_and(&[(4, &[0; 10]), (6, &[])])).err(), refusal(9, 24));
    let mut file = k8_and(&[(6, high)]);
    file[36..38].copy_from_slice(&[0, 16]);
    assert_eq!(read(&file).err(), refusal(12, 36));
    assert_eq!(mark(&k8_and(&[(6, high)]), &mut []).err(), refusal(19, 48));
    assert_eq!(mark(&k8_and(&[(6, &[])]), &mut []).err(), refusal(19, 24));
    assert_eq!(mark(&k8_and(&[(6, &[0; 6])]), &mut []).err(), refusal(13, 0));
    assert_eq!(mark(&k8_and(&[(4, cells), (6, high)]), &mut []).err(), refusal(19, 66));
    assert_eq!(mark(&k8_and(&[(4, cells), (6, &[0; 6])]), &mut []).err(), refusal(14, 54));
    // The writer's turn is the same, with offsets that the entry moves.
    let mut spoilt = first_is(carrying(k8(), &[65535]), 4);
    spoilt.caps[2][1] = 4096;
    assert_eq!(write(&spoilt, None, &mut []).err(), refusal(12, 52));
    spoilt.caps[2][1] = 4095;
    assert_eq!(write(&spoilt, None, &mut []).err(), refusal(18, 54));
    spoilt.first = Some(3);
    assert_eq!(write(&spoilt, None, &mut []).err(), refusal(19, 56));
}
