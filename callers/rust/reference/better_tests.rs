//! The better of two sheets: examples in pairs, equal lists, which refusal comes first, and books that differ.

use super::balance_tests::carrying;
use super::first_tests::first_is;
use super::weight_tests::{weighing, HIGHEST, LOWEST};
use super::*;

const NO_CREDITS: Option<&Sheet> = Some(&[[0; WINDOWS]; SEATS]);

/// The file that is chosen, or the refusal: number, offset and file.
fn chosen(first: &[u8], second: &[u8]) -> Result<u32, (u32, usize, u32)> {
    match better(first, second) {
        Ok(chosen) => Ok(chosen.file),
        Err(PairRefusal { file, refusal }) => Err((refusal.number, refusal.offset, file)),
    }
}

/// The first sheet's list is lower than the second's.
fn assert_lower(book: &Book, low: &[&[u16]], high: &[&[u16]]) {
    let [low, high] = [low, high].map(|sheet| file_of(book, Some(&grid(sheet))));
    assert_eq!((chosen(&low, &high), chosen(&high, &low)), (Ok(2), Ok(1)));
}

/// Two sheets have the same list.
fn assert_equal(book: &Book, one: &[&[u16]], other: &[&[u16]]) {
    let [one, other] = [one, other].map(|sheet| file_of(book, Some(&grid(sheet))));
    assert_eq!((chosen(&one, &other), chosen(&other, &one)), (Ok(1), Ok(1)));
    assert_eq!(chosen(&one, &one), Ok(1));
}

/// Two class 1 seats and one window.
fn two_seats() -> Book {
    book(&[1, 1], &[9], &[&[9], &[9]])
}

#[test]
fn examples_against_their_plans() {
    assert_lower(&k1(), &[&[2, 0], &[2, 4]], &[&[4, 0], &[0, 4]]);
    assert_equal(&k3(), &[&[2], &[1]], &[&[1], &[2]]);
    assert_lower(&k5(), &[&[1], &[3]], &[&[2], &[2]]);
    assert_lower(&book(&[2, 1], &[1], &[&[1], &[1]]), &[&[1], &[0]], &[&[0], &[1]]);
    assert_lower(&k8(), &[&[0, 0], &[1, 0], &[0, 3]], &[&[1, 0], &[0, 2], &[0, 1]]);
    assert_equal(&k8(), &[&[1, 0], &[0, 1], &[0, 2]], &[&[1, 0], &[0, 2], &[0, 1]]);
    assert_lower(&k10(), &[&[1]], &[&[2]]);
    let k12 = book(&[1, 1, 1], &[1, 2], &[&[1, 0], &[1, 1], &[0, 2]]);
    assert_lower(&k12, &[&[0, 0], &[1, 0], &[0, 2]], &[&[1, 0], &[0, 1], &[0, 1]]);
}

#[test]
fn the_body_of_k8() {
    let [low, high] = [[0, 3], [1, 2]].map(|[a, b]| file_of(&k8(), Some(&grid(&[&[0, 0], &[1, a], &[0, b]]))));
    assert_eq!(better(&low, &high), Ok(Better { file: 2, start: 48, length: 12 }));
    assert_eq!(high[48..], [0, 0, 0, 0, 1, 0, 1, 0, 0, 0, 2, 0]);
}

#[test]
fn equal_lists_of_different_sheets() {
    let square = book(&[1, 1], &[2, 2], &[&[2, 2], &[2, 2]]);
    assert_equal(&square, &[&[2, 0], &[0, 2]], &[&[1, 1], &[1, 1]]);
    // Other seats have the levels, by other totals: 1 and 2; one and two twentieths.
    assert_equal(&book(&[1, 2], &[6], &[&[4], &[4]]), &[&[1], &[4]], &[&[2], &[2]]);
    assert_equal(&book(&[7, 8], &[6], &[&[4], &[4]]), &[&[1], &[4]], &[&[2], &[2]]);
}

#[test]
fn levels_are_compared_exactly_and_from_the_lowest() {
    assert_lower(&two_seats(), &[&[1], &[8]], &[&[2], &[2]]);
    assert_lower(&two_seats(), &[&[2], &[2]], &[&[3], &[2]]);
    // By totals, 2 and 2 would be higher than 1 and 3.
    assert_lower(&book(&[1, 8], &[4], &[&[4], &[4]]), &[&[2], &[2]], &[&[1], &[3]]);
    // By whole division both have level 0.
    assert_lower(&book(&[8], &[50], &[&[50]]), &[&[38]], &[&[39]]);
}

/// A file for each line that a single file can meet, with the line's number and the offset of the refusal.
pub(super) fn refused_files() -> [(u32, Vec<u8>, usize); 18] {
    let with_sheet = |rows: &[&[u16]]| file_of(&k8(), Some(&grid(rows)));
    // The sheet is above the caps too, which comes later.
    let mut no_seat = file_of(&first_is(k8(), 1), Some(&[[9; WINDOWS]; SEATS]));
    no_seat[66] = 4;
    let mut too_high = file_of(&carrying(k8(), &[0, 0, 0]), Some(&[[9; WINDOWS]; SEATS]));
    too_high[70..].copy_from_slice(&50_001u16.to_le_bytes());
    let mut not_rising = file_of(&weighing(k8(), LOWEST), Some(&[[9; WINDOWS]; SEATS]));
    not_rising[68] = 1;
    [
        (1, vec![3], 1),
        (2, k8_with(0, 8), 0),
        (3, k8_with(0, 4)[..25].to_vec(), 25),
        (4, k8_with(8, 3), 8),
        (5, k8_with(4, 22), 4),
        (6, k8_with(18, 14), 42),
        (7, file_of_size(33, 24), 6),
        (8, file_of_size(32, 25), 12),
        (9, k8_with(18, 10)[..40].to_vec(), 18),
        (10, k8_with(22, 9), 22),
        (11, k8_with(28, 4096), 28),
        (12, k8_with(36, 4096), 36),
        (18, no_seat, 66),
        (19, too_high, 70),
        (20, not_rising, 68),
        (13, file_of(&k8(), None), 0),
        (14, with_sheet(&[&[0, 0], &[1, 0], &[1, 4]]), 56),
        (15, with_sheet(&[&[1, 0], &[1, 2], &[0, 3]]), 32),
    ]
}

#[test]
fn the_first_file_is_refused_first_and_another_book_last() {
    let sound = [k8(), k10()].map(|book| file_of(&book, NO_CREDITS));
    assert_eq!(chosen(&sound[0], &sound[1]), Err((17, 0, 0)));
    let refused = refused_files();
    for (line, file, offset) in &refused {
        for other in refused.iter().map(|(_, other, _)| other).chain(&sound) {
            assert_eq!(chosen(file, other), Err((*line, *offset, 1)));
        }
        for other in &sound {
            assert_eq!(chosen(other, file), Err((*line, *offset, 2)));
        }
    }
}

#[test]
fn one_number_makes_another_book() {
    let (file, fields) = (file_of(&k8(), NO_CREDITS), 26..48);
    for at in fields.step_by(2) {
        let mut other = file.clone();
        other[at] += 1;
        assert_eq!(chosen(&file, &other), Err((17, 0, 0)), "field at {at}");
        assert_eq!(chosen(&other, &file), Err((17, 0, 0)), "field at {at}");
        assert_eq!(chosen(&other, &other), Ok(1));
    }
}

#[test]
fn other_numbers_of_seats_or_windows_make_another_book() {
    let file = file_of(&two_seats(), NO_CREDITS);
    for (seats, windows) in [(1, 1), (3, 1), (2, 2)] {
        let other = file_of(&Book { seats, windows, classes: [1; SEATS], ..two_seats() }, NO_CREDITS);
        assert_eq!(chosen(&file, &other), Err((17, 0, 0)), "{seats} seats, {windows} windows");
        assert_eq!(chosen(&other, &file), Err((17, 0, 0)), "{seats} seats, {windows} windows");
    }
    // From the classes on these two have the same bytes, which their contents cut up in two ways.
    let tall = file_of(&k3(), Some(&grid(&[&[1], &[2]])));
    let wide = file_of(&book(&[1], &[1, 3], &[&[3, 3]]), Some(&grid(&[&[1, 2]])));
    assert_eq!(tall[26..], wide[26..]);
    assert_eq!(chosen(&tall, &wide), Err((17, 0, 0)));
}

#[test]
fn another_first_seat_is_not_another_book() {
    let [low, high]: [Sheet; 2] = [[0, 3], [1, 2]].map(|[a, b]| grid(&[&[0, 0], &[1, a], &[0, b]]));
    let books = [k8(), first_is(k8(), 1), first_is(k8(), 2), first_is(k8(), 3)];
    for (one, other) in books.iter().flat_map(|one| books.iter().map(move |other| (one, other))) {
        let (spoilt, fair) = (file_of(one, Some(&low)), file_of(other, Some(&high)));
        // A fifth entry moves the body by six bytes.
        let start = if other.first.is_some() { 54 } else { 48 };
        let chosen = Better { file: 2, start, length: 12 };
        assert_eq!(better(&spoilt, &fair), Ok(chosen));
        assert_eq!(better(&fair, &spoilt), Ok(Better { file: 1, ..chosen }));
        assert_eq!(fair[start..start + 12], [0, 0, 0, 0, 1, 0, 1, 0, 0, 0, 2, 0]);
        assert_eq!(better(&file_of(one, Some(&high)), &fair).map(|chosen| chosen.file), Ok(1));
    }
}

#[test]
fn levels_are_of_balance_plus_total() {
    let carrying_two = |balances: &[u16]| carrying(two_seats(), balances);
    // By totals 2 and 2 are higher than 1 and 3.
    assert_lower(&carrying_two(&[0, 0]), &[&[1], &[3]], &[&[2], &[2]]);
    assert_lower(&carrying_two(&[4, 0]), &[&[2], &[2]], &[&[1], &[3]]);
    assert_equal(&carrying_two(&[1, 0]), &[&[0], &[3]], &[&[2], &[1]]);
    assert_lower(&carrying_two(&[MOST_BALANCE, MOST_BALANCE - 2]), &[&[0], &[1]], &[&[0], &[2]]);
    // K5 with balances 0 and 4, where 3 and 1 are planned.
    assert_lower(&carrying(k5(), &[0, 4]), &[&[2], &[2]], &[&[3], &[1]]);
    assert_lower(&carrying(k5(), &[0, 4]), &[&[4], &[0]], &[&[3], &[1]]);
}

/// No two of these files are of one book.
fn assert_all_differ(files: &[Vec<u8>]) {
    for (place, one) in files.iter().enumerate() {
        for (other_place, other) in files.iter().enumerate() {
            let expected = if place == other_place { Ok(1) } else { Err((17, 0, 0)) };
            assert_eq!(chosen(one, other), expected, "{place} and {other_place}");
        }
    }
}

#[test]
fn other_balances_make_another_book() {
    let file = |balances: &[u16]| file_of(&carrying(k8(), balances), NO_CREDITS);
    let none = file_of(&k8(), NO_CREDITS);
    let all =
        [none, file(&[1, 2, 3]), file(&[0, 2, 3]), file(&[1, 0, 3]), file(&[1, 2, 0]), file(&[0, 0, MOST_BALANCE])];
    assert_all_differ(&all);
    // Another first seat beside the same balances makes none.
    assert_eq!(chosen(&all[1], &file_of(&first_is(carrying(k8(), &[1, 2, 3]), 2), NO_CREDITS)), Ok(1));
}

/// K8 with one entry more that says nothing new is of one book with K8. The entry moves the sheet body by six bytes.
fn assert_one_book(same: Book) {
    let [low, high]: [Sheet; 2] = [[0, 3], [1, 2]].map(|[a, b]| grid(&[&[0, 0], &[1, a], &[0, b]]));
    for (one, other, start) in [(k8(), same.clone(), 54), (same, k8(), 48)] {
        let (spoilt, fair) = (file_of(&one, Some(&low)), file_of(&other, Some(&high)));
        assert_eq!(better(&spoilt, &fair), Ok(Better { file: 2, start, length: 12 }));
        assert_eq!(better(&fair, &spoilt), Ok(Better { file: 1, start, length: 12 }));
        assert_eq!(fair[start..start + 12], [0, 0, 0, 0, 1, 0, 1, 0, 0, 0, 2, 0]);
    }
}

#[test]
fn no_balances_and_zeros_are_of_one_book() {
    assert_one_book(carrying(k8(), &[0, 0, 0]));
}

#[test]
fn levels_are_by_the_weights_in_force() {
    let two = |weights| weighing(book(&[1, 2], &[6], &[&[4], &[4]]), weights);
    // What is higher by paper 01's weights is lower by others.
    assert_lower(&two(WEIGHTS), &[&[1], &[3]], &[&[2], &[2]]);
    assert_lower(&two([1, 3, 4, 5, 6, 7, 8, 9]), &[&[2], &[2]], &[&[1], &[3]]);
    // Half a credit and one.
    assert_equal(&two([2, 4, 5, 6, 7, 8, 9, 10]), &[&[1], &[4]], &[&[2], &[2]]);
    // By whole division all of these have level 0; 2 of 993 is above 2 of 994.
    assert_lower(&two(HIGHEST), &[&[3], &[2]], &[&[2], &[3]]);
    assert_lower(&weighing(book(&[8], &[999], &[&[999]]), HIGHEST), &[&[998]], &[&[999]]);
}

#[test]
fn the_greatest_heights_and_weights_a_credit_apart() {
    let most: &[u16] = &[MOST_CREDITS; WINDOWS];
    let less = [&most[1..], &[MOST_CREDITS - 1]].concat();
    let largest = weighing(book(&[7, 8], most, &[most, most]), HIGHEST);
    let largest = carrying(largest, &[MOST_BALANCE, MOST_BALANCE]);
    assert_lower(&largest, &[&less, &[]], &[most, &[]]);
    assert_lower(&largest, &[&[], &less], &[&[], most]);
    // 50,000 of 1,000 is below 50,000 of 999.
    assert_lower(&largest, &[most, &[]], &[&[], most]);
}

#[test]
fn other_weights_make_another_book() {
    let file = |weights| file_of(&weighing(k8(), weights), NO_CREDITS);
    let tens = [10, 20, 30, 40, 50, 60, 70, 80];
    let mut all = vec![file_of(&k8(), NO_CREDITS), file(LOWEST), file(HIGHEST), file(tens)];
    // K8 has seats of class 1 alone, and each of the eight weights counts.
    for class in 0..8 {
        let (mut one_more, mut from_here_on) = (tens, WEIGHTS);
        one_more[class] += 1;
        from_here_on[class..].iter_mut().for_each(|weight| *weight += 1);
        all.extend([file(one_more), file(from_here_on)]);
    }
    assert_all_differ(&all);
    // Another first seat beside the same weights makes none, nor do zeros.
    let same = [first_is(weighing(k8(), LOWEST), 2), carrying(weighing(k8(), LOWEST), &[0, 0, 0])];
    assert!(same.iter().all(|book| chosen(&all[1], &file_of(book, NO_CREDITS)) == Ok(1)));
}

#[test]
fn no_weights_and_those_of_paper_01_are_of_one_book() {
    assert_one_book(weighing(k8(), [1, 2, 3, 5, 8, 12, 20, 40]));
}
