//! A file's own class weights: whose level is lower by them, and which files are turned away for them.

use super::balance_tests::carrying;
use super::first_tests::{first_is, k8_and, planned_to_the_byte, tied, SETTLED};
use super::*;

/// The lowest weights that rise, and the highest.
pub(super) const LOWEST: [u16; 8] = [1, 2, 3, 4, 5, 6, 7, 8];
pub(super) const HIGHEST: [u16; 8] = [993, 994, 995, 996, 997, 998, 999, 1000];

/// Paper 01's weights, all times 25, which is as far as they go.
const TIMES_25: [u16; 8] = [25, 50, 75, 125, 200, 300, 500, 1000];

/// Class 2 has three times the weight of class 1.
const ONE_TO_THREE: [u16; 8] = [1, 3, 4, 5, 6, 7, 8, 1000];

/// Class 8 is as far above the others as it can be.
const STEEP: [u16; 8] = [1, 2, 3, 4, 5, 6, 7, 1000];

/// The same book with these weights.
pub(super) fn weighing(book: Book, weights: [u16; 8]) -> Book {
    Book { weights: Some(weights), ..book }
}

/// A seat of each class, and three windows with enough supply for each seat to get as many credits as its weight says.
fn a_seat_of_each_class(weights: [u16; 8]) -> Book {
    let sum: u16 = weights.iter().sum();
    let supplies = [sum / 3, sum / 3, sum - 2 * (sum / 3)];
    weighing(book(&[1, 2, 3, 4, 5, 6, 7, 8], &supplies, &[&[MOST_CREDITS; 3][..]; 8]), weights)
}

#[test]
fn each_class_gets_by_its_weight() {
    for weights in [LOWEST, HIGHEST, WEIGHTS, TIMES_25, ONE_TO_THREE] {
        let fair = a_seat_of_each_class(weights);
        assert_eq!(planned_totals(&fair), weights.map(u32::from));
        // One credit more goes to the smallest weight of equal levels, and one less is the greatest's.
        let (mut more, mut less) = (fair.clone(), fair);
        more.supplies[2] += 1;
        less.supplies[2] -= 1;
        let (mut expected_more, mut expected_less) = (weights.map(u32::from), weights.map(u32::from));
        expected_more[0] += 1;
        expected_less[7] -= 1;
        assert_eq!((planned_totals(&more), planned_totals(&less)), (expected_more.to_vec(), expected_less.to_vec()));
    }
}

#[test]
fn k5_planned_with_own_weights() {
    for (one, other, totals) in [
        (1, 2, [2, 2]),
        (1, 3, [1, 3]),
        (1, 4, [1, 3]),
        (1, 994, [1, 3]),
        (2, 3, [2, 2]),
        (2, 6, [1, 3]),
        (993, 994, [2, 2]),
        // A seat with less than half the weight gets less than half.
        (449, 900, [1, 3]),
        (450, 900, [2, 2]),
        (451, 900, [2, 2]),
    ] {
        let mut weights = HIGHEST;
        (weights[0], weights[1]) = (one, other);
        assert_eq!(planned_totals(&weighing(k5(), weights)), totals, "{one} and {other}");
    }
    // With balances, which are divided by the same weights: 0 and 4 of 3 as against 0 and 4 of 2.
    assert_eq!(planned_totals(&carrying(k5(), &[0, 4])), [3, 1]);
    assert_eq!(planned_totals(&carrying(weighing(k5(), ONE_TO_THREE), &[0, 4])), [2, 2]);
    assert_eq!(planned_totals(&carrying(weighing(k5(), HIGHEST), &[0, 4])), [4, 0]);
}

#[test]
fn a_chain_improves_by_the_weights_in_force() {
    // K6, and what is planned without own weights.
    let own = |weights| weighing(k5(), weights);
    assert_eq!(marked(&own(WEIGHTS), &[&[1], &[3]]), (improvable(1), vec![1, 2, 1]));
    assert_eq!(marked(&own(ONE_TO_THREE), &[&[1], &[3]]), (SETTLED, vec![]));
    assert_eq!(marked(&own(ONE_TO_THREE), &[&[2], &[2]]), (improvable(1), vec![1, 1, 2]));
    assert_eq!(marked(&own(HIGHEST), &[&[2], &[2]]), (SETTLED, vec![]));
    assert_eq!(marked(&own(HIGHEST), &[&[3], &[1]]), (improvable(1), vec![1, 1, 2]));
    // At levels that would be equal the smaller weight gains: 1 of 2 before 2 of 4, but not before 2 of 5.
    let one = |weights| carrying(weighing(book(&[1, 2], &[1], &[&[1], &[1]]), weights), &[1, 2]);
    assert_eq!(marked(&one([2, 4, 5, 6, 7, 8, 9, 10]), &[&[0], &[1]]), (improvable(1), vec![1, 2, 1]));
    assert_eq!(marked(&one([2, 4, 5, 6, 7, 8, 9, 10]), &[&[1], &[0]]), (SETTLED, vec![]));
    assert_eq!(marked(&one([2, 5, 6, 7, 8, 9, 10, 11]), &[&[0], &[1]]), (SETTLED, vec![]));
    assert_eq!(marked(&one([2, 5, 6, 7, 8, 9, 10, 11]), &[&[1], &[0]]), (improvable(1), vec![1, 1, 2]));
}

#[test]
fn a_tie_is_of_seats_of_one_class_whatever_it_weighs() {
    for weights in [LOWEST, HIGHEST, ONE_TO_THREE] {
        for class in [1, 2, 8] {
            let two = weighing(book(&[class, class], &[3], &[&[3], &[3]]), weights);
            assert_eq!(marked(&two, &[&[1], &[2]]), (tied(1), vec![1, 2, 1]));
            assert_eq!(marked(&first_is(two.clone(), 2), &[&[1], &[2]]), (SETTLED, vec![]));
            assert_eq!(planned_totals(&two), [2, 1]);
        }
        // K7: the weight comes before the seat.
        assert_eq!(planned_totals(&weighing(book(&[2, 1], &[1], &[&[1], &[1]]), weights)), [0, 1]);
    }
}

#[test]
fn the_greatest_numbers() {
    // 24 windows of 4,095 credits; both seats could have all of them, beside a balance of 50,000.
    let most: &[u16] = &[MOST_CREDITS; WINDOWS];
    let all = MOST_CREDITS as u32 * WINDOWS as u32;
    let large = |classes: [u16; 2], weights| {
        carrying(weighing(book(&classes, most, &[most, most]), weights), &[MOST_BALANCE, MOST_BALANCE])
    };
    assert_eq!(planned_totals(&large([1, 8], STEEP)), [0, all]);
    assert_eq!(planned_totals(&large([8, 1], STEEP)), [all, 0]);
    assert_eq!(marked(&large([1, 8], STEEP), &[most, &[]]), (improvable(1), vec![1, 1, 2]));
    assert_eq!(marked(&large([8, 1], STEEP), &[&[], most]), (improvable(1), vec![1, 2, 1]));
    assert_eq!(marked(&large([7, 8], HIGHEST), &[most, &[]]), (improvable(1), vec![1, 1, 2]));
    assert_eq!(marked(&large([7, 8], HIGHEST), &[&[], most]), (improvable(1), vec![1, 2, 1]));
    // By 999 and 1,000 each seat would have 99,090.4 and 99,189.6, the balance among them.
    assert_eq!(planned_totals(&large([7, 8], HIGHEST)), [49_090, 49_190]);
}

#[test]
fn only_proportions_count() {
    let k8_weighted = Book { classes: book(&[3, 1, 2], &[], &[]).classes, ..k8() };
    for book in [k1(), k3(), k5(), k8(), k8_weighted, a_seat_of_each_class(WEIGHTS)] {
        let planned = |weights| planned_totals(&weighing(book.clone(), weights));
        assert_eq!(planned(TIMES_25), planned(WEIGHTS));
    }
}

#[test]
fn the_weights_of_paper_01_are_another_file_of_the_same_meaning() {
    let none = Book { classes: book(&[3, 1, 2], &[], &[]).classes, ..k8() };
    let own = weighing(none.clone(), [1, 2, 3, 5, 8, 12, 20, 40]);
    let (with, without) = (file_of(&own, None), file_of(&none, None));
    assert_eq!((with.len(), without.len()), (42 + 6 + 16, 42));
    assert_eq!((read(&with), read(&without)), (Ok((own.clone(), None)), Ok((none.clone(), None))));
    let mut out = [0; FILE_LENGTH];
    let length = plan(&with, &mut out).unwrap();
    assert_eq!((out[0], &out[length - 16..length]), (5, &with[with.len() - 16..]));
    assert_eq!(read(&out[..length]).unwrap().0, own);
    assert_eq!(planned_totals(&own), planned_totals(&none));
    for sheet in [&[&[0, 0][..], &[1, 0], &[0, 3]], &[&[1, 0], &[0, 2], &[0, 1]]] {
        assert_eq!(marked(&own, sheet), marked(&none, sheet));
        let [file, other] = [&own, &none].map(|book| file_of(book, Some(&grid(sheet))));
        assert_eq!(listing(&file), listing(&other));
    }
}

#[test]
fn the_listing_has_no_weights() {
    let text = "seats 2 windows 1\nwindow 1 opens 0800 supply 4 placed 4\n\
                seat 1 class 1 total 1\nseat 2 class 2 total 3\n";
    for (weights, mark) in [(ONE_TO_THREE, "mark 4\n"), (HIGHEST, "mark 2\nmove window 1 from 2 to 1\n")] {
        let file = file_of(&weighing(k5(), weights), Some(&grid(&[&[1], &[3]])));
        assert_eq!(String::from_utf8(listing(&file)).unwrap(), format!("{text}{mark}"));
    }
}

#[test]
fn k5_with_own_weights_to_the_byte() {
    let weights = "0100 0300 0400 0500 0600 0700 0800 E803";
    let contents = "0400 01001A000400 02001E000200 030020000400 070024001000";
    let file = bytes(&format!("{contents} 0100 0200 0400 0400 0400 {weights}"));
    let contents = "0500 010020000400 020024000200 030026000400 04002A000400 07002E001000";
    let planned = bytes(&format!("{contents} 0100 0200 0400 0400 0400 0100 0300 {weights}"));
    planned_to_the_byte(&weighing(k5(), ONE_TO_THREE), &file, &planned);
}

#[test]
fn the_longest_file() {
    let mut large = Book { classes: [8; SEATS], ..Book::empty(32, 24) };
    large.caps = [[MOST_CREDITS; WINDOWS]; SEATS];
    large.first = Some(32);
    large.balances = Some([MOST_BALANCE; SEATS]);
    large.weights = Some(HIGHEST);
    let sheet = [[u16::MAX; WINDOWS]; SEATS];
    let file = file_of(&large, Some(&sheet));
    assert_eq!(file.len(), FILE_LENGTH);
    assert_eq!(read(&file), Ok((large, Some(sheet))));
}

/// Reading and writing K8 with these weights: the place of the weight that both refuse, wherever the body lies.
fn refused_place(weights: [u16; 8]) -> Option<usize> {
    let sheet = Some(&[[0; WINDOWS]; SEATS]);
    let full = carrying(first_is(k8(), 1), &[0, 0, 0]);
    let places = [(k8(), None, 48), (k8(), sheet, 66), (carrying(k8(), &[0, 0, 0]), None, 60), (full, sheet, 86)];
    let places = places.map(|(book, sheet, at)| {
        let mut file = file_of(&weighing(book.clone(), LOWEST), sheet);
        file.truncate(at);
        file.extend(weights.iter().flat_map(|weight| weight.to_le_bytes()));
        let refused = write(&weighing(book, weights), sheet, &mut [0; FILE_LENGTH]).err();
        assert_eq!(read(&file).err(), refused, "{weights:?} at {at}");
        refused.map(|Refusal { number, offset }| {
            assert_eq!((number, (offset - at) % 2), (20, 0));
            (offset - at) / 2
        })
    });
    assert_eq!(places, [places[0]; 4]);
    places[0]
}

#[test]
fn weights_turned_away_and_taken() {
    let from_1_on = [1, 994, 995, 996, 997, 998, 999, 1000];
    for weights in [LOWEST, HIGHEST, WEIGHTS, TIMES_25, STEEP, from_1_on] {
        assert_eq!(refused_place(weights), None, "{weights:?}");
    }
    // The first weight that is out of bounds or not above the one before.
    for (weights, place) in [
        ([5, 5, 3, 5, 8, 12, 20, 40], 1),
        ([0, 2, 3, 5, 8, 12, 20, 40], 0),
        ([1001, 2, 3, 5, 8, 12, 20, 40], 0),
        ([7, 2000, 3, 5, 8, 12, 20, 40], 1),
        ([1, 0, 3, 5, 8, 12, 20, 40], 1),
        ([2, 1, 3, 5, 8, 12, 20, 2000], 1),
        ([1, 2, 3, 5, 8, 12, 20, 20], 7),
        ([1, 2, 3, 5, 8, 12, 20, 1001], 7),
        ([40, 20, 12, 8, 5, 3, 2, 1], 1),
        ([994, 995, 996, 997, 998, 999, 1000, 1001], 7),
        ([0; 8], 0),
        ([1; 8], 1),
        ([1000; 8], 1),
        ([65535; 8], 0),
    ] {
        assert_eq!(refused_place(weights), Some(place), "{weights:?}");
    }
}

#[test]
fn each_weight_is_tested() {
    let tens = [10, 20, 30, 40, 50, 60, 70, 80];
    for place in 0..8 {
        let with = |weight| {
            let mut weights = tens;
            weights[place] = weight;
            refused_place(weights)
        };
        let before = 10 * place as u16;
        for wrong in [0, before.saturating_sub(1), before, 1001, 65535] {
            assert_eq!(with(wrong), Some(place), "{wrong} at {place}");
        }
        assert_eq!((with(before + 1), with(before + 19)), (None, None));
        // From the next one's value on, that one is wrong; none comes after the last.
        for high in [before + 20, 1000] {
            assert_eq!(with(high), (place < 7).then_some(place + 1), "{high} at {place}");
        }
    }
}

#[test]
fn the_length_is_tested_before_the_values() {
    for length in [0, 1, 2, 14, 15, 17, 18, 32, 64] {
        // Every value that is there is too high.
        let body = &[0xff; 64][..length];
        let before: [(u16, &[u8]); 3] = [(4, &[0; 12]), (5, &[3, 0]), (6, &[0; 6])];
        for number in 0..=3 {
            let parts = [&before[..number], &[(7, body)]].concat();
            assert_eq!(read(&k8_and(&parts)).err(), refusal(20, 24 + 6 * number), "{length} bytes");
        }
    }
    assert_eq!(read(&k8_and(&[(7, &[0xff; 16])])).err(), refusal(20, 48));
}

#[test]
fn weights_are_tested_after_the_balances_and_before_the_sheet() {
    let (cells, wrong) = (&[9; 12][..], &[0xff; 16][..]);
    let right: &[u8] = &[1, 0, 2, 0, 3, 0, 4, 0, 5, 0, 6, 0, 7, 0, 8, 0];
    // 18 and 19 come before 20, by length or by value, wherever they lie.
    assert_eq!(read(&k8_and(&[(5, &[]), (7, &[])])).err(), refusal(18, 24));
    assert_eq!(read(&k8_and(&[(5, &[4, 0]), (7, &[])])).err(), refusal(18, 54));
    assert_eq!(read(&k8_and(&[(6, &[]), (7, &[])])).err(), refusal(19, 24));
    assert_eq!(read(&k8_and(&[(6, &[0xff; 6]), (7, &[])])).err(), refusal(19, 54));
    assert_eq!(read(&k8_and(&[(5, &[3, 0]), (6, &[0xff; 6]), (7, wrong)])).err(), refusal(19, 62));
    assert_eq!(read(&k8_and(&[(5, &[3, 0]), (6, &[0; 6]), (7, wrong)])).err(), refusal(20, 68));
    assert_eq!(read(&k8_and(&[(5, &[3, 0]), (6, &[0; 6]), (7, right)])).err(), None);
    // 9 and 12 come before it, 13 and 14 after it.
    assert_eq!(read(&k8_and(&[(4, &[0; 10]), (7, &[])])).err(), refusal(9, 24));
    let mut file = k8_and(&[(7, wrong)]);
    file[36..38].copy_from_slice(&[0, 16]);
    assert_eq!(read(&file).err(), refusal(12, 36));
    assert_eq!(mark(&k8_and(&[(7, wrong)]), &mut []).err(), refusal(20, 48));
    assert_eq!(mark(&k8_and(&[(7, right)]), &mut []).err(), refusal(13, 0));
    assert_eq!(mark(&k8_and(&[(4, cells), (7, wrong)]), &mut []).err(), refusal(20, 66));
    assert_eq!(mark(&k8_and(&[(4, cells), (7, right)]), &mut []).err(), refusal(14, 54));
}

#[test]
fn the_writer_tests_weights_last_but_for_the_buffer() {
    let mut spoilt = weighing(carrying(first_is(k8(), 4), &[65535]), [0; 8]);
    spoilt.caps[2][1] = 4096;
    assert_eq!(write(&spoilt, None, &mut []).err(), refusal(12, 58));
    spoilt.caps[2][1] = 4095;
    assert_eq!(write(&spoilt, None, &mut []).err(), refusal(18, 60));
    spoilt.first = Some(3);
    assert_eq!(write(&spoilt, None, &mut []).err(), refusal(19, 62));
    spoilt.balances = None;
    assert_eq!(write(&spoilt, None, &mut []).err(), refusal(20, 56));
    spoilt.weights = Some(LOWEST);
    assert_eq!(write(&spoilt, None, &mut []).err(), refusal(16, 72));
}
