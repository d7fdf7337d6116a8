//! The wrapper against the library: paper 01's examples, the standard sheet, first seats, balances, weights, pairs, wanted totals,
//! forecasts, idle seats, refusals, short and empty buffers, calls side by side.

use super::*;

/// A grid of small rows.
fn grid(rows: &[&[u16]]) -> Grid {
    let mut grid = [[0; WINDOWS]; SEATS];
    for (to, from) in grid.iter_mut().zip(rows) {
        to[..from.len()].copy_from_slice(from);
    }
    grid
}

/// A book of class 1 seats.
fn book(supplies: &[u16], caps: &[&[u16]], sheet: Option<&[&[u16]]>) -> Book {
    let mut book = Book {
        seats: caps.len(),
        windows: supplies.len(),
        classes: [0; SEATS],
        supplies: [0; WINDOWS],
        caps: grid(caps),
        sheet: sheet.map(grid),
        first: None,
        balances: None,
        weights: None,
    };
    book.classes[..caps.len()].fill(1);
    book.supplies[..supplies.len()].copy_from_slice(supplies);
    book
}

fn file_of(book: &Book) -> Vec<u8> {
    let mut out = [0; FILE_LENGTH];
    let length = write(book, &mut out).unwrap();
    out[..length].to_vec()
}

fn planned(file: &[u8]) -> Vec<u8> {
    let mut out = [0; FILE_LENGTH];
    let length = plan(file, &mut out).unwrap();
    out[..length].to_vec()
}

/// K8 with its sheet, or with another one.
fn k8(sheet: Option<&[&[u16]]>) -> Book {
    book(&[1, 3], &[&[1, 0], &[1, 2], &[0, 3]], sheet)
}
const K8_SHEET: Option<&[&[u16]]> = Some(&[&[0, 0], &[1, 0], &[0, 3]]);

/// Paper 01's file K11.
const K11: [u8; 26] = [3, 0, 1, 0, 20, 0, 2, 0, 2, 0, 22, 0, 2, 0, 3, 0, 24, 0, 2, 0, 1, 0, 3, 0, 2, 0];

fn refused<T>(reason: Reason, offset: usize) -> Result<T, Refusal> {
    Err(Refusal { reason, offset })
}

#[test]
fn a_day_file_is_planned_and_the_plan_is_settled() {
    let file = planned(&K11);
    assert_eq!(file.len(), 34);
    assert_eq!(file[..2], [4, 0]);
    assert_eq!(file[26..], [1, 0, 3, 0, 2, 0, 2, 0]);
    assert_eq!(mark(&file), Ok(Mark::Settled));
    assert!(Mark::Settled.passes());
    assert_eq!(read(&file), Ok(book(&[3], &[&[2]], Some(&[&[2]]))));
}

#[test]
fn a_spoilt_sheet_gets_a_chain() {
    let file = file_of(&k8(K8_SHEET));
    let chain = vec![Move { window: 1, giver: 2, taker: 1 }, Move { window: 2, giver: 3, taker: 2 }];
    let mut sheet = grid(K8_SHEET.unwrap());
    assert_eq!(mark(&file), Ok(Mark::Improvable { chain: chain.clone() }));
    for Move { window, giver, taker } in chain {
        sheet[giver as usize - 1][window as usize - 1] -= 1;
        sheet[taker as usize - 1][window as usize - 1] += 1;
    }
    let totals = |sheet: &Grid| sheet.map(|row| row.iter().sum::<u16>());
    let settled = read(&planned(&file)).unwrap().sheet.unwrap();
    assert_eq!(totals(&settled)[..3], [1, 2, 1]);
    assert_eq!(totals(&sheet)[..3], [1, 1, 2]);
    let tied = mark(&file_of(&Book { sheet: Some(sheet), ..k8(None) })).unwrap();
    assert!(matches!(&tied, Mark::Tied { chain } if chain.len() == 1) && tied.passes());
}

#[test]
fn marks_1_and_3() {
    let wasteful = file_of(&book(&[3], &[&[2]], Some(&[&[1]])));
    assert_eq!(mark(&wasteful), Ok(Mark::Wasteful { window: 1, seat: 1 }));
    let tied = file_of(&book(&[3], &[&[3], &[3]], Some(&[&[1], &[2]])));
    assert_eq!(mark(&tied), Ok(Mark::Tied { chain: vec![Move { window: 1, giver: 2, taker: 1 }] }));
}

/// The book of examples/standard.day.
fn three_by_three(sheet: Option<&[&[u16]]>) -> Book {
    book(&[4, 2, 3], &[&[1, 2, 2], &[3, 0, 1], &[1, 2, 2]], sheet)
}

#[test]
fn of_all_settled_sheets_the_standard_one_is_planned() {
    let standard = file_of(&three_by_three(Some(&[&[1, 2, 0], &[2, 0, 1], &[1, 0, 2]])));
    assert_eq!(planned(&file_of(&three_by_three(None))), standard);
    let by_windows: &[&[u16]] = &[&[1, 1, 1], &[3, 0, 0], &[0, 1, 2]];
    let from_the_last_seat: &[&[u16]] = &[&[1, 0, 2], &[2, 0, 1], &[1, 2, 0]];
    let lowest: &[&[u16]] = &[&[0, 1, 2], &[3, 0, 0], &[1, 1, 1]];
    for other in [by_windows, from_the_last_seat, lowest] {
        let other = file_of(&three_by_three(Some(other)));
        assert_eq!(mark(&other), Ok(Mark::Settled));
        assert_eq!(planned(&other), standard);
    }
}

/// K3 with that seat first.
fn k3(first: Option<u16>, sheet: Option<&[&[u16]]>) -> Book {
    Book { first, ..book(&[3], &[&[3], &[3]], sheet) }
}

#[test]
fn the_first_seat_wins_ties_and_is_kept() {
    for (first, totals) in [(None, [2, 1]), (Some(1), [2, 1]), (Some(2), [1, 2])] {
        let [most, least] = totals;
        let fair = k3(first, Some(&[&[most], &[least]]));
        assert_eq!(planned(&file_of(&k3(first, None))), file_of(&fair));
        assert_eq!(mark(&file_of(&fair)), Ok(Mark::Settled));
        let tied = mark(&file_of(&k3(first, Some(&[&[least], &[most]])))).unwrap();
        let winner = if most == 2 { 1 } else { 2 };
        assert_eq!(tied, Mark::Tied { chain: vec![Move { window: 1, giver: 3 - winner, taker: winner }] });
    }
}

#[test]
fn first_seats_that_are_not_in_the_book() {
    let mut out = [0xee; FILE_LENGTH];
    for seat in [0, 3, 65535] {
        let sheet: Option<&[&[u16]]> = Some(&[&[9], &[9]]);
        for (book, at) in [(k3(Some(seat), None), 36), (k3(Some(seat), sheet), 46)] {
            assert_eq!(write(&book, &mut out), refused(Reason::FirstSeat, at));
            let mut file = file_of(&Book { first: Some(2), ..book });
            file[at..].copy_from_slice(&seat.to_le_bytes());
            assert_eq!(read(&file), refused(Reason::FirstSeat, at));
            assert_eq!(mark(&file), refused(Reason::FirstSeat, at));
            assert_eq!(plan(&file, &mut out), refused(Reason::FirstSeat, at));
        }
    }
    assert!(out.iter().all(|&byte| byte == 0xee));
    let unnamed = raw::read(&file_of(&k3(None, None))).book;
    assert_eq!((unnamed.has_first, unnamed.first), (0, 0));
    let named = raw::read(&file_of(&k3(Some(2), None))).book;
    assert_eq!((named.has_first, named.first), (1, 2));
    // What is not named is not looked at.
    let length = raw::write(raw::Book { first: 9, ..unnamed }, &mut out).length;
    assert_eq!(out[..length], file_of(&k3(None, None)));
}

/// Balances of the first seats; the others have none.
fn row(balances: &[u16]) -> [u16; SEATS] {
    let mut row = [0; SEATS];
    row[..balances.len()].copy_from_slice(balances);
    row
}

/// K5 with these balances.
fn k5(balances: Option<&[u16]>, sheet: Option<&[&[u16]]>) -> Book {
    let mut book = book(&[4], &[&[4], &[4]], sheet);
    book.classes[1] = 2;
    Book { balances: balances.map(row), ..book }
}

#[test]
fn levels_are_of_balance_plus_total_and_balances_are_kept() {
    let cases: [(Option<&[u16]>, _); 4] =
        [(None, [2, 2]), (Some(&[0, 0]), [2, 2]), (Some(&[0, 4]), [3, 1]), (Some(&[50_000, 0]), [0, 4])];
    for (balances, [one, other]) in cases {
        let fair = k5(balances, Some(&[&[one], &[other]]));
        assert_eq!(planned(&file_of(&k5(balances, None))), file_of(&fair));
        assert_eq!(mark(&file_of(&fair)), Ok(Mark::Settled));
    }
    // What is settled without balances can be improved with them, and the other way round.
    let chain = |giver, taker| Mark::Improvable { chain: vec![Move { window: 1, giver, taker }] };
    assert_eq!(mark(&file_of(&k5(Some(&[0, 4]), Some(&[&[2], &[2]])))), Ok(chain(2, 1)));
    assert_eq!(mark(&file_of(&k5(None, Some(&[&[3], &[1]])))), Ok(chain(1, 2)));
    // K3 with equal heights, and with a tie that goes against the seat rule.
    let k3 = |balances| Book { balances: Some(row(balances)), ..k3(None, Some(&[&[1], &[2]])) };
    assert_eq!(mark(&file_of(&k3(&[1, 0]))), Ok(Mark::Settled));
    assert_eq!(mark(&file_of(&k3(&[2, 2]))), Ok(Mark::Tied { chain: vec![Move { window: 1, giver: 2, taker: 1 }] }));
}

#[test]
fn balances_that_are_too_high() {
    let mut out = [0xee; FILE_LENGTH];
    for balance in [50_001, 65535] {
        let sheet: Option<&[&[u16]]> = Some(&[&[9], &[9]]);
        for (sheet, at) in [(None, 36), (sheet, 46)] {
            assert_eq!(write(&k5(Some(&[balance, balance]), sheet), &mut out), refused(Reason::Balances, at));
            assert_eq!(write(&k5(Some(&[50_000, balance]), sheet), &mut out), refused(Reason::Balances, at + 2));
            let mut file = file_of(&k5(Some(&[50_000, 50_000]), sheet));
            file[at + 2..].copy_from_slice(&balance.to_le_bytes());
            assert_eq!(read(&file), refused(Reason::Balances, at + 2));
            assert_eq!(mark(&file), refused(Reason::Balances, at + 2));
            assert_eq!(plan(&file, &mut out), refused(Reason::Balances, at + 2));
        }
    }
    assert!(out.iter().all(|&byte| byte == 0xee));
    let none = raw::read(&file_of(&k5(None, None))).book;
    assert_eq!((none.has_balances, none.balances), (0, row(&[])));
    let some = raw::read(&file_of(&k5(Some(&[0, 4]), None))).book;
    assert_eq!((some.has_balances, some.balances), (1, row(&[0, 4])));
    // Neither balances that are not there are looked at, nor those of seats that are not in the book.
    let length = raw::write(raw::Book { balances: [65535; SEATS], ..none }, &mut out).length;
    assert_eq!(out[..length], file_of(&k5(None, None)));
    let length = raw::write(raw::Book { balances: row(&[0, 4, 65535]), ..some }, &mut out).length;
    assert_eq!(out[..length], file_of(&k5(Some(&[0, 4]), None)));
}

/// 01's weights, the lowest that rise, the highest, and some with which class 2 gets three times what class 1 gets.
const BUILT_IN: [u16; 8] = [1, 2, 3, 5, 8, 12, 20, 40];
const LOWEST: [u16; 8] = [1, 2, 3, 4, 5, 6, 7, 8];
const HIGHEST: [u16; 8] = [993, 994, 995, 996, 997, 998, 999, 1000];
const ONE_TO_THREE: [u16; 8] = [1, 3, 4, 5, 6, 7, 8, 1000];

/// K5 with these weights.
fn weighted_k5(weights: Option<[u16; 8]>, sheet: Option<&[&[u16]]>) -> Book {
    Book { weights, ..k5(None, sheet) }
}

#[test]
fn levels_are_by_the_weights_in_force_and_weights_are_kept() {
    let cases = [(None, [2, 2]), (Some(BUILT_IN), [2, 2]), (Some(HIGHEST), [2, 2]), (Some(ONE_TO_THREE), [1, 3])];
    for (weights, [one, other]) in cases {
        let fair = weighted_k5(weights, Some(&[&[one], &[other]]));
        assert_eq!(planned(&file_of(&weighted_k5(weights, None))), file_of(&fair));
        assert_eq!(mark(&file_of(&fair)), Ok(Mark::Settled));
    }
    // What is settled by paper 01's weights can be improved by others, and the other way round.
    let chain = |giver, taker| Mark::Improvable { chain: vec![Move { window: 1, giver, taker }] };
    assert_eq!(mark(&file_of(&weighted_k5(Some(ONE_TO_THREE), Some(&[&[2], &[2]])))), Ok(chain(1, 2)));
    assert_eq!(mark(&file_of(&weighted_k5(None, Some(&[&[1], &[3]])))), Ok(chain(2, 1)));
}

#[test]
fn each_class_gets_by_its_weight() {
    for weights in [BUILT_IN, LOWEST, HIGHEST, ONE_TO_THREE] {
        let sum: u16 = weights.iter().sum();
        let mut fair = book(&[sum / 2, sum - sum / 2], &[&[4095, 4095][..]; 8], None);
        fair.classes[..8].copy_from_slice(&[1, 2, 3, 4, 5, 6, 7, 8]);
        let sheet = read(&planned(&file_of(&Book { weights: Some(weights), ..fair }))).unwrap().sheet.unwrap();
        assert_eq!(sheet.map(|row| row.iter().sum::<u16>())[..8], weights);
    }
}

#[test]
fn weights_that_do_not_rise_within_their_bounds() {
    let mut out = [0xee; FILE_LENGTH];
    for (weights, place) in [
        ([0, 2, 3, 5, 8, 12, 20, 40], 0),
        ([5, 5, 3, 5, 8, 12, 20, 40], 1),
        ([7, 2000, 3, 5, 8, 12, 20, 40], 1),
        ([1, 2, 3, 5, 8, 12, 20, 1001], 7),
    ] {
        let sheet: Option<&[&[u16]]> = Some(&[&[9], &[9]]);
        for (sheet, at) in [(None, 36), (sheet, 46)] {
            let at = at + 2 * place;
            assert_eq!(write(&weighted_k5(Some(weights), sheet), &mut out), refused(Reason::Weights, at));
            let mut file = file_of(&weighted_k5(Some(LOWEST), sheet));
            file.truncate(file.len() - 16);
            file.extend(weights.iter().flat_map(|weight| weight.to_le_bytes()));
            assert_eq!(read(&file), refused(Reason::Weights, at));
            assert_eq!(mark(&file), refused(Reason::Weights, at));
            assert_eq!(plan(&file, &mut out), refused(Reason::Weights, at));
        }
    }
    assert!(out.iter().all(|&byte| byte == 0xee));
    let none = raw::read(&file_of(&weighted_k5(None, None))).book;
    assert_eq!((none.has_weights, none.weights), (0, [0; 8]));
    let some = raw::read(&file_of(&weighted_k5(Some(BUILT_IN), None))).book;
    assert_eq!((some.has_weights, some.weights), (1, BUILT_IN));
    // Weights that are not there are not looked at.
    let length = raw::write(raw::Book { weights: [65535; 8], ..none }, &mut out).length;
    assert_eq!(out[..length], file_of(&weighted_k5(None, None)));
}

#[test]
fn files_written_read_back() {
    let mut large = book(&[4095; WINDOWS], &[&[4095; WINDOWS][..]; SEATS], None);
    large.classes = [8; SEATS];
    let full = Book { sheet: Some([[65535; WINDOWS]; SEATS]), ..large.clone() };
    for book in [k8(None), k8(K8_SHEET), large, full] {
        for first in [None, Some(1), Some(book.seats as u16)] {
            for balances in [None, Some(row(&[])), Some(row(&[50_000, 1]))] {
                for weights in [None, Some(BUILT_IN), Some(HIGHEST)] {
                    let book = Book { first, balances, weights, ..book.clone() };
                    assert_eq!(read(&file_of(&book)), Ok(book));
                }
            }
        }
    }
    assert_eq!(read(&K11), Ok(book(&[3], &[&[2]], None)));
}

#[test]
fn the_listing_of_k8() {
    let file = file_of(&k8(K8_SHEET));
    let mut out = [0xee; LISTING_LENGTH + 5];
    let length = listing(&file, &mut out).unwrap();
    let text = "seats 3 windows 2\nwindow 1 opens 0800 supply 1 placed 1\nwindow 2 opens 0825 supply 3 placed 3\n\
                seat 1 class 1 total 0\nseat 2 class 1 total 1\nseat 3 class 1 total 3\n\
                mark 2\nmove window 1 from 2 to 1\nmove window 2 from 3 to 2\n";
    assert_eq!(std::str::from_utf8(&out[..length]), Ok(text));
    assert!(out[length..].iter().all(|&byte| byte == 0xee));
    let length = listing(&K11, &mut out).unwrap();
    assert_eq!(&out[..length], b"refused 13 at 0\n");
}

#[test]
fn refusals_leave_buffers_untouched() {
    let mut out = [0xee; 4000];
    assert_eq!(plan(&K11[..25], &mut out), refused(Reason::FileEnd, 25));
    assert_eq!(plan(&[9, 0], &mut out), refused(Reason::NumberOfEntries, 0));
    assert_eq!(raw::mark(&K11, &mut out).refusal, Reason::NoSheet.number());
    let above_cap = file_of(&k8(Some(&[&[1, 0], &[1, 0], &[1, 4]])));
    assert_eq!(raw::mark(&above_cap, &mut out).offset, 56);
    assert_eq!(mark(&above_cap), refused(Reason::CellAboveCap, 56));
    let above_supply = file_of(&k8(Some(&[&[1, 0], &[1, 2], &[0, 3]])));
    assert_eq!(mark(&above_supply), refused(Reason::WindowAboveSupply, 32));
    let mut bad = k8(None);
    bad.classes[1] = 9;
    assert_eq!(write(&bad, &mut out), refused(Reason::Class, 22));
    bad.seats = 33;
    assert_eq!(write(&bad, &mut out), refused(Reason::SeatsLength, 6));
    assert!(out.iter().all(|&byte| byte == 0xee));
}

#[test]
fn short_buffers() {
    let file = file_of(&k8(K8_SHEET));
    let mut out = [0xee; LISTING_LENGTH];
    assert_eq!(plan(&file, &mut out[..59]), refused(Reason::ShortBuffer, 60));
    assert_eq!(write(&k8(K8_SHEET), &mut out[..59]), refused(Reason::ShortBuffer, 60));
    assert_eq!(write(&k8(None), &mut out[..41]), refused(Reason::ShortBuffer, 42));
    assert_eq!(listing(&file, &mut out[..LISTING_LENGTH - 1]), refused(Reason::ShortBuffer, LISTING_LENGTH));
    let marked = raw::mark(&file, &mut out[..MOVES_LENGTH - 1]);
    assert_eq!((marked.refusal, marked.offset, marked.mark), (16, MOVES_LENGTH, 0));
    assert!(out.iter().all(|&byte| byte == 0xee));
    assert_eq!(plan(&file, &mut out[..60]), Ok(60));
    assert_eq!(raw::mark(&file, &mut out[..MOVES_LENGTH]).mark, 2);
}

#[test]
fn empty_input_and_empty_buffers() {
    assert_eq!(read(&[]), refused(Reason::UnderTwoBytes, 0));
    assert_eq!(mark(&[]), refused(Reason::UnderTwoBytes, 0));
    assert_eq!(plan(&[], &mut []), refused(Reason::UnderTwoBytes, 0));
    assert_eq!(listing(&[], &mut []), refused(Reason::ShortBuffer, LISTING_LENGTH));
    assert_eq!(plan(&K11, &mut []), refused(Reason::ShortBuffer, 34));
    assert_eq!(write(&k8(None), &mut []), refused(Reason::ShortBuffer, 42));
    assert_eq!(read(&[]).unwrap_err().to_string(), "refused 1 at 0");
    let nothing = raw::read(&[]).book;
    assert_eq!((nothing.seats, nothing.windows, nothing.has_sheet), (0, 0, 0));
    assert_eq!((nothing.has_first, nothing.first), (0, 0));
    assert_eq!((nothing.has_balances, nothing.balances), (0, row(&[])));
    assert_eq!((nothing.has_weights, nothing.weights), (0, [0; 8]));
    assert_eq!((nothing.caps, nothing.sheet), (grid(&[]), grid(&[])));
}

/// The file that is chosen. The body must be the caller's own bytes: the last of that file but for those of its first seat, of its
/// balances and of its weights.
fn chosen(first: &[u8], second: &[u8]) -> Which {
    let Better { file, body } = better(first, second).unwrap();
    let bytes = if file == Which::First { first } else { second };
    let book = read(bytes).unwrap();
    let fields = [(book.first.is_some(), 1), (book.balances.is_some(), book.seats), (book.weights.is_some(), 8)];
    let end = bytes.len() - 2 * fields.map(|(there, number)| there as usize * number).iter().sum::<usize>();
    let start = end - 2 * book.seats * book.windows;
    assert_eq!(body.as_ptr_range(), bytes[start..end].as_ptr_range());
    file
}

#[test]
fn the_better_of_two_sheets() {
    let spoilt = file_of(&k8(K8_SHEET));
    let fair = planned(&spoilt);
    assert_eq!(chosen(&spoilt, &fair), Which::Second);
    assert_eq!(chosen(&fair, &spoilt), Which::First);
    assert_eq!(chosen(&spoilt, &spoilt), Which::First);
    let [k3, k4] = [[2, 1], [1, 2]].map(|[a, b]| file_of(&book(&[3], &[&[3], &[3]], Some(&[&[a], &[b]]))));
    assert_eq!((chosen(&k3, &k4), chosen(&k4, &k3)), (Which::First, Which::First));
    let mut weighted = book(&[4], &[&[4], &[4]], Some(&[&[1], &[3]]));
    weighted.classes[1] = 2;
    let k6 = file_of(&weighted);
    assert_eq!(chosen(&k6, &planned(&k6)), Which::Second);
    // Another first seat is not another book, and it moves the body.
    let turned = planned(&file_of(&Book { first: Some(3), ..k8(None) }));
    assert_eq!((chosen(&spoilt, &turned), chosen(&turned, &spoilt)), (Which::Second, Which::First));
    assert_eq!((chosen(&fair, &turned), chosen(&turned, &fair)), (Which::First, Which::First));
    // Nor are balances of zeros; others decide whose list is higher.
    let zeros = file_of(&Book { balances: Some(row(&[])), ..read(&spoilt).unwrap() });
    assert_eq!((chosen(&zeros, &fair), chosen(&fair, &zeros)), (Which::Second, Which::First));
    let [even, odd] = [[2, 2], [3, 1]].map(|[a, b]| file_of(&k5(Some(&[0, 4]), Some(&[&[a], &[b]]))));
    assert_eq!((chosen(&even, &odd), chosen(&odd, &even)), (Which::Second, Which::First));
    // The same with weights: paper 01's make no other book.
    let built_in = file_of(&Book { weights: Some(BUILT_IN), ..read(&spoilt).unwrap() });
    assert_eq!((chosen(&built_in, &fair), chosen(&fair, &built_in)), (Which::Second, Which::First));
    let [even, odd] = [[2, 2], [1, 3]].map(|[a, b]| file_of(&weighted_k5(Some(ONE_TO_THREE), Some(&[&[a], &[b]]))));
    assert_eq!((chosen(&even, &odd), chosen(&odd, &even)), (Which::Second, Which::First));
}

/// The refusal of a pair of files.
fn pair_refusal(first: &[u8], second: &[u8]) -> (Option<Which>, Reason, usize) {
    let PairRefusal { file, refusal } = better(first, second).unwrap_err();
    (file, refusal.reason, refusal.offset)
}

#[test]
fn pairs_are_refused_first_file_first() {
    let file = file_of(&k8(K8_SHEET));
    let above_supply = file_of(&k8(Some(&[&[1, 0], &[1, 2], &[0, 3]])));
    let other_book = file_of(&Book { supplies: book(&[1, 4], &[], None).supplies, ..k8(K8_SHEET) });
    let other_balances = file_of(&Book { balances: Some(row(&[0, 0, 1])), ..k8(K8_SHEET) });
    // Of classes that no seat has, too.
    let other_weights = file_of(&Book { weights: Some([1, 2, 3, 5, 8, 12, 20, 41]), ..k8(K8_SHEET) });
    let (first, second) = (Some(Which::First), Some(Which::Second));
    assert_eq!(pair_refusal(&[], &[]), (first, Reason::UnderTwoBytes, 0));
    assert_eq!(pair_refusal(&above_supply, &[4]), (first, Reason::WindowAboveSupply, 32));
    assert_eq!(pair_refusal(&file, &[4]), (second, Reason::UnderTwoBytes, 1));
    assert_eq!(pair_refusal(&K11, &above_supply), (first, Reason::NoSheet, 0));
    assert_eq!(pair_refusal(&other_book, &above_supply), (second, Reason::WindowAboveSupply, 32));
    assert_eq!(pair_refusal(&file, &other_book), (None, Reason::OtherBook, 0));
    assert_eq!(pair_refusal(&other_balances, &file), (None, Reason::OtherBook, 0));
    assert_eq!(pair_refusal(&other_weights, &file), (None, Reason::OtherBook, 0));
    let texts = [(&[][..], &file[..]), (&file, &[]), (&file, &other_book)];
    let texts = texts.map(|(first, second)| better(first, second).unwrap_err().to_string());
    assert_eq!(texts, ["first file: refused 1 at 0", "second file: refused 1 at 0", "both files: refused 17 at 0"]);
    let result = raw::better(&file, &K11);
    assert_eq!((result.refusal, result.file, result.start, result.length), (13, 2, 0, 0));
}

#[test]
fn wanted_totals_of_k8() {
    let sheet = |rows: &[&[u16]]| Ok(Fulfilled::Sheet(grid(rows)));
    let group = |seats: &[u8]| Ok(Fulfilled::Group(seats.to_vec()));
    // Each of these rows has one reply only. The sheet in the file does not matter, nor whether it is lawful.
    for file in [k8(None), k8(K8_SHEET), k8(Some(&[&[9, 9][..]; 3]))].map(|book| file_of(&book)) {
        assert_eq!(fulfil(&file, &[1, 2, 1]), sheet(&[&[1, 0], &[0, 2], &[0, 1]]));
        assert_eq!(fulfil(&file, &[0, 3, 1]), sheet(&[&[0, 0], &[1, 2], &[0, 1]]));
        assert_eq!(fulfil(&file, &[0, 0, 0]), sheet(&[]));
        assert_eq!(fulfil(&file, &[2, 0, 0]), group(&[1]));
        assert_eq!(fulfil(&file, &[0, 0, 4]), group(&[3]));
        assert_eq!(fulfil(&file, &[1, 3, 0]), group(&[1, 2]));
        assert_eq!(fulfil(&file, &[1, 1, 3]), group(&[1, 2, 3]));
    }
    assert_eq!(fulfil(&K11, &[2]), Ok(Fulfilled::Sheet(grid(&[&[2]]))));
    assert_eq!(fulfil(&K11, &[u32::MAX]), group(&[1]));
}

#[test]
fn wanted_totals_of_the_largest_book() {
    let large = book(&[4095; WINDOWS], &[&[4095; WINDOWS][..]; SEATS], None);
    let file = file_of(&Book { classes: [8; SEATS], balances: Some([50_000; SEATS]), ..large });
    let all = 24 * 4095;
    for seat in 0..SEATS {
        let mut wants = [0; SEATS];
        wants[seat] = all;
        let mut expected = grid(&[]);
        expected[seat] = [4095; WINDOWS];
        assert_eq!(fulfil(&file, &wants), Ok(Fulfilled::Sheet(expected)));
        wants[seat] += 1;
        let Ok(Fulfilled::Group(seats)) = fulfil(&file, &wants) else { panic!("a sheet of more than there is") };
        assert!(seats.contains(&(seat as u8 + 1)));
    }
    let mut wants = [all / 32; SEATS];
    wants[31] += all % 32;
    let Ok(Fulfilled::Sheet(sheet)) = fulfil(&file, &wants) else { panic!("a group that can get what it wants") };
    assert_eq!(sheet.map(|row| row.iter().map(|&cell| cell as u32).sum::<u32>()), wants);
    assert!((0..WINDOWS).all(|window| sheet.iter().map(|row| row[window]).sum::<u16>() == 4095));
    // A credit more than there is: only all seats together want too much.
    wants[0] += 1;
    assert_eq!(fulfil(&file, &wants), Ok(Fulfilled::Group((1..=32).collect())));
}

#[test]
fn wanted_totals_refused() {
    let file = file_of(&k8(K8_SHEET));
    for wants in [&[][..], &[1], &[1, 2], &[1, 2, 1, 0], &[0; SEATS]] {
        assert_eq!(fulfil(&file, wants), refused(Reason::WantedLength, 0));
        assert_eq!(fulfil(&file[..59], wants), refused(Reason::FileEnd, 59));
    }
    let mut out = [0xee; 20];
    let nothing = |refusal, offset| raw::FulfilResult { refusal, offset, length: 0, group: 0 };
    let [few, many] = [[1, 2, 1], [1, 3, 0]].map(|wants| wants.map(u32::to_le_bytes).concat());
    // The row comes before the buffer, and the buffer before the reply.
    for length in [0, 1, 11, 13, 128] {
        assert_eq!(raw::fulfil(&file, &[0; 128][..length], &mut out[..11]), nothing(21, 0));
    }
    for row in [&few, &many] {
        assert_eq!(raw::fulfil(&file, row, &mut out[..11]), nothing(16, 12));
        assert_eq!(raw::fulfil(&file, row, &mut []), nothing(16, 12));
        assert_eq!(raw::fulfil(&[], row, &mut []), nothing(1, 0));
    }
    assert_eq!(raw::fulfil(&file, &many, &mut out), raw::FulfilResult { group: 3, ..nothing(0, 0) });
    assert_eq!(out, [0xee; 20]);
    assert_eq!(raw::fulfil(&file, &few, &mut out), raw::FulfilResult { length: 12, ..nothing(0, 0) });
    assert_eq!(out[..12], [1, 0, 0, 0, 0, 0, 2, 0, 0, 0, 1, 0]);
    assert_eq!(out[12..], [0xee; 8]);
}

/// A forecast with these credits in the first windows, and none in the others.
fn forecast_of<T>(length: usize, credits: &[u32]) -> Result<Forecast, T> {
    let mut placed = [0; WINDOWS];
    placed[..credits.len()].copy_from_slice(credits);
    Ok(Forecast { length, placed })
}

#[test]
fn what_a_plan_will_take() {
    assert_eq!(forecast(&K11), forecast_of(34, &[2]));
    // The sheet in the file does not matter, nor whether it is lawful.
    for file in [k8(None), k8(K8_SHEET), k8(Some(&[&[65535, 65535][..]; 3]))].map(|book| file_of(&book)) {
        assert_eq!(forecast(&file), forecast_of(60, &[1, 3]));
    }
    // Another entry each, and their bodies.
    assert_eq!(forecast(&file_of(&k3(None, None))), forecast_of(40, &[3]));
    assert_eq!(forecast(&file_of(&k3(Some(2), None))), forecast_of(48, &[3]));
    assert_eq!(forecast(&file_of(&k5(Some(&[0, 4]), None))), forecast_of(50, &[4]));
    assert_eq!(forecast(&file_of(&weighted_k5(Some(LOWEST), None))), forecast_of(62, &[4]));
    // Nothing to place, for want of credits or of caps.
    assert_eq!(forecast(&file_of(&book(&[0, 7], &[&[5, 0]], None))), forecast_of(40, &[]));
}

#[test]
fn caps_that_add_up() {
    // One below the supply, the same and one above; and 65,536, which is 0 in two bytes.
    let mut rows = [&[0, 0, 0, 4095][..]; 17];
    rows[0] = &[4000, 4000, 4000, 4095];
    rows[16] = &[94, 95, 96, 16];
    let file = file_of(&book(&[4095; 4], &rows, None));
    assert_eq!(forecast(&file), forecast_of(340, &[4094, 4095, 4095, 4095]));
    let largest = book(&[4095; WINDOWS], &[&[4095; WINDOWS][..]; SEATS], None);
    let largest = Book { first: Some(1), balances: Some([0; SEATS]), weights: Some(BUILT_IN), ..largest };
    assert_eq!(forecast(&file_of(&largest)), forecast_of(FILE_LENGTH, &[4095; WINDOWS]));
}

#[test]
fn forecast_then_plan_then_count() {
    let low = book(&[9, 9, 9], &[&[1, 4, 9], &[2, 5, 9]], None);
    let all_parts = Book { first: Some(2), balances: Some(row(&[7])), weights: Some(HIGHEST), ..low.clone() };
    for file in [k8(None), k8(K8_SHEET), three_by_three(None), low, all_parts].map(|book| file_of(&book)) {
        let Forecast { length, placed } = forecast(&file).unwrap();
        let mut out = vec![0xee; length];
        assert_eq!(plan(&file, &mut out[..length - 1]), refused(Reason::ShortBuffer, length));
        assert!(out.iter().all(|&byte| byte == 0xee));
        assert_eq!(plan(&file, &mut out), Ok(length));
        let sheet = read(&out).unwrap().sheet.unwrap();
        let counted: [u32; WINDOWS] = std::array::from_fn(|window| sheet.iter().map(|row| row[window] as u32).sum());
        assert_eq!(placed, counted);
        assert_eq!(forecast(&out), Ok(Forecast { length, placed }));
    }
}

#[test]
fn forecasts_refused() {
    let mut high = file_of(&k8(K8_SHEET));
    high[36..38].copy_from_slice(&4096u16.to_le_bytes());
    let mut turned = file_of(&Book { first: Some(3), ..k8(K8_SHEET) });
    *turned.last_mut().unwrap() = 1;
    for (file, reason, offset) in [
        (&[][..], Reason::UnderTwoBytes, 0),
        (&K11[..25], Reason::FileEnd, 25),
        (&high, Reason::Cap, 36),
        (&turned, Reason::FirstSeat, 66),
    ] {
        assert_eq!(forecast(file), refused(reason, offset));
        assert_eq!(plan(file, &mut []), refused(reason, offset));
        let refusal = reason.number();
        assert_eq!(raw::forecast(file), raw::ForecastResult { refusal, offset, length: 0, placed: [0; WINDOWS] });
    }
}

/// K8 with an idle seat between its second and its third.
fn k8_with_idle(sheet: Option<&[&[u16]]>) -> Book {
    book(&[1, 3], &[&[1, 0], &[1, 2], &[0, 0], &[0, 3]], sheet)
}
const IDLE_SPOILT: Option<&[&[u16]]> = Some(&[&[0, 0], &[1, 0], &[0, 0], &[0, 3]]);
const IDLE_FAIR: Option<&[&[u16]]> = Some(&[&[1, 0], &[0, 2], &[0, 0], &[0, 1]]);

/// Plan and forecast refuse the file at that class, with a buffer of any length, which keeps its bytes.
fn assert_idle(file: &[u8], offset: usize) {
    let mut out = [0xee; FILE_LENGTH];
    for length in [0, 1, file.len() - 1, file.len(), FILE_LENGTH] {
        assert_eq!(plan(file, &mut out[..length]), refused(Reason::IdleSeat, offset));
    }
    assert!(out.iter().all(|&byte| byte == 0xee));
    assert_eq!(forecast(file), refused(Reason::IdleSeat, offset));
    assert_eq!(raw::forecast(file), raw::ForecastResult { refusal: 22, offset, length: 0, placed: [0; WINDOWS] });
    assert_eq!(raw::plan(file, &mut out), raw::WriteResult { refusal: 22, offset, length: 0 });
}

#[test]
fn idle_seats_are_not_planned() {
    // The lowest counts.
    for (idle, offset) in [(&[0][..], 20), (&[1], 22), (&[2], 24), (&[1, 2], 22), (&[0, 2], 20), (&[0, 1, 2], 20)] {
        let mut three = k8(None);
        idle.iter().for_each(|&seat| three.caps[seat] = [0; WINDOWS]);
        assert_idle(&file_of(&three), offset);
    }
    // Its class lies behind 3 to 7 entries.
    let with_first = |sheet| Book { first: Some(4), ..k8_with_idle(sheet) };
    let with_balances = Book { balances: Some(row(&[0, 0, 7, 0])), ..with_first(IDLE_FAIR) };
    let with_weights = Book { weights: Some(HIGHEST), ..with_balances.clone() };
    let books = [k8_with_idle(None), k8_with_idle(IDLE_FAIR), with_first(IDLE_FAIR), with_balances, with_weights];
    for (book, entries) in books.iter().zip(3..=7) {
        assert_idle(&file_of(book), 2 + 6 * entries + 4);
    }
    // The last of the most seats; and where there is one, that one.
    let mut largest = book(&[4095; WINDOWS], &[&[4095; WINDOWS][..]; SEATS], None);
    largest.caps[31] = [0; WINDOWS];
    assert_idle(&file_of(&largest), 20 + 62);
    assert_idle(&file_of(&book(&[9], &[&[0]], None)), 20);
    assert_eq!(plan(&file_of(&k8_with_idle(None)), &mut []).unwrap_err().to_string(), "refused 22 at 24");
}

#[test]
fn one_cap_of_1_is_enough() {
    for window in 0..WINDOWS {
        for supply in [0, 1] {
            let mut two = book(&[supply; WINDOWS], &[&[1; WINDOWS], &[0; WINDOWS]], None);
            assert_idle(&file_of(&two), 22);
            two.caps[1][window] = 1;
            let file = file_of(&two);
            assert_eq!(planned(&file).len(), forecast(&file).unwrap().length);
        }
    }
}

#[test]
fn idle_seats_come_after_the_weights() {
    // Five entries, four classes, two supplies, eight caps, eight cells that are above them, eight weights.
    let file = file_of(&Book { weights: Some(LOWEST), ..k8_with_idle(Some(&[&[9, 9][..]; 4])) });
    for (at, value, reason) in
        [(38, 9, Reason::Class), (42, 4096, Reason::Supply), (58, 4096, Reason::Cap), (90, 7, Reason::Weights)]
    {
        let mut spoilt = file.clone();
        spoilt[at..at + 2].copy_from_slice(&u16::to_le_bytes(value));
        assert_eq!(plan(&spoilt, &mut []), refused(reason, at));
        assert_eq!(forecast(&spoilt), refused(reason, at));
    }
    // The planner does not look at the cells.
    assert_idle(&file, 36);
    assert_eq!(mark(&file), refused(Reason::CellAboveCap, 60));
}

#[test]
fn all_other_calls_take_idle_seats() {
    let [spoilt, fair] = [IDLE_SPOILT, IDLE_FAIR].map(|sheet| file_of(&k8_with_idle(sheet)));
    assert_eq!(read(&spoilt), Ok(k8_with_idle(IDLE_SPOILT)));
    let chain = vec![Move { window: 1, giver: 2, taker: 1 }, Move { window: 2, giver: 4, taker: 2 }];
    assert_eq!(mark(&spoilt), Ok(Mark::Improvable { chain }));
    assert_eq!(mark(&fair), Ok(Mark::Settled));
    assert_eq!((chosen(&spoilt, &fair), chosen(&fair, &spoilt)), (Which::Second, Which::First));
    let sheet = Fulfilled::Sheet(grid(IDLE_FAIR.unwrap()));
    assert_eq!(fulfil(&spoilt, &[1, 2, 0, 1]), Ok(sheet));
    assert_eq!(fulfil(&spoilt, &[0, 0, 1, 0]), Ok(Fulfilled::Group(vec![3])));
    let mut out = [0; LISTING_LENGTH];
    let length = listing(&fair, &mut out).unwrap();
    assert!(out[..length].ends_with(b"seat 3 class 1 total 0\nseat 4 class 1 total 1\nmark 4\n"));
}

#[test]
fn calls_side_by_side() {
    let file = file_of(&k8(K8_SHEET));
    let expected = planned(&file);
    let work = || {
        for _ in 0..2000 {
            assert_eq!(planned(&file), expected);
            assert_eq!(mark(&expected), Ok(Mark::Settled));
            assert!(!mark(&file).unwrap().passes());
            assert_eq!(better(&file, &expected).unwrap().file, Which::Second);
            assert_eq!(fulfil(&file, &[1, 3, 0]), Ok(Fulfilled::Group(vec![1, 2])));
            assert_eq!(forecast(&file), forecast_of(60, &[1, 3]));
        }
    };
    std::thread::scope(|scope| (0..4).for_each(|_| drop(scope.spawn(work))));
}
