//! Idle seats: which books are not planned, at which offset they are turned away, and that every other call takes them.

use super::super::brute_force::{small_book, Rng};
use super::balance_tests::carrying;
use super::first_tests::{first_is, tied, SETTLED};
use super::weight_tests::{weighing, LOWEST};
use super::*;

/// K8 with an idle seat between its second and its third: in window 1 one credit for seats 1 and 2, in window 2 three for seats 2 and 4.
fn k8_with_idle() -> Book {
    book(&[1; 4], &[1, 3], &[&[1, 0], &[1, 2], &[0, 0], &[0, 3]])
}

/// Sheets of that book: one that can be improved by two moves, one that is tied, and the settled one.
const SPOILT: &[&[u16]] = &[&[0, 0], &[1, 0], &[0, 0], &[0, 3]];
const TIED: &[&[u16]] = &[&[1, 0], &[0, 1], &[0, 0], &[0, 2]];
const FAIR: &[&[u16]] = &[&[1, 0], &[0, 2], &[0, 0], &[0, 1]];

/// The same book, in which the seats of this set have no caps at all.
fn with_idle(book: &Book, seats: u32) -> Book {
    let mut book = book.clone();
    (0..book.seats).filter(|seat| seats >> seat & 1 == 1).for_each(|seat| book.caps[seat] = [0; WINDOWS]);
    book
}

/// The refusal of a plan, which is the same with a long buffer and with none, changes no byte, and is the forecast's.
fn not_planned(file: &[u8]) -> Option<Refusal> {
    let mut out = [0xee; FILE_LENGTH];
    let refused = plan(file, &mut out).err();
    assert!(refused.is_none() || out == [0xee; FILE_LENGTH]);
    assert_eq!(forecast(file).err(), refused);
    if refused.is_some() {
        assert_eq!(plan(file, &mut []).err(), refused);
    }
    refused
}

#[test]
fn the_lowest_idle_seat_counts() {
    let four = book(&[1, 8, 3, 2], &[5, 0, 7], &[&[1, 2, 3], &[0, 1, 0], &[4, 4, 4], &[0, 0, 1]]);
    assert_eq!(not_planned(&file_of(&four, None)), None);
    for seats in 1..16 {
        let lowest = u32::trailing_zeros(seats) as usize;
        let file = file_of(&with_idle(&four, seats), None);
        assert_eq!(not_planned(&file), refusal(22, 20 + 2 * lowest), "{seats:#b}");
        assert_eq!(file[20 + 2 * lowest], [1, 8, 3, 2][lowest]);
    }
}

#[test]
fn its_class_lies_behind_the_contents() {
    let sheet = Some(&grid(&[&[0, 0], &[1, 0], &[0, 3]]));
    for there in 0..16 {
        let is_there = |part: u32| there >> part & 1 == 1;
        let mut full = k8();
        full.first = is_there(1).then_some(3);
        full.balances = is_there(2).then_some([7; SEATS]);
        full.weights = is_there(3).then_some(LOWEST);
        let classes = 2 + 6 * (3 + u32::count_ones(there) as usize);
        for seat in 0..3 {
            let file = file_of(&with_idle(&full, 1 << seat), sheet.filter(|_| is_there(0)));
            assert_eq!(not_planned(&file), refusal(22, classes + 2 * seat), "{there:#b}, seat {seat}");
        }
        assert_eq!(not_planned(&file_of(&full, sheet.filter(|_| is_there(0)))), None);
    }
}

#[test]
fn the_last_of_32_seats() {
    let mut large = first_is(carrying(weighing(Book::empty(32, 24), LOWEST), &[0; SEATS]), 1);
    large.caps = [[MOST_CREDITS; WINDOWS]; SEATS];
    large.caps[31] = [0; WINDOWS];
    let file = file_of(&large, Some(&[[65535; WINDOWS]; SEATS]));
    assert_eq!(not_planned(&file), refusal(22, 44 + 62));
    assert_eq!(not_planned(&file_of(&with_idle(&large, u32::MAX), None)), refusal(22, 38));
    assert_eq!(not_planned(&file_of(&Book::empty(1, 1), None)), refusal(22, 20));
}

#[test]
fn one_cap_of_1_is_enough() {
    for windows in 1..=WINDOWS {
        for window in 0..windows {
            let mut three = Book::empty(3, windows);
            (0..3).for_each(|seat| three.caps[seat][(window + 5 * seat) % windows] = 1);
            // Whatever the windows supply, a seat that could have a credit is not idle.
            for supply in [0, 1, MOST_CREDITS] {
                three.supplies[..windows].fill(supply);
                assert_eq!(not_planned(&file_of(&three, None)), None, "window {window} of {windows}, supply {supply}");
            }
            for seat in 0..3 {
                let file = file_of(&with_idle(&three, 1 << seat), None);
                assert_eq!(not_planned(&file), refusal(22, 20 + 2 * seat), "window {window} of {windows}");
            }
        }
    }
}

#[test]
fn caps_that_look_like_zero_in_fewer_bytes() {
    // Low bytes of 0; and 16 caps of 4,095 and one of 16 add up to 65,536, which is 0 in two bytes.
    let mut wraps = [MOST_CREDITS; 17];
    wraps[16] = 16;
    let rows: [&[u16]; 4] = [&[256], &[0, 256], &[256, 3840], &wraps];
    for row in rows {
        let one = book(&[1], &vec![5; row.len()], &[row]);
        assert_eq!(not_planned(&file_of(&one, None)), None, "{row:?}");
    }
}

#[test]
fn what_lies_beside_the_caps_does_not_count() {
    // Cells that are not used are no caps, though a book in memory may have something there.
    let mut beside = k8_with_idle();
    beside.caps[2][2..].fill(9);
    beside.caps[4..].fill([9; WINDOWS]);
    assert!(beside.is_idle(2) && !beside.is_idle(1));
    assert_eq!(not_planned(&file_of(&beside, None)), refusal(22, 24));
    // Nor do the cells of a sheet, a balance or a supply make a seat busy.
    let sheet = grid(&[&[0, 0], &[0, 0], &[9, 9], &[0, 0]]);
    let carried = carrying(k8_with_idle(), &[0, 0, 9, 0]);
    assert_eq!(not_planned(&file_of(&carried, Some(&sheet))), refusal(22, 2 + 30 + 4));
}

#[test]
fn after_20_and_before_16() {
    let parts = first_is(carrying(weighing(k8_with_idle(), LOWEST), &[0; 4]), 4);
    let file = file_of(&parts, Some(&[[9; WINDOWS]; SEATS]));
    // Seven entries, then four classes, two supplies, eight caps, eight cells, the first seat, four balances, eight weights.
    let (classes, supplies, caps, cells, first) = (44, 52, 56, 72, 88);
    let (balances, weights) = (first + 2, first + 10);
    assert_eq!(file.len(), weights + 16);
    for (line, at, value) in [
        (10, classes + 6, 9),
        (10, classes + 4, 0),
        (11, supplies + 2, 4096),
        (12, caps + 14, 4096),
        (18, first, 5),
        (19, balances + 4, 50_001),
        (20, weights, 0),
        (20, weights + 14, 7),
    ] {
        let mut spoilt = file.clone();
        spoilt[at..at + 2].copy_from_slice(&u16::to_le_bytes(value));
        assert_eq!(not_planned(&spoilt), refusal(line, at), "{value} at {at}");
    }
    assert_eq!(not_planned(&file[..file.len() - 1]), refusal(6, file.len() - 1));
    // The sheet is not lawful, which the planner does not look at; a buffer of any length is not looked at either.
    assert_eq!(mark(&file, &mut []).err(), refusal(14, cells));
    for length in 0..=FILE_LENGTH {
        let mut out = vec![0xee; length];
        assert_eq!(plan(&file, &mut out).err(), refusal(22, classes + 4), "a buffer of {length}");
        assert!(out.iter().all(|&byte| byte == 0xee));
    }
    // With a cap for the seat it is the buffer's turn.
    let mut mended = file.clone();
    mended[caps + 10] = 1;
    assert_eq!(plan(&mended, &mut vec![0; file.len() - 1]).err(), refusal(16, file.len()));
    assert_eq!(plan(&mended, &mut vec![0; file.len()]), Ok(file.len()));
}

#[test]
fn the_marker_takes_them() {
    let idle = k8_with_idle();
    assert_eq!(marked(&idle, SPOILT), (improvable(2), vec![1, 2, 1, 2, 4, 2]));
    assert_eq!(marked(&idle, TIED), (tied(1), vec![2, 4, 2]));
    assert_eq!(marked(&idle, FAIR), (SETTLED, vec![]));
    let wasteful = Marked { mark: 1, window: 2, seat: 2, moves: 0 };
    assert_eq!(marked(&idle, &[&[1, 0], &[0, 1], &[0, 0], &[0, 1]]), (wasteful, vec![]));
    // With nothing but idle seats no sheet is lawful but the one without credits, and that is settled.
    let all = with_idle(&idle, 15);
    assert_eq!(marked(&all, &[]), (SETTLED, vec![]));
    let credit = file_of(&all, Some(&grid(&[&[0, 0], &[0, 1]])));
    assert_eq!(mark(&credit, &mut [0; 93]).err(), refusal(14, 26 + 8 + 4 + 16 + 6));
    assert_eq!(mark(&file_of(&idle, None), &mut []).err(), refusal(13, 0));
}

#[test]
fn the_listing_has_them() {
    let file = file_of(&k8_with_idle(), Some(&grid(FAIR)));
    let expected = "seats 4 windows 2\n\
                    window 1 opens 0800 supply 1 placed 1\n\
                    window 2 opens 0825 supply 3 placed 3\n\
                    seat 1 class 1 total 1\n\
                    seat 2 class 1 total 2\n\
                    seat 3 class 1 total 0\n\
                    seat 4 class 1 total 1\n\
                    mark 4\n";
    assert_eq!(String::from_utf8(listing(&file)).unwrap(), expected);
}

#[test]
fn reader_and_writer_take_them() {
    for book in [k8_with_idle(), with_idle(&k8_with_idle(), 15), Book::empty(1, 1), Book::empty(32, 24)] {
        for sheet in [None, Some([[0; WINDOWS]; SEATS])] {
            assert_eq!(read(&file_of(&book, sheet.as_ref())), Ok((book.clone(), sheet)));
        }
    }
}

#[test]
fn the_better_of_two_is_chosen() {
    let [spoilt, tied, fair] = [SPOILT, TIED, FAIR].map(|rows| file_of(&k8_with_idle(), Some(&grid(rows))));
    let chosen = |first: &[u8], second: &[u8]| better(first, second).map(|chosen| (chosen.file, chosen.start)).unwrap();
    assert_eq!((chosen(&spoilt, &fair), chosen(&fair, &spoilt)), ((2, 54), (1, 54)));
    assert_eq!((chosen(&tied, &fair), chosen(&fair, &tied)), ((1, 54), (1, 54)));
    // A cap in place of a zero is of another book.
    let mut mended = k8_with_idle();
    mended.caps[2][1] = 1;
    let other = file_of(&mended, Some(&grid(FAIR)));
    assert_eq!(better(&fair, &other).err().map(|refused| refused.refusal), refusal(17, 0));
}

#[test]
fn wanted_totals_are_looked_for() {
    let row = |wants: [u32; 4]| wants.map(u32::to_le_bytes).concat();
    let file = file_of(&k8_with_idle(), None);
    let mut out = [0xee; 17];
    assert_eq!(fulfil(&file, &row([1, 2, 0, 1]), &mut out), Ok(Fulfilled::Sheet { length: 16 }));
    assert_eq!(out, [1, 0, 0, 0, 0, 0, 2, 0, 0, 0, 0, 0, 0, 0, 1, 0, 0xee]);
    assert_eq!(fulfil(&file, &row([0, 0, 1, 0]), &mut out), Ok(Fulfilled::Group { seats: 0b0100 }));
    assert_eq!(fulfil(&file, &row([1, 3, 0, 0]), &mut out), Ok(Fulfilled::Group { seats: 0b0011 }));
    assert_eq!(fulfil(&file, &row([1, 2, 0, 1])[..15], &mut out).err(), refusal(21, 0));
    assert_eq!(fulfil(&file, &row([0, 0, 1, 0]), &mut out[..15]).err(), refusal(16, 16));
}

#[test]
fn paper_01s_books_hold_none() {
    // K2, K4, K6 and K11 have the books of K1, K3, K5 and K10.
    let k7 = book(&[2, 1], &[1], &[&[1], &[1]]);
    let k9 = book(&[1], &[0], &[&[5]]);
    let k12 = book(&[1; 3], &[1, 2], &[&[1, 0], &[1, 1], &[0, 2]]);
    for (book, number) in [k1(), k3(), k5(), k7, k8(), k9, k10(), k12].iter().zip([1, 3, 5, 7, 8, 9, 10, 12]) {
        assert!(!(0..book.seats).any(|seat| book.is_idle(seat)), "K{number}");
        assert_eq!(not_planned(&file_of(book, None)), None, "K{number}");
    }
}

/// The rows of caps in the bytes of a file without a sheet decide whether it is planned; and what is planned passes.
#[test]
fn random_books_are_planned_exactly_without_idle_seats() {
    let (mut rng, mut planned, mut refused) = (Rng::new(8), 0, [0; 4]);
    for _ in 0..20_000 {
        let book = small_book(&mut rng);
        let file = file_of(&book, None);
        let classes = 2 + 6 * file[0] as usize;
        let caps = &file[classes + 2 * book.seats + 2 * book.windows..];
        let lowest = caps.chunks(2 * book.windows).take(book.seats).position(|row| row.iter().all(|&byte| byte == 0));
        assert_eq!(not_planned(&file), lowest.and_then(|seat| refusal(22, classes + 2 * seat)), "{book:?}");
        match lowest {
            Some(seat) => refused[seat] += 1,
            None => {
                let mut out = [0; FILE_LENGTH];
                let length = plan(&file, &mut out).unwrap();
                assert_eq!(mark(&out[..length], &mut [0; 93]), Ok(SETTLED));
                planned += 1;
            }
        }
    }
    println!("{planned} books planned; refused by the first to the fourth seat: {refused:?}");
    assert!(planned > 5000 && refused.iter().all(|&count| count > 100));
}
