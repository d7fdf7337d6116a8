//! From wanted totals to a sheet: replies by hand, which refusal comes first, and random books of which every group is tried and, where
//! they are small, every sheet.

use std::collections::HashSet;

use super::super::brute_force::{feasible_sheets, small_book, Rng};
use super::balance_tests::carrying;
use super::better_tests::refused_files;
use super::first_tests::first_is;
use super::weight_tests::{weighing, HIGHEST, LOWEST};
use super::*;

fn row(wants: &[u32]) -> Vec<u8> {
    wants.iter().flat_map(|want| want.to_le_bytes()).collect()
}

/// What the seats want together, and what they can get: over the windows the lesser of the supply and their caps added together.
fn group_sums(book: &Book, wants: &[u32], group: u32) -> (u64, u64) {
    let members = || (0..book.seats).filter(|seat| group >> seat & 1 == 1);
    let caps = |window: usize| members().map(|seat| book.caps[seat][window] as u64).sum::<u64>();
    let can_get = (0..book.windows).map(|window| caps(window).min(book.supplies[window] as u64)).sum();
    (members().map(|seat| wants[seat] as u64).sum(), can_get)
}

/// The reply, which must hold: a sheet is lawful and has just these totals, a group has seats of the book alone and wants more than it can
/// get. Bytes behind the body keep their values, and a group changes none.
fn reply(book: &Book, wants: &[u32]) -> Result<Sheet, u32> {
    let mut out = [0xee; 2 * SEATS * WINDOWS + 3];
    let length = 2 * book.seats * book.windows;
    match fulfil(&file_of(book, None), &row(wants), &mut out).unwrap() {
        Fulfilled::Sheet { length: said } => {
            assert!(said == length && out[length..].iter().all(|&byte| byte == 0xee));
            let mut sheet = [[0; WINDOWS]; SEATS];
            for (cell, pair) in out[..length].chunks(2).enumerate() {
                sheet[cell / book.windows][cell % book.windows] = u16::from_le_bytes([pair[0], pair[1]]);
            }
            assert_eq!(feasible(book, &sheet), Ok(()));
            let total = |seat: usize| sheet[seat].iter().map(|&cell| cell as u32).sum::<u32>();
            assert!((0..book.seats).all(|seat| total(seat) == wants[seat]), "{wants:?}: {sheet:?}");
            Ok(sheet)
        }
        Fulfilled::Group { seats } => {
            assert!(out.iter().all(|&byte| byte == 0xee));
            assert!(seats != 0 && seats as u64 >> book.seats == 0);
            let (wanted, can_get) = group_sums(book, wants, seats);
            assert!(wanted > can_get, "{seats:#b} want {wanted} of {can_get}");
            Err(seats)
        }
    }
}

#[test]
fn k8_by_hand() {
    // One credit in window 1, for seats 1 and 2; three in window 2, two of them for seat 2 and all for seat 3. Each row has one reply.
    for (wants, expected) in [
        ([1, 2, 1], Ok(grid(&[&[1, 0], &[0, 2], &[0, 1]]))),
        ([0, 3, 1], Ok(grid(&[&[0, 0], &[1, 2], &[0, 1]]))),
        ([1, 0, 3], Ok(grid(&[&[1, 0], &[0, 0], &[0, 3]]))),
        ([0, 0, 0], Ok(grid(&[]))),
        ([2, 0, 0], Err(0b001)),
        ([0, 0, 4], Err(0b100)),
        ([1, 3, 0], Err(0b011)),
        ([1, 1, 3], Err(0b111)),
    ] {
        assert_eq!(reply(&k8(), &wants), expected, "{wants:?}");
    }
}

#[test]
fn a_group_of_seats_of_which_each_can_have_its_want() {
    // Seats 1 to 3 share window 1, where any two of them can have what they want; seat 4 has a window of its own, with a credit to spare.
    let shared = book(&[1; 4], &[5, 9], &[&[5, 0], &[5, 0], &[5, 0], &[0, 9]]);
    assert_eq!(reply(&shared, &[2, 2, 2, 8]), Err(0b0111));
    assert!(reply(&shared, &[2, 2, 1, 9]).is_ok() && reply(&shared, &[0, 3, 2, 0]).is_ok());
    // K12: seat 2 gives up its credit in window 1, for one in window 2.
    let k12 = book(&[1; 3], &[1, 2], &[&[1, 0], &[1, 1], &[0, 2]]);
    assert_eq!(reply(&k12, &[1, 1, 1]), Ok(grid(&[&[1, 0], &[0, 1], &[0, 1]])));
    assert_eq!(reply(&k12, &[1, 1, 2]), Err(0b111));
    assert_eq!(reply(&k12, &[1, 2, 0]), Err(0b011));
}

#[test]
fn any_number_may_be_wanted() {
    for wants in [[u32::MAX, 0, 0], [0, u32::MAX, 1], [1, 2, u32::MAX]] {
        let seat = wants.iter().position(|&want| want == u32::MAX).unwrap();
        assert_eq!(reply(&k8(), &wants).map_err(|group| group >> seat & 1), Err(1), "{wants:?}");
    }
    // In 32 bits these add up to 0 and to 1.
    assert!(reply(&k8(), &[1 << 31, 1 << 31, 0]).is_err() && reply(&k8(), &[u32::MAX, 2, 0]).is_err());
    assert!(reply(&k8(), &[u32::MAX; 3]).is_err());
    // The most there is for one seat, and for all together.
    let (most, all) = ([MOST_CREDITS; WINDOWS], 24 * 4095);
    let mut large = book(&[1; SEATS], &most, &[]);
    large.caps = [most; SEATS];
    let mut wants = [0; SEATS];
    wants[31] = all;
    assert_eq!(reply(&large, &wants).unwrap()[31], most);
    wants[31] += 1;
    assert_eq!(reply(&large, &wants).map_err(|group| group >> 31), Err(1));
    wants = [all / 32; SEATS];
    wants[0] += all % 32;
    assert!(reply(&large, &wants).is_ok());
    wants[7] += 1;
    assert_eq!(reply(&large, &wants), Err(u32::MAX));
}

#[test]
fn seats_that_can_get_nothing_and_empty_windows() {
    let empty = book(&[1, 1], &[0, 5], &[&[9, 0], &[0, 4]]);
    assert_eq!(reply(&empty, &[0, 4]), Ok(grid(&[&[0, 0], &[0, 4]])));
    for (wants, seat) in [([1, 4], 0), ([0, 5], 1)] {
        assert_eq!(reply(&empty, &wants).map_err(|group| group >> seat & 1), Err(1), "{wants:?}");
    }
}

#[test]
fn only_supplies_and_caps_matter() {
    let mut other_classes = k8();
    other_classes.classes[..3].copy_from_slice(&[8, 1, 5]);
    let books = [
        other_classes,
        first_is(k8(), 3),
        carrying(k8(), &[MOST_BALANCE, 0, 7]),
        weighing(k8(), LOWEST),
        first_is(carrying(weighing(k8(), HIGHEST), &[1, 2, 3]), 2),
    ];
    for book in books {
        assert_eq!(reply(&book, &[1, 2, 1]), Ok(grid(&[&[1, 0], &[0, 2], &[0, 1]])));
        assert_eq!(reply(&book, &[1, 3, 0]), Err(0b011));
    }
}

#[test]
fn the_files_refusals_come_first_but_those_of_its_sheet_never() {
    for (line, file, offset) in refused_files() {
        let is_of_the_sheet = (13..=15).contains(&line);
        for length in [0, 1, 11, 12, 13, 16, 128] {
            let expected = match length {
                _ if !is_of_the_sheet => refusal(line, offset),
                12 => None,
                _ => refusal(21, 0),
            };
            let mut out = [0xee; 12];
            assert_eq!(fulfil(&file, &[0; 128][..length], &mut out).err(), expected, "line {line}, {length} bytes");
            assert_eq!(out, if expected.is_none() { [0; 12] } else { [0xee; 12] });
            let expected = expected.or(refusal(16, 12));
            assert_eq!(fulfil(&file, &[0; 128][..length], &mut []).err(), expected, "line {line}, {length} bytes");
        }
    }
}

#[test]
fn the_row_comes_before_the_buffer_and_the_buffer_before_the_reply() {
    let file = file_of(&k8(), None);
    let (few, many) = (row(&[1, 2, 1]), row(&[9, 9, 9]));
    for length in 0..12 {
        let mut out = [0xee; 12];
        for row in [&few, &many] {
            assert_eq!(fulfil(&file, row, &mut out[..length]).err(), refusal(16, 12));
            assert_eq!(fulfil(&file, &row[..length], &mut out[..length]).err(), refusal(21, 0));
        }
        assert_eq!(out, [0xee; 12]);
    }
    assert_eq!(fulfil(&file, &[&few[..], &[0]].concat(), &mut [0; 12]).err(), refusal(21, 0));
    assert_eq!(fulfil(&file, &few, &mut [0; 12]), Ok(Fulfilled::Sheet { length: 12 }));
    assert_eq!(fulfil(&file, &many, &mut [0; 12]).err(), None);
    // A row for the most seats fits the largest book alone.
    let (largest, smaller) = (file_of(&Book::empty(32, 1), None), file_of(&Book::empty(31, 1), None));
    assert_eq!(fulfil(&largest, &[0; 128], &mut [0; 64]), Ok(Fulfilled::Sheet { length: 64 }));
    assert_eq!(fulfil(&smaller, &[0; 128], &mut [0; 64]).err(), refusal(21, 0));
}

/// Every row of wanted totals up to one more than a seat can get, against the totals of every lawful sheet.
#[test]
fn every_row_of_small_books() {
    let mut rng = Rng::new(4);
    let (mut books, mut counts) = (0, [0; 2]);
    while books < 2000 {
        let book = small_book(&mut rng);
        let Some(sheets) = feasible_sheets(&book) else { continue };
        let total = |row: &[u16; WINDOWS]| row.iter().map(|&cell| cell as u32).sum();
        let totals = |sheet: &Sheet| sheet[..book.seats].iter().map(total).collect();
        let possible: HashSet<Vec<u32>> = sheets.iter().map(totals).collect();
        let mut rows = vec![vec![]];
        for seat in 0..book.seats {
            let most = group_sums(&book, &[0; SEATS], 1 << seat).1 as u32;
            let longer = |wants: Vec<u32>| (0..=most + 1).map(move |want| [&wants[..], &[want]].concat());
            rows = rows.into_iter().flat_map(longer).collect();
        }
        if rows.len() > 2000 {
            continue;
        }
        for wants in &rows {
            let is_sheet = reply(&book, wants).is_ok();
            assert_eq!(is_sheet, possible.contains(wants), "{wants:?}");
            counts[is_sheet as usize] += 1;
        }
        books += 1;
    }
    println!("{books} books: {} rows with a group, {} with a sheet", counts[0], counts[1]);
    assert!(counts.iter().all(|&count| count > 50_000));
}

/// A book of up to 8 seats with credits of any number, and wanted totals: of a lawful sheet, more or fewer by a few, and now and then huge.
fn any_wants(rng: &mut Rng) -> (Book, Vec<u32>) {
    let mut book = Book::empty(rng.between(1, 8), rng.between(1, 6));
    let (most, one_in) = (1 << rng.below(13), rng.between(1, 3));
    let mut wants = vec![0; book.seats];
    for window in 0..book.windows {
        for seat in 0..book.seats {
            let cap = if rng.once_in(one_in) { rng.below(most).min(4095) } else { 0 };
            let credits = rng.below(cap + 1).min(4095 - book.supplies[window] as usize);
            book.caps[seat][window] = cap as u16;
            book.supplies[window] += credits as u16;
            wants[seat] += credits as u32;
        }
        book.supplies[window] += rng.below(2).min(4095 - book.supplies[window] as usize) as u16;
    }
    for _ in 0..rng.below(3) {
        let seat = rng.below(book.seats);
        wants[seat] = match rng.below(8) {
            0 => u32::MAX - rng.below(2) as u32,
            1 => 0,
            2 | 3 => wants[seat].saturating_sub(rng.between(1, 3) as u32),
            _ => wants[seat].saturating_add(rng.between(1, 3) as u32),
        };
    }
    (book, wants)
}

/// A group comes exactly if some group wants more than it can get.
#[test]
fn every_group_of_random_books() {
    let (mut rng, mut counts) = (Rng::new(5), [0; 4]);
    for _ in 0..20_000 {
        let (book, wants) = any_wants(&mut rng);
        let too_much = |group: &u32| {
            let (wanted, can_get) = group_sums(&book, &wants, *group);
            wanted > can_get
        };
        let groups: Vec<u32> = (1..1 << book.seats).filter(too_much).collect();
        let place = match reply(&book, &wants) {
            Ok(_) => 0,
            Err(group) if group.count_ones() == 1 => 1,
            Err(group) if group.count_ones() < book.seats as u32 => 2,
            Err(_) => 3,
        };
        assert_eq!(place == 0, groups.is_empty(), "{book:?} {wants:?}");
        counts[place] += 1;
    }
    println!("sheets, groups of one seat, of some and of all: {counts:?}");
    assert!(counts.iter().all(|&count| count > 500));
}
