//! The examples of paper 01 and its "turned away and taken"; paper 02's are beside it.

use super::*;

#[path = "balance_tests.rs"]
mod balance_tests;
#[path = "better_tests.rs"]
mod better_tests;
#[path = "first_tests.rs"]
mod first_tests;
#[path = "forecast_tests.rs"]
mod forecast_tests;
#[path = "fulfil_tests.rs"]
mod fulfil_tests;
#[path = "idle_tests.rs"]
mod idle_tests;
#[path = "standard_tests.rs"]
mod standard_tests;
#[path = "weight_tests.rs"]
mod weight_tests;

/// A book of small parts; rows are seats.
fn book(classes: &[u16], supplies: &[u16], caps: &[&[u16]]) -> Book {
    let mut book = Book::empty(classes.len(), supplies.len());
    book.classes[..classes.len()].copy_from_slice(classes);
    book.supplies[..supplies.len()].copy_from_slice(supplies);
    book.caps = grid(caps);
    book
}

fn grid(rows: &[&[u16]]) -> Grid {
    let mut grid = [[0; WINDOWS]; SEATS];
    for (to, from) in grid.iter_mut().zip(rows) {
        to[..from.len()].copy_from_slice(from);
    }
    grid
}

pub(super) fn file_of(book: &Book, sheet: Option<&Sheet>) -> Vec<u8> {
    let mut out = [0; FILE_LENGTH];
    let length = write(book, sheet, &mut out).unwrap();
    out[..length].to_vec()
}

fn planned_totals(book: &Book) -> Vec<u32> {
    let mut out = [0; FILE_LENGTH];
    let length = plan(&file_of(book, None), &mut out).unwrap();
    assert_eq!(mark(&out[..length], &mut [0; 93]).unwrap(), Marked { mark: 4, ..Marked::default() });
    let (_, sheet) = read(&out[..length]).unwrap();
    sheet.unwrap()[..book.seats].iter().map(|row| row.iter().map(|&cell| cell as u32).sum()).collect()
}

/// The mark of a sheet and the bytes of its moves; the rest of the buffer must keep its values.
fn marked(book: &Book, sheet: &[&[u16]]) -> (Marked, Vec<u8>) {
    let mut moves = [0xee; 100];
    let marked = mark(&file_of(book, Some(&grid(sheet))), &mut moves).unwrap();
    let (path, rest) = moves.split_at(3 * marked.moves as usize);
    assert!(rest.iter().all(|&byte| byte == 0xee));
    (marked, path.to_vec())
}

fn improvable(moves: u32) -> Marked {
    Marked { mark: 2, moves, ..Marked::default() }
}

fn k1() -> Book {
    book(&[1, 1], &[4, 4], &[&[4, 0], &[4, 4]])
}
fn k3() -> Book {
    book(&[1, 1], &[3], &[&[3], &[3]])
}
fn k5() -> Book {
    book(&[1, 2], &[4], &[&[4], &[4]])
}
fn k8() -> Book {
    book(&[1, 1, 1], &[1, 3], &[&[1, 0], &[1, 2], &[0, 3]])
}
fn k10() -> Book {
    book(&[1], &[3], &[&[2]])
}

#[test]
fn k1_and_k2_look_across_windows() {
    let mut out = [0; FILE_LENGTH];
    let length = plan(&file_of(&k1(), None), &mut out).unwrap();
    assert_eq!(read(&out[..length]).unwrap(), (k1(), Some(grid(&[&[4, 0], &[0, 4]]))));
    assert_eq!(marked(&k1(), &[&[2, 0], &[2, 4]]), (improvable(1), vec![1, 2, 1]));
}

#[test]
fn k3_to_k7_weights_and_ties() {
    assert_eq!(planned_totals(&k3()), [2, 1]);
    assert_eq!(marked(&k3(), &[&[1], &[2]]), (Marked { mark: 3, moves: 1, ..Marked::default() }, vec![1, 2, 1]));
    assert_eq!(planned_totals(&k5()), [2, 2]);
    assert_eq!(marked(&k5(), &[&[1], &[3]]), (improvable(1), vec![1, 2, 1]));
    assert_eq!(planned_totals(&book(&[2, 1], &[1], &[&[1], &[1]])), [0, 1]);
}

#[test]
fn k8_and_k12_take_two_moves() {
    assert_eq!(marked(&k8(), &[&[0, 0], &[1, 0], &[0, 3]]), (improvable(2), vec![1, 2, 1, 2, 3, 2]));
    assert_eq!(planned_totals(&k8()), [1, 2, 1]);
    let k12 = book(&[1, 1, 1], &[1, 2], &[&[1, 0], &[1, 1], &[0, 2]]);
    assert_eq!(marked(&k12, &[&[0, 0], &[1, 0], &[0, 2]]), (improvable(2), vec![1, 2, 1, 2, 3, 2]));
    assert_eq!(planned_totals(&k12), [1, 1, 1]);
}

#[test]
fn k9_and_k10_settled_or_wasteful() {
    let settled = (Marked { mark: 4, ..Marked::default() }, vec![]);
    assert_eq!(marked(&book(&[1], &[0], &[&[5]]), &[&[0]]), settled);
    assert_eq!(marked(&k10(), &[&[1]]), (Marked { mark: 1, window: 1, seat: 1, moves: 0 }, vec![]));
    assert_eq!(marked(&k10(), &[&[2]]), settled);
}

fn bytes(hexadecimal: &str) -> Vec<u8> {
    let digits: String = hexadecimal.split_whitespace().collect();
    (0..digits.len()).step_by(2).map(|i| u8::from_str_radix(&digits[i..i + 2], 16).unwrap()).collect()
}

#[test]
fn k11_to_the_byte() {
    let file = bytes("0300 010014000200 020016000200 030018000200 0100 0300 0200");
    let planned = bytes("0400 01001A000200 02001C000200 03001E000200 040020000200 0100 0300 0200 0200");
    assert_eq!((file.len(), planned.len()), (26, 34));
    assert_eq!(file_of(&k10(), None), file);
    assert_eq!(read(&file), Ok((k10(), None)));
    let mut out = [0xee; 40];
    assert_eq!(plan(&file, &mut out), Ok(34));
    assert_eq!((&out[..34], &out[34..]), (&planned[..], &[0xee; 6][..]));
    assert_eq!(read(&file[..25]), Err(Refusal { number: 6, offset: 25 }));
    assert_eq!(read(&[&file[..], &[0]].concat()), Err(Refusal { number: 6, offset: 27 }));
    // With a sheet already there, its values are ignored.
    let with_sheet = file_of(&k10(), Some(&grid(&[&[65535]])));
    assert_eq!(plan(&with_sheet, &mut out), Ok(34));
    assert_eq!(out[..34], planned[..]);
}

#[test]
fn k8_listing_whole() {
    let file = file_of(&k8(), Some(&grid(&[&[0, 0], &[1, 0], &[0, 3]])));
    let expected = "seats 3 windows 2\n\
                    window 1 opens 0800 supply 1 placed 1\n\
                    window 2 opens 0825 supply 3 placed 3\n\
                    seat 1 class 1 total 0\n\
                    seat 2 class 1 total 1\n\
                    seat 3 class 1 total 3\n\
                    mark 2\n\
                    move window 1 from 2 to 1\n\
                    move window 2 from 3 to 2\n";
    assert_eq!(String::from_utf8(listing(&file)).unwrap(), expected);
    assert_eq!(listing(&file_of(&k8(), None)), b"refused 13 at 0\n");
    let wasteful = listing(&file_of(&k10(), Some(&grid(&[&[1]]))));
    assert!(wasteful.ends_with(b"seat 1 class 1 total 1\nmark 1\nleft window 1 seat 1\n"));
}

/// A file of that many seats and windows with all caps 1, in which the contents may go beyond paper 01's bounds.
fn file_of_size(seats: u16, windows: u16) -> Vec<u8> {
    let cells = seats * windows;
    let mut fields = vec![3, 1, 20, 2 * seats, 2, 20 + 2 * seats, 2 * windows];
    fields.extend([3, 20 + 2 * seats + 2 * windows, 2 * cells]);
    fields.resize(fields.len() + (seats + windows + cells) as usize, 1);
    fields.iter().flat_map(|field| field.to_le_bytes()).collect()
}

fn refusal(number: u32, offset: usize) -> Option<Refusal> {
    Some(Refusal { number, offset })
}

#[test]
fn seats_and_windows_turned_away_and_taken() {
    assert_eq!(read(&file_of_size(33, 24)).err(), refusal(7, 6));
    assert_eq!(read(&file_of_size(32, 25)).err(), refusal(8, 12));
    assert_eq!(read(&file_of_size(32, 24)).err(), None);
    assert_eq!(read(&file_of_size(0, 0)).err(), refusal(7, 6));
    assert_eq!(read(&file_of_size(1, 0)).err(), refusal(8, 12));
    let mut large = Book::empty(32, 24);
    assert_eq!(write(&large, None, &mut [0; FILE_LENGTH]).err(), None);
    large.seats = 33;
    assert_eq!(write(&large, None, &mut [0; FILE_LENGTH]).err(), refusal(7, 6));
    (large.seats, large.windows) = (32, 25);
    assert_eq!(write(&large, None, &mut [0; FILE_LENGTH]).err(), refusal(8, 12));
}

/// Changes one field of the K8 file without sheet (contents 20 bytes, classes at 20, supplies at 26, caps at 30).
fn k8_with(at: usize, value: u16) -> Vec<u8> {
    let mut file = file_of(&k8(), None);
    file[at..at + 2].copy_from_slice(&value.to_le_bytes());
    file
}

#[test]
fn values_turned_away_and_taken() {
    for (at, number, bad, good) in [
        (22, 10, vec![0, 9], vec![1, 8]),
        (28, 11, vec![4096], vec![0, 4095]),
        (36, 12, vec![4096, 65535], vec![0, 4095]),
    ] {
        bad.iter().for_each(|&value| assert_eq!(read(&k8_with(at, value)).err(), refusal(number, at)));
        good.iter().for_each(|&value| assert_eq!(read(&k8_with(at, value)).err(), None));
    }
    let mut spoilt = k8();
    spoilt.caps[2][1] = 4096;
    assert_eq!(write(&spoilt, None, &mut []).err(), refusal(12, 40));
    assert_eq!(write(&spoilt, Some(&[[0; 24]; 32]), &mut []).err(), refusal(12, 46));
    spoilt.supplies[0] = 4096;
    assert_eq!(write(&spoilt, None, &mut []).err(), refusal(11, 26));
    spoilt.classes[1] = 9;
    assert_eq!(write(&spoilt, Some(&[[0; 24]; 32]), &mut []).err(), refusal(10, 28));
}

#[test]
fn contents_turned_away() {
    for (file, number, at) in [
        (vec![], 1, 0),
        (vec![3], 1, 1),
        (k8_with(0, 2), 2, 0),
        (k8_with(0, 8), 2, 0),
        (k8_with(0, 4)[..25].to_vec(), 3, 25),
        (k8_with(0, 4), 4, 20),
        (k8_with(8, 3), 4, 8),
        (k8_with(4, 22), 5, 4),
        (k8_with(10, 0), 5, 10),
        (k8_with(6, 8), 5, 10),
        (k8_with(18, 14), 6, 42),
        (file_of_size(0, 1), 7, 6),
    ] {
        assert_eq!(read(&file).err(), refusal(number, at), "{file:?}");
    }
    // Odd lengths that fit the starts and the file's end: 7 and 9 meet the first of them.
    let fields = [3u16, 1, 20, 3, 2, 23, 2, 3, 25, 2];
    let mut odd: Vec<u8> = fields.iter().flat_map(|field| field.to_le_bytes()).collect();
    odd.extend([1; 7]);
    assert_eq!(read(&odd).err(), refusal(7, 6));
    let mut short = file_of(&k8(), Some(&[[0; 24]; 32]));
    short.truncate(58);
    short[24] = 10;
    assert_eq!(read(&short).err(), refusal(9, 24));
}

#[test]
fn marker_turned_away_and_taken() {
    let file = file_of(&k8(), Some(&grid(&[&[0, 0], &[1, 0], &[0, 3]])));
    let mut moves = [0xee; 93];
    assert_eq!(mark(&file, &mut moves[..92]).err(), refusal(16, 93));
    assert_eq!(moves, [0xee; 93]);
    assert_eq!(mark(&file, &mut moves).err(), None);
    assert_eq!(mark(&file_of(&k8(), None), &mut []).err(), refusal(13, 0));
    let above_cap = file_of(&k8(), Some(&grid(&[&[1, 0], &[1, 0], &[1, 4]])));
    assert_eq!(mark(&above_cap, &mut []).err(), refusal(14, 56));
    let above_supply = file_of(&k8(), Some(&grid(&[&[1, 0], &[1, 2], &[0, 3]])));
    assert_eq!(mark(&above_supply, &mut []).err(), refusal(15, 32));
    let mut out = [0xee; 60];
    assert_eq!(plan(&file, &mut out[..59]).err(), refusal(16, 60));
    assert_eq!(out, [0xee; 60]);
    assert_eq!(plan(&file, &mut out), Ok(60));
}
