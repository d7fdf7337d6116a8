//! The calls as C sees them, with slices in place of pointers and lengths. All code that is not safe Rust is here.
//!
//! A slice is what each call asks for: a pointer that is valid for its length, and no other reference into a `&mut` one.

use std::mem::offset_of;

/// A book by value. `has_sheet` is 0 where the file has no sheet, and then the sheet's cells are 0; `has_first` is 0 where it names no
/// first seat, and then `first` is 0; `has_balances` is 0 where it has no balances, and then all of `balances` are 0; and so with
/// `has_weights` and `weights`.
#[derive(Clone, Copy, Debug, PartialEq, Eq)]
#[repr(C)]
pub struct Book {
    pub seats: usize,
    pub windows: usize,
    pub classes: [u16; 32],
    pub supplies: [u16; 24],
    pub caps: [[u16; 24]; 32],
    pub has_sheet: u32,
    pub sheet: [[u16; 24]; 32],
    pub has_first: u32,
    pub first: u16,
    pub has_balances: u32,
    pub balances: [u16; 32],
    pub has_weights: u32,
    pub weights: [u16; 8],
}

/// Refusal 0 means none; at a refusal the book is all 0.
#[derive(Clone, Copy, Debug, PartialEq, Eq)]
#[repr(C)]
pub struct ReadResult {
    pub refusal: u32,
    pub offset: usize,
    pub book: Book,
}

/// Fields that a mark or a refusal does not use are 0.
#[derive(Clone, Copy, Debug, PartialEq, Eq)]
#[repr(C)]
pub struct MarkResult {
    pub refusal: u32,
    pub offset: usize,
    pub mark: u32,
    pub window: u32,
    pub seat: u32,
    pub moves: u32,
}

/// The length of what was written; 0 at a refusal.
#[derive(Clone, Copy, Debug, PartialEq, Eq)]
#[repr(C)]
pub struct WriteResult {
    pub refusal: u32,
    pub offset: usize,
    pub length: usize,
}

/// The file that is chosen, 1 or 2, and where in it the sheet body lies. At a refusal the file that it is of, 0 where it is of both.
#[derive(Clone, Copy, Debug, PartialEq, Eq)]
#[repr(C)]
pub struct BetterResult {
    pub refusal: u32,
    pub offset: usize,
    pub file: u32,
    pub start: usize,
    pub length: usize,
}

/// The length of the sheet body that was written, or a group of seats, the lowest bit for seat 1. The other is 0; both are at a refusal.
#[derive(Clone, Copy, Debug, PartialEq, Eq)]
#[repr(C)]
pub struct FulfilResult {
    pub refusal: u32,
    pub offset: usize,
    pub length: usize,
    pub group: u32,
}

/// The length of the planned file, and the credits that each window will have placed; all 0 at a refusal.
#[derive(Clone, Copy, Debug, PartialEq, Eq)]
#[repr(C)]
pub struct ForecastResult {
    pub refusal: u32,
    pub offset: usize,
    pub length: usize,
    pub placed: [u32; 24],
}

// The sizes that include/credits.h gives these structs on a 64-bit machine.
const _: () = assert!(size_of::<Book>() == 3304 && size_of::<ReadResult>() == 3320);
const _: () = assert!(offset_of!(Book, has_first) == 3204 && offset_of!(Book, first) == 3208);
const _: () = assert!(offset_of!(Book, has_balances) == 3212 && offset_of!(Book, balances) == 3216);
const _: () = assert!(offset_of!(Book, has_weights) == 3280 && offset_of!(Book, weights) == 3284);
const _: () = assert!(size_of::<MarkResult>() == 32 && size_of::<WriteResult>() == 24);
const _: () = assert!(size_of::<BetterResult>() == 40 && size_of::<FulfilResult>() == 32);
const _: () = assert!(offset_of!(FulfilResult, length) == 16 && offset_of!(FulfilResult, group) == 24);
const _: () = assert!(offset_of!(ForecastResult, length) == 16 && offset_of!(ForecastResult, placed) == 24);
const _: () = assert!(size_of::<ForecastResult>() == 120);

mod c {
    use super::{BetterResult, Book, ForecastResult, FulfilResult, MarkResult, ReadResult, WriteResult};

    extern "C" {
        pub fn credits_read(file: *const u8, file_len: usize) -> ReadResult;
        pub fn credits_write(book: Book, out: *mut u8, out_len: usize) -> WriteResult;
        pub fn credits_mark(file: *const u8, file_len: usize, moves: *mut u8, moves_len: usize) -> MarkResult;
        pub fn credits_plan(file: *const u8, file_len: usize, out: *mut u8, out_len: usize) -> WriteResult;
        pub fn credits_listing(file: *const u8, file_len: usize, out: *mut u8, out_len: usize) -> WriteResult;
        pub fn credits_better(first: *const u8, first_len: usize, second: *const u8, second_len: usize)
            -> BetterResult;
        pub fn credits_fulfil(
            file: *const u8,
            file_len: usize,
            wanted: *const u8,
            wanted_len: usize,
            out: *mut u8,
            out_len: usize,
        ) -> FulfilResult;
        pub fn credits_forecast(file: *const u8, file_len: usize) -> ForecastResult;
    }
}

pub fn read(file: &[u8]) -> ReadResult {
    unsafe { c::credits_read(file.as_ptr(), file.len()) }
}

pub fn write(book: Book, out: &mut [u8]) -> WriteResult {
    unsafe { c::credits_write(book, out.as_mut_ptr(), out.len()) }
}

pub fn mark(file: &[u8], moves: &mut [u8]) -> MarkResult {
    unsafe { c::credits_mark(file.as_ptr(), file.len(), moves.as_mut_ptr(), moves.len()) }
}

pub fn plan(file: &[u8], out: &mut [u8]) -> WriteResult {
    unsafe { c::credits_plan(file.as_ptr(), file.len(), out.as_mut_ptr(), out.len()) }
}

pub fn listing(file: &[u8], out: &mut [u8]) -> WriteResult {
    unsafe { c::credits_listing(file.as_ptr(), file.len(), out.as_mut_ptr(), out.len()) }
}

pub fn better(first: &[u8], second: &[u8]) -> BetterResult {
    unsafe { c::credits_better(first.as_ptr(), first.len(), second.as_ptr(), second.len()) }
}

/// The wanted totals as a row of four bytes for each seat, low byte first.
pub fn fulfil(file: &[u8], wanted: &[u8], out: &mut [u8]) -> FulfilResult {
    let (wanted, wanted_len) = (wanted.as_ptr(), wanted.len());
    unsafe { c::credits_fulfil(file.as_ptr(), file.len(), wanted, wanted_len, out.as_mut_ptr(), out.len()) }
}

pub fn forecast(file: &[u8]) -> ForecastResult {
    unsafe { c::credits_forecast(file.as_ptr(), file.len()) }
}
