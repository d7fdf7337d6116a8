//! What a plan will take: forecast, then plan, then count.

use super::buffer::Buffer;
use super::calls::same;
use super::credits::raw;
use super::reference::{self, feasible, Book, Forecast, Refusal, Sheet, FILE_LENGTH, WINDOWS};
use super::rng::Rng;
use super::Seen;

/// What may come of a forecast, by place in the count: first the files, then the windows of the books that were taken. The last ones count
/// windows again whose caps are not below the supply, but would be if they were added up in two bytes.
pub const FORECASTS: [&str; 10] = [
    "files refused",
    "refused for an idle seat",
    "files without a sheet",
    "with a sheet that is not lawful",
    "with one that places less than the plan",
    "with one that places as much",
    "windows with caps below the supply",
    "as high",
    "above it",
    "below it in two bytes only",
];
const REFUSED: usize = 0;
const IDLE: usize = 1;
const NO_SHEET: usize = 2;
const NOT_LAWFUL: usize = 3;
const PLACES_LESS: usize = 4;
const PLACES_AS_MUCH: usize = 5;
const CAPS_AS_HIGH: usize = 7;
const IN_TWO_BYTES: usize = 9;

/// The library's forecast against that of plain Rust, and against what its own planner then does with the file.
pub fn forecast(rng: &mut Rng, seen: &mut Seen, file: &[u8]) -> Result<(), String> {
    let told = raw::forecast(file);
    let nothing = raw::ForecastResult { refusal: 0, offset: 0, length: 0, placed: [0; WINDOWS] };
    let right = match reference::forecast(file) {
        Ok(Forecast { length, placed }) => raw::ForecastResult { length, placed, ..nothing },
        Err(Refusal { number, offset }) => raw::ForecastResult { refusal: number, offset, ..nothing },
    };
    same("forecast", told, right)?;
    if told.refusal != 0 {
        seen.forecasts[if told.refusal == 22 { IDLE } else { REFUSED }] += 1;
        return then_refused(file, &told);
    }
    count(seen, file, &told);
    then_planned(rng, file, &told)?;
    then_too_short(rng, file, &told)
}

/// The planner gives the same refusal, whatever its buffer.
fn then_refused(file: &[u8], told: &raw::ForecastResult) -> Result<(), String> {
    let right = raw::WriteResult { refusal: told.refusal, offset: told.offset, length: 0 };
    same("forecast, then plan: the refusal", raw::plan(file, &mut [0; FILE_LENGTH]), right)?;
    same("forecast, then plan without a buffer: the refusal", raw::plan(file, &mut []), right)
}

/// The plan fits a buffer of just that length and fills it, and its cells add up to those credits in each window.
fn then_planned(rng: &mut Rng, file: &[u8], told: &raw::ForecastResult) -> Result<(), String> {
    let mut buffer = Buffer::of(rng, told.length);
    let right = raw::WriteResult { refusal: 0, offset: 0, length: told.length };
    same("forecast, then plan", raw::plan(file, buffer.lend()), right)?;
    same("forecast, then plan: the credits placed", placed_in(buffer.front(told.length)?), told.placed)
}

/// Of a shorter buffer the planner asks for just that length.
fn then_too_short(rng: &mut Rng, file: &[u8], told: &raw::ForecastResult) -> Result<(), String> {
    let length = if rng.once_in(2) { told.length - 1 } else { rng.below(told.length) };
    let mut buffer = Buffer::of(rng, length);
    let right = raw::WriteResult { refusal: 16, offset: told.length, length: 0 };
    same("forecast, then plan with too short a buffer", raw::plan(file, buffer.lend()), right)?;
    buffer.front(0).map(|_| ())
}

/// What each window's cells add up to, by the bytes of a planned file: its second entry has the windows, its fourth the sheet, whose cells
/// stand seat by seat and within a seat window by window.
fn placed_in(planned: &[u8]) -> [u32; WINDOWS] {
    let field = |at: usize| u16::from_le_bytes([planned[at], planned[at + 1]]) as usize;
    let (windows, start, length) = (field(12) / 2, field(22), field(24));
    let mut placed = [0; WINDOWS];
    for (cell, at) in (start..start + length).step_by(2).enumerate() {
        placed[cell % windows] += field(at) as u32;
    }
    placed
}

/// Counts a file that was taken by its sheet, and its windows by what they have more of, supply or caps.
fn count(seen: &mut Seen, file: &[u8], told: &raw::ForecastResult) {
    let (book, sheet) = reference::read(file).expect("a file that was taken");
    seen.forecasts[kind_of_sheet(&book, sheet.as_ref(), told)] += 1;
    for window in 0..book.windows {
        let caps: u32 = book.caps.iter().map(|row| row[window] as u32).sum();
        let supply = book.supplies[window] as u32;
        let order = caps.cmp(&supply);
        seen.forecasts[(CAPS_AS_HIGH as i8 + order as i8) as usize] += 1;
        seen.forecasts[IN_TWO_BYTES] += (order.is_ge() && caps % 65536 < supply) as usize;
    }
}

fn kind_of_sheet(book: &Book, sheet: Option<&Sheet>, told: &raw::ForecastResult) -> usize {
    let Some(sheet) = sheet else { return NO_SHEET };
    let placed = |window: usize| sheet.iter().map(|row| row[window] as u32).sum::<u32>();
    if feasible(book, sheet).is_err() {
        NOT_LAWFUL
    } else if (0..book.windows).any(|window| placed(window) < told.placed[window]) {
        PLACES_LESS
    } else {
        PLACES_AS_MUCH
    }
}
