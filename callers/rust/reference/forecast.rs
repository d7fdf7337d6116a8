//! What a plan will take (paper 02, E8).

use super::{read_to_plan, Book, Layout, Refusal, WINDOWS};

/// The length of the planned file, and for each window the credits that will be placed; 0 beyond the book's windows.
#[derive(Clone, Copy, Debug, PartialEq, Eq)]
pub struct Forecast {
    pub length: usize,
    pub placed: [u32; WINDOWS],
}

/// The forecast of a day file. A sheet that it holds is not used.
pub fn forecast(file: &[u8]) -> Result<Forecast, Refusal> {
    let book = read_to_plan(file)?;
    let mut placed = [0; WINDOWS];
    for window in 0..book.windows {
        placed[window] = will_be_placed(&book, window);
    }
    Ok(Forecast { length: Layout::of(&book, true).length, placed })
}

/// The lesser of the supply and the caps added together.
fn will_be_placed(book: &Book, window: usize) -> u32 {
    let caps = book.caps[..book.seats].iter().map(|row| row[window] as u32).sum::<u32>();
    caps.min(book.supplies[window] as u32)
}
