//! The library's forecast in plain Rust, for the sake of its speed: the same steps in the same order, with nothing proved. The file is read
//! and tested, for idle seats too, the caps are added up row by row, and each window gets the lesser of its supply and their sum.

use super::reference::{read_to_plan, Forecast, Layout, Refusal, WINDOWS};

pub fn forecast(file: &[u8]) -> Result<Forecast, Refusal> {
    let book = read_to_plan(file)?;
    // Windows that the book does not have have neither caps nor supply.
    let mut placed = [0; WINDOWS];
    for row in &book.caps[..book.seats] {
        placed.iter_mut().zip(row).for_each(|(sum, &cap)| *sum += cap as u32);
    }
    placed.iter_mut().zip(book.supplies).for_each(|(sum, supply)| *sum = (*sum).min(supply as u32));
    Ok(Forecast { length: Layout::of(&book, true).length, placed })
}
