//! Idle seats, which planning and its forecast turn away (paper 02, E9).

use super::{read, refuse_if, Book, Layout, Refusal};

/// The book of a day file that is to be planned. After the reader's refusals comes 22: the lowest idle seat, at its class.
pub fn read_to_plan(file: &[u8]) -> Result<Book, Refusal> {
    let (book, sheet) = read(file)?;
    let layout = Layout::of(&book, sheet.is_some());
    for seat in 0..book.seats {
        refuse_if(book.is_idle(seat), 22, layout.classes + 2 * seat)?;
    }
    Ok(book)
}
