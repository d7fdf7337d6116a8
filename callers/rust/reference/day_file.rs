//! The day file: reader and writer.

use super::{refuse_if, Book, Grid, Refusal, Sheet, MOST_BALANCE, MOST_CREDITS, MOST_WEIGHT, SEATS, WEIGHTS, WINDOWS};

/// The last kind that is known. Kinds 1 to 3 are in every file.
const LAST_KIND: usize = 7;

/// Where the parts of a day file begin, and its length. A part that is missing has no bytes.
#[derive(Clone, Copy, Debug)]
pub struct Layout {
    pub entries: usize,
    pub classes: usize,
    pub supplies: usize,
    pub caps: usize,
    pub sheet: usize,
    pub first: usize,
    pub balances: usize,
    pub weights: usize,
    pub length: usize,
}

impl Layout {
    /// The layout of the book's file, with or without a sheet.
    pub fn of(book: &Book, with_sheet: bool) -> Layout {
        let there = [with_sheet, book.first.is_some(), book.balances.is_some(), book.weights.is_some()];
        Layout::new(book.seats, book.windows, there)
    }

    /// The last argument says which of sheet, first seat, balances and weights are there.
    fn new(seats: usize, windows: usize, there: [bool; 4]) -> Layout {
        let [with_sheet, with_first, with_balances, with_weights] = there.map(usize::from);
        let entries = 3 + with_sheet + with_first + with_balances + with_weights;
        let classes = 2 + 6 * entries;
        let supplies = classes + 2 * seats;
        let caps = supplies + 2 * windows;
        let sheet = caps + 2 * seats * windows;
        let first = sheet + with_sheet * 2 * seats * windows;
        let balances = first + with_first * 2;
        let weights = balances + with_balances * 2 * seats;
        let length = weights + with_weights * 2 * WEIGHTS.len();
        Layout { entries, classes, supplies, caps, sheet, first, balances, weights, length }
    }
}

/// The entries whose kinds may be missing, where they are there.
struct Contents {
    sheet: Option<usize>,
    first: Option<usize>,
    balances: Option<usize>,
    weights: Option<usize>,
}

/// The fields of entry `i` of the contents lie here, two bytes each.
fn kind_at(i: usize) -> usize {
    2 + 6 * i
}
fn start_at(i: usize) -> usize {
    kind_at(i) + 2
}
fn length_at(i: usize) -> usize {
    kind_at(i) + 4
}

/// The field of two bytes at an offset, low byte first.
fn field(file: &[u8], at: usize) -> usize {
    u16::from_le_bytes([file[at], file[at + 1]]) as usize
}

/// Reads a day file: its book, and its sheet if it holds one.
pub fn read(file: &[u8]) -> Result<(Book, Option<Sheet>), Refusal> {
    let contents = check_contents(file)?;
    let (seats, windows) = check_lengths(file, &contents)?;
    let there = [contents.sheet, contents.first, contents.balances, contents.weights].map(|entry| entry.is_some());
    let layout = Layout::new(seats, windows, there);
    let mut book = Book::empty(seats, windows);
    read_row(&file[layout.classes..], &mut book.classes[..seats]);
    read_row(&file[layout.supplies..], &mut book.supplies[..windows]);
    read_grid(&file[layout.caps..], seats, windows, &mut book.caps);
    check_values(&book, &layout)?;
    read_options(file, &contents, &layout, &mut book)?;
    if contents.sheet.is_none() {
        return Ok((book, None));
    }
    let mut sheet = [[0; WINDOWS]; SEATS];
    read_grid(&file[layout.sheet..], seats, windows, &mut sheet);
    Ok((book, Some(sheet)))
}

/// Refusals 18 to 20: first seat, balances and weights, where they are there.
fn read_options(file: &[u8], contents: &Contents, layout: &Layout, book: &mut Book) -> Result<(), Refusal> {
    let is_long = |entry: usize, length: usize| field(file, length_at(entry)) == length;
    if let Some(entry) = contents.first {
        refuse_if(!is_long(entry, 2), 18, length_at(entry))?;
        book.first = Some(field(file, layout.first) as u16);
        check_first(book, layout)?;
    }
    if let Some(entry) = contents.balances {
        refuse_if(!is_long(entry, 2 * book.seats), 19, length_at(entry))?;
        read_row(&file[layout.balances..], &mut book.balances.insert([0; SEATS])[..book.seats]);
        check_balances(book, layout)?;
    }
    if let Some(entry) = contents.weights {
        refuse_if(!is_long(entry, 2 * WEIGHTS.len()), 20, length_at(entry))?;
        read_row(&file[layout.weights..], book.weights.insert([0; 8]));
        check_weights(book, layout)?;
    }
    Ok(())
}

/// Refusals 1 to 6: the table of contents.
fn check_contents(file: &[u8]) -> Result<Contents, Refusal> {
    refuse_if(file.len() < 2, 1, file.len())?;
    let entries = field(file, 0);
    refuse_if(entries < 3 || entries > LAST_KIND, 2, 0)?;
    refuse_if(file.len() < 2 + 6 * entries, 3, file.len())?;
    let mut last = 0;
    for i in 0..entries {
        let kind = field(file, kind_at(i));
        let in_order = if i < 3 { kind == i + 1 } else { kind > last && kind <= LAST_KIND };
        refuse_if(!in_order, 4, kind_at(i))?;
        last = kind;
    }
    let mut end = 2 + 6 * entries;
    for i in 0..entries {
        refuse_if(field(file, start_at(i)) != end, 5, start_at(i))?;
        end += field(file, length_at(i));
    }
    refuse_if(end != file.len(), 6, file.len())?;
    let entry_of = |kind| (3..entries).find(|&i| field(file, kind_at(i)) == kind);
    Ok(Contents { sheet: entry_of(4), first: entry_of(5), balances: entry_of(6), weights: entry_of(7) })
}

/// Refusals 7 to 9: the lengths of the bodies that depend on each other. Gives the numbers of seats and windows.
fn check_lengths(file: &[u8], contents: &Contents) -> Result<(usize, usize), Refusal> {
    let length = |i| field(file, length_at(i));
    let is_count = |length: usize, most: usize| length >= 2 && length <= 2 * most && length % 2 == 0;
    refuse_if(!is_count(length(0), SEATS), 7, length_at(0))?;
    refuse_if(!is_count(length(1), WINDOWS), 8, length_at(1))?;
    let (seats, windows) = (length(0) / 2, length(1) / 2);
    for i in [Some(2), contents.sheet].into_iter().flatten() {
        refuse_if(length(i) != 2 * seats * windows, 9, length_at(i))?;
    }
    Ok((seats, windows))
}

/// Refusals 10 to 12: classes, supplies and caps, with the offsets of that layout.
fn check_values(book: &Book, layout: &Layout) -> Result<(), Refusal> {
    for (seat, &class) in book.classes[..book.seats].iter().enumerate() {
        let known = class >= 1 && class as usize <= WEIGHTS.len();
        refuse_if(!known, 10, layout.classes + 2 * seat)?;
    }
    for (window, &supply) in book.supplies[..book.windows].iter().enumerate() {
        refuse_if(supply > MOST_CREDITS, 11, layout.supplies + 2 * window)?;
    }
    for (seat, caps) in book.caps[..book.seats].iter().enumerate() {
        for (window, &cap) in caps[..book.windows].iter().enumerate() {
            refuse_if(cap > MOST_CREDITS, 12, layout.caps + 2 * (seat * book.windows + window))?;
        }
    }
    Ok(())
}

/// Refusal 18 by its value: a first seat that is not in the book.
fn check_first(book: &Book, layout: &Layout) -> Result<(), Refusal> {
    let in_book = book.first.map_or(true, |first| first >= 1 && first as usize <= book.seats);
    refuse_if(!in_book, 18, layout.first)
}

/// Refusal 19 by its values: a balance that is too high.
fn check_balances(book: &Book, layout: &Layout) -> Result<(), Refusal> {
    for (seat, &balance) in book.carried()[..book.seats].iter().enumerate() {
        refuse_if(balance > MOST_BALANCE, 19, layout.balances + 2 * seat)?;
    }
    Ok(())
}

/// Refusal 20 by its values: a weight that is out of bounds, or not greater than the one before.
fn check_weights(book: &Book, layout: &Layout) -> Result<(), Refusal> {
    let mut before = 0;
    for (place, &weight) in book.weights.iter().flatten().enumerate() {
        refuse_if(weight <= before || weight > MOST_WEIGHT, 20, layout.weights + 2 * place)?;
        before = weight;
    }
    Ok(())
}

/// Fills a row with the fields at the front of the bytes.
fn read_row(bytes: &[u8], row: &mut [u16]) {
    for (value, pair) in row.iter_mut().zip(bytes.chunks_exact(2)) {
        *value = u16::from_le_bytes([pair[0], pair[1]]);
    }
}

/// Fills the used cells of a grid, seat by seat and within a seat window by window.
fn read_grid(bytes: &[u8], seats: usize, windows: usize, grid: &mut Grid) {
    for (row, bytes) in grid[..seats].iter_mut().zip(bytes.chunks_exact(2 * windows)) {
        read_row(bytes, &mut row[..windows]);
    }
}

/// Writes the day file of a book, with or without a sheet, to the front of `out` and gives its length.
pub fn write(book: &Book, sheet: Option<&Sheet>, out: &mut [u8]) -> Result<usize, Refusal> {
    refuse_if(book.seats < 1 || book.seats > SEATS, 7, length_at(0))?;
    refuse_if(book.windows < 1 || book.windows > WINDOWS, 8, length_at(1))?;
    let layout = Layout::of(book, sheet.is_some());
    check_values(book, &layout)?;
    check_first(book, &layout)?;
    check_balances(book, &layout)?;
    check_weights(book, &layout)?;
    refuse_if(out.len() < layout.length, 16, layout.length)?;
    write_contents(book, &layout, sheet.is_some(), out);
    write_row(&book.classes[..book.seats], &mut out[layout.classes..]);
    write_row(&book.supplies[..book.windows], &mut out[layout.supplies..]);
    write_grid(&book.caps, book, &mut out[layout.caps..]);
    if let Some(sheet) = sheet {
        write_grid(sheet, book, &mut out[layout.sheet..]);
    }
    if let Some(first) = book.first {
        write_row(&[first], &mut out[layout.first..]);
    }
    if let Some(balances) = &book.balances {
        write_row(&balances[..book.seats], &mut out[layout.balances..]);
    }
    if let Some(weights) = &book.weights {
        write_row(weights, &mut out[layout.weights..]);
    }
    Ok(layout.length)
}

/// The table of contents: the number of entries, then kind, start and length of each that is there.
fn write_contents(book: &Book, layout: &Layout, with_sheet: bool, out: &mut [u8]) {
    let cells = 2 * book.seats * book.windows;
    let parts = [
        (true, layout.classes, 2 * book.seats),
        (true, layout.supplies, 2 * book.windows),
        (true, layout.caps, cells),
        (with_sheet, layout.sheet, cells),
        (book.first.is_some(), layout.first, 2),
        (book.balances.is_some(), layout.balances, 2 * book.seats),
        (book.weights.is_some(), layout.weights, 2 * WEIGHTS.len()),
    ];
    write_row(&[layout.entries as u16], out);
    let there = (1..).zip(parts).filter(|(_, (is_there, ..))| *is_there);
    for (i, (kind, (_, start, length))) in there.enumerate() {
        write_row(&[kind, start as u16, length as u16], &mut out[kind_at(i)..]);
    }
}

fn write_row(row: &[u16], out: &mut [u8]) {
    for (value, pair) in row.iter().zip(out.chunks_exact_mut(2)) {
        pair.copy_from_slice(&value.to_le_bytes());
    }
}

/// Writes the used cells of a grid, seat by seat and within a seat window by window.
pub fn write_grid(grid: &Grid, book: &Book, out: &mut [u8]) {
    for (row, out) in grid[..book.seats].iter().zip(out.chunks_exact_mut(2 * book.windows)) {
        write_row(&row[..book.windows], out);
    }
}
