//! Random books of up to 4 seats and 3 windows, set against trying every sheet and every exchange path.
//! Nothing here uses the marker's or the planner's own search.

use super::exchange::Move;
use super::marker::mark_sheet;
use super::planner::{plan_sheet, settled_sheet};
use super::standard::standard;
use super::tests::file_of;
use super::*;

#[path = "../rng.rs"]
mod rng;
pub(super) use rng::Rng;

/// A book with few feasible sheets.
pub(super) fn small_book(rng: &mut Rng) -> Book {
    let mut book = Book::empty(rng.between(1, 4), rng.between(1, 3));
    let classes = if rng.once_in(3) { 8 } else { 2 };
    let most = rng.between(1, 4);
    for seat in 0..book.seats {
        book.classes[seat] = rng.between(1, classes) as u16;
        for window in 0..book.windows {
            book.caps[seat][window] = if rng.once_in(5) { 0 } else { rng.between(1, most) as u16 };
        }
    }
    for window in 0..book.windows {
        book.supplies[window] = rng.between(0, most + 3) as u16;
    }
    book.first = rng.once_in(2).then(|| rng.between(1, book.seats) as u16);
    book.balances = rng.once_in(2).then(|| small_balances(rng, book.seats));
    book.weights = rng.once_in(2).then(|| any_weights(rng));
    book
}

/// Balances about as high as totals are, and at times one seat's far above.
fn small_balances(rng: &mut Rng, seats: usize) -> [u16; SEATS] {
    let (mut balances, most) = ([0; SEATS], rng.between(0, 6));
    balances[..seats].fill_with(|| rng.between(0, most) as u16);
    if rng.once_in(8) {
        balances[rng.below(seats)] = MOST_BALANCE - rng.below(3) as u16;
    }
    balances
}

/// The lowest weights there are, the highest, low ones with which levels are often equal, or any.
fn any_weights(rng: &mut Rng) -> [u16; 8] {
    let (least, most) = [(1, 8), (993, 1000), (1, 12), (1, 1000)][rng.below(4)];
    rng.rising(least, most)
}

/// Every way to hand out credits of one window: no cell above its cap, the sum not above the supply.
fn columns(book: &Book, window: usize) -> Vec<Vec<u16>> {
    let mut all = vec![vec![]];
    for seat in 0..book.seats {
        let longer = |column: Vec<u16>| {
            let left = book.supplies[window] - column.iter().sum::<u16>();
            let most = left.min(book.caps[seat][window]);
            (0..=most).map(move |cell| [&column[..], &[cell]].concat())
        };
        all = all.into_iter().flat_map(longer).collect();
    }
    all
}

/// Every feasible sheet, or none if there are too many to try.
pub(super) fn feasible_sheets(book: &Book) -> Option<Vec<Sheet>> {
    let columns: Vec<_> = (0..book.windows).map(|window| columns(book, window)).collect();
    if columns.iter().map(Vec::len).product::<usize>() > 20_000 {
        return None;
    }
    let mut all = vec![[[0; WINDOWS]; SEATS]];
    for (window, columns) in columns.iter().enumerate() {
        let with = |sheet: Sheet| {
            columns.iter().map(move |column| {
                let mut sheet = sheet;
                column.iter().enumerate().for_each(|(seat, &cell)| sheet[seat][window] = cell);
                sheet
            })
        };
        all = all.into_iter().flat_map(with).collect();
    }
    Some(all)
}

fn totals(book: &Book, sheet: &Sheet) -> Vec<i64> {
    sheet[..book.seats].iter().map(|row| row.iter().map(|&cell| cell as i64).sum()).collect()
}

/// Balance plus total of each seat.
fn heights(book: &Book, sheet: &Sheet) -> Vec<i64> {
    let balance = |seat: usize| book.balances.map_or(0, |balances| balances[seat] as i64);
    totals(book, sheet).into_iter().enumerate().map(|(seat, total)| balance(seat) + total).collect()
}

fn weight(book: &Book, seat: usize) -> i64 {
    book.weights.unwrap_or(WEIGHTS)[book.classes[seat] as usize - 1] as i64
}

/// The levels, lowest first, all times a million and rounded down. No weight is above 1,000, so two levels that differ do so by a millionth
/// or more, and the whole numbers are in the order of the levels.
fn profile(book: &Book, sheet: &Sheet) -> Vec<i64> {
    let heights = heights(book, sheet);
    let mut levels: Vec<i64> = (0..book.seats).map(|seat| heights[seat] * 1_000_000 / weight(book, seat)).collect();
    levels.sort();
    levels
}

/// All exchange paths of a gainer that go on from these moves.
fn paths_from(book: &Book, sheet: &Sheet, gainer: usize, moves: &mut Vec<Move>, all: &mut Vec<Vec<Move>>) {
    let taker = moves.last().map_or(gainer, |last| last.giver as usize);
    for giver in 0..book.seats {
        if giver == gainer || moves.iter().any(|earlier| earlier.giver as usize == giver) {
            continue;
        }
        for window in 0..book.windows {
            if sheet[giver][window] > 0 && sheet[taker][window] < book.caps[taker][window] {
                moves.push(Move { window: window as u8, giver: giver as u8, taker: taker as u8 });
                all.push(moves.clone());
                paths_from(book, sheet, gainer, moves, all);
                moves.pop();
            }
        }
    }
}

/// Paper 01's "improves" and "ties wrongly", in its own words but for balance plus total, which paper 02 has for the total.
fn improves(book: &Book, heights: &[i64], gainer: usize, loser: usize) -> bool {
    let left = heights[gainer] * weight(book, loser);
    let right = (heights[loser] - 1) * weight(book, gainer);
    left < right || left == right && weight(book, gainer) < weight(book, loser)
}
fn ties_wrongly(book: &Book, heights: &[i64], gainer: usize, loser: usize) -> bool {
    weight(book, gainer) == weight(book, loser)
        && heights[loser] == heights[gainer] + 1
        && is_earlier(book, gainer, loser)
}

/// Paper 02's order, seat by seat: up to the last seat and on from 1. Which of two comes up earlier?
fn is_earlier(book: &Book, seat: usize, other: usize) -> bool {
    let first = book.first.unwrap_or(1) as usize - 1;
    let mut order = (first..book.seats).chain(0..first);
    order.find(|&next| next == seat || next == other) == Some(seat) && seat != other
}

/// Gainer, loser and the fewest moves between them, by the search rule over all paths.
fn chosen(book: &Book, sheet: &Sheet, test: impl Fn(usize, usize) -> bool) -> Option<(usize, usize, usize)> {
    for gainer in 0..book.seats {
        let mut all = Vec::new();
        paths_from(book, sheet, gainer, &mut Vec::new(), &mut all);
        let ends = all.iter().map(|path| (path[path.len() - 1].giver as usize, path.len()));
        if let Some((loser, moves)) = ends.filter(|&(loser, _)| test(gainer, loser)).min() {
            return Some((gainer, loser, moves));
        }
    }
    None
}

/// Paper 01's mark of a feasible sheet with gainer, loser and number of moves where it has them.
fn mark_by_the_rules(book: &Book, sheet: &Sheet) -> (Marked, Option<(usize, usize, usize)>) {
    for window in 0..book.windows {
        let placed: u16 = (0..book.seats).map(|seat| sheet[seat][window]).sum();
        for seat in 0..book.seats {
            if placed < book.supplies[window] && sheet[seat][window] < book.caps[seat][window] {
                return (Marked { mark: 1, window: window as u32 + 1, seat: seat as u32 + 1, moves: 0 }, None);
            }
        }
    }
    let heights = heights(book, sheet);
    let better = chosen(book, sheet, |gainer, loser| improves(book, &heights, gainer, loser)).map(|ends| (2, ends));
    let tied =
        || chosen(book, sheet, |gainer, loser| ties_wrongly(book, &heights, gainer, loser)).map(|ends| (3, ends));
    match better.or_else(tied) {
        Some((mark, ends)) => (Marked { mark, moves: ends.2 as u32, ..Marked::default() }, Some(ends)),
        None => (Marked { mark: 4, ..Marked::default() }, None),
    }
}

/// Plays a path move by move; every move must be possible when its turn comes.
fn play_all(book: &Book, sheet: &Sheet, path: &[Move]) -> Sheet {
    let mut sheet = *sheet;
    for m in path {
        let (window, giver, taker) = m.places();
        assert!(sheet[giver][window] > 0 && sheet[taker][window] < book.caps[taker][window]);
        sheet[giver][window] -= 1;
        sheet[taker][window] += 1;
    }
    sheet
}

/// The mark, the ends and the length of the path, and what playing it gives.
fn check_sheet(book: &Book, sheet: &Sheet, best: &[i64], planned: &[i64]) -> u32 {
    let (marked, path) = mark_sheet(book, sheet);
    let (expected, ends) = mark_by_the_rules(book, sheet);
    assert_eq!(marked, expected);
    assert_eq!(path.len(), marked.moves as usize);
    assert_eq!(path.first().map(|m| m.taker as usize), ends.map(|ends| ends.0));
    assert_eq!(path.last().map(|m| m.giver as usize), ends.map(|ends| ends.1));
    assert!(path.windows(2).all(|pair| pair[0].giver == pair[1].taker));
    let after = play_all(book, sheet, &path);
    assert_eq!(feasible(book, &after), Ok(()));
    let before = profile(book, sheet);
    assert_eq!(marked.mark >= 3, before == best, "passes exactly with the highest profile");
    match marked.mark {
        2 => assert!(profile(book, &after) > before),
        3 => assert!(profile(book, &after) == before),
        4 => assert_eq!(totals(book, sheet), planned, "all settled sheets have the planned totals"),
        _ => (),
    }
    marked.mark
}

#[test]
fn every_sheet_of_small_books() {
    let mut rng = Rng::new(1);
    let (mut books, mut marks, mut turned, mut moved, mut weighed, mut raised) = (0, [0u32; 5], 0, 0, 0, 0);
    while books < 10_000 {
        let book = small_book(&mut rng);
        let Some(sheets) = feasible_sheets(&book) else { continue };
        let best = sheets.iter().map(|sheet| profile(&book, sheet)).max().unwrap();
        let planned = plan_sheet(&book);
        let totals_planned = totals(&book, &planned);
        let changed = |other: Book| (totals_planned != totals(&book, &plan_sheet(&other))) as u32;
        turned += changed(Book { first: None, ..book.clone() });
        moved += changed(Book { balances: None, ..book.clone() });
        weighed += changed(Book { weights: None, ..book.clone() });
        raised += (planned != settled_sheet(&book)) as u32;
        let mut settled = Vec::new();
        for sheet in &sheets {
            let mark = check_sheet(&book, sheet, &best, &totals_planned);
            marks[mark as usize] += 1;
            settled.extend((mark == 4).then_some(sheet));
        }
        // Sheets are compared by their cells in reading order.
        assert_eq!(settled.into_iter().max(), Some(&planned), "the standard sheet is the highest of the settled ones");
        books += 1;
    }
    println!("{books} books; sheets with mark 1 to 4: {:?}", &marks[1..]);
    println!("on {turned} of them the first seat changes the totals, on {moved} the balances do;");
    println!("on {weighed} the weights do, and on {raised} a settled sheet was not standard");
    assert!(marks[1..].iter().all(|&count| count > 1000));
    assert!(turned > 100 && moved > 500 && weighed > 200 && raised > 300);
}

/// The highest sheet in reading order that has the totals and the window sums left, from some cell on: every number is tried, the highest
/// first.
fn fill_highest(book: &Book, sheet: &mut Sheet, cell: usize, totals: &mut [u16], sums: &mut [u16]) -> bool {
    let (seat, window) = (cell / book.windows, cell % book.windows);
    if seat == book.seats {
        return sums.iter().all(|&sum| sum == 0);
    }
    for credits in (0..=book.caps[seat][window].min(totals[seat]).min(sums[window])).rev() {
        sheet[seat][window] = credits;
        totals[seat] -= credits;
        sums[window] -= credits;
        let ends_row = window + 1 == book.windows;
        if !(ends_row && totals[seat] > 0) && fill_highest(book, sheet, cell + 1, totals, sums) {
            return true;
        }
        totals[seat] += credits;
        sums[window] += credits;
    }
    false
}

/// Of any sheet, settled or not, the step to the standard sheet gives the highest that has its totals and its window sums.
#[test]
fn the_highest_sheet_with_the_same_totals() {
    let (mut rng, mut changed) = (Rng::new(3), 0);
    for _ in 0..20_000 {
        let mut book = Book::empty(rng.between(2, 5), rng.between(2, 5));
        let (most, mut sheet) = (rng.between(1, 4), [[0; WINDOWS]; SEATS]);
        for (seat, window) in (0..book.seats).flat_map(|seat| (0..book.windows).map(move |window| (seat, window))) {
            let cap = if rng.once_in(4) { 0 } else { rng.between(1, most) };
            book.caps[seat][window] = cap as u16;
            sheet[seat][window] = rng.below(cap + 1) as u16;
        }
        let mut totals: Vec<u16> = sheet[..book.seats].iter().map(|row| row.iter().sum()).collect();
        let mut sums: Vec<u16> = (0..book.windows).map(|window| sheet.iter().map(|row| row[window]).sum()).collect();
        let mut highest = [[0; WINDOWS]; SEATS];
        assert!(fill_highest(&book, &mut highest, 0, &mut totals, &mut sums));
        assert_eq!(standard(&book, sheet), highest, "{book:?} {sheet:?}");
        changed += (sheet != highest) as u32;
    }
    println!("{changed} sheets were not the highest");
    assert!(changed > 5000);
}

#[test]
fn the_better_of_pairs_of_sheets() {
    let mut rng = Rng::new(2);
    let mut orders = [0; 3];
    for _ in 0..20_000 {
        let book = small_book(&mut rng);
        let Some(sheets) = feasible_sheets(&book) else { continue };
        let pair = [0; 2].map(|_| sheets[rng.below(sheets.len())]);
        let [list, other] = pair.map(|sheet| profile(&book, &sheet));
        // The list does not ask who comes first, so the files may differ in that; nor whether zeros or 01's weights are there.
        let [first, second] = pair.map(|sheet| {
            let first = rng.once_in(2).then(|| rng.between(1, book.seats) as u16);
            let balances = if rng.once_in(2) { Some(book.carried()) } else { book.balances };
            let weights = if rng.once_in(2) { Some(book.table()) } else { book.weights };
            file_of(&Book { first, balances, weights, ..book.clone() }, Some(&sheet))
        });
        let chosen = better(&first, &second).map(|chosen| chosen.file);
        assert_eq!(chosen, Ok(if list < other { 2 } else { 1 }));
        orders[(list.cmp(&other) as i8 + 1) as usize] += 1;
    }
    println!("first list lower, equal, higher: {orders:?}");
    assert!(orders.iter().all(|&count| count > 1000));
}
