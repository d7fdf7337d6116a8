//! How much stack the calls use: each is made on a stack of its own, which is painted before and looked at afterwards.

use std::arch::asm;

use super::books::{file_of, planned, windows_alone, with_first, BALANCES, KINDS, TABLES};
use super::reference::{read, Wants};
use super::rng::Rng;
use super::same_standard::totals;
use super::wanted::row_of;
use super::{credits, LADDER};

const PAINT: u8 = 0xa5;
const SIZE: usize = 256 * 1024;

/// A call to be made on the painted stack, with what it takes.
struct Task {
    call: extern "C" fn(&mut Task),
    file: Vec<u8>,
    book: credits::raw::Book,
    /// The totals that are wanted.
    row: Vec<u8>,
    out: Vec<u8>,
}

const CALLS: [(&str, extern "C" fn(&mut Task)); 8] = [
    ("read", read_file),
    ("write", write),
    ("mark", mark),
    ("plan", plan),
    ("listing", listing),
    ("better", better),
    ("fulfil", fulfil),
    ("forecast", forecast),
];

extern "C" fn read_file(task: &mut Task) {
    assert_eq!(credits::raw::read(&task.file).refusal, 0);
}
extern "C" fn write(task: &mut Task) {
    assert_eq!(credits::raw::write(task.book, &mut task.out).refusal, 0);
}
extern "C" fn mark(task: &mut Task) {
    assert_eq!(credits::raw::mark(&task.file, &mut task.out).refusal, 0);
}
extern "C" fn plan(task: &mut Task) {
    assert_eq!(credits::raw::plan(&task.file, &mut task.out).refusal, 0);
}
extern "C" fn listing(task: &mut Task) {
    assert_eq!(credits::raw::listing(&task.file, &mut task.out).refusal, 0);
}
extern "C" fn better(task: &mut Task) {
    assert_eq!(credits::raw::better(&task.file, &task.file).refusal, 0);
}
extern "C" fn fulfil(task: &mut Task) {
    assert_eq!(credits::raw::fulfil(&task.file, &task.row, &mut task.out).refusal, 0);
}
extern "C" fn forecast(task: &mut Task) {
    assert_eq!(credits::raw::forecast(&task.file).refusal, 0);
}

/// The most that each call uses on full files with and without a chain, its argument or result by value included. Wanted are the totals of
/// the file's sheet, which gives a sheet, and one credit more, which gives a group: all sheets hand out as much as there is.
pub fn report() {
    let mut rng = Rng::new(19);
    let mut files = vec![LADDER.to_vec()];
    for (_, draw) in KINDS {
        for ((_, add_balances), (_, add_weights)) in BALANCES.into_iter().zip(TABLES.into_iter().skip(1)) {
            let book = draw(&mut rng, 32, 24);
            let book = with_first(&mut rng, book);
            let book = add_balances(&mut rng, book);
            let book = add_weights(&mut rng, book);
            files.extend([planned(&book), windows_alone(&book, 0)].map(|sheet| file_of(&book, Some(&sheet))));
        }
    }
    for (name, call) in CALLS {
        let most = files.iter().flat_map(|file| [0, 1].map(|more| used(call, file, more))).max().unwrap_or(0);
        println!("{name:8} {most:6} bytes of stack");
    }
}

/// How far down the painted stack a call reaches, where so many more credits are wanted than the sheet gives.
fn used(call: extern "C" fn(&mut Task), file: &[u8], more: u32) -> usize {
    let (plain_book, sheet) = read(file).expect("a file within its bounds");
    let mut wants: Wants = totals(&sheet.expect("a file with a sheet"));
    wants[plain_book.seats - 1] += more;
    let (book, row) = (credits::raw::read(file).book, row_of(&plain_book, &wants));
    let mut task = Task { call, file: file.to_vec(), book, row, out: vec![0; 4000] };
    let mut stack = vec![PAINT; SIZE];
    let top = stack.as_mut_ptr_range().end as usize & !15;
    on_stack(top, &mut task);
    SIZE - stack.iter().take_while(|&&byte| byte == PAINT).count()
}

/// Makes the call with the stack pointer at `top`, which is a multiple of 16.
fn on_stack(top: usize, task: &mut Task) {
    unsafe {
        asm!(
            "xchg rsp, r12",
            "call {call}",
            "mov rsp, r12",
            call = in(reg) task.call,
            in("rdi") task as *mut Task,
            inout("r12") top => _,
            clobber_abi("C"),
        );
    }
}
