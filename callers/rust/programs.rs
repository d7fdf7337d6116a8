//! The programs `mark` and `plan` over the plain Rust version: `programs mark` or `programs plan`, a day file on
//! standard input. The listings in `examples/` were made with them.

use std::io::{stdin, stdout, Read, Write};

mod reference;

fn main() -> std::io::Result<()> {
    let mut file = Vec::new();
    stdin().take(65_536).read_to_end(&mut file)?;
    let output = match std::env::args().nth(1).as_deref() {
        Some("mark") => reference::listing(&file),
        Some("plan") => planned(&file),
        _ => panic!("programs mark|plan"),
    };
    stdout().write_all(&output)
}

/// The planned file, or the line of its refusal.
fn planned(file: &[u8]) -> Vec<u8> {
    let mut out = vec![0; reference::FILE_LENGTH];
    match reference::plan(file, &mut out) {
        Ok(length) => out.truncate(length),
        Err(refusal) => out = format!("refused {} at {}\n", refusal.number, refusal.offset).into_bytes(),
    }
    out
}
