//! Output buffers with random bytes in and around them.

use super::rng::Rng;

const MARGIN: usize = 32;

pub struct Buffer {
    before: Vec<u8>,
    now: Vec<u8>,
}

impl Buffer {
    /// A buffer for a call that needs `least` bytes: long enough, just so, one byte short, empty, or any.
    pub fn of_about(rng: &mut Rng, least: usize) -> Buffer {
        let length = length_for(rng, least);
        Buffer::of(rng, length)
    }

    /// A buffer of just that length.
    pub fn of(rng: &mut Rng, length: usize) -> Buffer {
        let before: Vec<u8> = (0..length + 2 * MARGIN).map(|_| rng.below(256) as u8).collect();
        Buffer { now: before.clone(), before }
    }

    /// The part that is lent to a call.
    pub fn lend(&mut self) -> &mut [u8] {
        let end = self.now.len() - MARGIN;
        &mut self.now[MARGIN..end]
    }

    /// The same bytes as they were, for another call.
    pub fn twin(&self) -> Vec<u8> {
        self.before[MARGIN..self.before.len() - MARGIN].to_vec()
    }

    /// The front of the part, `length` bytes, if all bytes besides have kept their values.
    pub fn front(&self, length: usize) -> Result<&[u8], String> {
        let end = MARGIN + length;
        let kept = self.now.len() >= end + MARGIN
            && self.now[..MARGIN] == self.before[..MARGIN]
            && self.now[end..] == self.before[end..];
        kept.then(|| &self.now[MARGIN..end])
            .ok_or(format!("bytes besides the first {length} of the buffer have changed"))
    }
}

fn length_for(rng: &mut Rng, least: usize) -> usize {
    match rng.below(12) {
        0 => 0,
        1 => least.saturating_sub(1),
        2 => rng.below(least + 1),
        3..=6 => least,
        _ => least + rng.below(400),
    }
}
