//! Timing of several calls side by side.

use std::time::Instant;

/// One call to be timed, by name.
pub struct Call<'a> {
    pub name: &'static str,
    pub run: Box<dyn FnMut() + 'a>,
}

impl<'a> Call<'a> {
    pub fn new(name: &'static str, run: impl FnMut() + 'a) -> Call<'a> {
        Call { name, run: Box::new(run) }
    }
}

/// Calls every one in turn, round after round, so that all of them see the machine in the same state, and gives for each the
/// median of its rounds in microseconds. Short calls are made several times in a round.
pub fn side_by_side(calls: &mut [Call], rounds: usize, calls_per_round: u32) -> Vec<f64> {
    let mut times = vec![Vec::with_capacity(rounds); calls.len()];
    for _ in 0..rounds {
        for (call, times) in calls.iter_mut().zip(&mut times) {
            let begin = Instant::now();
            for _ in 0..calls_per_round {
                (call.run)();
            }
            times.push(begin.elapsed().as_secs_f64() * 1e6 / calls_per_round as f64);
        }
    }
    times.iter_mut().map(|times| median(times)).collect()
}

/// The middle one of some numbers.
pub fn median(numbers: &mut [f64]) -> f64 {
    numbers.sort_by(f64::total_cmp);
    numbers[numbers.len() / 2]
}

/// The times of the same calls on many books.
#[derive(Default)]
pub struct Times {
    books: Vec<Vec<f64>>,
}

impl Times {
    pub fn add(&mut self, times: Vec<f64>) {
        self.books.push(times);
    }

    /// Per call the median over the books.
    pub fn medians(&self) -> Vec<f64> {
        let calls = 0..self.books[0].len();
        calls.map(|call| median(&mut self.books.iter().map(|times| times[call]).collect::<Vec<_>>())).collect()
    }

    /// The longest time that the first call takes on one of the books.
    pub fn longest(&self) -> f64 {
        self.books.iter().map(|times| times[0]).fold(0.0, f64::max)
    }
}
