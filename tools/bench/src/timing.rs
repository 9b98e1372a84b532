//! Times of calls, in rounds in which every call has its turn.

use crate::clock;
use crate::places::from_place;
use std::time::{Duration, Instant};

/// A sample is as many calls as take so long.
const SAMPLE: Duration = Duration::from_micros(500);
/// How long the rounds of one text may take, but for the least number of them.
const BUDGET: Duration = Duration::from_millis(1_200);
const LEAST_ROUNDS: usize = 5;
const MOST_ROUNDS: usize = 400;

/// Nanoseconds of one call, over the rounds.
#[derive(Clone, Copy, Debug)]
pub struct Times {
    pub min: f64,
    pub median: f64,
}

/// Times N different calls; number i is made by `call(i)`.
pub fn interleaved<const N: usize>(mut call: impl FnMut(usize)) -> [Times; N] {
    let repeats: [u32; N] = std::array::from_fn(|i| repeats(|| call(i)));
    let mut samples: [Vec<f64>; N] = std::array::from_fn(|_| Vec::new());
    let start = Instant::now();
    for round in 0..MOST_ROUNDS {
        if round >= LEAST_ROUNDS && start.elapsed() > BUDGET {
            break;
        }
        for (i, samples) in samples.iter_mut().enumerate() {
            from_place(round, &mut || samples.push(sample(repeats[i], || call(i))));
        }
    }
    samples.map(times)
}

/// How many calls fill a sample.
fn repeats(mut call: impl FnMut()) -> u32 {
    let mut repeats = 1;
    while repeats < 1 << 20 {
        let elapsed = sample(repeats, &mut call) * f64::from(repeats);
        if elapsed >= SAMPLE.as_nanos() as f64 {
            break;
        }
        repeats *= 2;
    }
    repeats
}

/// Nanoseconds of a call, on the average of some. A call before them fills the caches again, whoever had the turn before.
fn sample(repeats: u32, mut call: impl FnMut()) -> f64 {
    call();
    let start = clock::now();
    for _ in 0..repeats {
        call();
    }
    (clock::now() - start).as_nanos() as f64 / f64::from(repeats)
}

fn times(mut samples: Vec<f64>) -> Times {
    samples.sort_by(f64::total_cmp);
    Times { min: samples[0], median: samples[samples.len() / 2] }
}
