//! The clock: medians over rounds, and the two yardsticks that every service stands beside.

use crate::services::Pair;
use oracle::records::{word, LONG};
use std::hint::black_box;
use std::time::Instant;

pub const ROUNDS: usize = 11;

/// The milliseconds that a call took, and its answer.
fn timed(call: &mut dyn FnMut() -> u64) -> (f64, u64) {
    let from = Instant::now();
    let answer = black_box(call());
    (from.elapsed().as_secs_f64() * 1000.0, answer)
}

/// Times each call once in each round, after one round that is not counted; gives the medians in milliseconds.
pub fn medians<const N: usize>(mut calls: [&mut dyn FnMut() -> u64; N]) -> [f64; N] {
    let mut times: [Vec<f64>; N] = [(); N].map(|()| Vec::new());
    for round in 0..=ROUNDS {
        for (call, times) in calls.iter_mut().zip(&mut times) {
            let (took, _) = timed(call);
            if round > 0 {
                times.push(took);
            }
        }
    }
    times.map(median)
}

/// The medians of two calls, and that of what the second takes in a round beside the first: each is the first in every
/// other round, and what slows the machine down for a while slows both.
#[cfg(before)]
pub fn beside(before: &mut dyn FnMut() -> u64, after: &mut dyn FnMut() -> u64) -> [f64; 3] {
    let mut times: [Vec<f64>; 3] = [(); 3].map(|()| Vec::new());
    for round in 0..2 * ROUNDS {
        let [took_before, took_after] = if round % 2 == 0 {
            [timed(before).0, timed(after).0]
        } else {
            let took_after = timed(after).0;
            [timed(before).0, took_after]
        };
        times[0].push(took_before);
        times[1].push(took_after);
        times[2].push(took_after / took_before);
    }
    times.map(median)
}

fn median(mut times: Vec<f64>) -> f64 {
    times.sort_by(f64::total_cmp);
    times[times.len() / 2]
}

/// A call that takes longer than this, in milliseconds, is not made again.
const SLOW: f64 = 3000.0;

/// The milliseconds of a call that may take minutes, of how many rounds they are the median, and the answer.
fn patiently(call: &mut dyn FnMut() -> u64) -> (f64, usize, u64) {
    let (took, answer) = timed(call);
    let mut times = vec![took];
    if took < SLOW {
        times.extend([(); 2].map(|()| timed(call).0));
    }
    let rounds = times.len();
    (median(times), rounds, answer)
}

/// The least that any reader of a lawful stream does: it goes from header to header and adds them up. It asks no rule
/// and keeps no list.
pub fn bare_pass(stream: &[u8]) -> u64 {
    let (mut at, mut sum) = (0, 0);
    while at < stream.len() {
        let header = word(stream, at);
        let (lead, length) = match header >> 20 {
            LONG => (8, word(stream, at + 4)),
            length => (4, length),
        };
        sum += u64::from(header);
        at += lead + length as usize;
    }
    sum
}

/// A second buffer that a stream is copied to.
struct Copy(Vec<u8>);

impl Copy {
    fn of(stream: &[u8]) -> Copy {
        Copy(vec![0; stream.len()])
    }

    fn again(&mut self, stream: &[u8]) -> u64 {
        self.0.copy_from_slice(black_box(stream));
        u64::from(black_box(&self.0)[stream.len() / 2])
    }
}

/// The milliseconds of a service by the library and by the oracle, of a bare pass and of a memory copy.
pub struct Times {
    pub library: f64,
    pub oracle: f64,
    pub bare: f64,
    pub copy: f64,
}

impl Times {
    /// All four in turn, in each round.
    pub fn of([mut library, mut oracle]: Pair, stream: &[u8]) -> Times {
        assert_eq!(library(), oracle(), "the library and the oracle differ");
        let mut copy = Copy::of(stream);
        let [library, oracle, bare, copy] = medians([
            &mut library,
            &mut oracle,
            &mut || bare_pass(black_box(stream)),
            &mut || copy.again(stream),
        ]);
        Times {
            library,
            oracle,
            bare,
            copy,
        }
    }

    /// The library in three rounds, or in one where it is slow; the others as ever. Gives the library's rounds too.
    pub fn of_slow([mut library, oracle]: Pair, stream: &[u8]) -> (Times, usize) {
        let (took, rounds, answer) = patiently(&mut library);
        let times = Times::of([Box::new(move || answer), oracle], stream);
        let times = Times {
            library: took,
            ..times
        };
        (times, rounds)
    }
}
