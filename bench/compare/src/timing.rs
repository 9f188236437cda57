//! Timing in turns, so that whatever else the machine does meets all contenders alike.

use std::hint::black_box;
use std::time::Instant;

const ROUNDS: usize = 301;

/// How long a contender's turn is meant to last, in nanoseconds; a call that takes longer is a turn.
const TURN: f64 = 30_000.0;

pub struct Timed {
    /// The median time of one call of each contender, in nanoseconds.
    pub median: Vec<f64>,
    /// The median over the rounds of the first contender's time over each one's.
    pub ratio: Vec<f64>,
}

fn median(mut times: Vec<f64>) -> f64 {
    times.sort_by(f64::total_cmp);
    times[times.len() / 2]
}

/// The nanoseconds of one call, over so many of them.
fn time(call: &mut dyn FnMut() -> u64, calls: usize) -> f64 {
    let start = Instant::now();
    for _ in 0..calls {
        black_box(call());
    }
    start.elapsed().as_nanos() as f64 / calls as f64
}

/// Lets the contenders take turns.
pub fn turns(contenders: &mut [&mut dyn FnMut() -> u64]) -> Timed {
    let calls: Vec<usize> = contenders
        .iter_mut()
        .map(|call| {
            time(*call, 3);
            let once = (0..5).map(|_| time(*call, 20)).fold(f64::MAX, f64::min);
            (TURN / once.max(1.0)) as usize + 1
        })
        .collect();
    let slow = calls.iter().all(|&calls| calls == 1);
    let rounds = if slow { ROUNDS / 3 } else { ROUNDS };
    let mut times = vec![Vec::with_capacity(rounds); contenders.len()];
    for _ in 0..rounds {
        for (which, call) in contenders.iter_mut().enumerate() {
            times[which].push(time(*call, calls[which]));
        }
    }
    let ratio = times
        .iter()
        .map(|others| median(times[0].iter().zip(others).map(|(a, b)| a / b).collect()))
        .collect();
    Timed {
        median: times.into_iter().map(median).collect(),
        ratio,
    }
}
