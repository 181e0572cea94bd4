//! Medians of interleaved samples. Each sample runs a call as often as fills about a
//! millisecond; the contenders take turns, every other time in the opposite order, so that a slow
//! spell of the machine meets them all.

use crate::timed::Call;
use std::time::{Duration, Instant};

/// How long a sample should last at least.
const SAMPLE: Duration = Duration::from_millis(1);

/// Samples of each contender, and where a call takes over `LONG` microseconds.
const SAMPLES: usize = 31;
const FEW: usize = 5;
const LONG: f64 = 40_000.0;

/// A call with how often a sample runs it.
pub struct Contender<'a> {
    call: Call<'a>,
    times: u32,
}

/// The time of `times` calls in a row.
fn lap(call: &mut Call, times: u32) -> Duration {
    let begin = Instant::now();
    for _ in 0..times {
        call();
    }
    begin.elapsed()
}

impl Contender<'_> {
    /// Finds how often a call fits into a sample; the first call only warms up.
    pub fn new(mut call: Call) -> Contender {
        call();
        let mut times = 1;
        loop {
            let took = lap(&mut call, times);
            if took >= SAMPLE || times >= 1 << 20 {
                return Contender { call, times };
            }
            let wanted = SAMPLE.as_nanos() as f64 / took.as_nanos().max(1) as f64;
            times = (times as f64 * wanted.clamp(1.3, 16.0)).ceil() as u32;
        }
    }

    /// Takes a sample: microseconds of one call.
    pub fn sample(&mut self) -> f64 {
        lap(&mut self.call, self.times).as_secs_f64() * 1e6 / self.times as f64
    }
}

/// The middle one of some numbers.
pub fn median(mut numbers: Vec<f64>) -> f64 {
    numbers.sort_by(f64::total_cmp);
    numbers[numbers.len() / 2]
}

/// Samples of each call in microseconds, all calls taking turns.
pub fn samples(calls: Vec<Call>) -> Vec<Vec<f64>> {
    let mut contenders: Vec<Contender> = calls.into_iter().map(Contender::new).collect();
    let mut samples: Vec<Vec<f64>> = contenders.iter_mut().map(|contender| vec![contender.sample()]).collect();
    let long = samples.iter().any(|taken| taken[0] > LONG);
    let count = contenders.len();
    for turn in 1..if long { FEW } else { SAMPLES } {
        for k in 0..count {
            let k = if turn % 2 == 0 { k } else { count - 1 - k };
            samples[k].push(contenders[k].sample());
        }
    }
    samples
}

/// Median microseconds of the library and of the solver, and the median of what each turn of the
/// library takes in times of the solver's turn beside it.
#[derive(Clone, Copy, Debug)]
pub struct Pair {
    pub library: f64,
    pub solver: f64,
    pub ratio: f64,
}

/// Times the library's call beside the solver's.
pub fn pair(library: Call, solver: Call) -> Pair {
    let samples = samples(vec![library, solver]);
    let ratios = samples[0].iter().zip(&samples[1]).map(|(own, other)| own / other).collect();
    Pair { library: median(samples[0].clone()), solver: median(samples[1].clone()), ratio: median(ratios) }
}
