//! Medians of repeated runs of functions in turn, in processor time.

use super::clock::spent;
use std::time::Duration;

/// A sample lasts at least this long.
const SAMPLE: Duration = Duration::from_micros(200);
/// Samples are taken until this much time has passed, but at least `LEAST` and at most `MOST`.
const WHOLE: Duration = Duration::from_millis(1_500);
const LEAST: usize = 5;
const MOST: usize = 201;
/// A run that takes longer than this is made once.
const LONG: Duration = Duration::from_secs(5);

/// Nanoseconds of one run of each function: medians of samples that are taken in turn.
pub fn medians(functions: &mut [&mut dyn FnMut()]) -> Vec<f64> {
    let first: Vec<(u32, f64)> = functions.iter_mut().map(runs_of_sample).collect();
    if first.iter().any(|&(_, once)| once > LONG.as_nanos() as f64) {
        return first.into_iter().map(|(_, once)| once).collect();
    }
    let mut samples = vec![Vec::new(); functions.len()];
    let started = spent();
    while samples[0].len() < LEAST || (spent() - started < WHOLE && samples[0].len() < MOST) {
        for ((samples, function), &(runs, _)) in samples.iter_mut().zip(&mut *functions).zip(&first)
        {
            samples.push(sample(function, runs));
        }
    }
    samples.into_iter().map(median).collect()
}

/// How many runs make a sample, and the time of one.
fn runs_of_sample(run: &mut &mut dyn FnMut()) -> (u32, f64) {
    let mut runs = 1;
    loop {
        let once = sample(run, runs);
        if once * f64::from(runs) >= SAMPLE.as_nanos() as f64 {
            return (runs, once);
        }
        runs *= 2;
    }
}

/// Nanoseconds of a run in one sample.
fn sample(run: &mut &mut dyn FnMut(), runs: u32) -> f64 {
    let started = spent();
    for _ in 0..runs {
        run();
    }
    (spent() - started).as_nanos() as f64 / f64::from(runs)
}

fn median(mut samples: Vec<f64>) -> f64 {
    samples.sort_by(f64::total_cmp);
    samples[samples.len() / 2]
}
