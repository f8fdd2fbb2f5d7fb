//! Timing: the best of several samples, and how far the others lie from it.

use std::time::{Duration, Instant};

/// How long a sample lasts at least: shorter calls are repeated within it.
const SAMPLE: Duration = Duration::from_millis(2);

/// How many samples are taken at most, and at least: after so much time there are no more than the least.
const SAMPLES: usize = 21;
const LEAST_SAMPLES: usize = 3;
const ENOUGH: Duration = Duration::from_secs(1);

/// A call that is to be timed: it writes its result, and gives 0 or the number of a refusal.
pub type Call<'a> = &'a dyn Fn(&mut Vec<u8>) -> u32;

/// A call's time in seconds.
#[derive(Clone, Copy, Debug, PartialEq)]
pub struct Timed {
    pub best: f64,
    pub median: f64,
}

impl Timed {
    /// What samples come to; there is at least one.
    fn of(mut samples: Vec<f64>) -> Timed {
        samples.sort_by(f64::total_cmp);
        Timed {
            best: samples[0],
            median: samples[samples.len() / 2],
        }
    }

    /// How much longer than the best the median sample took, as a part of the best.
    pub fn spread(&self) -> f64 {
        self.median / self.best - 1.0
    }
}

/// A call under way of being timed.
struct Runner<'a> {
    call: Call<'a>,
    result: Vec<u8>,
    repeats: u32,
    spent: Duration,
    samples: Vec<f64>,
}

impl<'a> Runner<'a> {
    /// Runs the call once: the first sample if it lasts as long as one, else a warm-up that tells how often it is to be repeated.
    fn new(call: Call<'a>, size: usize) -> Result<Runner<'a>, String> {
        let mut result = vec![0; size];
        let start = Instant::now();
        let status = call(&mut result);
        let spent = start.elapsed();
        if status != 0 {
            return Err(format!(
                "a call that is to be timed was refused with {status}"
            ));
        }
        let once = spent.as_secs_f64().max(1e-9);
        let repeats = (SAMPLE.as_secs_f64() / once).ceil() as u32;
        let samples = if repeats == 1 { vec![once] } else { Vec::new() };
        Ok(Runner {
            call,
            result,
            repeats,
            spent,
            samples,
        })
    }

    fn done(&self) -> bool {
        let least = if self.spent < ENOUGH {
            SAMPLES
        } else {
            LEAST_SAMPLES
        };
        self.samples.len() >= least
    }

    fn sample(&mut self) {
        let start = Instant::now();
        for _ in 0..self.repeats {
            (self.call)(&mut self.result);
        }
        let spent = start.elapsed();
        self.spent += spent;
        self.samples
            .push(spent.as_secs_f64() / f64::from(self.repeats));
    }
}

/// Runs each call once, into a row of the size, and refuses if their results differ. Then times them by turns, so that what else the
/// machine does falls on all of them.
pub fn by_turns<const N: usize>(size: usize, calls: [Call; N]) -> Result<[Timed; N], String> {
    let runners: Result<Vec<_>, _> = calls.iter().map(|call| Runner::new(*call, size)).collect();
    let mut runners = runners?;
    if runners
        .iter()
        .any(|runner| runner.result != runners[0].result)
    {
        return Err("results differ".to_string());
    }
    while runners.iter().any(|runner| !runner.done()) {
        for runner in runners.iter_mut().filter(|runner| !runner.done()) {
            runner.sample();
        }
    }
    let mut timed = runners.into_iter().map(|runner| Timed::of(runner.samples));
    Ok(std::array::from_fn(|_| {
        timed.next().expect("one for each call")
    }))
}

#[cfg(test)]
mod tests {
    use super::*;

    #[test]
    fn best_and_median() {
        let timed = Timed::of(vec![4.0, 2.0, 3.0]);
        assert_eq!((timed.best, timed.median), (2.0, 3.0));
        assert_eq!(timed.spread(), 0.5);
    }

    fn writes(byte: u8) -> impl Fn(&mut Vec<u8>) -> u32 {
        move |row| {
            row[0] = byte;
            0
        }
    }

    #[test]
    fn results_that_differ_are_not_timed() {
        assert!(by_turns(1, [&writes(3), &writes(3)]).is_ok());
        assert!(by_turns(1, [&writes(3), &writes(4)]).is_err());
        assert!(by_turns(1, [&|_: &mut Vec<u8>| 6]).is_err());
    }
}
