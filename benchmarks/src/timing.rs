//! Repeated measurement of two pieces of work side by side.

use std::hint::black_box;
use std::time::Instant;

/// Work to measure; its number keeps the compiler from leaving it out.
pub type Work<'a> = dyn Fn() -> u64 + 'a;

/// How often each work is measured.
const REPETITIONS: usize = 31;

/// The medians: nanoseconds of each work, and the ratio of the two in the same repetition.
pub struct Taken {
    pub ours: f64,
    pub theirs: f64,
    pub ratio: f64,
}

/// Measures both works by turns, after one turn that does not count.
pub fn measure(ours: &Work, theirs: &Work) -> Taken {
    let mut times = Vec::new();
    for _ in 0..=REPETITIONS {
        times.push((nanoseconds(ours), nanoseconds(theirs)));
    }
    let times = &times[1..];
    Taken {
        ours: median(times.iter().map(|(ours, _)| *ours).collect()),
        theirs: median(times.iter().map(|(_, theirs)| *theirs).collect()),
        ratio: median(times.iter().map(|(ours, theirs)| ours / theirs).collect()),
    }
}

/// The time that one run of a work takes.
fn nanoseconds(work: &Work) -> f64 {
    let start = Instant::now();
    black_box(work());
    start.elapsed().as_nanos() as f64
}

/// The middle of an odd number of measurements.
fn median(mut measured: Vec<f64>) -> f64 {
    measured.sort_by(f64::total_cmp);
    measured[measured.len() / 2]
}
