//! Two that do the same, timed turn by turn.

use std::time::Instant;

/// The least times of both, in nanoseconds for each of n operations. Each is timed in every turn;
/// the least counts, since anything else on the machine only adds.
pub fn timed(
    turns: usize,
    n: usize,
    mut first: impl FnMut(),
    mut second: impl FnMut(),
) -> (f64, f64) {
    let mut least = (f64::MAX, f64::MAX);
    for _ in 0..turns {
        let start = Instant::now();
        first();
        least.0 = least.0.min(start.elapsed().as_nanos() as f64);
        let start = Instant::now();
        second();
        least.1 = least.1.min(start.elapsed().as_nanos() as f64);
    }
    (least.0 / n as f64, least.1 / n as f64)
}

/// A row of the table of ratios.
pub fn print_row(name: &str, times: (f64, f64)) {
    println!("| {name} | {:.0} | {:.0} | {:.2} |", times.0, times.1, times.0 / times.1);
}
