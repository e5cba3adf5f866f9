//! Times of several ways to do the same work, taken in turns. A turn is short, so that
//! few of them meet an interruption, and the median of a way's turns counts.

use std::time::Instant;

/// The times of each way's turns from the least to the largest, in nanoseconds a call:
/// `work(way, turn)` does `calls` of them.
pub fn turns(
    ways: usize,
    turns: usize,
    calls: usize,
    mut work: impl FnMut(usize, usize),
) -> Vec<Vec<f64>> {
    let mut times = vec![Vec::with_capacity(turns); ways];
    for turn in 0..turns {
        for (way, times) in times.iter_mut().enumerate() {
            let start = Instant::now();
            work(way, turn);
            times.push(start.elapsed().as_nanos() as f64 / calls as f64);
        }
    }
    for times in &mut times {
        times.sort_by(f64::total_cmp);
    }
    times
}

/// Of times that `turns` gave.
pub fn median(times: &[f64]) -> f64 {
    times[times.len() / 2]
}

/// Way by way.
pub fn medians(
    ways: usize,
    turns: usize,
    calls: usize,
    work: impl FnMut(usize, usize),
) -> Vec<f64> {
    self::turns(ways, turns, calls, work).iter().map(|times| median(times)).collect()
}

/// One line for each way: its time, and how many times that of the way `beside` it is.
pub fn print(title: &str, names: &[&str], times: &[f64], beside: usize) {
    println!("{title}");
    for (name, time) in names.iter().zip(times) {
        println!("  {name:<34} {time:7.2} ns  {:5.2}", time / times[beside]);
    }
}
