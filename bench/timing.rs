//! Timing: the median time of two ways to do the same, run in turn.
use std::hint::black_box;
use std::time::Instant;

const RUNS: usize = 20;

/// Runs the work `repeats` times; answers the nanoseconds that it took each time.
pub fn time(repeats: u32, mut work: impl FnMut() -> usize) -> f64 {
    let start = Instant::now();
    for _ in 0..repeats {
        black_box(work());
    }
    start.elapsed().as_nanos() as f64 / f64::from(repeats)
}

/// The least, the median and the greatest of some times.
fn spread(mut times: Vec<f64>) -> (f64, f64, f64) {
    times.sort_by(f64::total_cmp);
    let half = times.len() / 2;
    (
        times[0],
        (times[half - 1] + times[half]) / 2.0,
        times[times.len() - 1],
    )
}

/// Runs both ways in turn, each of which answers its time, after one run of each that does not count, and prints the median of each
/// with the least and the greatest, and the ratio of the medians.
pub fn compare(name: &str, mut ours: impl FnMut() -> f64, mut theirs: impl FnMut() -> f64) {
    ours();
    theirs();
    let mut times = (Vec::new(), Vec::new());
    for _ in 0..RUNS {
        times.0.push(ours());
        times.1.push(theirs());
    }
    let (ours, theirs) = (spread(times.0), spread(times.1));
    for (who, (least, median, most)) in [("ours", ours), ("theirs", theirs)] {
        println!(
            "{name}: {who:6} {:9.1} us  ({:.1} to {:.1})",
            median / 1e3,
            least / 1e3,
            most / 1e3
        );
    }
    println!("{name}: ours/theirs {:.3}", ours.1 / theirs.1);
}
