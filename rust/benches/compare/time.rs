//! Times of two things side by side.

use std::time::{Duration, Instant};

/// Runs, for each of which the ratio is taken by itself.
const RUNS: u32 = 5;

/// Rounds of a run, in each of which both are timed one after the other; the least time of each counts.
const ROUNDS: u32 = 20;

/// About how long one of them is timed in a round.
const SPAN: Duration = Duration::from_millis(4);

pub fn heading(title: &str) {
    heading_beside(title, "original, ns");
}

/// The same where something else than the original stands beside this.
pub fn heading_beside(title: &str, other: &str) {
    println!();
    println!(
        "{title:34}{:>12}{other:>14}{:>8}{:>18}",
        "this, ns", "ratio", "over five runs"
    );
}

fn timed(times: u32, once: &mut dyn FnMut()) -> f64 {
    let begin = Instant::now();
    for _ in 0..times {
        once();
    }
    begin.elapsed().as_secs_f64() / times as f64
}

/// Whether a row is asked for: `cargo bench --offline -- WORD` prints those that have the word in their name.
fn asked_for(name: &str) -> bool {
    let mut words = std::env::args().skip(1).filter(|word| word != "--bench");
    words.next().is_none_or(|word| name.contains(&word))
}

/// Prints a row: the least times over all runs, their ratio, and the least and greatest ratio of a run. Each call of `new` and `old` does
/// `parts` of what is timed.
pub fn row(name: &str, parts: usize, mut new: impl FnMut(), mut old: impl FnMut()) {
    // What is compared behind the rows must have been done.
    new();
    old();
    if !asked_for(name) {
        return;
    }
    let one = timed(100, &mut new).max(timed(100, &mut old));
    let number = (SPAN.as_secs_f64() / one) as u32 + 1;
    let (mut least_new, mut least_old) = (f64::MAX, f64::MAX);
    let (mut lowest, mut highest) = (f64::MAX, 0f64);
    for _ in 0..RUNS {
        let (mut run_new, mut run_old) = (f64::MAX, f64::MAX);
        for _ in 0..ROUNDS {
            run_new = run_new.min(timed(number, &mut new));
            run_old = run_old.min(timed(number, &mut old));
        }
        least_new = least_new.min(run_new);
        least_old = least_old.min(run_old);
        lowest = lowest.min(run_new / run_old);
        highest = highest.max(run_new / run_old);
    }
    let nanoseconds = 1e9 / parts as f64;
    println!(
        "{name:34}{:12.2}{:14.2}{:8.2}{:>18}",
        least_new * nanoseconds,
        least_old * nanoseconds,
        least_new / least_old,
        format!("{lowest:.2} to {highest:.2}"),
    );
}
