//! Figures of a report.

use std::time::Duration;

/// A time in milliseconds.
pub fn milliseconds(time: Duration) -> f64 {
    1e3 * time.as_secs_f64()
}

/// The middle one of the figures, or 0 where there are none.
pub fn median(figures: &[f64]) -> f64 {
    let mut sorted = figures.to_vec();
    sorted.sort_by(f64::total_cmp);
    sorted.get(sorted.len() / 2).copied().unwrap_or(0.0)
}

/// The share of a count, in percent.
pub fn share(count: usize, all: usize) -> String {
    format!("{count} ({:.0} %)", 100.0 * count as f64 / all.max(1) as f64)
}
