//! Times: medians of many rounds, in which the contenders take turns.
use std::hint::black_box;
use std::time::Instant;

pub fn median(mut all: Vec<f64>) -> f64 {
    all.sort_by(f64::total_cmp);
    all[all.len() / 2]
}

/// Nanoseconds for one of `n` calls. What they answer is dropped after the clock has been read.
pub fn round<T>(n: usize, kept: &mut Vec<T>, mut call: impl FnMut(usize) -> T) -> f64 {
    kept.clear();
    kept.reserve(n);
    let started = Instant::now();
    for k in 0..n {
        kept.push(black_box(call(k)));
    }
    started.elapsed().as_nanos() as f64 / n as f64
}

/// How many calls make a round of some 50 µs: short enough that it is seldom interrupted, long enough for the clock.
pub fn calls<T>(mut call: impl FnMut() -> T) -> usize {
    let warm = round(50, &mut Vec::new(), |_| call());
    (50_000.0 / warm.max(1.0)).clamp(4.0, 400.0) as usize
}

/// Nanoseconds for one call, with what reading the clock costs taken off.
pub fn single<T>(clock: f64, call: impl FnOnce() -> T) -> f64 {
    let started = Instant::now();
    black_box(call());
    (started.elapsed().as_nanos() as f64 - clock).max(0.0)
}

/// What two readings of the clock cost.
pub fn clock() -> f64 {
    median((0..10_001).map(|_| Instant::now().elapsed().as_nanos() as f64).collect())
}

/// A table in markdown.
pub struct Table {
    rows: Vec<Vec<String>>,
}

impl Table {
    pub fn new(head: &[&str]) -> Self {
        let head: Vec<String> = head.iter().map(ToString::to_string).collect();
        let line = head.iter().enumerate().map(|(k, _)| if k == 0 { "---" } else { "---:" }.to_owned()).collect();
        Self { rows: vec![head, line] }
    }

    pub fn row(&mut self, cells: Vec<String>) {
        self.rows.push(cells);
    }

    pub fn print(&self) {
        for row in &self.rows {
            println!("| {} |", row.join(" | "));
        }
        println!();
    }
}

pub fn ns(x: f64) -> String {
    if x < 100.0 { format!("{x:.1}") } else { format!("{x:.0}") }
}

/// How many times as fast `ours` is.
pub fn times(other: f64, ours: f64) -> String {
    format!("{:.2}", other / ours)
}
