//! Measures the workloads of `hip_bench` beside plain vectors, and beside hipstr in Rust where it is there (`--cfg hipstr`).
//!
//! Each line of the table is one workload. The sides are called in turn, in one thread; a ratio is taken in each turn, and the line has
//! the median of the ratios with the least and the greatest. A call with no rounds, which only makes the sources, is taken off.
mod plain;
mod workloads;

use std::hint::black_box;
use std::time::Instant;
use workloads::{Row, rows};

/// How often the sides of a line are called in turn, and how long one call is to take.
const TURNS: usize = 15;
const NANOSECONDS: f64 = 10e6;

/// One of the sides of a line.
struct Side {
    name: &'static str,
    call: Box<dyn Fn(&[u8], u64) -> u64>,
    rounds: u64,
    sources: f64,
}

impl Side {
    fn new(name: &'static str, call: Box<dyn Fn(&[u8], u64) -> u64>) -> Self {
        Side { name, call, rounds: 1, sources: 0.0 }
    }

    /// The nanoseconds of a call, and its checksum.
    fn time(&self, input: &[u8], rounds: u64) -> (f64, u64) {
        let start = Instant::now();
        let sum = black_box((self.call)(black_box(input), rounds));
        (start.elapsed().as_nanos() as f64, sum)
    }

    /// Finds how many rounds take about `NANOSECONDS`.
    fn prepare(&mut self, input: &[u8]) {
        self.sources = (0..3).map(|_| self.time(input, 0).0).fold(f64::MAX, f64::min);
        loop {
            let spent = (self.time(input, self.rounds).0 - self.sources).max(1.0);
            if spent >= NANOSECONDS / 4.0 || self.rounds > 1 << 40 {
                self.rounds = ((self.rounds as f64 * NANOSECONDS / spent) as u64).max(1);
                return;
            }
            self.rounds = (self.rounds as f64 * (NANOSECONDS / 2.0 / spent).clamp(2.0, 100.0)) as u64;
        }
    }

    /// The nanoseconds of a round.
    fn round(&self, input: &[u8]) -> f64 {
        (self.time(input, self.rounds).0 - self.sources).max(1.0) / self.rounds as f64
    }
}

fn sorted(mut numbers: Vec<f64>) -> Vec<f64> {
    numbers.sort_by(f64::total_cmp);
    numbers
}

fn time_text(nanoseconds: f64) -> String {
    match nanoseconds {
        t if t < 1e3 => format!("{t:.1} ns"),
        t if t < 1e6 => format!("{:.1} µs", t / 1e3),
        t => format!("{:.1} ms", t / 1e6),
    }
}

/// The ratios of ours to another side, as `median (least–greatest)`.
fn ratio_text(ours: &[f64], other: &[f64]) -> String {
    let ratios = sorted(ours.iter().zip(other).map(|(a, b)| a / b).collect());
    format!("{:.2} ({:.2}–{:.2})", ratios[ratios.len() / 2], ratios[0], ratios[ratios.len() - 1])
}

/// Measures one line. It ends the process where the sides differ in their checksums.
fn measure(row: Row) {
    let input = row.input.bytes();
    let ours = row.ours;
    // SAFETY: the library takes the input as a pointer and a length, and only reads it.
    let call = move |bytes: &[u8], rounds| unsafe { ours(bytes.as_ptr(), bytes.len(), rounds) };
    let mut sides = vec![Side::new("ours", Box::new(call)), Side::new("Vec", Box::new(row.plain))];
    if let Some(hipstr) = row.hipstr {
        sides.push(Side::new("hipstr", Box::new(hipstr)));
    }
    for rounds in [0, 1, 3, 70] {
        let sums: Vec<(&str, u64)> = sides.iter().map(|side| (side.name, side.time(&input, rounds).1)).collect();
        if sums.iter().any(|sum| sum.1 != sums[0].1) {
            eprintln!("{}: the checksums differ after {rounds} rounds: {sums:?}", row.name);
            std::process::exit(1);
        }
    }
    sides.iter_mut().for_each(|side| side.prepare(&input));
    let mut times: Vec<Vec<f64>> = sides.iter().map(|_| Vec::new()).collect();
    for _ in 0..TURNS {
        for (side, times) in sides.iter().zip(&mut times) {
            times.push(side.round(&input));
        }
    }
    let mut line = format!("| {} | {}", row.name, time_text(sorted(times[0].clone())[TURNS / 2]));
    for other in &times[1..] {
        line += &format!(" | {}", ratio_text(&times[0], other));
    }
    println!("{line} |");
}

fn main() {
    let wanted: Vec<String> = std::env::args().skip(1).collect();
    let with_hipstr = cfg!(hipstr);
    println!("| Workload | ours | ours / Vec |{}", if with_hipstr { " ours / hipstr |" } else { "" });
    println!("|---|---|---|{}", if with_hipstr { "---|" } else { "" });
    for row in rows() {
        if wanted.is_empty() || wanted.iter().any(|word| row.name.contains(word.as_str())) {
            measure(row);
        }
    }
}
