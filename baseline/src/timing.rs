//! One case: run once for its digest, or measured.

use std::hint::black_box;
use std::time::{Duration, Instant};

const SAMPLES: usize = 9;
const SAMPLE: Duration = Duration::from_millis(15);

#[derive(Clone, Copy, PartialEq, Eq)]
pub enum Mode {
    Once,
    Timed,
}

/// Prints `case NAME DIGEST`, the MD5 of the bytes that `show` makes of the work's result, or measures the work and prints
/// `bench NAME ns_per_op N least L`: the middle and the least of nine samples.
pub fn case<T>(mode: Mode, name: &str, work: impl Fn() -> T, show: impl Fn(&T) -> Vec<u8>) {
    if mode == Mode::Once {
        let digest: String = crate::md5::digest(&show(&work())).iter().map(|b| format!("{b:02x}")).collect();
        println!("case {name} {digest}");
        return;
    }
    let start = Instant::now();
    let mut turns = 0u64;
    while start.elapsed() < SAMPLE {
        black_box(work());
        turns += 1;
    }
    let mut samples: Vec<f64> = (0..SAMPLES)
        .map(|_| {
            let start = Instant::now();
            for _ in 0..turns {
                black_box(work());
            }
            start.elapsed().as_nanos() as f64 / turns as f64
        })
        .collect();
    samples.sort_by(f64::total_cmp);
    println!("bench {name} ns_per_op {:.1} least {:.1}", samples[SAMPLES / 2], samples[0]);
}
