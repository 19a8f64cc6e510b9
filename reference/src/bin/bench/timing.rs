//! Processor time, and how it is read.

use std::fs;
use std::hint::black_box;
use std::time::{Duration, Instant};

/// A time as it is read best.
pub fn time(seconds: f64) -> String {
    match seconds {
        _ if seconds < 1e-3 => format!("{:.1} µs", seconds * 1e6),
        _ if seconds < 1.0 => format!("{:.2} ms", seconds * 1e3),
        _ => format!("{seconds:.2} s"),
    }
}

/// The time that this process has had on a processor, in seconds: what else runs on the machine is not counted.
pub fn processor_time() -> f64 {
    extern "C" {
        fn clock_gettime(clock: i32, time: *mut [i64; 2]) -> i32;
    }
    const PROCESS: i32 = 2; // CLOCK_PROCESS_CPUTIME_ID of Linux
    let mut time = [0; 2];
    assert_eq!(unsafe { clock_gettime(PROCESS, &mut time) }, 0);
    time[0] as f64 + time[1] as f64 * 1e-9
}

/// The least time of some runs: 200, or as many as two seconds hold.
pub fn least<T>(run: impl FnMut() -> T) -> f64 {
    least_within(Duration::from_secs(2), run)
}

/// The same within another time.
pub fn least_within<T>(longest: Duration, mut run: impl FnMut() -> T) -> f64 {
    let start = Instant::now();
    let mut best = f64::MAX;
    for _ in 0..200 {
        let once = processor_time();
        black_box(run());
        best = best.min(processor_time() - once);
        if start.elapsed() > longest {
            break;
        }
    }
    best
}

/// One pass over some bytes: a multiply and an add for each.
pub fn pass(bytes: &[u8]) -> f64 {
    least_within(Duration::from_millis(200), || {
        bytes.iter().fold(0u64, |h, byte| h.wrapping_mul(31).wrapping_add(*byte as u64))
    })
}

/// VmHWM of a process, in kB.
pub fn high_water(status: &str) -> Option<u64> {
    let text = fs::read_to_string(status).ok()?;
    let line = text.lines().find(|line| line.starts_with("VmHWM"))?;
    line.split_whitespace().nth(1)?.parse().ok()
}
