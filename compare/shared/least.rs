//! How long a call takes.

use std::hint::black_box;
use std::time::{Duration, Instant};

#[repr(C)]
#[derive(Default)]
struct Timespec {
    seconds: i64,
    nanoseconds: i64,
}

unsafe extern "C" {
    fn clock_gettime(clock: i32, time: *mut Timespec) -> i32;
}

/// What this thread has had of a processor, on Linux: what else the machine does is not counted.
fn processor_time() -> Duration {
    const THREAD: i32 = 3;
    let mut time = Timespec::default();
    let failed = unsafe { clock_gettime(THREAD, &mut time) };
    assert!(failed == 0, "a clock for the thread");
    Duration::new(time.seconds as u64, time.nanoseconds as u32)
}

/// The processor's time of some calls, for one call. Freeing what the calls give is not counted.
pub fn processor<T>(calls: u32, mut call: impl FnMut() -> T) -> Duration {
    let mut given = Vec::with_capacity(calls as usize);
    let begun = processor_time();
    for _ in 0..calls {
        given.push(black_box(call()));
    }
    (processor_time() - begun) / calls
}

/// The shortest of some rounds of some calls each, for one call. Freeing what the calls give is not counted.
pub fn least<T>(rounds: u32, calls: u32, mut call: impl FnMut() -> T) -> Duration {
    let round = |_| {
        let mut given = Vec::with_capacity(calls as usize);
        let begun = Instant::now();
        for _ in 0..calls {
            given.push(black_box(call()));
        }
        begun.elapsed()
    };
    (0..rounds).map(round).min().expect("a round") / calls
}
