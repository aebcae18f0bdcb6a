//! Processor time, which other work on the machine disturbs less than the time of day.

#[repr(C)]
struct Time {
    seconds: i64,
    parts: i64,
}

extern "C" {
    fn clock_gettime(clock: i32, time: &mut Time) -> i32;
    fn getrusage(who: i32, usage: &mut [i64; 18]) -> i32;
}

/// The seconds that a call takes on this thread, and what it gives.
pub fn timed<T>(call: impl FnOnce() -> T) -> (f64, T) {
    let before = thread();
    let value = call();
    (thread() - before, value)
}

fn thread() -> f64 {
    let mut t = Time { seconds: 0, parts: 0 };
    unsafe { clock_gettime(3, &mut t) };
    t.seconds as f64 + t.parts as f64 / 1e9
}

/// The seconds that the ended children took.
pub fn children() -> f64 {
    let mut usage = [0; 18];
    unsafe { getrusage(-1, &mut usage) };
    (usage[0] + usage[2]) as f64 + (usage[1] + usage[3]) as f64 / 1e6
}
