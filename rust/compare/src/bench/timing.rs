use std::time::Instant;

#[repr(C)]
struct Time {
    seconds: i64,
    /// Of a second: nanoseconds in clock_gettime, microseconds in getrusage.
    part: i64,
}

#[repr(C)]
struct Usage {
    user: Time,
    system: Time,
    rest: [i64; 14],
}

/// Of Linux on x86-64.
const THREAD_CPU_TIME: i32 = 3;
const CHILDREN: i32 = -1;

extern "C" {
    fn clock_gettime(clock: i32, time: *mut Time) -> i32;
    fn getrusage(who: i32, usage: *mut Usage) -> i32;
}

/// Nanoseconds that this thread had a processor.
fn thread_nanos() -> f64 {
    let mut time = Time {
        seconds: 0,
        part: 0,
    };
    // SAFETY: `time` is a timespec.
    let answer = unsafe { clock_gettime(THREAD_CPU_TIME, &mut time) };
    assert_eq!(answer, 0);
    time.seconds as f64 * 1e9 + time.part as f64
}

/// Nanoseconds that the processes started so far had a processor, of those that have ended.
fn children_nanos() -> f64 {
    let zero = || Time {
        seconds: 0,
        part: 0,
    };
    let mut usage = Usage {
        user: zero(),
        system: zero(),
        rest: [0; 14],
    };
    // SAFETY: `usage` is a rusage.
    let answer = unsafe { getrusage(CHILDREN, &mut usage) };
    assert_eq!(answer, 0);
    let nanos = |time: Time| time.seconds as f64 * 1e9 + time.part as f64 * 1e3;
    nanos(usage.user) + nanos(usage.system)
}

/// How long a row is timed, in seconds: BENCH_SECONDS, or 2.
fn budget() -> f64 {
    let text = std::env::var("BENCH_SECONDS").unwrap_or_default();
    text.parse().unwrap_or(2.0)
}

fn least_by<const N: usize>(now: fn() -> f64, mut ways: [&mut dyn FnMut(); N]) -> [f64; N] {
    let mut best = [f64::MAX; N];
    let budget = budget();
    let begin = Instant::now();
    let mut goes = 0;
    while goes < 7 || begin.elapsed().as_secs_f64() < budget {
        for (best, way) in best.iter_mut().zip(&mut ways) {
            let start = now();
            way();
            *best = best.min(now() - start);
        }
        goes += 1;
    }
    best
}

/// The least nanoseconds of processor time that each way took, over goes in which the ways take turns.
pub fn least<const N: usize>(ways: [&mut dyn FnMut(); N]) -> [f64; N] {
    least_by(thread_nanos, ways)
}

/// The same of ways that start a process and wait for its end.
pub fn least_of_programs<const N: usize>(ways: [&mut dyn FnMut(); N]) -> [f64; N] {
    least_by(children_nanos, ways)
}
