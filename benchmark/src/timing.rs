//! Times contenders in turn, round by round, so that what slows the machine for a while slows all of them.

use std::ffi::{c_int, c_long};
use std::time::Duration;

/// One way to do the work of a case, and the bytes that it goes over or writes.
pub struct Contender<'a> {
    pub name: &'static str,
    pub bytes: usize,
    pub call: Box<dyn FnMut() + 'a>,
}

impl<'a> Contender<'a> {
    pub fn new(name: &'static str, bytes: usize, call: impl FnMut() + 'a) -> Contender<'a> {
        Contender {
            name,
            bytes,
            call: Box::new(call),
        }
    }
}

/// Seconds of one call.
#[derive(Clone, Copy, Debug)]
pub struct Time {
    pub best: f64,
    pub median: f64,
}

/// Rounds, and the least that a contender's calls of one round take together.
pub const ROUNDS: usize = 71;
pub const ROUND: Duration = Duration::from_millis(1);

/// The time of each contender, in their order.
pub fn time(contenders: &mut [Contender]) -> Vec<Time> {
    let calls: Vec<u32> = contenders.iter_mut().map(calls_in_a_round).collect();
    let mut times = vec![Vec::new(); contenders.len()];
    for _ in 0..ROUNDS {
        for (at, contender) in contenders.iter_mut().enumerate() {
            let round = duration(contender, calls[at]);
            times[at].push(round.as_secs_f64() / f64::from(calls[at]));
        }
    }
    times.into_iter().map(summary).collect()
}

fn duration(contender: &mut Contender, calls: u32) -> Duration {
    let start = thread_time();
    for _ in 0..calls {
        (contender.call)();
    }
    thread_time() - start
}

/// A C `timespec` of x86-64 Linux.
#[repr(C)]
struct Instant {
    seconds: i64,
    nanoseconds: c_long,
}

extern "C" {
    fn clock_gettime(clock: c_int, now: *mut Instant) -> c_int;
}

/// The processor time that this thread has had: what other programs take of a shared machine is not in it.
fn thread_time() -> Duration {
    const THREAD: c_int = 3;
    let mut now = Instant {
        seconds: 0,
        nanoseconds: 0,
    };
    // SAFETY: `now` is a timespec that can be written to.
    let answer = unsafe { clock_gettime(THREAD, &mut now) };
    assert_eq!(answer, 0, "no clock of the thread's time");
    Duration::new(now.seconds as u64, now.nanoseconds as u32)
}

/// As many calls as fill a round; the first ones, which find cold caches, do not count.
fn calls_in_a_round(contender: &mut Contender) -> u32 {
    let mut calls = 1;
    loop {
        let round = duration(contender, calls);
        if round >= ROUND {
            return calls;
        }
        calls = (2 * calls).max((f64::from(calls) * filling(round)) as u32);
    }
}

/// The factor at which a round would be full, and a little more; at most 100.
fn filling(round: Duration) -> f64 {
    (1.1 * ROUND.as_secs_f64() / round.as_secs_f64().max(1e-9)).min(100.0)
}

fn summary(mut times: Vec<f64>) -> Time {
    times.sort_by(f64::total_cmp);
    Time {
        best: times[0],
        median: times[times.len() / 2],
    }
}
