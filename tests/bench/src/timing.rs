//! Times functions in turn, by the processor's time, so that other programs matter little.

use std::time::{Duration, Instant};

/// How long to measure.
pub struct Plan {
    /// A sample repeats the call until it lasts this long.
    sample: Duration,
    /// Samples of each function, unless the time is up first.
    samples: usize,
    /// The time for all functions.
    limit: Duration,
}

/// Samples that are taken even if the time is up.
const FEWEST: usize = 3;

impl Plan {
    pub fn full() -> Plan {
        Plan {
            sample: Duration::from_micros(200),
            samples: 301,
            limit: Duration::from_secs(3),
        }
    }

    pub fn quick() -> Plan {
        Plan {
            sample: Duration::from_micros(50),
            samples: 15,
            limit: Duration::from_millis(200),
        }
    }
}

/// The nanoseconds of one call.
pub struct Times {
    pub best: f64,
    pub median: f64,
}

/// Times all functions, another one first in each round, so that none has the better place.
pub fn in_turn<const N: usize>(plan: &Plan, calls: [&dyn Fn(); N]) -> [Times; N] {
    let mut sides = calls.map(|call| Side::new(plan, call));
    let began = Instant::now();
    for round in 0..plan.samples {
        if round >= FEWEST && began.elapsed() > plan.limit {
            break;
        }
        for place in 0..N {
            sides[(round + place) % N].sample();
        }
    }
    sides.map(Side::times)
}

struct Side<'a> {
    call: &'a dyn Fn(),
    /// The calls of one sample.
    repeats: u32,
    samples: Vec<f64>,
}

impl<'a> Side<'a> {
    fn new(plan: &Plan, call: &'a dyn Fn()) -> Side<'a> {
        let mut repeats = 1;
        while duration(call, repeats) < plan.sample {
            repeats *= 2;
        }
        Side {
            call,
            repeats,
            samples: Vec::with_capacity(plan.samples),
        }
    }

    fn sample(&mut self) {
        let taken = duration(self.call, self.repeats).as_nanos() as f64;
        self.samples.push(taken / f64::from(self.repeats));
    }

    fn times(mut self) -> Times {
        self.samples.sort_by(f64::total_cmp);
        Times {
            best: self.samples[0],
            median: self.samples[self.samples.len() / 2],
        }
    }
}

fn duration(call: &dyn Fn(), repeats: u32) -> Duration {
    let began = spent();
    for _ in 0..repeats {
        call();
    }
    spent() - began
}

/// The C library's time, on x86-64 Linux.
#[repr(C)]
struct Timespec {
    seconds: i64,
    nanoseconds: i64,
}

const THREAD_CPU_TIME: i32 = 3;

extern "C" {
    fn clock_gettime(clock: i32, time: *mut Timespec) -> i32;
}

/// The processor's time that this thread has used.
fn spent() -> Duration {
    let mut time = Timespec {
        seconds: 0,
        nanoseconds: 0,
    };
    // SAFETY: the time is this function's own.
    let status = unsafe { clock_gettime(THREAD_CPU_TIME, &mut time) };
    assert_eq!(status, 0, "no clock of the thread's time");
    Duration::new(time.seconds as u64, time.nanoseconds as u32)
}
