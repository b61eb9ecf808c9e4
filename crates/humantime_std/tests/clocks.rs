//! What no contract can say: that the calls read the clock that they are given, and let it sleep
//! for as long as they are told.

use humantime::{StdDuration, SystemTime};
use humantime_std::{elapsed, now, sleep};
use std::cell::Cell;
use std::io;
use std::time::{Clock, Duration, Instant};

/// A clock that always reads the same, and remembers how long it was told to sleep in all.
#[derive(Drop)]
struct Stopped {
    reading: Duration,
    slept: Cell<Duration>,
}

fn stopped_at(secs: u64, nanos: u32) -> Stopped {
    Stopped {
        reading: Duration::new(secs, nanos),
        slept: Cell::new(Duration::ZERO),
    }
}

impl Clock for Stopped {
    fn monotonic(&self) -> io::Result<Duration> {
        Ok(self.reading)
    }

    fn since_1970(&self) -> io::Result<Duration> {
        Ok(self.reading)
    }

    fn sleep(&self, duration: Duration) {
        self.slept.set(self.slept.get().saturating_add(duration));
    }
}

#[test]
fn now_reads_the_clock(rt: HostRuntime) {
    for (secs, nanos) in [
        (0, 0),
        (1_518_568_087, 133_999_999),
        (i64::MAX, 999_999_999),
    ] {
        let time = now(&stopped_at(secs.unsigned_abs(), nanos)).expect(&rt, "no time");
        assert_eq!(rt; Some(time), SystemTime::from_parts(secs, nanos));
    }
    assert!(rt; now(&stopped_at(1 << 63, 0)).is_err());
}

#[test]
fn the_clock_sleeps(rt: HostRuntime) {
    let clock = stopped_at(7, 0);
    for (pause, slept) in [
        (StdDuration::new(90, 5), Duration::new(90, 5)),
        (StdDuration::new(0, 1), Duration::new(90, 6)),
        (StdDuration::MAX, Duration::MAX),
    ] {
        sleep(&clock, pause);
        assert_eq!(rt; clock.slept.get(), slept);
    }
}

#[test]
fn elapsed_reads_the_clock(rt: HostRuntime) {
    let start = Instant::now(&stopped_at(7, 999_999_999)).expect(&rt, "no time");
    for (secs, nanos, time) in [
        (9, 4, StdDuration::new(1, 5)),
        (8, 0, StdDuration::new(0, 1)),
        (7, 0, StdDuration::ZERO),
    ] {
        assert_eq!(rt;
            elapsed(&stopped_at(secs, nanos), start).expect(&rt, "no time"),
            time
        );
    }
    assert!(rt; elapsed(&stopped_at(1 << 63, 0), start).is_err());
}
