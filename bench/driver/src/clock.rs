//! The time that this thread has had on a processor: what other processes do changes it less than it does the time of day.
use std::time::Duration;

#[derive(Clone, Copy)]
pub struct Clock(Duration);

#[repr(C)]
struct Timespec {
    seconds: i64,
    nanoseconds: i64,
}

/// The number of that clock.
const THREAD: i32 = 3;

unsafe extern "C" {
    fn clock_gettime(clock: i32, to: *mut Timespec) -> i32;
}

impl Clock {
    pub fn now() -> Clock {
        let mut time = Timespec {
            seconds: 0,
            nanoseconds: 0,
        };
        // SAFETY: it writes one timespec.
        unsafe { clock_gettime(THREAD, &mut time) };
        Clock(Duration::new(time.seconds as u64, time.nanoseconds as u32))
    }

    pub fn elapsed(&self) -> Duration {
        Clock::now().0 - self.0
    }
}
