//! Time of the processor that this thread takes: what others run beside it does not count, but for the caches.

/// A `timespec` of x86-64 Linux, which is what the library is for.
#[repr(C)]
struct Passed {
    seconds: i64,
    nanoseconds: i64,
}

extern "C" {
    fn clock_gettime(clock: i32, passed: *mut Passed) -> i32;
}

const THREAD: i32 = 3; // CLOCK_THREAD_CPUTIME_ID

fn now() -> f64 {
    let mut passed = Passed { seconds: 0, nanoseconds: 0 };
    // The one thing that is written is lent here, in the layout of the system.
    let number = unsafe { clock_gettime(THREAD, &mut passed) };
    assert_eq!(number, 0);
    passed.seconds as f64 * 1e3 + passed.nanoseconds as f64 / 1e6
}

pub struct Clock(f64);

impl Clock {
    pub fn start() -> Self {
        Clock(now())
    }

    /// Milliseconds since the start.
    pub fn passed(&self) -> f64 {
        now() - self.0
    }
}
