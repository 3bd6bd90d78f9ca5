//! Seconds that this program worked: other work on the machine does not count where the system can tell.
use std::time::Duration;

#[cfg(all(target_os = "linux", target_pointer_width = "64"))]
pub fn worked() -> Duration {
    #[repr(C)]
    struct Timespec {
        seconds: i64,
        nanoseconds: i64,
    }
    unsafe extern "C" {
        fn clock_gettime(clock: i32, time: *mut Timespec) -> i32;
    }
    /// POSIX's CLOCK_PROCESS_CPUTIME_ID, as Linux numbers it.
    const PROCESSOR_TIME: i32 = 2;
    let mut t = Timespec { seconds: 0, nanoseconds: 0 };
    // Sound: the C library that Rust's own stands on has this function, and writes one timespec of two 64-bit numbers.
    let answer = unsafe { clock_gettime(PROCESSOR_TIME, &mut t) };
    if answer == 0 { Duration::new(t.seconds as u64, t.nanoseconds as u32) } else { Duration::ZERO }
}

#[cfg(not(all(target_os = "linux", target_pointer_width = "64")))]
pub fn worked() -> Duration {
    use std::sync::OnceLock;
    use std::time::Instant;
    static START: OnceLock<Instant> = OnceLock::new();
    START.get_or_init(Instant::now).elapsed()
}

#[cfg(test)]
mod tests {
    #[test]
    fn work_takes_time() {
        let start = super::worked();
        let mut x = 1.0f64;
        while super::worked() <= start {
            x = (0..1000).fold(x, |x, _| std::hint::black_box(x).sqrt());
        }
        assert!(super::worked() > start && x > 0.0);
    }
}
