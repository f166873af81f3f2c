//! How a call is measured: instructions carried out, or the thread's time on a processor.

use crate::cases::Case;
use std::hint::black_box;
use std::time::Duration;
use zarfolin_compare::face::{Face, Plain};

/// The figures of one case: medians of one call on both sides, and the median of their ratios, pair by pair; or the least of
/// each side and their ratio.
pub struct Figures {
    pub ours: f64,
    pub plain: f64,
    pub ratio: f64,
}

/// Calls both sides in turn, who comes first changing, and takes the medians, or the least.
fn pairs(
    case: &mut Case,
    other: &dyn Face,
    count: usize,
    best: bool,
    sample: impl Fn(&mut Case, &dyn Face) -> f64,
) -> Figures {
    let (mut ours, mut plain) = (vec![], vec![]);
    for i in 0..count {
        if i % 2 == 0 {
            ours.push(sample(case, other));
            plain.push(sample(case, &Plain));
        } else {
            plain.push(sample(case, &Plain));
            ours.push(sample(case, other));
        }
    }
    if best {
        let (ours, plain) = (least(&ours), least(&plain));
        return Figures { ours, plain, ratio: ours / plain };
    }
    let ratios = ours.iter().zip(&plain).map(|(a, b)| a / b).collect();
    Figures { ours: median(ours), plain: median(plain), ratio: median(ratios) }
}

fn median(mut samples: Vec<f64>) -> f64 {
    samples.sort_by(f64::total_cmp);
    samples[samples.len() / 2]
}

fn least(samples: &[f64]) -> f64 {
    samples.iter().copied().fold(f64::INFINITY, f64::min)
}

/// Nanoseconds. Short samples and many: on a shared machine few of them are disturbed.
pub fn time(case: &mut Case, other: &dyn Face, quick: bool, best: bool) -> Figures {
    let (samples, length) = if quick { (15, Duration::from_micros(200)) } else { (151, Duration::from_micros(400)) };
    let sample = |case: &mut Case, face: &dyn Face, rounds: u32| {
        let start = cpu_time();
        for _ in 0..rounds {
            black_box((case.step)(face));
        }
        (cpu_time() - start).as_nanos() as f64 / rounds as f64
    };
    let once = sample(case, &Plain, 1).max(sample(case, &Plain, 3));
    let rounds = ((length.as_nanos() as f64 / once) as u32).clamp(1, 1_000_000);
    pairs(case, other, samples, best, |case, face| sample(case, face, rounds))
}

/// This thread's time on a processor: what others run at the same time doesn't count.
fn cpu_time() -> Duration {
    #[repr(C)]
    struct Timespec {
        seconds: i64,
        nanoseconds: i64,
    }
    unsafe extern "C" {
        fn clock_gettime(clock: i32, time: *mut Timespec) -> i32;
    }
    const THREAD_CPU_TIME: i32 = 3;
    let mut time = Timespec { seconds: 0, nanoseconds: 0 };
    // SAFETY: the C library's call (x86-64 Linux), with room for its answer.
    let status = unsafe { clock_gettime(THREAD_CPU_TIME, &mut time) };
    assert_eq!(status, 0);
    Duration::new(time.seconds as u64, time.nanoseconds as u32)
}

/// The emulator's count of the instructions carried out so far, as count.c in it gives it through a pipe.
pub struct Counter {
    ends: [i32; 2],
    /// What asking twice costs.
    asking: u64,
}

unsafe extern "C" {
    fn pipe2(ends: *mut i32, flags: i32) -> i32;
    fn read(end: i32, to: *mut u64, length: usize) -> isize;
    fn syscall(number: i64, end: i64) -> i64;
}

impl Counter {
    /// None where nothing counts.
    pub fn new() -> Option<Counter> {
        const NONBLOCK: i32 = 0o4000;
        let mut ends = [0; 2];
        // SAFETY: the C library's call, with room for two numbers.
        assert_eq!(unsafe { pipe2(ends.as_mut_ptr(), NONBLOCK) }, 0);
        let mut counter = Counter { ends, asking: 0 };
        counter.now()?;
        let before = counter.now()?;
        counter.asking = counter.now()? - before;
        Some(counter)
    }

    fn now(&self) -> Option<u64> {
        // A call that Linux doesn't have and count.c answers.
        const COUNT: i64 = 0x7a61;
        let mut count = 0;
        // SAFETY: a call that Linux refuses; the C library's read, with room for eight bytes.
        let got = unsafe {
            syscall(COUNT, self.ends[1] as i64);
            read(self.ends[0], &mut count, 8)
        };
        (got == 8).then_some(count)
    }

    /// Instructions of one call.
    pub fn count(&self, case: &mut Case, other: &dyn Face) -> Figures {
        pairs(case, other, 5, false, |case, face| {
            let before = self.now().expect("the count");
            black_box((case.step)(face));
            let after = self.now().expect("the count");
            (after - before - self.asking) as f64
        })
    }
}
