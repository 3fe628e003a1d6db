//! Times pieces of work by turns, so that a slow moment of the machine meets them all. Each time is the best of many.

use std::hint::black_box;

#[repr(C)]
struct Time {
    seconds: i64,
    nanoseconds: i64,
}

extern "C" {
    fn clock_gettime(clock: i32, time: *mut Time) -> i32;
}

// What this thread has had of a processor, in nanoseconds: other programs' turns are not counted.
fn processor_time() -> f64 {
    const OF_THIS_THREAD: i32 = 3;
    let mut time = Time { seconds: 0, nanoseconds: 0 };
    unsafe { clock_gettime(OF_THIS_THREAD, &mut time) };
    time.seconds as f64 * 1e9 + time.nanoseconds as f64
}

pub struct Candidate<'a> {
    name: &'static str,
    bytes: usize,
    work: Box<dyn FnMut() -> u64 + 'a>,
    /// in nanoseconds
    pub best: f64,
}

impl<'a> Candidate<'a> {
    /// Work on so many bytes. It hands back a number that is taken from what it did, so that none of it can be left out.
    pub fn new(name: &'static str, bytes: usize, work: impl FnMut() -> u64 + 'a) -> Candidate<'a> {
        Candidate { name, bytes, work: Box::new(work), best: f64::INFINITY }
    }

    pub fn for_each_byte(&self) -> f64 {
        self.best / self.bytes as f64
    }
}

pub fn race(candidates: &mut [Candidate], rounds: usize) {
    for _ in 0..rounds {
        for candidate in candidates.iter_mut() {
            let start = processor_time();
            black_box((candidate.work)());
            candidate.best = candidate.best.min(processor_time() - start);
        }
    }
}

/// One line for each candidate; the ratio is the first one's time over its time.
pub fn report(candidates: &[Candidate]) {
    for (i, c) in candidates.iter().enumerate() {
        print!("  {:<44}{:>9.1} us {:>7.2} ns a byte", c.name, c.best / 1000.0, c.for_each_byte());
        if i > 0 {
            print!("   ours takes {:.2} of it", candidates[0].best / c.best);
        }
        println!();
    }
}
