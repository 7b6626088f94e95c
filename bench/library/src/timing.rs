//! What naming takes: nanoseconds a name, by the clock and of a processor, of several threads at once.
use std::sync::Barrier;
use std::thread;
use std::time::Instant;

/// As many clients as a floor lets in at most, over all threads.
pub const CLIENTS: u64 = 262_144;

/// Nanoseconds.
#[derive(Clone, Copy, Default)]
pub struct Spent {
    pub clock: f64,
    pub processor: f64,
}

impl Spent {
    /// What so many parts took, as if they were as many as clients.
    pub fn for_each_of(self, parts: u64) -> Spent {
        let times = CLIENTS as f64 / parts as f64;
        Spent { clock: self.clock * times, processor: self.processor * times }
    }
}

#[repr(C)]
struct Timespec {
    seconds: i64,
    nanoseconds: i64,
}

/// For how long this thread has had a processor.
fn processor_time() -> f64 {
    const OF_THIS_THREAD: i32 = 3;
    extern "C" {
        fn clock_gettime(clock: i32, time: *mut Timespec) -> i32;
    }
    let mut time = Timespec { seconds: 0, nanoseconds: 0 };
    // SAFETY: Linux writes one such record, as on each 64-bit machine.
    assert_eq!(unsafe { clock_gettime(OF_THIS_THREAD, &mut time) }, 0);
    time.seconds as f64 * 1e9 + time.nanoseconds as f64
}

/// Keeps what is freed with the process, so that no round after the first asks the system for memory.
pub fn keep_memory() {
    const TRIM_THRESHOLD: i32 = -1;
    const MMAP_THRESHOLD: i32 = -3;
    extern "C" {
        fn mallopt(parameter: i32, value: i32) -> i32;
    }
    // SAFETY: it is called before there is a second thread, and takes any numbers.
    let kept = unsafe { mallopt(TRIM_THRESHOLD, i32::MAX) == 1 && mallopt(MMAP_THRESHOLD, 1 << 25) == 1 };
    assert!(kept, "the C library takes other parameters");
}

/// Runs a part in each thread, at once, and adds up what they return. A thread's part is made before the clock starts.
pub fn in_threads<P: Send>(parts: Vec<P>, run: impl Fn(&mut P) -> u64 + Sync) -> (Spent, u64) {
    let (start, run) = (&Barrier::new(parts.len()), &run);
    let done: Vec<_> = thread::scope(|scope| {
        let one = |mut part| {
            move || {
                start.wait();
                let (began, from) = (Instant::now(), processor_time());
                let sum = run(&mut part);
                let to = processor_time();
                (began, Instant::now(), to - from, sum)
            }
        };
        let threads: Vec<_> = parts.into_iter().map(|part| scope.spawn(one(part))).collect();
        threads.into_iter().map(|thread| thread.join().expect("a thread ends")).collect()
    });
    let began = done.iter().map(|one| one.0).min().expect("there is a thread");
    let ended = done.iter().map(|one| one.1).max().expect("there is a thread");
    let processor = done.iter().map(|one| one.2).sum();
    (Spent { clock: (ended - began).as_nanos() as f64, processor }, done.iter().map(|one| one.3).sum())
}

/// Runs a round so many times, and prints the median of what a name took, by the clock and of a processor. A first
/// round, in which the memory comes from the system, does not count.
pub fn print_median(rounds: usize, names: u64, round: impl Fn() -> Spent) {
    round();
    let spent: Vec<Spent> = (0..rounds).map(|_| round()).collect();
    let median = |time: fn(&Spent) -> f64| {
        let mut times: Vec<f64> = spent.iter().map(time).collect();
        times.sort_by(f64::total_cmp);
        times[times.len() / 2] / names as f64
    };
    println!("{} {}", median(|spent| spent.clock), median(|spent| spent.processor));
}
