//! Comparisons of the engine's static library with the independent implementation, by seed.

pub mod books;
pub mod calls;
pub mod classroom;
pub mod contracts;
pub mod designations;
pub mod roundings;
pub mod together;

use std::iter::StepBy;
use std::ops::Range;
use std::thread;

/// Threads, each with its own share of the seeds.
const THREADS: u64 = 2;

/// The engine asks for less than half of it.
const STACK: usize = 4 << 20;

/// The seeds of one thread.
pub type Share = StepBy<Range<u64>>;

fn argument(index: usize, otherwise: u64) -> u64 {
    let given = std::env::args().nth(index);
    given.map_or(otherwise, |given| given.parse().expect("a whole number"))
}

/// The seeds that a program is to try: how many and the first, as its arguments say.
pub fn seeds() -> Range<u64> {
    let (count, first) = (argument(1, 30_000), argument(2, 0));
    first..first + count
}

/// Counts of several kinds over all seeds, each thread's added up.
pub fn counted<const KINDS: usize>(seeds: &Range<u64>, count: fn(Share) -> [usize; KINDS]) -> [usize; KINDS] {
    let share = |thread: u64| (seeds.start + thread..seeds.end).step_by(THREADS as usize);
    let started = |seeds: Share| thread::Builder::new().stack_size(STACK).spawn(move || count(seeds)).expect("a thread");
    let threads: Vec<_> = (0..THREADS).map(share).map(started).collect();
    let mut counts = [0; KINDS];
    for thread in threads {
        let own = thread.join().expect("no panic");
        counts.iter_mut().zip(own).for_each(|(count, own)| *count += own);
    }
    counts
}
