//! Intervals with a budget, of which the fewest net sellers that leave every binding constraint short are asked, through the engine's static
//! library and through the independent implementation.

use crate::calls::{interval, opening};
use independent::generate::together::{case, Case};
use noskjerf::Hour;

/// Of the intervals that differ, at most so many are shown by each thread.
const SHOWN: usize = 3;

/// The portfolios of the best set, the sets tried and the floor, or the refusal; and whether the hour was changed.
type Answer = (Result<(Option<Vec<usize>>, u64, u64), u8>, bool);

fn engine(case: &Case) -> Answer {
    let mut hour = Hour::open(&opening(&case.opening)).expect("an hour within the limits");
    let values = interval(&case.interval);
    for _ in 0..case.taken {
        // a refused interval leaves the hour as it was
        let _ = hour.interval(&values);
    }
    let before = hour.clone();
    let found = hour.together(&values, case.budget);
    let result = found.map(|found| (found.best, found.tried, found.floor));
    (result.map_err(|refused| refused.number), hour != before)
}

fn literal(case: &Case) -> Answer {
    let hour = case.opening.open().expect("an hour within the limits");
    let members = |set: u32| (0..32).filter(|portfolio| set >> portfolio & 1 == 1).collect();
    let found = hour.together(&case.interval, case.budget);
    (found.map(|found| (found.best.map(members), found.tried, found.floor)), false)
}

fn show(seed: u64, case: &Case) {
    println!("interval {seed}: {case:?}");
    println!("  engine      {:?}", engine(case));
    println!("  independent {:?}", literal(case));
}

/// How many intervals of these seeds differ.
pub fn compare(seeds: impl Iterator<Item = u64>) -> usize {
    let mut found = 0;
    for seed in seeds {
        let case = case(seed);
        if engine(&case) == literal(&case) {
            continue;
        }
        found += 1;
        if found <= SHOWN {
            show(seed, &case);
        }
    }
    found
}
