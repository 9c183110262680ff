//! Pairs of parts of a contracted unit's curve, joined through the engine's static library and through the independent implementation: by the
//! C function, with the numbers and counts of a caller and with what its buffers hold after it, and by the Rust crate.

use crate::calls::{curve_of, default_curve, literal_curve, small, Curve};
use independent::generate::contracts::{case, Case, Part};
use noskjerf::judgement::join;

/// Of the pairs that differ, at most so many are shown by each thread.
const SHOWN: usize = 3;

/// How many numbers the two buffers have, one more than they have to have, and what each is before a call.
pub const EDGES: usize = 13;
pub const PRICES: usize = 11;
const BEFORE: i64 = 77_777_777;

/// What a C function that makes a curve answers, and both buffers after it.
#[derive(Debug, PartialEq)]
pub struct Buffers {
    pub number: i64,
    pub edges: [u64; EDGES + 1],
    pub prices: [i64; PRICES + 1],
}

/// What the C function leaves; and the Rust crate's answer, where a part has just the numbers of its steps.
#[derive(Debug, PartialEq)]
struct Answer {
    after: Buffers,
    curve: Option<Result<Curve, u8>>,
}

extern "C" {
    fn noskjerf_join(
        proxy_start: i64,
        proxy_count: usize,
        proxy_steps: *const i64,
        proxy_steps_len: usize,
        above_start: i64,
        above_count: usize,
        above_steps: *const i64,
        above_steps_len: usize,
        edges: *mut u64,
        edges_len: usize,
        prices: *mut i64,
        prices_len: usize,
    ) -> i64;
}

/// Nothing answered yet: untouched buffers.
pub fn unanswered() -> Buffers {
    Buffers {
        number: 0,
        edges: [BEFORE.unsigned_abs(); EDGES + 1],
        prices: [BEFORE; PRICES + 1],
    }
}

fn numbers(part: &Part) -> Vec<i64> {
    part.numbers.iter().copied().map(small).collect()
}

fn is_whole(case: &Case) -> bool {
    case.proxy.is_whole() && case.above.is_whole()
}

fn engine(case: &Case) -> Answer {
    let (proxy, above) = (numbers(&case.proxy), numbers(&case.above));
    let mut after = unanswered();
    // SAFETY: each pointer comes with the length of what it points to, and the buffers overlap nothing
    after.number = unsafe {
        noskjerf_join(
            small(case.proxy.start),
            case.proxy.count,
            proxy.as_ptr(),
            proxy.len(),
            small(case.above.start),
            case.above.count,
            above.as_ptr(),
            above.len(),
            after.edges.as_mut_ptr(),
            after.edges.len(),
            after.prices.as_mut_ptr(),
            after.prices.len(),
        )
    };
    let curve = is_whole(case).then(|| {
        let joined = join(&default_curve(&case.proxy.curve()), &default_curve(&case.above.curve()));
        let joined = joined.map(|curve| curve_of(curve.start, &curve.steps));
        joined.map_err(|refused| refused.number)
    });
    Answer { after, curve }
}

fn literal(case: &Case) -> Answer {
    let joined = case.contract().join();
    let mut after = unanswered();
    match &joined {
        Ok(curve) => put(&mut after, &literal_curve(curve)),
        Err(number) => after.number = (*number).into(),
    }
    let curve = is_whole(case).then(|| joined.map(|curve| literal_curve(&curve)));
    Answer { after, curve }
}

/// How a curve stands in the buffers: the count, the start and the ends, then 0; the prices, then 0.
pub fn put(after: &mut Buffers, (start, steps): &Curve) {
    after.edges[..EDGES].fill(0);
    after.prices[..PRICES].fill(0);
    after.edges[0] = steps.len() as u64;
    after.edges[1] = small(*start).unsigned_abs();
    for (index, &(end, price)) in steps.iter().enumerate() {
        after.edges[2 + index] = small(end).unsigned_abs();
        after.prices[index] = small(price);
    }
}

/// How many pairs of these seeds differ.
pub fn compare(seeds: impl Iterator<Item = u64>) -> usize {
    let mut found = 0;
    for seed in seeds {
        let case = case(seed);
        let (engine, literal) = (engine(&case), literal(&case));
        if engine == literal {
            continue;
        }
        found += 1;
        if found <= SHOWN {
            println!("pair {seed}: {case:?}");
            println!("  engine      {engine:?}");
            println!("  independent {literal:?}");
        }
    }
    found
}
