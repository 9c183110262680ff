//! Classroom bids, through the engine's static library and through the independent implementation: each place of the list, by the C function
//! with what its buffers hold after it, and by the Rust crate; then hours with such bids, as a text and as a list of calls in numbers, in
//! which each side has the bids of its own list.

use crate::calls::{self, curve_of, literal_curve, Curve};
use crate::contracts::{put, unanswered, Buffers, EDGES, PRICES};
use crate::Share;
use independent::classroom::classroom_bids;
use independent::curve;
use independent::generate::classroom::{case, Case};
use noskjerf::judgement;

/// Of the hours that differ, at most so many are shown by each thread.
const SHOWN: usize = 3;

/// Every place of the list is asked for, and some past it.
const PAST_THE_LAST: usize = 40;

/// Places that are of the list where fewer bits are looked at, and the furthest.
const FAR: [usize; 6] = [256, 1 << 16, 1 << 31, 1 << 32, 1 << 63, usize::MAX];

/// How many numbers of the two buffers are lent: more than there have to be, as many, and fewer of either.
const ROOMS: [(usize, usize); 5] = [
    (EDGES + 1, PRICES + 1),
    (EDGES, PRICES),
    (EDGES - 1, PRICES),
    (EDGES, PRICES - 1),
    (0, 0),
];

extern "C" {
    fn noskjerf_classroom(k: usize, edges: *mut u64, edges_len: usize, prices: *mut i64, prices_len: usize) -> i64;
}

// ---- the list

fn engine_place(k: usize, (edges, prices): (usize, usize)) -> Buffers {
    let mut after = unanswered();
    let (of_edges, of_prices) = (&mut after.edges[..edges], &mut after.prices[..prices]);
    // SAFETY: each pointer comes with the length of what it points to, and the buffers overlap nothing
    after.number = unsafe { noskjerf_classroom(k, of_edges.as_mut_ptr(), of_edges.len(), of_prices.as_mut_ptr(), of_prices.len()) };
    after
}

fn literal_place(bids: &[curve::Curve], k: usize, (edges, prices): (usize, usize)) -> Buffers {
    let mut after = unanswered();
    match bids.get(k) {
        _ if edges < EDGES || prices < PRICES => after.number = -1,
        Some(bid) => put(&mut after, &literal_curve(bid)),
        None => after.number = 1,
    }
    after
}

/// The Rust crate's list.
fn engine_bids() -> Vec<Curve> {
    let bids = judgement::classroom_bids();
    bids.iter().map(|bid| curve_of(bid.start, &bid.steps)).collect()
}

/// Compares the list place by place, and whole; answers how many differ.
pub fn compare_list() -> usize {
    let bids = classroom_bids();
    let places: Vec<usize> = (0..=PAST_THE_LAST).chain(FAR).collect();
    let mut found = 0;
    for &k in &places {
        for room in ROOMS {
            let (engine, literal) = (engine_place(k, room), literal_place(&bids, k, room));
            if engine != literal {
                found += 1;
                println!("classroom bid {k}, lent {room:?}: engine {engine:?}, independent {literal:?}");
            }
        }
    }
    let (engine, literal) = (engine_bids(), bids.iter().map(literal_curve).collect::<Vec<_>>());
    if engine != literal {
        found += 1;
        println!("classroom bids: engine {engine:?}, independent {literal:?}");
    }
    println!("compare: classroom bids at {} places, {found} differ", places.len());
    found
}

// ---- hours

/// What a text prints, and what a list of calls tells.
type Answers = (Vec<u8>, Result<Vec<calls::Answer>, u8>);

fn engine(case: &Case) -> Answers {
    (noskjerf::print(&case.text), calls::engine(&case.list))
}

fn literal(case: &Case) -> Answers {
    (independent::run(&case.text), calls::literal(&case.list))
}

fn show(seed: u64, case: &Case, engine: &Answers, literal: &Answers) {
    println!("hour {seed} with classroom bids {:?}", case.places);
    if engine.0 != literal.0 {
        println!("{}", String::from_utf8_lossy(&case.text));
        println!("  engine      {}", String::from_utf8_lossy(&engine.0));
        println!("  independent {}", String::from_utf8_lossy(&literal.0));
    }
    if engine.1 != literal.1 {
        calls::show(seed, &case.list, &engine.1, &literal.1);
    }
}

/// How many curves after an accepted call are cut, how many are as submitted, and how many openings and calls are refused.
fn reached(told: &Result<Vec<calls::Answer>, u8>) -> [usize; 3] {
    let Ok(told) = told else {
        return [0, 0, 1];
    };
    let (opened, calls) = (&told[0], &told[1..]);
    let mut counts = [0; 3];
    for answer in calls {
        if answer.call.is_err() {
            counts[2] += 1;
            continue;
        }
        for (curve, submitted) in answer.curves.iter().zip(&opened.curves) {
            counts[usize::from(curve == submitted)] += 1;
        }
    }
    counts
}

/// How many hours of these seeds differ, and what they reach.
pub fn compare(seeds: Share) -> [usize; 4] {
    let literal_bids = classroom_bids();
    let engine_bids: Vec<curve::Curve> = engine_bids().iter().map(wide).collect();
    let mut found = [0; 4];
    for seed in seeds {
        let (of_engine, of_paper) = (case(seed, &engine_bids), case(seed, &literal_bids));
        let (engine, literal) = (engine(&of_engine), literal(&of_paper));
        found[1..].iter_mut().zip(reached(&engine.1)).for_each(|(count, own)| *count += own);
        if engine == literal {
            continue;
        }
        found[0] += 1;
        if found[0] <= SHOWN {
            show(seed, &of_paper, &engine, &literal);
        }
    }
    found
}

/// A curve as the generator takes it.
fn wide((start, steps): &Curve) -> curve::Curve {
    curve::Curve {
        start: *start,
        steps: steps.iter().map(|&(end, price)| curve::Step { end, price }).collect(),
    }
}
