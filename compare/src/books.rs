//! Books of gas prices, asked in both markets through the engine's static library and through the independent implementation.

use crate::calls::small;
use independent::gas::{self, MARKETS};
use independent::generate::books::{case, Case};
use noskjerf::judgement::{Charges, Point};

/// Of the books that differ, at most so many are shown by each thread.
const SHOWN: usize = 3;

/// What a book answers for a market and a trading day.
#[derive(Debug, PartialEq)]
struct Answer {
    /// The numbers of the run.
    run: Result<Vec<u32>, u8>,
    price: Result<u32, u8>,
    /// The default curve on the costs: its start, and the end and price of each step.
    curve: Result<(i128, Vec<(i128, i128)>), u8>,
}

/// The costs as the engine takes them.
pub fn costs(case: &Case) -> (Vec<Point>, Charges) {
    let point = |point: &independent::costs::Point| Point {
        mw: small(point.m),
        heat: small(point.h),
    };
    let charges = Charges {
        gas: small(case.costs.gas),
        rate: small(case.costs.rate),
        allowance: small(case.costs.allowance),
        om: small(case.costs.om),
        msc: small(case.costs.msc),
        soc: small(case.costs.soc),
        fee: small(case.costs.fee),
    };
    (case.points.iter().map(point).collect(), charges)
}

fn engine(case: &Case, market: gas::Market) -> Answer {
    let book = noskjerf::gas::Book {
        day_ahead: &case.book.day_ahead,
        real_time: &case.book.real_time,
    };
    let market = match market {
        gas::Market::DayAhead => noskjerf::gas::Market::DayAhead,
        gas::Market::RealTime => noskjerf::gas::Market::RealTime,
    };
    let (points, charges) = costs(case);
    let curve = book.default_curve(market, case.day, &points, &charges);
    let steps = |steps: &[noskjerf::Step]| steps.iter().map(|step| (step.end.into(), step.price.into())).collect();
    Answer {
        run: book.run(market, case.day).map(<[u32]>::to_vec).map_err(|refused| refused.number),
        price: book.price(market, case.day).map_err(|refused| refused.number),
        curve: curve
            .map(|curve| (curve.start.into(), steps(&curve.steps)))
            .map_err(|refused| refused.number),
    }
}

fn literal(case: &Case, market: gas::Market) -> Answer {
    let run = case.book.run(market, case.day);
    let numbers = |run: Vec<gas::Entry>| run.iter().flat_map(|entry| [entry.day, entry.price]).collect();
    let curve = case.book.default_curve(market, case.day, &case.points, &case.costs);
    Answer {
        run: run.map(numbers),
        price: case.book.price(market, case.day),
        curve: curve.map(|curve| (curve.start, curve.steps.iter().map(|step| (step.end, step.price)).collect())),
    }
}

fn show(seed: u64, case: &Case, market: gas::Market) {
    println!("book {seed}, {market:?}: {case:?}");
    println!("  engine      {:?}", engine(case, market));
    println!("  independent {:?}", literal(case, market));
}

/// How many books of these seeds differ.
pub fn compare(seeds: impl Iterator<Item = u64>) -> usize {
    let mut found = 0;
    for seed in seeds {
        let case = case(seed);
        let differing = MARKETS.into_iter().find(|&market| engine(&case, market) != literal(&case, market));
        let Some(market) = differing else { continue };
        found += 1;
        if found <= SHOWN {
            show(seed, &case, market);
        }
    }
    found
}
