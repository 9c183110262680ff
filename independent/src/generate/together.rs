//! Intervals by seed, of which the fewest net sellers that leave every binding constraint short are
//! asked, with a budget.

use super::limits::around;
use super::random::Random;
use crate::curve::{Curve, Step};
use crate::hour::{Interval, Offer, Opening, Output, Source};
use crate::numbers::{MILLION, MOST_QUANTITY};

#[derive(Clone, Debug)]
pub struct Case {
    pub opening: Opening,
    pub interval: Interval,
    /// How often the hour takes the interval before it is asked.
    pub taken: usize,
    pub budget: u64,
}

/// How many portfolios, resources and constraints there are.
struct Shape {
    portfolios: usize,
    resources: usize,
    constraints: usize,
}

/// Few sellers in most intervals, since each one more doubles the sets.
fn shape(rng: &mut Random) -> Shape {
    let portfolios = match rng.below(400) {
        0..=4 => 16,
        5..=11 => rng.count(13, 15),
        12..=51 => rng.count(9, 12),
        52..=171 => rng.count(6, 8),
        _ => rng.count(1, 5),
    };
    let resources = match rng.below(40) {
        0 => rng.count(20, 64),
        1..=8 => rng.count(1, 3),
        _ => portfolios + rng.below(4),
    };
    let constraints = match rng.below(60) {
        0 | 1 if portfolios < 9 => rng.count(31, 33),
        2 => 0,
        4..=10 => rng.count(5, 9),
        _ => rng.count(1, 4),
    };
    Shape {
        portfolios,
        resources,
        constraints,
    }
}

/// An opening in which resource r belongs to portfolio r, and those past the portfolios to any.
fn opening(rng: &mut Random, shape: &Shape) -> Opening {
    let curve = |price: i128| Curve {
        start: 0,
        steps: vec![Step { end: 10, price }],
    };
    let buyers = rng.pick(&[2, 4, 9, 100, 100]);
    let mut offers = Vec::new();
    for resource in 0..shape.resources {
        let portfolio = match resource < shape.portfolios {
            true => resource,
            false => rng.below(shape.portfolios),
        };
        offers.push(Offer {
            portfolio: portfolio as i128,
            bid: curve(200),
            source: Source::Pack(curve(100)),
        });
    }
    Opening {
        month: 25,
        sellers: (0..shape.portfolios)
            .map(|_| i128::from(!rng.once_in(buyers)))
            .collect(),
        offers,
    }
}

/// How effective resources are.
#[derive(Clone, Copy)]
enum Factors {
    /// -1 each.
    Unit,
    /// -1 or 0.
    UnitOrNone,
    /// Anything, one in four above 0.
    Wide,
    /// All as far below 0 as can be.
    Lowest,
}

fn factor(rng: &mut Random, factors: Factors) -> i128 {
    match factors {
        Factors::Unit => -1,
        Factors::UnitOrNone => rng.pick(&[-1, 0]),
        Factors::Wide if rng.once_in(4) => rng.between(0, MILLION),
        Factors::Wide => rng.between(-MILLION, 0),
        Factors::Lowest => -MILLION,
    }
}

/// Shadow prices, of which some, or all, don't bind.
fn shadow_prices(rng: &mut Random, count: usize) -> Vec<i128> {
    let idle = rng.pick(&[2, 4, 9, 30]);
    let none_binds = rng.once_in(24);
    let price = |rng: &mut Random| match none_binds || rng.once_in(idle) {
        true => 0,
        false => rng.pick(&[1, 2, 500_000, 100_000_000]),
    };
    (0..count).map(|_| price(rng)).collect()
}

fn output(rng: &mut Random, most: i128) -> Output {
    let available = rng.between(0, most);
    Output {
        lmp: rng.between(-9, 9),
        dispatch: match rng.once_in(2) {
            true => available,
            false => rng.between(0, available),
        },
        available,
        floor: match rng.once_in(3) {
            true => rng.between(0, available),
            false => 0,
        },
    }
}

/// Constraints, resources and factors by chance.
fn by_chance(rng: &mut Random, shape: &Shape) -> Interval {
    let most = rng.pick(&[1, 3, 9, 9, 40_000, MOST_QUANTITY]);
    let factors = rng.pick(&[
        Factors::Unit,
        Factors::Unit,
        Factors::UnitOrNone,
        Factors::UnitOrNone,
        Factors::Wide,
        Factors::Lowest,
    ]);
    let row = |rng: &mut Random| {
        let factors = |_| factor(rng, factors);
        (0..shape.constraints).map(factors).collect()
    };
    let mut outputs: Vec<Output> = (0..shape.resources).map(|_| output(rng, most)).collect();
    // small ones first, so that larger sets work before smaller ones
    if rng.once_in(2) {
        outputs.sort_by_key(|output| output.available);
    }
    Interval {
        shadow_prices: shadow_prices(rng, shape.constraints),
        outputs,
        shift_factors: (0..shape.resources).map(|_| row(rng)).collect(),
        parameter: rng.between(0, 100),
    }
}

/// Dispatch with which demand on the first constraint, where all have effectiveness 1, is what a set
/// of resources leaves of supply, one more or one less.
fn at_equality(rng: &mut Random, interval: &mut Interval) {
    let left = |output: &Output, withheld: bool| match withheld {
        true => output.floor,
        false => output.available,
    };
    let withheld = rng.pick(&[2, 3, 9]);
    let outputs = &mut interval.outputs;
    let sum: i128 = outputs
        .iter()
        .map(|output| left(output, !rng.once_in(withheld)))
        .sum();
    let mut wanted = sum + rng.pick(&[-1, 0, 1, 1]);
    for output in outputs.iter_mut() {
        output.dispatch = wanted.clamp(0, output.available);
        wanted -= output.dispatch;
    }
}

/// A seller for each of the first constraints: without its resource each is short. Others relieve
/// some of them too, by less than is left over.
fn one_for_each(rng: &mut Random, shape: &Shape) -> Interval {
    let most = shape.constraints.min(shape.resources);
    let needed = rng.count(most.min(2), most.min(6));
    let mut interval = by_chance(rng, shape);
    for (index, output) in interval.outputs.iter_mut().enumerate() {
        output.available = if index < needed { 100 } else { 1 };
        output.dispatch = output.available;
        output.floor = 0;
    }
    let slack = rng.pick(&[0, 0, 1, 50]);
    for (resource, row) in interval.shift_factors.iter_mut().enumerate() {
        for (constraint, factor) in row.iter_mut().enumerate() {
            let own = constraint % needed == resource;
            *factor = if own { -2 } else { -rng.pick(&[0, 0, 0, 1]) };
        }
        interval.outputs[resource].dispatch -= slack.min(interval.outputs[resource].dispatch);
    }
    let prices = interval.shadow_prices.iter_mut();
    prices.for_each(|price| *price = 1 - i128::from(rng.once_in(12)));
    interval
}

/// One value at a limit or past it.
fn change_value(rng: &mut Random, interval: &mut Interval) {
    let (resources, constraints) = (interval.outputs.len(), interval.shadow_prices.len());
    if resources == 0 {
        return;
    }
    let output = &mut interval.outputs[rng.below(resources)];
    let available = output.available;
    match rng.below(7) {
        0 => output.lmp = around(rng, -100_000_000, 100_000_000, output.lmp),
        1 => output.dispatch = around(rng, 0, available, output.dispatch),
        2 => output.available = around(rng, 0, MOST_QUANTITY, available),
        3 => output.floor = around(rng, 0, available, output.floor),
        4 if constraints > 0 => {
            let price = &mut interval.shadow_prices[rng.below(constraints)];
            *price = around(rng, 0, 100_000_000, *price);
        }
        5 if constraints > 0 => {
            let factor = &mut interval.shift_factors[rng.below(resources)][rng.below(constraints)];
            *factor = around(rng, -MILLION, MILLION, *factor);
        }
        _ => interval.parameter = around(rng, 0, 100, interval.parameter),
    }
}

/// Another number of resources or constraints.
fn change_counts(rng: &mut Random, interval: &mut Interval) {
    let (resources, constraints) = (interval.outputs.len(), interval.shadow_prices.len());
    let (resources, constraints) = match rng.below(4) {
        0 => (resources + 1, constraints),
        1 => (resources - 1, constraints),
        2 => (resources, rng.pick(&[32, 33, 64, 288])),
        _ => (rng.pick(&[0, 65, 256 + resources]), 33),
    };
    let output = output(rng, 9);
    interval.outputs.resize(resources, output);
    let price = rng.pick(&[0, 1]);
    interval.shadow_prices.resize(constraints, price);
    interval.shift_factors.resize(resources, Vec::new());
    let rows = interval.shift_factors.iter_mut();
    rows.for_each(|row| row.resize(constraints, -1));
}

/// Around the number of a set, of all sets, or any.
fn budget(rng: &mut Random, sellers: usize) -> u64 {
    let sets = (1u64 << sellers) - 1;
    match rng.below(10) {
        0 => 0,
        1 => rng.below(4) as u64,
        2 | 3 => rng.below(sets as usize + 1) as u64,
        4 => sets.saturating_sub(1),
        5 => sets,
        6 => sets + 1,
        7 => rng.pick(&[u64::MAX, u64::MAX - 1, 1 << 63, 1 << 32]),
        _ => rng.between(0, u64::MAX.into()) as u64,
    }
}

/// Equal seeds give equal cases.
pub fn case(seed: u64) -> Case {
    let rng = &mut Random::new(seed);
    let shape = shape(rng);
    let mut opening = opening(rng, &shape);
    let mut interval = match rng.below(10) {
        0..=3 if shape.constraints > 0 => {
            if !rng.once_in(4) {
                opening.sellers.fill(1);
            }
            one_for_each(rng, &shape)
        }
        kind => {
            let mut interval = by_chance(rng, &shape);
            let mut factors = interval.shift_factors.iter().flatten();
            if kind < 8 && factors.all(|&factor| factor == -1 || factor == 0) {
                at_equality(rng, &mut interval);
            }
            interval
        }
    };
    match rng.below(12) {
        0 => change_value(rng, &mut interval),
        1 if rng.once_in(2) => change_counts(rng, &mut interval),
        1 => {
            change_counts(rng, &mut interval);
            change_value(rng, &mut interval);
        }
        _ => {}
    }
    let sellers = opening.sellers.iter().filter(|&&seller| seller == 1);
    let budget = budget(rng, sellers.count());
    Case {
        opening,
        interval,
        taken: rng.pick(&[0, 0, 0, 0, 1, 4, 5]),
        budget,
    }
}
