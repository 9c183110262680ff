//! Hours by seed whose bids are classroom bids, with costs and market data of their size: as a text,
//! and as a list of calls in numbers, in which some resources have packs.

use super::calls::{self, of_tables};
use super::hours::add_resource;
use super::limits::change_field;
use super::model::{empty_interval, empty_opening, rows_mut, Model, Part};
use super::random::Random;
use super::resources::Drawn;
use crate::costs::{Costs, Point};
use crate::curve::{Curve, Step};
use crate::hour::{Opening, Source};
use crate::text::{CONSTRAINTS, FACTORS, MONTH, OUTPUTS, PARAMETER, PORTFOLIOS};

#[derive(Clone, Debug)]
pub struct Case {
    /// The place in the list of each resource's bid.
    pub places: Vec<usize>,
    pub text: Vec<u8>,
    pub list: calls::Case,
}

/// Where the longest bids end.
const LAST: i128 = 300;

/// How many places there are.
const PLACES: u64 = 37;

/// How many portfolios and constraints there are.
struct Shape {
    portfolios: usize,
    constraints: usize,
}

// ---- the opening

/// The seed gives the first place, so that neighbours have all of them.
fn places(rng: &mut Random, seed: u64) -> Vec<usize> {
    let first = (seed % PLACES) as usize;
    let others = rng.below(4);
    let place = |_| rng.below(PLACES as usize);
    [vec![first], (0..others).map(place).collect()].concat()
}

/// Where a default curve starts and ends: round every bid, or now and then not round every one.
fn span(rng: &mut Random) -> (i128, i128) {
    match rng.below(30) {
        0 => (1, LAST),
        1 => (0, LAST - 1),
        2 => (0, rng.pick(&[99, 100, 199, 200])),
        3 => (0, LAST + 1),
        _ => (0, LAST),
    }
}

/// Quantities between a start and an end, where ends of bids are likely.
fn inner(rng: &mut Random, start: i128, end: i128) -> Vec<i128> {
    let mut inner: Vec<i128> = [50, 100, 150, 200, 250].into();
    inner.retain(|&quantity| start < quantity && quantity < end && rng.once_in(3));
    inner
}

/// A resource with a bid, and costs that come to prices up to the highest of bids and above it.
fn drawn(rng: &mut Random, bid: &Curve) -> Drawn {
    let (start, end) = span(rng);
    let heat = rng.between(1_000, 12_000);
    let quantities = [vec![start], inner(rng, start, end), vec![end]].concat();
    let point = |m: i128| Point {
        m,
        h: heat + rng.between(0, 40),
    };
    Drawn {
        bid: bid.clone(),
        points: quantities.into_iter().map(point).collect(),
        costs: Costs {
            gas: rng.between(0, 22_000_000 / heat) / rng.pick(&[1, 2, 4]),
            om: rng.pick(&[0, 0, 0, 9_090, 9_091, 18_181]),
            fee: rng.pick(&[0, 1, 50]),
            ..Costs::default()
        },
    }
}

fn opening(rng: &mut Random, shape: &Shape, bids: &[&Curve]) -> Part {
    let mut opening = empty_opening();
    let month = match rng.below(40) {
        0 => rng.pick(&[0, 1_201]),
        _ => rng.pick(&[1, 12, 13, 24, 25, 1_200]),
    };
    rows_mut(&mut opening, MONTH).push(vec![month]);
    for portfolio in 0..shape.portfolios as i128 {
        let seller = match rng.below(60) {
            0 => 2,
            chance => i128::from(chance > 8),
        };
        rows_mut(&mut opening, PORTFOLIOS).push(vec![portfolio, seller]);
    }
    for bid in bids {
        let portfolio = rng.below(shape.portfolios) as i128;
        add_resource(&mut opening, portfolio, &drawn(rng, bid));
    }
    opening
}

/// A price that classroom bids have, one to its side, between two, below all or above all.
fn price_near(rng: &mut Random) -> i128 {
    let price = rng.pick(&[-5_000, -5_000, 0, 5_000, 5_000, 10_000, 15_000, 20_000]);
    price + rng.pick(&[0, 0, -1, 1])
}

/// A default curve that no costs give: prices below 0, or just those of bids.
fn pack(rng: &mut Random) -> Curve {
    let (start, end) = span(rng);
    let ends = [inner(rng, start, end), vec![end]].concat();
    let mut prices: Vec<i128> = ends.iter().map(|_| price_near(rng)).collect();
    prices.sort();
    let steps = ends.into_iter().zip(prices);
    Curve {
        start,
        steps: steps.map(|(end, price)| Step { end, price }).collect(),
    }
}

fn add_packs(rng: &mut Random, opening: &mut Opening) {
    for offer in &mut opening.offers {
        if rng.once_in(2) {
            offer.source = Source::Pack(pack(rng));
        }
    }
}

// ---- intervals

fn output(rng: &mut Random) -> [i128; 4] {
    let available = rng.pick(&[LAST, LAST, 100, 200, 1_000]);
    let dispatch = match rng.below(5) {
        0 => 0,
        1 => available,
        _ => rng.between(1, available),
    };
    let floor = match rng.below(3) {
        0 => rng.between(0, available),
        _ => 0,
    };
    // the competitive price is lower by half a shadow price or by a whole one
    let lmp = price_near(rng) + rng.pick(&[0, 5_000, 10_000]);
    [lmp, dispatch, available, floor]
}

fn interval(rng: &mut Random, shape: &Shape, resources: usize) -> Part {
    let mut interval = empty_interval();
    for constraint in 0..shape.constraints as i128 {
        let shadow = rng.pick(&[0, 1, 10_000, 10_000, 10_000, 20_000]);
        rows_mut(&mut interval, CONSTRAINTS).push(vec![constraint, shadow]);
    }
    for resource in 0..resources as i128 {
        let row = [&[resource], &output(rng)[..]].concat();
        rows_mut(&mut interval, OUTPUTS).push(row);
        for constraint in 0..shape.constraints as i128 {
            let factor = rng.pick(&[0, 500_000, -1, -500_000, -500_000, -500_000, -1_000_000]);
            if factor != 0 {
                rows_mut(&mut interval, FACTORS).push(vec![resource, constraint, factor]);
            }
        }
    }
    let parameter = rng.pick(&[0, 0, 1, 100]);
    rows_mut(&mut interval, PARAMETER).push(vec![parameter]);
    interval
}

/// The tables of an hour.
fn model(rng: &mut Random, bids: &[&Curve]) -> Model {
    let shape = Shape {
        portfolios: rng.count(1, 3),
        constraints: rng.pick(&[0, 1, 1, 1, 2, 3]),
    };
    let mut parts = vec![opening(rng, &shape, bids)];
    for _ in 0..rng.count(1, 5) {
        parts.push(interval(rng, &shape, bids.len()));
    }
    Model { parts }
}

/// Equal seeds give equal cases of equal lists of bids.
pub fn case(seed: u64, bids: &[Curve]) -> Case {
    let rng = &mut Random::new(seed);
    let places = places(rng, seed);
    let of_resources: Vec<&Curve> = places.iter().map(|&place| &bids[place]).collect();
    let mut model = model(rng, &of_resources);
    let list = of_tables(rng, &model, add_packs);
    // in the text alone a field of an interval is at a limit or past it
    if rng.once_in(8) {
        let part = rng.count(1, model.parts.len() - 1);
        change_field(rng, &mut model, part);
    }
    Case {
        places,
        text: model.bytes(),
        list,
    }
}
