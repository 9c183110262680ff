//! Resources of an opening: points, costs and a bid near the default energy bid.

use super::random::Random;
use crate::costs::{default_curve, Costs, Point};
use crate::curve::{highest_bid_price, Curve, Step, LOWEST_BID_PRICE};
use std::collections::BTreeSet;

#[derive(Clone, Copy, Debug, PartialEq, Eq)]
pub enum Scale {
    /// Quantities and prices of one or two digits.
    Tiny,
    Typical,
    /// Values at their limits.
    Limits,
    /// Bid and default curve cross at every edge: up to 20 steps.
    Crossing,
}

#[derive(Clone, Debug)]
pub struct Drawn {
    pub bid: Curve,
    pub points: Vec<Point>,
    pub costs: Costs,
}

/// How many steps and points each resource has, where that is fixed.
#[derive(Clone, Copy, Debug, Default)]
pub struct Lengths {
    pub steps: Option<usize>,
    pub points: Option<usize>,
}

fn widest(scale: Scale) -> i128 {
    match scale {
        Scale::Tiny => 40,
        Scale::Typical => 60_000,
        Scale::Crossing => 100_000,
        Scale::Limits => 1_000_000,
    }
}

/// Rising quantities; now and then one at four fifths of the last, or just past it.
fn quantities(rng: &mut Random, scale: Scale, count: usize) -> Vec<i128> {
    let widest = widest(scale).max(3 * count as i128);
    let lowest = if rng.once_in(2) {
        0
    } else {
        rng.between(0, widest / 4)
    };
    let mut rising = rng.rising(count, lowest, widest);
    if scale == Scale::Limits && count > 1 {
        rising[0] = 0;
        *rising.last_mut().unwrap() = 1_000_000;
    }
    if count > 2 && rng.once_in(3) {
        let pmax = *rising.last().unwrap();
        let near = 4 * pmax / 5 + rng.between(-1, 1);
        let fits = rising[count - 3] < near && near < pmax;
        rising[count - 2] = if fits { near } else { rising[count - 2] };
    }
    rising
}

fn heat_rate(rng: &mut Random, scale: Scale, before: Option<i128>) -> i128 {
    match scale {
        Scale::Tiny => rng.between(1, 25),
        Scale::Typical => rng.between(7_000, 11_000),
        Scale::Limits => rng.pick(&[1, 2, 500, 50_000, 99_999, 100_000]),
        Scale::Crossing => before.unwrap_or(8_000) + rng.between(3, 60),
    }
}

fn points(rng: &mut Random, scale: Scale, count: usize) -> Vec<Point> {
    let mut points: Vec<Point> = Vec::new();
    let flat = rng.once_in(5).then(|| heat_rate(rng, scale, None));
    for m in quantities(rng, scale, count) {
        let before = points.last().map(|point| point.h);
        let h = match flat {
            Some(h) if scale != Scale::Crossing => h,
            _ => heat_rate(rng, scale, before),
        };
        points.push(Point { m, h });
    }
    points
}

fn costs(rng: &mut Random, scale: Scale) -> Costs {
    match scale {
        Scale::Tiny => Costs {
            gas: rng.pick(&[0, 1, 400, 1_000, 1_500]),
            rate: rng.pick(&[0, 1_000, 200_000]),
            allowance: rng.pick(&[0, 1, 1_000, 20_000]),
            om: rng.between(0, 3),
            msc: rng.between(0, 2),
            soc: rng.between(0, 2),
            fee: rng.pick(&[0, 0, 1, 2]),
        },
        Scale::Typical | Scale::Crossing => Costs {
            gas: rng.between(20_000, 80_000),
            rate: rng.pick(&[0, 53_000]),
            allowance: rng.between(0, 400_000),
            om: rng.between(0, 30_000),
            msc: 1_000,
            soc: 3_000,
            fee: rng.pick(&[0, 50, 5_000]),
        },
        Scale::Limits => Costs {
            gas: rng.pick(&[0, 1, 999_999, 1_000_000]),
            rate: rng.pick(&[0, 1, 200_000]),
            allowance: rng.pick(&[0, 1, 10_000_000]),
            om: rng.pick(&[0, 1_000_000]),
            msc: rng.pick(&[0, 1_000_000]),
            soc: rng.pick(&[0, 1_000_000]),
            fee: rng.pick(&[0, 1, 1_000_000]),
        },
    }
}

/// Steps enough and all prices apart.
fn suits(scale: Scale, curve: &Curve) -> bool {
    scale != Scale::Crossing || curve.prices().windows(2).all(|pair| pair[0] + 12 < pair[1])
}

fn default_energy_bid(
    rng: &mut Random,
    scale: Scale,
    count: usize,
) -> (Vec<Point>, Costs, Option<Curve>) {
    let mut drawn = (points(rng, scale, count), costs(rng, scale));
    for _ in 0..40 {
        match default_curve(&drawn.0, &drawn.1) {
            Ok(curve) if suits(scale, &curve) => break,
            _ => drawn = (points(rng, scale, count), costs(rng, scale)),
        }
    }
    let curve = default_curve(&drawn.0, &drawn.1);
    if curve == Err(8) {
        drawn.0.iter_mut().for_each(|point| point.h = 100_000);
    }
    let curve = default_curve(&drawn.0, &drawn.1).ok();
    (drawn.0, drawn.1, curve)
}

/// Edges on the default curve, some of them its own.
fn bid_edges(rng: &mut Random, default: &Curve, steps: usize) -> Vec<i128> {
    let (start, end) = (default.start, default.end());
    let steps = steps.min((end - start) as usize);
    let mut edges = BTreeSet::new();
    if rng.once_in(2) {
        edges.extend([start, end]);
    }
    while edges.len() < steps + 1 {
        let near = rng.pick(&default.edges()) + rng.between(-1, 1);
        let edge = if rng.once_in(3) {
            near.clamp(start, end)
        } else {
            rng.between(start, end)
        };
        edges.insert(edge);
    }
    edges.into_iter().collect()
}

fn bid_price(rng: &mut Random, scale: Scale, default: &Curve, month: i128) -> i128 {
    let highest = highest_bid_price(month);
    let near = rng.pick(&default.prices());
    let price = match rng.below(6) {
        0 => near,
        1 => near + rng.between(-1, 1),
        2 => near + rng.between(0, 2 * near.abs() + 10),
        3 if scale == Scale::Limits => rng.pick(&[LOWEST_BID_PRICE, highest]),
        3 => rng.between(-10, 10),
        _ if scale == Scale::Tiny => rng.between(-30, 150),
        _ => rng.between(-100_000, highest),
    };
    price.clamp(LOWEST_BID_PRICE, highest)
}

fn bid(rng: &mut Random, scale: Scale, default: &Curve, steps: usize, month: i128) -> Curve {
    let edges = bid_edges(rng, default, steps.max(1));
    let mut prices: Vec<i128> = edges[1..]
        .iter()
        .map(|_| bid_price(rng, scale, default, month))
        .collect();
    prices.sort();
    let steps = edges[1..]
        .iter()
        .zip(prices)
        .map(|(&end, price)| Step { end, price })
        .collect();
    Curve {
        start: edges[0],
        steps,
    }
}

/// Each bid step ends inside one default step and costs less than that step and more than the
/// one before it, so that a price changes at every edge of both.
fn crossing_bid(rng: &mut Random, default: &Curve, steps: usize) -> Option<Curve> {
    let prices = default.prices();
    let inner = &default.edges()[1..default.steps.len()];
    let room = default.edges();
    let mut edges = rng.rising(steps.max(2) - 1, room[0] + 1, default.end() - 1);
    edges.retain(|edge| !inner.contains(edge));
    let mut bid: Vec<Step> = Vec::new();
    for &end in &edges {
        let below = inner.iter().filter(|&&edge| edge < end).count();
        let lowest = if below == 0 {
            prices[0] - 12
        } else {
            prices[below - 1]
        };
        let before = bid.last().map_or(lowest, |step| step.price.max(lowest));
        bid.push(Step {
            end,
            price: before + 1,
        });
    }
    let fits = |step: &Step| step.price < default.price(step.end - 1).unwrap();
    if !bid.iter().all(fits) {
        return None;
    }
    let last = prices[prices.len() - 1] + rng.between(-1, 1);
    bid.push(Step {
        end: default.end(),
        price: last,
    });
    let curve = Curve {
        start: default.start,
        steps: bid,
    };
    (crate::curve::check_bid(&curve, 1) == Ok(())).then_some(curve)
}

fn plain_bid(rng: &mut Random, points: &[Point], steps: usize) -> Curve {
    let start = points.first().map_or(0, |point| point.m);
    let steps = (1..=steps as i128).map(|index| Step {
        end: start + index,
        price: index,
    });
    let curve = Curve {
        start,
        steps: steps.collect(),
    };
    if rng.once_in(4) {
        return Curve {
            start: start + 1,
            ..curve
        };
    }
    curve
}

pub fn draw(rng: &mut Random, scale: Scale, lengths: Lengths, month: i128) -> Drawn {
    let most = scale == Scale::Crossing || rng.once_in(6);
    let points = if most { 11 } else { rng.count(2, 11) };
    let steps = if most { 10 } else { rng.count(1, 10) };
    let (points, steps) = (
        lengths.points.unwrap_or(points),
        lengths.steps.unwrap_or(steps),
    );
    let (points, costs, default) = default_energy_bid(rng, scale, points);
    let crossing = match (&default, scale) {
        (Some(default), Scale::Crossing) => crossing_bid(rng, default, steps),
        _ => None,
    };
    let bid = match (crossing, &default) {
        (Some(bid), _) => bid,
        (None, Some(default)) => bid(rng, scale, default, steps, month),
        (None, None) => plain_bid(rng, &points, steps),
    };
    Drawn { bid, points, costs }
}
