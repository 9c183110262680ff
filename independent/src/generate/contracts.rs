//! Pairs of parts of a contracted unit's curve by seed, as a caller hands them over; and parts of
//! a unit in an hour.

use super::limits::{far, of_64_bits, outside};
use super::random::Random;
use crate::contract::Contract;
use crate::curve::{Curve, Step, FURTHEST_DEFAULT_PRICE};
use crate::numbers::MOST_QUANTITY;

/// A part in numbers: end and price of its steps in turn, and how many steps it is said to have.
#[derive(Clone, Debug)]
pub struct Part {
    pub start: i128,
    pub count: usize,
    pub numbers: Vec<i128>,
}

/// A count above it is as good as it: no curve has so many steps.
const MANY: usize = 40;

impl Part {
    /// The curve that the numbers are: past their end they are 0.
    pub fn curve(&self) -> Curve {
        let number = |at: usize| self.numbers.get(at).copied().unwrap_or(0);
        let step = |index: usize| Step {
            end: number(2 * index),
            price: number(2 * index + 1),
        };
        Curve {
            start: self.start,
            steps: (0..self.count.min(MANY)).map(step).collect(),
        }
    }

    /// Whether it has just the numbers of its steps.
    pub fn is_whole(&self) -> bool {
        self.count.checked_mul(2) == Some(self.numbers.len())
    }
}

#[derive(Clone, Debug)]
pub struct Case {
    pub proxy: Part,
    pub above: Part,
}

impl Case {
    pub fn contract(&self) -> Contract {
        Contract {
            proxy: self.proxy.curve(),
            above: self.above.curve(),
        }
    }
}

// ---- sound parts

/// How many steps each part has, most of them 11 together at most.
fn counts(rng: &mut Random) -> (usize, usize) {
    match rng.below(8) {
        0 => {
            let first = rng.count(1, 10);
            (first, 11 - first)
        }
        1 => rng.pick(&[(6, 6), (11, 1), (1, 11), (7, 5), (11, 11)]),
        2 => (rng.count(1, 11), rng.count(1, 11)),
        _ => (rng.count(1, 5), rng.count(1, 6)),
    }
}

/// Edges close to each other, in a market's range, or from one limit to the other.
fn edges(rng: &mut Random, count: usize) -> Vec<i128> {
    match rng.below(3) {
        0 => rng.rising(count, 0, 40),
        1 => rng.rising(count, 0, 60_000),
        _ => {
            let inner = rng.rising(count - 2, 1, MOST_QUANTITY - 1);
            [vec![0], inner, vec![MOST_QUANTITY]].concat()
        }
    }
}

/// Prices that never fall within either part; now and then not from one to the other either.
fn prices(rng: &mut Random, first: usize, count: usize) -> Vec<i128> {
    let furthest = FURTHEST_DEFAULT_PRICE;
    let (lowest, highest) = rng.pick(&[
        (-4, 4),
        (-900, -1),
        (-200_000, 900_000),
        (-furthest, furthest),
    ]);
    let price = |_| match rng.below(8) {
        0 => rng.pick(&[lowest, highest]),
        _ => rng.between(lowest, highest),
    };
    let mut prices: Vec<i128> = (0..count).map(price).collect();
    prices[..first].sort();
    prices[first..].sort();
    if rng.once_in(3) {
        prices.sort();
    }
    prices
}

fn sound(rng: &mut Random) -> Case {
    let (first, second) = counts(rng);
    let edges = edges(rng, first + second + 1);
    let prices = prices(rng, first, first + second);
    let part = |from: usize, count: usize| Part {
        start: edges[from],
        count,
        numbers: (from..from + count)
            .flat_map(|index| [edges[index + 1], prices[index]])
            .collect(),
    };
    Case {
        proxy: part(0, first),
        above: part(first, second),
    }
}

// ---- changed parts

/// An edge at a limit or past it, or one that doesn't rise.
fn change_edge(rng: &mut Random, part: &mut Part) {
    let step = rng.below(part.numbers.len() / 2);
    let before = match step {
        0 => part.start,
        _ => part.numbers[2 * step - 2],
    };
    let end = &mut part.numbers[2 * step];
    *end = match rng.below(2) {
        0 => outside(rng, 0, MOST_QUANTITY, *end),
        _ => of_64_bits(before - rng.between(0, 1)),
    };
}

/// A price at a limit or past it, or one that falls.
fn change_price(rng: &mut Random, part: &mut Part) {
    let furthest = FURTHEST_DEFAULT_PRICE;
    let step = rng.below(part.numbers.len() / 2);
    let before = part.numbers[(2 * step).max(2) - 1];
    let price = &mut part.numbers[2 * step + 1];
    *price = match rng.below(2) {
        0 => outside(rng, -furthest, furthest, *price),
        _ => of_64_bits(before - rng.between(0, 1)),
    };
}

/// No step, more than there is room for, or so many that sums or smaller numbers wrap around.
fn other_count(rng: &mut Random) -> usize {
    rng.pick(&[0, 0, 12, 13, 256, 1 << 32 | 1, usize::MAX - 1, usize::MAX])
}

fn change(rng: &mut Random, part: &mut Part) {
    let has_step = part.numbers.len() > 1;
    match rng.below(8) {
        0 => part.count = other_count(rng),
        1 => part.count = 12,
        2 | 3 if has_step => change_edge(rng, part),
        4 | 5 if has_step => change_price(rng, part),
        6 => part.start = of_64_bits(part.start + rng.pick(&[-7, -1, -1, 1, 1, 7])),
        7 if rng.once_in(6) => part.start = far(rng),
        _ => {
            let left_out = rng.pick(&[1, 1, 2, 3]);
            let kept = part.numbers.len().saturating_sub(left_out);
            part.numbers.truncate(kept);
        }
    }
}

/// Numbers past the steps, which nobody looks at.
fn add_numbers(rng: &mut Random, part: &mut Part) {
    let count = rng.count(1, 4);
    let more = (0..count).map(|_| far(rng));
    part.numbers.extend(more);
}

fn either<'a>(rng: &mut Random, case: &'a mut Case) -> &'a mut Part {
    match rng.once_in(2) {
        true => &mut case.proxy,
        false => &mut case.above,
    }
}

/// Equal seeds give equal cases.
pub fn case(seed: u64) -> Case {
    let rng = &mut Random::new(seed);
    let mut case = sound(rng);
    for _ in 0..rng.pick(&[0, 0, 0, 1, 1, 2]) {
        let part = either(rng, &mut case);
        change(rng, part);
    }
    if rng.once_in(8) {
        let part = either(rng, &mut case);
        add_numbers(rng, part);
    }
    case
}

// ---- parts of a unit in an hour

/// Steps up to a quantity, and those above it.
fn divided(curve: &Curve, capacity: i128) -> Contract {
    let (mut proxy, mut above) = (Vec::new(), Vec::new());
    let lower_edges = curve.edges();
    for (&lower, step) in lower_edges.iter().zip(&curve.steps) {
        if lower < capacity {
            let end = step.end.min(capacity);
            proxy.push(Step { end, ..*step });
        }
        if capacity < step.end {
            above.push(*step);
        }
    }
    Contract {
        proxy: Curve {
            start: curve.start,
            steps: proxy,
        },
        above: Curve {
            start: capacity,
            steps: above,
        },
    }
}

/// The parts of a contracted unit whose default curve would be this one without a contract: its
/// proxy prices are higher or lower. None where the parts can't be joined.
pub fn parts_of(rng: &mut Random, curve: &Curve) -> Option<Contract> {
    let (start, end) = (curve.start, curve.end());
    if end - start < 2 {
        return None;
    }
    let capacity = match rng.below(2) {
        0 => rng.pick(&curve.edges()).clamp(start + 1, end - 1),
        _ => rng.between(start + 1, end - 1),
    };
    let mut contract = divided(curve, capacity);
    let third = curve.prices()[0].abs() / 3;
    let moved = rng.pick(&[0, 1, -1, third, third, -third]);
    let furthest = FURTHEST_DEFAULT_PRICE;
    for step in &mut contract.proxy.steps {
        step.price = (step.price + moved).clamp(-furthest, furthest);
    }
    contract.join().is_ok().then_some(contract)
}
