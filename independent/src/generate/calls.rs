//! Lists of calls in numbers by seed: an opening with costs and packs, then intervals and passes in
//! any order, refused ones among them.

use super::contracts::parts_of;
use super::hours::{self, Shape};
use super::limits::{
    change_fields_of_a_part, change_relation, change_some_field, far, of_64_bits, outside,
};
use super::model::{part_bytes, Model};
use super::random::Random;
use crate::curve::{Curve, Step, FURTHEST_DEFAULT_PRICE};
use crate::hour::{Interval, Offer, Opening, Output, Source};
use crate::numbers::MOST_QUANTITY;
use crate::passes::Call;
use crate::text::Reader;

#[derive(Clone, Debug)]
pub struct Case {
    pub opening: Opening,
    pub calls: Vec<Call>,
}

/// How many calls, and so how many intervals or passes are drawn.
fn length(rng: &mut Random) -> usize {
    match rng.below(10) {
        0 => 0,
        1..=4 => rng.count(1, 5),
        5..=8 => rng.count(4, 10),
        _ => rng.count(10, 20),
    }
}

fn shape(rng: &mut Random) -> Shape {
    let mut shape = hours::shape(rng);
    shape.intervals = length(rng);
    if shape.resources > 8 {
        shape.intervals = shape.intervals.min(6);
    }
    shape
}

/// The tables of an hour, now and then with values at their limits or past them.
fn model(rng: &mut Random, shape: &Shape) -> Model {
    let mut model = hours::hour(rng, shape);
    match rng.below(12) {
        0 => change_some_field(rng, &mut model),
        1 => change_fields_of_a_part(rng, &mut model),
        2 => change_relation(rng, &mut model),
        _ => {}
    }
    model
}

// ---- packs

/// The steps of a default curve, with prices moved, the last ones all alike, or at their limits.
fn other_prices(rng: &mut Random, curve: &mut Curve) {
    match rng.below(5) {
        0 => {
            let moved = rng.between(-50, 50);
            curve.steps.iter_mut().for_each(|step| step.price += moved);
        }
        1 => {
            let first = rng.below(curve.steps.len());
            let price = curve.steps[first].price;
            let later = curve.steps[first..].iter_mut();
            later.for_each(|step| step.price = price);
        }
        2 => curve.steps[0].price = -FURTHEST_DEFAULT_PRICE,
        3 => {
            let last = curve.steps.len() - 1;
            curve.steps[last].price = FURTHEST_DEFAULT_PRICE;
        }
        _ => {}
    }
}

/// Steps divided until there are 11, where there is room for them.
fn divide_steps(rng: &mut Random, curve: &mut Curve) {
    for _ in 0..40 {
        if curve.steps.len() == 11 {
            return;
        }
        let at = rng.below(curve.steps.len());
        let (lower, step) = (curve.edges()[at], curve.steps[at]);
        if step.end - lower > 1 {
            let end = rng.between(lower + 1, step.end - 1);
            curve.steps.insert(at, Step { end, ..step });
        }
    }
}

/// Edges further out.
fn widen(rng: &mut Random, curve: &mut Curve) {
    let last = curve.steps.len() - 1;
    curve.start = rng.pick(&[0, curve.start, curve.start / 2]);
    let end = curve.steps[last].end;
    curve.steps[last].end = rng.pick(&[MOST_QUANTITY, end, (end + 7).min(MOST_QUANTITY)]);
}

/// A curve that no pack may have, or one that ends or starts too early or too late.
fn break_curve(rng: &mut Random, curve: &mut Curve, most: usize) {
    let at = rng.below(curve.steps.len());
    let last = curve.steps.len() - 1;
    match rng.below(8) {
        0 => curve.steps.clear(),
        1 => {
            let length = rng.pick(&[most + 1, most + 1, most + 2, 40, 257]);
            curve.steps.resize(length, curve.steps[last]);
        }
        2 => curve.steps[at].end = outside(rng, 0, MOST_QUANTITY, curve.steps[at].end),
        3 => curve.start = of_64_bits(curve.steps[0].end + rng.between(-1, 1)),
        4 => {
            let furthest = FURTHEST_DEFAULT_PRICE;
            curve.steps[at].price = outside(rng, -furthest, furthest, curve.steps[at].price);
        }
        5 => curve.steps[at].price = of_64_bits(curve.steps[0].price - rng.between(0, 1)),
        6 => curve.steps[last].end = of_64_bits(curve.steps[last].end - 1),
        _ => curve.start = of_64_bits(curve.start + 1),
    }
}

/// A pack near the default curve of the costs, where these give one; or the parts of a contracted
/// unit near it.
fn pack(rng: &mut Random, offer: &mut Offer) {
    let Ok(mut curve) = offer.source.default_energy_bid() else {
        return;
    };
    if rng.once_in(3) {
        divide_steps(rng, &mut curve);
    }
    if rng.once_in(3) {
        widen(rng, &mut curve);
    }
    if rng.once_in(2) {
        other_prices(rng, &mut curve);
    }
    let contract = rng.once_in(3).then(|| parts_of(rng, &curve)).flatten();
    offer.source = contract.map_or(Source::Pack(curve), Source::Contract);
}

fn add_packs(rng: &mut Random, opening: &mut Opening) {
    let style = rng.below(4);
    for offer in &mut opening.offers {
        if style == 0 || style == 1 && rng.once_in(2) {
            pack(rng, offer);
        }
    }
    if style < 2 && rng.once_in(6) && !opening.offers.is_empty() {
        let at = rng.below(opening.offers.len());
        if let Source::Pack(curve) = &mut opening.offers[at].source {
            break_curve(rng, curve, 11);
        }
    }
}

// ---- openings

/// More portfolios or resources than there is room for, or none.
fn change_counts(rng: &mut Random, opening: &mut Opening) {
    if rng.once_in(2) {
        let count = rng.pick(&[0, 16, 17, 18, 300]);
        opening.sellers.resize(count, 1);
    } else if let Some(offer) = opening.offers.last().cloned() {
        let count = rng.pick(&[0, 64, 65, 66, 300]);
        opening.offers.resize(count, offer);
    }
}

/// One resource with more steps or points than there is room for, none, or one far outside.
fn change_offer(rng: &mut Random, offer: &mut Offer) {
    if rng.once_in(2) && !offer.bid.steps.is_empty() {
        break_curve(rng, &mut offer.bid, 10);
        return;
    }
    match &mut offer.source {
        Source::Costs(points, costs) => match points.last().copied() {
            Some(last) if rng.once_in(2) => {
                let count = rng.pick(&[0, 1, 12, 13, 300]);
                points.resize(count, last);
            }
            Some(_) if rng.once_in(2) => {
                let at = rng.below(points.len());
                points[at].m = far(rng);
                points[at].h = far(rng);
            }
            _ => costs.fee = far(rng),
        },
        Source::Pack(curve) if !curve.steps.is_empty() => break_curve(rng, curve, 11),
        Source::Pack(_) | Source::Contract(_) => {}
    }
}

fn change_opening(rng: &mut Random, opening: &mut Opening) {
    match rng.below(8) {
        0 => opening.month = outside(rng, 1, 1200, opening.month),
        1 if !opening.sellers.is_empty() => {
            let at = rng.below(opening.sellers.len());
            opening.sellers[at] = outside(rng, 0, 1, opening.sellers[at]);
        }
        2 if !opening.offers.is_empty() => {
            let at = rng.below(opening.offers.len());
            let highest = opening.sellers.len() as i128 - 1;
            opening.offers[at].portfolio = outside(rng, 0, highest, opening.offers[at].portfolio);
        }
        3 => change_counts(rng, opening),
        _ if !opening.offers.is_empty() => {
            let at = rng.below(opening.offers.len());
            for _ in 0..rng.pick(&[1, 1, 2, 3]) {
                change_offer(rng, &mut opening.offers[at]);
            }
        }
        _ => {}
    }
}

// ---- intervals and passes

/// Another number of resources or constraints, at their room or past it.
fn change_room(rng: &mut Random, values: &mut Interval) {
    let (resources, constraints) = (values.outputs.len(), values.shadow_prices.len());
    let zero = Output {
        lmp: 0,
        dispatch: 0,
        available: 0,
        floor: 0,
    };
    let (resources, constraints) = match rng.below(6) {
        0 => (resources + 1, constraints),
        1 => (resources.saturating_sub(1), constraints),
        2 => (rng.pick(&[0, 64, 65, 300]), constraints),
        3 => (resources, 32),
        _ => (resources, rng.pick(&[33, 34, 64, 300])),
    };
    values.outputs.resize(resources, zero);
    values.shadow_prices.resize(constraints, 1);
    values.shift_factors.resize(resources, Vec::new());
    let rows = values.shift_factors.iter_mut();
    rows.for_each(|row| row.resize(constraints, -1));
}

/// A shadow price, shift factor or parameter at a limit or past it.
fn change_price(rng: &mut Random, values: &mut Interval) {
    let (resources, constraints) = (values.outputs.len(), values.shadow_prices.len());
    match rng.below(3) {
        0 if constraints > 0 => {
            let shadow = &mut values.shadow_prices[rng.below(constraints)];
            *shadow = outside(rng, 0, 100_000_000, *shadow);
        }
        1 if resources > 0 && constraints > 0 => {
            let factor = &mut values.shift_factors[rng.below(resources)][rng.below(constraints)];
            *factor = outside(rng, -1_000_000, 1_000_000, *factor);
        }
        _ => values.parameter = outside(rng, 0, 100, values.parameter),
    }
}

/// A number of one resource at a limit or past it.
fn change_output(rng: &mut Random, output: &mut Output) {
    let available = output.available;
    match rng.below(4) {
        0 => output.lmp = outside(rng, -100_000_000, 100_000_000, output.lmp),
        1 => output.dispatch = outside(rng, 0, available, output.dispatch),
        2 => output.available = outside(rng, 0, MOST_QUANTITY, available),
        _ => output.floor = outside(rng, 0, available, output.floor),
    }
}

fn change_values(rng: &mut Random, values: &mut Interval) {
    for _ in 0..rng.pick(&[1, 1, 1, 2, 3]) {
        match rng.below(4) {
            0 => change_room(rng, values),
            1 => change_price(rng, values),
            _ if !values.outputs.is_empty() => {
                let at = rng.below(values.outputs.len());
                change_output(rng, &mut values.outputs[at]);
            }
            _ => {}
        }
    }
}

/// In which order intervals and passes come.
#[derive(Clone, Copy, Debug)]
enum Order {
    ByChance,
    MostlyIntervals,
    /// Passes after each interval, four at most.
    Quarters,
}

/// Whether each call of a list is a pass.
fn passes(rng: &mut Random, count: usize) -> Vec<bool> {
    let order = rng.pick(&[Order::ByChance, Order::MostlyIntervals, Order::Quarters]);
    let early = rng.once_in(6);
    let mut left = 0;
    let mut passes = Vec::new();
    for index in 0..count {
        let pass = match order {
            _ if index == 0 => early,
            Order::ByChance => rng.once_in(2),
            Order::MostlyIntervals => rng.once_in(5),
            Order::Quarters => left > 0,
        };
        left = if pass { left.max(1) - 1 } else { rng.below(5) };
        passes.push(pass);
    }
    passes
}

fn call(rng: &mut Random, mut values: Interval, pass: bool) -> Call {
    if rng.once_in(6) {
        change_values(rng, &mut values);
    }
    match pass {
        true => Call::Pass(values),
        false => Call::Interval(values),
    }
}

/// Equal seeds give equal cases.
pub fn case(seed: u64) -> Case {
    let rng = &mut Random::new(seed);
    let shape = shape(rng);
    of_shape(rng, &shape)
}

/// A few calls on an hour of a few resources.
pub fn small_case(rng: &mut Random) -> Case {
    let shape = hours::shape(rng);
    let small = Shape {
        portfolios: shape.portfolios.min(3),
        resources: shape.resources.min(2),
        constraints: shape.constraints.clamp(1, 2),
        intervals: rng.count(1, 5),
        ..shape
    };
    of_shape(rng, &small)
}

fn of_shape(rng: &mut Random, shape: &Shape) -> Case {
    let model = model(rng, shape);
    of_tables(rng, &model, |rng, opening| {
        add_packs(rng, opening);
        if rng.once_in(8) {
            change_opening(rng, opening);
        }
    })
}

/// The hour of these tables in numbers, its opening changed, and some of its intervals passes.
pub(super) fn of_tables(
    rng: &mut Random,
    model: &Model,
    change: fn(&mut Random, &mut Opening),
) -> Case {
    let texts: Vec<Vec<u8>> = model.parts.iter().map(part_bytes).collect();
    let opening = Reader::new(&texts[0]).opening();
    let mut opening = opening.expect("tables of the form");
    change(rng, &mut opening);
    let passes = passes(rng, texts.len() - 1);
    let mut calls = Vec::new();
    for (text, pass) in texts[1..].iter().zip(passes) {
        let values = Reader::new(text).interval().expect("tables of the form");
        calls.push(call(rng, values, pass));
    }
    Case { opening, calls }
}
