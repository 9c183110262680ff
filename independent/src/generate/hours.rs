//! Hours within the limits: openings and intervals that are mostly accepted.

use super::model::{
    empty_interval, empty_opening, part_bytes, rows, rows_mut, Model, Part, MISSING,
};
use super::random::Random;
use super::resources::{draw, Drawn, Lengths, Scale};
use crate::hour::{component, Hour};
use crate::numbers::MILLION;
use crate::text::{
    Reader, Row, CONSTRAINTS, COSTS, FACTORS, MONTH, OUTPUTS, PARAMETER, POINTS, PORTFOLIOS,
    RESOURCES, STEPS,
};
use crate::verdict::{effectiveness, judge, sets_of_at_most_three, Counterflow};

#[derive(Clone, Copy, Debug)]
pub struct Shape {
    pub scale: Scale,
    pub portfolios: usize,
    pub resources: usize,
    pub constraints: usize,
    pub intervals: usize,
    pub lengths: Lengths,
}

fn scale(rng: &mut Random) -> Scale {
    let scales = [
        Scale::Tiny,
        Scale::Tiny,
        Scale::Typical,
        Scale::Typical,
        Scale::Limits,
        Scale::Crossing,
    ];
    rng.pick(&scales)
}

/// Most hours are small, some are of middle size, few are full.
pub fn shape(rng: &mut Random) -> Shape {
    let (portfolios, resources, constraints) = match rng.below(20) {
        0..=6 => (rng.count(1, 3), rng.count(1, 3), rng.count(0, 2)),
        7..=14 => (rng.count(1, 8), rng.count(1, 8), rng.count(0, 4)),
        15..=18 => (rng.count(1, 16), rng.count(4, 24), rng.count(0, 12)),
        _ => (rng.count(12, 16), rng.count(32, 64), rng.count(8, 32)),
    };
    let scale = scale(rng);
    let many = scale == Scale::Limits && resources <= 8 && rng.once_in(3);
    let constraints = if many { rng.count(24, 32) } else { constraints };
    let intervals = match rng.below(10) {
        0..=3 => 1,
        4..=7 => rng.count(2, 4),
        8 => 5,
        _ => rng.count(0, 12),
    };
    let lengths = Lengths::default();
    Shape {
        scale,
        portfolios,
        resources,
        constraints,
        intervals,
        lengths,
    }
}

fn month(rng: &mut Random) -> i128 {
    match rng.below(3) {
        0 => rng.between(1, 1200),
        _ => rng.pick(&[1, 12, 13, 24, 25, 1200]),
    }
}

fn seller_rows(rng: &mut Random, portfolios: usize) -> Vec<Row> {
    let sellers = rng.pick(&[0, 1, 2, 2, 2, 2]);
    let seller = |rng: &mut Random| match sellers {
        0 => 1,
        1 => i128::from(rng.once_in(2)),
        _ => i128::from(!rng.once_in(4)),
    };
    (0..portfolios)
        .map(|portfolio| vec![portfolio as i128, seller(rng)])
        .collect()
}

/// Adds one resource's lines to the opening.
pub fn add_resource(opening: &mut Part, portfolio: i128, drawn: &Drawn) {
    let id = rows(opening, RESOURCES).len() as i128;
    rows_mut(opening, RESOURCES).push(vec![id, portfolio, drawn.bid.start]);
    for step in &drawn.bid.steps {
        rows_mut(opening, STEPS).push(vec![id, step.end, step.price]);
    }
    for point in &drawn.points {
        rows_mut(opening, POINTS).push(vec![id, point.m, point.h]);
    }
    let costs = &drawn.costs;
    let row = [
        costs.gas,
        costs.rate,
        costs.allowance,
        costs.om,
        costs.msc,
        costs.soc,
        costs.fee,
    ];
    rows_mut(opening, COSTS).push([vec![id], row.to_vec()].concat());
}

/// Which portfolios own more.
#[derive(Clone, Copy, Debug)]
enum Larger {
    Lower,
    Higher,
    ByChance,
}

fn owner(rng: &mut Random, portfolios: usize, larger: Larger) -> i128 {
    let (one, other) = (rng.below(portfolios), rng.below(portfolios));
    let portfolio = match larger {
        Larger::Lower => one.min(other),
        Larger::Higher => one.max(other),
        Larger::ByChance => one,
    };
    portfolio as i128
}

pub fn opening(rng: &mut Random, shape: &Shape) -> Part {
    let mut part = empty_opening();
    let month = month(rng);
    *rows_mut(&mut part, MONTH) = vec![vec![month]];
    *rows_mut(&mut part, PORTFOLIOS) = seller_rows(rng, shape.portfolios);
    let larger = rng.pick(&[Larger::Lower, Larger::Higher, Larger::ByChance]);
    for _ in 0..shape.resources {
        let portfolio = owner(rng, shape.portfolios.max(1), larger);
        let drawn = draw(rng, shape.scale, shape.lengths, month);
        add_resource(&mut part, portfolio, &drawn);
    }
    part
}

/// The hour an opening's tables open, where they do.
fn opened(opening: &Part) -> Option<Hour> {
    Reader::new(&part_bytes(opening))
        .opening()
        .ok()?
        .open()
        .ok()
}

fn shadow_price(rng: &mut Random, scale: Scale) -> i128 {
    match rng.below(8) {
        0 => 0,
        1 => 1,
        2 => rng.pick(&[999_999, 1_000_000, 1_000_001]),
        3 if scale == Scale::Limits => 100_000_000,
        _ if scale == Scale::Tiny => rng.between(1, 40),
        _ => rng.between(1, 2_000_000),
    }
}

/// The shift factors of one constraint, by resource.
fn factors_of_constraint(rng: &mut Random, scale: Scale, resources: usize) -> Vec<i128> {
    let equal = match scale {
        Scale::Limits => -1_000_000,
        Scale::Tiny => rng.between(-3, -1),
        _ => rng.between(-500_000, -1),
    };
    let style = rng.below(6);
    let sparse = rng.pick(&[1, 1, 2, 6]);
    let factor = |rng: &mut Random| match style {
        0 | 1 => equal,
        2 => rng.between(-3, 3),
        3 => rng.between(-3, -1),
        4 => rng.between(-1_000_000, 200_000),
        _ => rng.pick(&[-1_000_000, -1, 0, 1, 1_000_000]),
    };
    (0..resources)
        .map(|_| if rng.once_in(sparse) { factor(rng) } else { 0 })
        .collect()
}

/// Two constraints of one shadow price whose factors are opposed at some resources, so that a
/// component comes to 0 though its factors don't.
fn oppose(rng: &mut Random, constraints: &mut [Row], factors: &mut [Vec<i128>]) {
    if constraints.len() < 2 || !rng.once_in(4) {
        return;
    }
    constraints[1][1] = constraints[0][1];
    for resource in 0..factors[0].len() {
        let sign = rng.pick(&[-1, 1]);
        factors[1][resource] = sign * factors[0][resource];
    }
}

/// Shadow prices and factors all at their limits, so that components are as large as can be.
fn exhaust(rng: &mut Random, constraints: &mut [Row], factors: &mut [Vec<i128>]) {
    let sign = rng.pick(&[-1, -1, -1, 1]);
    constraints.iter_mut().for_each(|row| row[1] = 100_000_000);
    factors
        .iter_mut()
        .flatten()
        .for_each(|factor| *factor = sign * MILLION);
}

/// By constraint, then by resource; a later constraint is now and then a multiple of the first.
fn all_factors(rng: &mut Random, shape: &Shape) -> Vec<Vec<i128>> {
    let mut all: Vec<Vec<i128>> = Vec::new();
    for _ in 0..shape.constraints {
        let own = factors_of_constraint(rng, shape.scale, shape.resources);
        let times = rng.pick(&[1, 2, -1]);
        let multiple = |first: &Vec<i128>| -> Vec<i128> {
            first
                .iter()
                .map(|factor| (factor * times).clamp(-MILLION, MILLION))
                .collect()
        };
        let repeats = rng.once_in(4);
        let factors = all.first().filter(|_| repeats).map_or(own, multiple);
        all.push(factors);
    }
    all
}

fn factor_rows(rng: &mut Random, factors: &[Vec<i128>], resources: usize) -> Vec<Row> {
    let mut rows = Vec::new();
    for resource in 0..resources {
        for (constraint, by_resource) in factors.iter().enumerate() {
            let factor = by_resource[resource];
            if factor != 0 || rng.once_in(20) {
                rows.push(vec![resource as i128, constraint as i128, factor]);
            }
        }
    }
    rows
}

fn available(rng: &mut Random, scale: Scale) -> i128 {
    match scale {
        Scale::Tiny => rng.pick(&[0, 1, 2, 2, 3, 5, 5, 10, 40]),
        Scale::Limits => rng.pick(&[0, 1, 999_999, 1_000_000, 1_000_000]),
        _ if rng.once_in(2) => rng.pick(&[0, 10_000, 20_000, 30_000]),
        _ => rng.between(0, 60_000),
    }
}

/// Output that can't be withheld.
fn floor(rng: &mut Random, available: i128) -> i128 {
    match rng.below(6) {
        0 => available,
        1 => rng.between(0, available),
        2 => rng.between(0, available).min(2),
        _ => 0,
    }
}

fn output_rows(rng: &mut Random, shape: &Shape) -> Vec<Row> {
    let full = rng.once_in(2);
    let row = |resource: usize| {
        let available = available(rng, shape.scale);
        let floor = floor(rng, available);
        let dispatch = match rng.below(5) {
            0 => 0,
            1 => rng.between(0, available),
            _ if full => available,
            _ => rng.between(0, available),
        };
        vec![resource as i128, 0, dispatch, available, floor]
    };
    (0..shape.resources).map(row).collect()
}

/// Dispatch that brings demand to `target` where that can be done, most effective first.
fn dispatch_to(target: i128, factors: &[i128], outputs: &mut [Row]) {
    let mut order: Vec<usize> = (0..outputs.len()).collect();
    order.sort_by_key(|&index| factors[index]);
    let mut missing = target;
    for index in order {
        let effect = effectiveness(factors[index]);
        if effect > 0 {
            let dispatch = (missing / effect).clamp(0, outputs[index][3]);
            outputs[index][2] = dispatch;
            missing -= effect * dispatch;
        }
    }
}

/// Brings one constraint's demand to what is left of supply, or one off.
fn at_equality(rng: &mut Random, hour: &Hour, factors: &[Vec<i128>], outputs: &mut [Row]) {
    let factors = &factors[rng.below(factors.len())];
    let flow = |index: usize| Counterflow {
        portfolio: hour.resources[index].portfolio,
        effectiveness: effectiveness(factors[index]),
        dispatch: 0,
        available: outputs[index][3],
        floor: outputs[index][4],
    };
    let flows: Vec<Counterflow> = (0..hour.resources.len()).map(flow).collect();
    let sets = sets_of_at_most_three(hour.net_seller.len());
    let left = judge(1, &flows, &hour.net_seller, &sets).left;
    let off = rng.pick(&[-1, 0, 0, 0, 0, 1]) * effectiveness(rng.pick(factors)).max(1);
    dispatch_to(left + off, factors, outputs);
}

fn parameter(rng: &mut Random) -> i128 {
    match rng.below(5) {
        0 => MISSING,
        1 => 100,
        2 => 0,
        _ => rng.between(0, 100),
    }
}

/// A price at which the floor price L makes a difference.
fn wanted_floor_price(rng: &mut Random, hour: &Hour, resource: usize, scale: Scale) -> i128 {
    let resource = &hour.resources[resource];
    let (bids, defaults) = (resource.bid.prices(), resource.default_energy_bid.prices());
    match rng.below(7) {
        0 | 1 => rng.pick(&bids) + rng.between(-1, 1),
        2 => rng.pick(&defaults) + rng.between(-1, 1),
        3 => (rng.pick(&bids) + rng.pick(&defaults)) / 2,
        4 => rng.between(-60, 60),
        5 if scale == Scale::Limits => rng.between(-100_000_000, 100_000_000),
        _ => defaults[0] - rng.between(0, 50),
    }
}

/// Sets each lmp so that L comes out at a wanted price.
fn set_lmps(rng: &mut Random, hour: &Hour, shape: &Shape, part: &mut Part) {
    let interval = Reader::new(&part_bytes(part)).interval().unwrap();
    let verdicts = hour.verdicts(&interval);
    for (index, row) in rows_mut(part, OUTPUTS).iter_mut().enumerate() {
        let c = component(&interval, &verdicts, index);
        let wanted = wanted_floor_price(rng, hour, index, shape.scale);
        let lmp = wanted - interval.parameter + c.div_euclid(MILLION);
        row[1] = match rng.below(12) {
            0 => rng.pick(&[-100_000_000, 0, 100_000_000]),
            _ => lmp.clamp(-100_000_000, 100_000_000),
        };
    }
}

/// Constraint lines, and factors by constraint and resource.
fn constraints(rng: &mut Random, shape: &Shape) -> (Vec<Row>, Vec<Vec<i128>>) {
    let shadow = |rng: &mut Random| shadow_price(rng, shape.scale);
    let mut constraints: Vec<Row> = (0..shape.constraints)
        .map(|constraint| vec![constraint as i128, shadow(rng)])
        .collect();
    let mut factors = all_factors(rng, shape);
    oppose(rng, &mut constraints, &mut factors);
    if shape.scale == Scale::Limits && rng.once_in(3) {
        exhaust(rng, &mut constraints, &mut factors);
    }
    (constraints, factors)
}

fn interval(rng: &mut Random, hour: Option<&Hour>, shape: &Shape) -> Part {
    let mut part = empty_interval();
    let (constraints, factors) = constraints(rng, shape);
    *rows_mut(&mut part, CONSTRAINTS) = constraints;
    let mut outputs = output_rows(rng, shape);
    let fitting = hour.filter(|hour| hour.resources.len() == shape.resources);
    if let Some(hour) = fitting {
        if shape.constraints > 0 && rng.once_in(2) {
            at_equality(rng, hour, &factors, &mut outputs);
        }
    }
    *rows_mut(&mut part, OUTPUTS) = outputs;
    *rows_mut(&mut part, FACTORS) = factor_rows(rng, &factors, shape.resources);
    *rows_mut(&mut part, PARAMETER) = vec![vec![parameter(rng)]];
    if let Some(hour) = fitting {
        set_lmps(rng, hour, shape, &mut part);
    }
    part
}

/// One more interval for the model's opening.
pub fn add_interval(rng: &mut Random, model: &mut Model, shape: &Shape) {
    let hour = opened(&model.parts[0]);
    let part = interval(rng, hour.as_ref(), shape);
    model.parts.push(part);
}

/// An interval that keeps the one before it but for its prices or its dispatch.
fn add_similar_interval(rng: &mut Random, model: &mut Model, hour: Option<&Hour>, shape: &Shape) {
    let mut part = model.parts[model.parts.len() - 1].clone();
    *rows_mut(&mut part, PARAMETER) = vec![vec![parameter(rng)]];
    if let Some(hour) = hour {
        set_lmps(rng, hour, shape, &mut part);
    }
    model.parts.push(part);
}

pub fn hour(rng: &mut Random, shape: &Shape) -> Model {
    let mut model = Model {
        parts: vec![opening(rng, shape)],
    };
    let hour = opened(&model.parts[0]);
    for index in 0..shape.intervals {
        if index > 0 && rng.once_in(2) {
            add_similar_interval(rng, &mut model, hour.as_ref(), shape);
            continue;
        }
        let constraints = rng.count(shape.constraints / 2, shape.constraints);
        let own = Shape {
            constraints,
            ..*shape
        };
        let part = interval(rng, hour.as_ref(), &own);
        model.parts.push(part);
    }
    model
}
