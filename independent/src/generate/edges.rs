//! The farthest counts and values: intervals of 256 and more resources or constraints, demand at its
//! most, the last of 64 resources, competitive prices below the lowest lmp.

use super::hours::{add_interval, opening, shape, Shape};
use super::model::{rows_mut, Model, Part};
use super::random::Random;
use super::resources::Scale;
use crate::numbers::MILLION;
use crate::text::{CONSTRAINTS, FACTORS, OUTPUTS, PARAMETER, PORTFOLIOS};

const LOWEST_LMP: i128 = -100_000_000;

pub fn text(rng: &mut Random) -> Vec<u8> {
    let mut model = match rng.below(5) {
        0 => many_constraints(rng),
        1 => many_resources(rng),
        2 => most_demand(rng),
        3 => last_of_64(rng),
        _ => far_below(rng),
    };
    model.cut_to_room();
    model.bytes()
}

fn opened(rng: &mut Random, shape: &Shape) -> Model {
    Model {
        parts: vec![opening(rng, shape)],
    }
}

/// One to three resources and at most two constraints.
fn small(rng: &mut Random) -> Shape {
    let mut own = shape(rng);
    own.resources = rng.count(1, 3);
    own.constraints = rng.count(0, 2);
    own
}

fn last_part(model: &mut Model) -> &mut Part {
    model.parts.last_mut().unwrap()
}

/// A value outside its limits, for 15.
fn price_outside(rng: &mut Random, part: &mut Part) {
    let (names, column, value) = rng.pick(&[
        (CONSTRAINTS, 1, -1),
        (CONSTRAINTS, 1, 100_000_001),
        (OUTPUTS, 1, LOWEST_LMP - 1),
        (FACTORS, 2, 1_000_001),
        (PARAMETER, 0, 101),
    ]);
    let rows = rows_mut(part, names);
    if let Some(row) = rows.last_mut() {
        row[column] = value;
    }
}

/// An interval of 256 constraints and more, or of 33; half of them with 15 as well.
fn many_constraints(rng: &mut Random) -> Model {
    let own = small(rng);
    let mut model = opened(rng, &own);
    (0..rng.below(2)).for_each(|_| add_interval(rng, &mut model, &own));
    let constraints = rng.pick(&[33, 255, 256, 256, 257, 256 + own.constraints, 288, 289]);
    add_interval(rng, &mut model, &Shape { constraints, ..own });
    if rng.once_in(2) {
        price_outside(rng, last_part(&mut model));
    }
    model
}

/// An interval of 256 resources and more, some with as many constraints.
fn many_resources(rng: &mut Random) -> Model {
    let own = small(rng);
    let mut model = opened(rng, &own);
    (0..rng.below(2)).for_each(|_| add_interval(rng, &mut model, &own));
    let resources = rng.pick(&[255, 256, 257, 256 + own.resources, 256 + own.resources, 320]);
    let constraints = match rng.below(3) {
        0 => rng.pick(&[256, 257, 288]),
        _ => own.constraints,
    };
    let many = Shape {
        resources,
        constraints,
        ..own
    };
    add_interval(rng, &mut model, &many);
    let factors = rows_mut(last_part(&mut model), FACTORS);
    factors.truncate(300);
    model
}

/// 64 resources with few constraints.
fn full(rng: &mut Random, scale: Scale) -> Shape {
    let mut own = shape(rng);
    (own.resources, own.constraints, own.scale) = (64, rng.count(1, 3), scale);
    own
}

/// Every resource dispatched at its most, and all at the lowest factor of constraint 0.
fn most_demand(rng: &mut Random) -> Model {
    let own = full(rng, Scale::Limits);
    let mut model = opened(rng, &own);
    add_interval(rng, &mut model, &own);
    let floor = rng.pick(&[0, 0, 1, MILLION]);
    let part = last_part(&mut model);
    for row in rows_mut(part, OUTPUTS) {
        (row[2], row[3], row[4]) = (MILLION, MILLION, floor);
    }
    rows_mut(part, CONSTRAINTS)[0][1] = rng.pick(&[1, 100_000_000]);
    let factors = (0..64).map(|resource| vec![resource, 0, -MILLION]);
    *rows_mut(part, FACTORS) = factors.collect();
    model
}

/// The last of 64 resources alone has a factor below 0; half of the intervals are refused for it.
fn last_of_64(rng: &mut Random) -> Model {
    let scale = rng.pick(&[Scale::Typical, Scale::Tiny]);
    let own = full(rng, scale);
    let mut model = opened(rng, &own);
    for portfolio in rows_mut(&mut model.parts[0], PORTFOLIOS) {
        portfolio[1] = 1;
    }
    add_interval(rng, &mut model, &own);
    let part = last_part(&mut model);
    rows_mut(part, CONSTRAINTS)[0][1] = rng.between(1, 1_000_000);
    *rows_mut(part, FACTORS) = vec![vec![63, 0, -rng.between(1, MILLION)]];
    let last = &mut rows_mut(part, OUTPUTS)[63];
    *last = vec![63, rng.between(LOWEST_LMP, 0), 100, 100, 0];
    match rng.below(4) {
        0 => last[1] = LOWEST_LMP - 1,
        1 => last[2] = 101,
        _ => {}
    }
    model
}

/// The lowest lmp at resources that relieve constraints of the highest shadow price.
fn far_below(rng: &mut Random) -> Model {
    let own = Shape {
        constraints: rng.count(1, 32),
        ..small(rng)
    };
    let mut model = opened(rng, &own);
    add_interval(rng, &mut model, &own);
    let part = last_part(&mut model);
    for row in rows_mut(part, OUTPUTS) {
        *row = vec![row[0], LOWEST_LMP, 1, rng.between(1, 3), 0];
    }
    for row in rows_mut(part, CONSTRAINTS) {
        row[1] = 100_000_000;
    }
    for row in rows_mut(part, FACTORS) {
        row[2] = -MILLION;
    }
    model
}
