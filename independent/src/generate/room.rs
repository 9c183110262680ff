//! Counts at the room and over it, texts of 65,535 to 65,537 bytes, and scraps of text.

use super::damage::damage;
use super::hours::{add_interval, hour, opening, shape, Shape};
use super::limits::change_some_field;
use super::model::{rows, rows_mut, Model};
use super::random::Random;
use super::resources::Scale;
use crate::text::{CONSTRAINTS, FACTORS, OUTPUTS, STEPS};

/// Shapes with one count at its limit, past it, or far past it.
fn full_shape(rng: &mut Random) -> Shape {
    let mut shape = shape(rng);
    shape.resources = shape.resources.min(8);
    shape.intervals = shape.intervals.clamp(1, 2);
    match rng.below(7) {
        0 => shape.portfolios = rng.pick(&[0, 16, 17, 17, 18, 257, 272]),
        1 => shape.resources = rng.pick(&[0, 64, 65, 65, 66, 70, 257, 320]),
        2 => shape.constraints = rng.pick(&[32, 33, 33, 34, 64, 257, 288]),
        3 => shape.lengths.steps = Some(rng.pick(&[10, 11, 11, 12, 40, 257])),
        4 => shape.lengths.points = Some(rng.pick(&[0, 1, 2, 11, 12, 12, 13, 258])),
        5 => shape.intervals = rng.pick(&[4, 5, 5, 6, 12]),
        _ => shape.scale = Scale::Limits,
    }
    if shape.resources > 8 {
        shape.constraints = shape.constraints.min(3);
        shape.intervals = 1;
    }
    shape
}

/// The opening's counts and the interval's fit; now and then the interval has other resources.
pub fn counts(rng: &mut Random) -> Vec<u8> {
    let own = full_shape(rng);
    let mut model = if rng.once_in(4) {
        let mut model = Model {
            parts: vec![opening(rng, &own)],
        };
        let before = rng.below(5);
        let resources = match rng.below(3) {
            0 => own.resources + 1,
            1 => own.resources.saturating_sub(1),
            _ => rng.pick(&[0, 64, 65, 257]),
        };
        (0..before).for_each(|_| add_interval(rng, &mut model, &own));
        add_interval(rng, &mut model, &Shape { resources, ..own });
        model
    } else {
        hour(rng, &own)
    };
    model.cut_to_room();
    without_some_groups(rng, &mut model);
    if rng.once_in(4) {
        change_some_field(rng, &mut model);
    }
    let mut text = model.bytes();
    if rng.once_in(4) {
        damage(rng, &mut text);
    }
    text
}

/// Leaves one resource without steps.
fn without_some_groups(rng: &mut Random, model: &mut Model) {
    let steps = rows_mut(&mut model.parts[0], STEPS);
    if rng.once_in(12) && !steps.is_empty() {
        let resource = rng.pick(steps)[0];
        steps.retain(|row| row[0] != resource);
    }
}

/// A full hour whose factors have three digits, so that each can grow by three.
fn large_hour(rng: &mut Random, intervals: usize) -> Model {
    let mut own = shape(rng);
    own.scale = rng.pick(&[Scale::Typical, Scale::Tiny]);
    (own.portfolios, own.resources, own.constraints) = (rng.count(1, 16), 64, 32);
    own.intervals = 0;
    let mut model = hour(rng, &own);
    for _ in 0..intervals {
        add_interval(rng, &mut model, &own);
        let part = model.parts.last_mut().unwrap();
        let constraints = rows(part, CONSTRAINTS).len();
        let resources = rows(part, OUTPUTS).len();
        let pairs = (0..resources).flat_map(|r| (0..constraints).map(move |c| (r, c)));
        *rows_mut(part, FACTORS) = pairs
            .map(|(r, c)| vec![r as i128, c as i128, -rng.between(100, 999)])
            .collect();
    }
    model
}

/// Takes factors from the last intervals until the text has at most `size` bytes.
fn shorten(model: &mut Model, size: usize) {
    for part in (1..model.parts.len()).rev() {
        let excess = model.bytes().len().saturating_sub(size);
        let factors = rows_mut(&mut model.parts[part], FACTORS);
        let mut taken = 0;
        while taken < excess {
            let Some(row) = factors.pop() else { break };
            taken += row
                .iter()
                .map(|value| value.to_string().len() + 1)
                .sum::<usize>();
        }
    }
}

/// Adds digits to factors until the text has `size` bytes.
fn lengthen(model: &mut Model, size: usize) {
    let mut missing = size.saturating_sub(model.bytes().len());
    for part in &mut model.parts[1..] {
        for row in rows_mut(part, FACTORS) {
            if missing > 0 && row[2] % 10 != 0 {
                row[2] *= 10;
                missing -= 1;
            }
        }
    }
}

/// Texts of 65,535, 65,536 and 65,537 bytes.
pub fn exact_size(rng: &mut Random) -> Vec<u8> {
    let size = rng.pick(&[65_535, 65_536, 65_536, 65_537]);
    let mut text = match rng.below(4) {
        0 => filled_with_lines(rng, size),
        _ => filled_with_factors(rng, size),
    };
    if rng.once_in(4) {
        let at = rng.below(text.len());
        text[at] = rng.pick(b"0 -\nx");
    }
    text
}

/// A legal hour of the size, or with a fifth interval.
fn filled_with_factors(rng: &mut Random, size: usize) -> Vec<u8> {
    let intervals = rng.count(3, 5);
    let mut model = large_hour(rng, intervals);
    shorten(&mut model, size);
    lengthen(&mut model, size);
    let mut text = model.bytes();
    text.truncate(size);
    text
}

/// A small hour followed by newlines or by steps of its last resource.
fn filled_with_lines(rng: &mut Random, size: usize) -> Vec<u8> {
    let mut small = shape(rng);
    (small.resources, small.intervals) = (small.resources.min(4), small.intervals.min(2));
    let mut model = hour(rng, &small);
    if rng.once_in(2) {
        let last = small.resources as i128 - 1;
        let lines = (size - model.bytes().len().min(size)) / 6;
        let steps = rows_mut(&mut model.parts[0], STEPS);
        steps.extend((0..lines).map(|_| vec![last, 5, 5]));
    }
    let mut text = model.bytes();
    text.truncate(size);
    text.resize(size, b'\n');
    text
}

/// Texts of a few bytes, and texts with parts or lines of tables left out.
pub fn scraps(rng: &mut Random) -> Vec<u8> {
    match rng.below(8) {
        0 => Vec::new(),
        1 => rng.pick(&[
            b"\n".to_vec(),
            b"m".to_vec(),
            b"month".to_vec(),
            b"month\n".to_vec(),
        ]),
        2 => (0..rng.below(40)).map(|_| rng.below(256) as u8).collect(),
        _ => torn_hour(rng).bytes(),
    }
}

fn torn_hour(rng: &mut Random) -> Model {
    let intervals = rng.below(3);
    let own = Shape {
        intervals,
        ..shape(rng)
    };
    let mut model = hour(rng, &own);
    model.cut_to_room();
    let part = rng.below(model.parts.len());
    match rng.below(5) {
        0 | 1 => {
            let table = rng.below(model.parts[part].len());
            model.parts[part][table].rows.clear();
        }
        2 => model
            .parts
            .iter_mut()
            .flatten()
            .for_each(|table| table.rows.clear()),
        3 => {
            model.parts.remove(part);
        }
        _ => model.parts.push(model.parts[part].clone()),
    }
    model
}
