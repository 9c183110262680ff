//! Texts by seed: hours within the limits, the farthest counts and values, values at and past the
//! limits, damaged texts, counts over the room, texts at the size limit. Equal seeds give equal texts; the class of a text is
//! its seed's remainder by 64. Beside them, books of gas prices by seed, pairs of parts of a
//! contracted unit's curve, lists of calls in numbers, lists of trading days, intervals with a
//! budget, and hours with classroom bids.

pub mod books;
pub mod calls;
pub mod classroom;
pub mod contracts;
mod damage;
pub mod days;
mod edges;
mod hours;
mod limits;
mod model;
pub mod random;
mod resources;
mod room;
pub mod together;

use damage::damage;
use model::Model;
use random::Random;

pub fn text(seed: u64) -> Vec<u8> {
    let rng = &mut Random::new(seed);
    match seed % 64 {
        0..=19 => hour(rng).bytes(),
        20 => edges::text(rng),
        21..=32 => limit_changed(rng).bytes(),
        33..=37 => limits_changed(rng).bytes(),
        38..=41 => relations_changed(rng).bytes(),
        42..=50 => damaged(rng, 1),
        51..=52 => damaged(rng, 2),
        53 => limit_changed_and_damaged(rng),
        54..=56 => ids_changed(rng).bytes(),
        57..=61 => room::counts(rng),
        62 => room::exact_size(rng),
        _ => room::scraps(rng),
    }
}

fn hour(rng: &mut Random) -> Model {
    let shape = hours::shape(rng);
    let mut model = hours::hour(rng, &shape);
    model.cut_to_room();
    model
}

fn limit_changed(rng: &mut Random) -> Model {
    let mut model = hour(rng);
    limits::change_some_field(rng, &mut model);
    model
}

/// Few resources, so that the changed fields often belong to one of them.
fn limits_changed(rng: &mut Random) -> Model {
    let mut shape = hours::shape(rng);
    shape.resources = shape.resources.min(2);
    let mut model = hours::hour(rng, &shape);
    model.cut_to_room();
    limits::change_fields_of_a_part(rng, &mut model);
    model
}

fn relations_changed(rng: &mut Random) -> Model {
    let mut model = hour(rng);
    limits::change_relation(rng, &mut model);
    if rng.once_in(4) {
        limits::change_relation(rng, &mut model);
    }
    model
}

fn ids_changed(rng: &mut Random) -> Model {
    let mut model = hour(rng);
    limits::change_some_id(rng, &mut model);
    model
}

fn damaged(rng: &mut Random, times: usize) -> Vec<u8> {
    let mut text = hour(rng).bytes();
    for _ in 0..times {
        damage(rng, &mut text);
    }
    text
}

fn limit_changed_and_damaged(rng: &mut Random) -> Vec<u8> {
    let mut text = limit_changed(rng).bytes();
    damage(rng, &mut text);
    text
}
