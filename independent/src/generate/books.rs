//! Books of gas prices by seed, each with a trading day and a resource's costs.

use super::limits::{around, points_of_heat_rate};
use super::random::Random;
use super::resources::{draw, Lengths, Scale};
use crate::costs::{Costs, Point};
use crate::gas::Book;

const LAST_DAY: i128 = u32::MAX as i128;

/// A book, and what is asked of it.
#[derive(Clone, Debug)]
pub struct Case {
    pub book: Book,
    pub day: u32,
    pub points: Vec<Point>,
    pub costs: Costs,
}

fn number(value: i128) -> u32 {
    value.clamp(0, LAST_DAY) as u32
}

/// Days of a list: of one or two digits, of a year, anywhere, or with both ends.
fn days(rng: &mut Random) -> Vec<i128> {
    let count = match rng.below(40) {
        0 => rng.count(100, 400),
        1..=4 => 1,
        _ => rng.count(1, 9),
    };
    match rng.below(6) {
        0..=2 => rng.rising(count, 0, 20),
        3 => rng.rising(count, 20_000, 20_400),
        4 => rng.rising(count, 0, LAST_DAY),
        _ => {
            let mut days = rng.rising(count, 1, LAST_DAY - 1);
            days.insert(0, 0);
            days.push(LAST_DAY);
            days
        }
    }
}

/// Some prices look like days, some are at the limit of a gas price or past it.
fn price(rng: &mut Random) -> i128 {
    match rng.below(10) {
        0..=2 => rng.between(0, 20),
        3..=6 => rng.between(20_000, 80_000),
        7 => rng.pick(&[0, 999_999, 1_000_000]),
        8 => rng.between(0, 1_000_000),
        _ => rng.pick(&[1_000_001, 2_000_000, LAST_DAY]),
    }
}

fn sound_list(rng: &mut Random) -> Vec<u32> {
    let days = days(rng);
    let entry = |day: i128| [number(day), number(price(rng))];
    days.into_iter().flat_map(entry).collect()
}

/// A day equal to the one before it, or below it; late in the list as often as anywhere.
fn break_days(rng: &mut Random, list: &mut Vec<u32>) {
    if list.len() < 4 {
        let day = list[0];
        list.extend([day, number(price(rng))]);
        return;
    }
    let entries = list.len() / 2;
    let late = rng.once_in(2);
    let at = 2 * if late {
        entries - 1
    } else {
        rng.count(1, entries - 1)
    };
    let before = list[at - 2];
    list[at] = match rng.below(3) {
        0 => before,
        1 => before.saturating_sub(1),
        _ => number(rng.between(0, before.into())),
    };
}

/// A number left out at the end, or one too many.
fn break_pair(rng: &mut Random, list: &mut Vec<u32>) {
    if rng.once_in(2) {
        list.pop();
    } else {
        list.push(number(rng.between(0, LAST_DAY)));
    }
}

fn list(rng: &mut Random) -> Vec<u32> {
    let mut list = sound_list(rng);
    match rng.below(12) {
        0 | 1 => break_days(rng, &mut list),
        2 => break_pair(rng, &mut list),
        3 if rng.once_in(2) => list.clear(),
        3 => {
            break_days(rng, &mut list);
            break_pair(rng, &mut list);
        }
        _ => {}
    }
    list
}

/// A day of the list, the one before or after it, or any.
fn trading_day(rng: &mut Random, list: &[u32]) -> u32 {
    let days: Vec<u32> = list.iter().copied().step_by(2).collect();
    match rng.below(10) {
        0 => rng.pick(&[0, u32::MAX]),
        1 => number(rng.between(0, LAST_DAY)),
        2 => number(rng.between(0, 22)),
        _ if days.is_empty() => 0,
        3 => days[0].saturating_sub(1),
        4 => days[days.len() - 1].saturating_add(1),
        5 | 6 => rng.pick(&days),
        _ => number(i128::from(rng.pick(&days)) + rng.between(-2, 2)),
    }
}

fn charges(costs: &mut Costs) -> [(&mut i128, i128); 7] {
    [
        (&mut costs.gas, 1_000_000),
        (&mut costs.rate, 200_000),
        (&mut costs.allowance, 10_000_000),
        (&mut costs.om, 1_000_000),
        (&mut costs.msc, 1_000_000),
        (&mut costs.soc, 1_000_000),
        (&mut costs.fee, 1_000_000),
    ]
}

/// A quantity, a heat rate or a charge at its limit or past it, or two points with R there.
fn change_costs(rng: &mut Random, points: &mut Vec<Point>, costs: &mut Costs) {
    match rng.below(4) {
        0 if !points.is_empty() => {
            let at = rng.below(points.len());
            points[at].m = around(rng, 0, 1_000_000, points[at].m);
        }
        1 if !points.is_empty() => {
            let at = rng.below(points.len());
            points[at].h = around(rng, 1, 100_000, points[at].h);
        }
        2 => {
            let wanted = rng.pick(&[-100_001, -100_000, 100_000, 100_001]);
            *points = points_of_heat_rate(rng, wanted).unwrap_or_default();
        }
        _ => {
            let at = rng.below(7);
            let (charge, highest) = &mut charges(costs)[at];
            **charge = around(rng, 0, *highest, **charge);
        }
    }
}

/// A resource's costs, most of them within the limits but for their own gas price.
fn resource(rng: &mut Random) -> (Vec<Point>, Costs) {
    let scale = rng.pick(&[Scale::Tiny, Scale::Typical, Scale::Limits]);
    let points = match rng.below(12) {
        0 => Some(rng.pick(&[0, 1, 12])),
        _ => None,
    };
    let lengths = Lengths {
        points,
        ..Lengths::default()
    };
    let drawn = draw(rng, scale, lengths, 25);
    let (mut points, mut costs) = (drawn.points, drawn.costs);
    if rng.once_in(3) {
        change_costs(rng, &mut points, &mut costs);
    }
    if rng.once_in(4) {
        costs.gas = rng.pick(&[-1, 1_000_001, i64::MIN.into(), i64::MAX.into()]);
    }
    (points, costs)
}

/// Equal seeds give equal cases.
pub fn case(seed: u64) -> Case {
    let rng = &mut Random::new(seed);
    let day_ahead = list(rng);
    let real_time = match rng.below(6) {
        0 => day_ahead.clone(),
        _ => list(rng),
    };
    let near = if rng.once_in(2) {
        &day_ahead
    } else {
        &real_time
    };
    let day = trading_day(rng, near);
    let (points, costs) = resource(rng);
    let book = Book {
        day_ahead,
        real_time,
    };
    Case {
        book,
        day,
        points,
        costs,
    }
}
