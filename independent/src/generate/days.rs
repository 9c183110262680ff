//! Lists of trading days by seed, and days whose hours are marked by verdicts.

use super::random::Random;
use crate::designation::{Day, HOURS, LATEST};
use crate::verdict::{COMPETITIVE, NON_COMPETITIVE, NOT_BINDING};
use std::collections::BTreeSet;

/// Of the hours of a day, how many are mostly marked.
#[derive(Clone, Copy)]
enum Marks {
    None,
    Sparse,
    Random,
    Full,
}

const MARKS: [Marks; 4] = [Marks::None, Marks::Sparse, Marks::Random, Marks::Full];

/// How the days of a list are marked: their bound hours, and one in so many of these
/// non-competitive.
#[derive(Clone, Copy)]
struct Style {
    bound: Marks,
    non_competitive: Option<usize>,
}

fn style(rng: &mut Random) -> Style {
    Style {
        bound: rng.pick(&MARKS),
        non_competitive: rng.pick(&[None, Some(1), Some(2), Some(4), Some(8)]),
    }
}

fn bound_hours(rng: &mut Random, marks: Marks) -> BTreeSet<usize> {
    let mut hours: BTreeSet<usize> = (0..HOURS).collect();
    match marks {
        Marks::None => hours.clear(),
        Marks::Sparse => hours.retain(|_| rng.once_in(40)),
        Marks::Random => hours.retain(|_| rng.once_in(2)),
        Marks::Full => {}
    }
    hours
}

/// A day that is refused for its number at most.
fn sound_day(rng: &mut Random, number: u32, style: Style) -> Day {
    let bound = bound_hours(rng, style.bound);
    let mut non_competitive = bound.clone();
    non_competitive.retain(|_| {
        style
            .non_competitive
            .is_some_and(|share| rng.once_in(share))
    });
    Day {
        number,
        bound,
        non_competitive,
    }
}

/// The number of the first day: small, as of a calendar, or such that few can follow.
fn first_number(rng: &mut Random) -> u32 {
    match rng.below(8) {
        0 => 0,
        1 => u32::MAX - rng.below(100) as u32,
        2 => (1 << 31) - rng.below(100) as u32,
        3..=5 => rng.below(30) as u32,
        _ => 20_261_117,
    }
}

/// The number of a day that may follow the last one.
fn next_number(rng: &mut Random, last: Option<u32>) -> u32 {
    match last {
        None => first_number(rng),
        Some(last) => number_above(rng, last),
    }
}

/// The day after the last, or one after a gap; 32 bits have a last one.
fn number_above(rng: &mut Random, last: u32) -> u32 {
    let gap = match rng.below(12) {
        0 => rng.count(2, 9),
        1 => rng.count(10, 1000),
        _ => 1,
    };
    last.saturating_add(gap as u32)
}

/// A number equal to the last one, or below it.
fn number_not_above(rng: &mut Random, last: u32) -> u32 {
    match rng.below(4) {
        0 | 1 => last,
        2 => last.saturating_sub(1),
        _ => rng.between(0, last.into()) as u32,
    }
}

/// An hour that isn't in the set afterwards.
fn hour_outside(rng: &mut Random, hours: &mut BTreeSet<usize>) -> usize {
    let hour = rng.below(HOURS);
    hours.remove(&hour);
    hour
}

/// A mark past the 24 hours, or a non-competitive hour that isn't bound.
fn fault_of_marks(rng: &mut Random, day: &mut Day) {
    let past = match rng.below(3) {
        0 => HOURS,
        _ => rng.count(HOURS, 31),
    };
    match rng.below(6) {
        0 | 1 => {
            day.bound.insert(past);
        }
        2 => {
            day.bound.insert(past);
            day.non_competitive.insert(past);
        }
        3 => {
            day.non_competitive.insert(past);
        }
        _ => {
            let hour = hour_outside(rng, &mut day.bound);
            day.non_competitive.insert(hour);
        }
    }
}

/// A day with a fault or two, where the last accepted one has this number.
fn faulty_day(rng: &mut Random, last: Option<u32>, style: Style) -> Day {
    let number = next_number(rng, last);
    let mut day = sound_day(rng, number, style);
    let kind = rng.below(7);
    if let (Some(last), 0..=3) = (last, kind) {
        day.number = number_not_above(rng, last);
    }
    if kind >= 3 || last.is_none() {
        fault_of_marks(rng, &mut day);
    }
    day
}

/// Days after one another, one in so many of them at fault.
fn days(rng: &mut Random, count: usize, faults: Option<usize>) -> Vec<Day> {
    let mut style = style(rng);
    let mut last: Option<u32> = None;
    let mut days = Vec::new();
    for _ in 0..count {
        if rng.once_in(20) {
            style = self::style(rng);
        }
        if faults.is_some_and(|times| rng.once_in(times)) {
            days.push(faulty_day(rng, last, style));
            continue;
        }
        let number = next_number(rng, last);
        days.push(sound_day(rng, number, style));
        last = Some(number);
    }
    days
}

fn length(rng: &mut Random) -> usize {
    match rng.below(10) {
        0 => rng.count(0, 3),
        1 => rng.count(LATEST - 2, LATEST + 2),
        2 => rng.count(2 * LATEST - 2, 130),
        _ => rng.count(0, 130),
    }
}

/// Days with so many bound hours, the first of them non-competitive, each in a place of its own.
fn days_of_totals(
    rng: &mut Random,
    count: usize,
    bound: usize,
    non_competitive: usize,
) -> Vec<Day> {
    let mut days = vec![Day::default(); count];
    for marked in 0..bound {
        let mut place = rng.below(HOURS * count);
        while days[place / HOURS].bound.contains(&(place % HOURS)) {
            place = (place + 1) % (HOURS * count);
        }
        let day = &mut days[place / HOURS];
        day.bound.insert(place % HOURS);
        if marked < non_competitive {
            day.non_competitive.insert(place % HOURS);
        }
    }
    days
}

/// A list whose last 60 days, or all where it has fewer, have 8 to 100 bound hours, a quarter of
/// them non-competitive, give or take one.
fn at_the_edge(rng: &mut Random) -> Vec<Day> {
    let bound = if rng.once_in(3) {
        rng.count(8, 13)
    } else {
        rng.count(8, 100)
    };
    let non_competitive = (bound / 4 + rng.below(3)).saturating_sub(1);
    let full = rng.once_in(2);
    let count = if full { LATEST } else { rng.count(5, LATEST) };
    let older = if full { rng.below(71) } else { 0 };
    let mut list = days(rng, older, None);
    list.extend(days_of_totals(rng, count, bound, non_competitive));
    let first = rng.below(1000) as u32;
    for (number, day) in (first..).zip(&mut list) {
        day.number = number;
    }
    list
}

/// Equal seeds give equal lists.
pub fn list(seed: u64) -> Vec<Day> {
    let rng = &mut Random::new(seed);
    if rng.once_in(3) {
        return at_the_edge(rng);
    }
    let faults = rng.pick(&[None, Some(2), Some(4), Some(12)]);
    let count = length(rng);
    days(rng, count, faults)
}

// ---- days marked by verdicts

/// An hour, and the verdicts of its intervals.
pub type MarkedHour = (usize, Vec<u8>);

/// Up to four, rarely more; of all kinds, or of some alone.
fn verdicts(rng: &mut Random) -> Vec<u8> {
    let count = match rng.below(20) {
        0 => rng.count(5, 40),
        1 | 2 => 0,
        _ => rng.count(1, 4),
    };
    let kinds: &[u8] = match rng.below(8) {
        0 => &[NOT_BINDING],
        1 => &[COMPETITIVE],
        2 => &[NON_COMPETITIVE],
        3 => &[COMPETITIVE, NOT_BINDING],
        4 => &[NON_COMPETITIVE, NOT_BINDING, NOT_BINDING],
        5 => &[COMPETITIVE, NON_COMPETITIVE],
        _ => &[COMPETITIVE, NON_COMPETITIVE, NOT_BINDING],
    };
    (0..count).map(|_| rng.pick(kinds)).collect()
}

fn hour(rng: &mut Random) -> usize {
    match rng.below(16) {
        0 => rng.pick(&[0, 23]),
        1 => rng.count(HOURS, 40),
        2 if rng.once_in(4) => rng.pick(&[63, 64, 1 << 32, (1 << 32) + 3, usize::MAX]),
        _ => rng.below(HOURS),
    }
}

/// The hours that a day is marked by, some of them twice. Equal seeds give equal ones.
pub fn marked_hours(seed: u64) -> Vec<MarkedHour> {
    let rng = &mut Random::new(seed);
    let count = rng.count(1, 3);
    let mut marked: Vec<MarkedHour> = Vec::new();
    for _ in 0..count {
        let hour = match marked.last() {
            Some((before, _)) if rng.once_in(4) => *before,
            _ => hour(rng),
        };
        marked.push((hour, verdicts(rng)));
    }
    marked
}
