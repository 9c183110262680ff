//! Tables by seed, each with an hour of calls for a unit that has it: prices near those of the unit's bid, of few digits, of usual size or at
//! their limits; amounts that tie; prices out of range where they aren't read; values and quantities at their limits and past them.

use crate::{Hub, Hydro, MOST_GAS, MOST_H, MOST_HUB_PRICE};
use independent::curve::Curve;
use independent::generate::calls::{self, small_case};
use independent::generate::random::Random;
use independent::hour::Source;
use independent::numbers::MOST_QUANTITY;

/// Hubs and months that a table has room for.
pub const HUBS: usize = 4;
pub const MONTHS: usize = 12;

#[derive(Clone, Debug)]
pub struct Case {
    pub hydro: Hydro,
    pub hour: calls::Case,
    /// The resource that is the hydro unit.
    pub unit: usize,
}

impl Case {
    /// The hour with this curve as the unit's pack, where there is such a resource.
    pub fn hour_with(&self, curve: Curve) -> Option<calls::Case> {
        let mut hour = self.hour.clone();
        hour.opening.offers.get_mut(self.unit)?.source = Source::Pack(curve);
        Some(hour)
    }
}

/// Numbers of 64 bits, far from any limit.
fn far(rng: &mut Random) -> i128 {
    let (lowest, highest): (i128, i128) = (i64::MIN.into(), i64::MAX.into());
    rng.pick(&[lowest, lowest + 1, -(1 << 32), 1 << 32, 1 << 62, highest - 1, highest])
}

/// A number outside these limits, just outside most often.
fn outside(rng: &mut Random, lowest: i128, highest: i128) -> i128 {
    match rng.below(5) {
        0 => far(rng),
        1 | 2 => lowest - 1,
        _ => highest + 1,
    }
}

fn count_outside(rng: &mut Random, highest: u64) -> u64 {
    let other = rng.pick(&[14, 56, 255, 256, 257, 65_537, (1 << 32) + 1, u64::MAX / 14 + 2, u64::MAX]);
    rng.pick(&[0, 0, highest + 1, highest + 1, other])
}

// ---- prices

/// What the amounts are like.
#[derive(Clone, Copy, Debug)]
enum Scale {
    Tiny,
    Usual,
    Limits,
    /// Near a price of the bid.
    Near(i128),
}

fn scale(rng: &mut Random, bid: &Curve) -> Scale {
    let prices = bid.prices();
    match rng.below(8) {
        0 | 1 => Scale::Tiny,
        2 | 3 => Scale::Usual,
        4 => Scale::Limits,
        _ if prices.is_empty() => Scale::Usual,
        _ => Scale::Near(rng.pick(&prices)),
    }
}

/// A price of which 14/10 or 11/10, or less, are of this scale.
fn price(rng: &mut Random, scale: Scale) -> i128 {
    let drawn = match scale {
        Scale::Tiny => rng.between(0, 30),
        Scale::Usual => rng.between(100_000, 900_000),
        Scale::Limits => rng.pick(&[0, 1, MOST_HUB_PRICE / 2, MOST_HUB_PRICE - 1, MOST_HUB_PRICE]),
        Scale::Near(price) => price * 10 / rng.pick(&[14, 11, 20, 40]) + rng.between(-3, 3),
    };
    drawn.clamp(0, MOST_HUB_PRICE)
}

fn h_and_gas(rng: &mut Random, scale: Scale) -> (i128, i128) {
    match scale {
        Scale::Tiny => (rng.between(1, 100), rng.between(0, 400)),
        Scale::Usual => (rng.between(5_000, 15_000), rng.between(20_000, 80_000)),
        Scale::Limits => (rng.pick(&[1, 2, MOST_H - 1, MOST_H]), rng.pick(&[0, 1, MOST_GAS - 1, MOST_GAS])),
        Scale::Near(price) => {
            let gas = price / rng.pick(&[11, 11, 20]) + rng.between(-2, 2);
            (10_000 + rng.between(-1, 1), gas.clamp(0, MOST_GAS))
        }
    }
}

fn hub(rng: &mut Random, scale: Scale) -> Hub {
    Hub {
        day_ahead_peak: price(rng, scale),
        balance_of_month: price(rng, scale),
        monthly: (0..MONTHS).map(|_| price(rng, scale)).collect(),
    }
}

/// Price j of a hub: its peak, its balance of month, then its months.
pub fn price_at(hub: &Hub, j: usize) -> i128 {
    match j {
        0 => hub.day_ahead_peak,
        1 => hub.balance_of_month,
        _ => hub.monthly[j - 2],
    }
}

fn price_mut(hub: &mut Hub, j: usize) -> &mut i128 {
    match j {
        0 => &mut hub.day_ahead_peak,
        1 => &mut hub.balance_of_month,
        _ => &mut hub.monthly[j - 2],
    }
}

// ---- amounts that tie

/// All prices 0 but one of the three at the default hub and one that counts for all hubs alone.
fn two_prices(rng: &mut Random, hydro: &mut Hydro, near: i128, over_all: i128) {
    hydro
        .hubs
        .iter_mut()
        .for_each(|hub| (0..2 + MONTHS).for_each(|j| *price_mut(hub, j) = 0));
    *price_mut(&mut hydro.hubs[0], rng.below(3)) = near;
    if hydro.hub_count > 1 && rng.once_in(2) {
        let hub = rng.count(1, hydro.hub_count as usize - 1);
        *price_mut(&mut hydro.hubs[hub], rng.below(2 + hydro.horizon as usize)) = over_all;
    } else {
        hydro.horizon = hydro.horizon.max(2);
        *price_mut(&mut hydro.hubs[0], rng.count(3, 1 + hydro.horizon as usize)) = over_all;
    }
}

/// Two amounts or all three are equal, and none is larger: 14/10 of 11 n are 11/10 of 14 n and 11 × 14,000 × n / 10,000.
fn tie(rng: &mut Random, hydro: &mut Hydro) {
    let highest = rng.pick(&[20, 1_000, MOST_GAS]);
    let n = rng.between(0, highest);
    let (h, gas, near, over_all) = rng.pick(&[
        (1, 0, 11 * n, 14 * n),
        (14_000, n, 11 * n, n),
        (14_000, n, n, 14 * n),
        (14_000, n, 11 * n, 14 * n),
    ]);
    (hydro.h, hydro.gas) = (h, gas);
    two_prices(rng, hydro, near, over_all);
}

// ---- what isn't read, and what is refused

/// Places of the table that are read, or that aren't: hub and price.
fn places(hydro: &Hydro, read: bool) -> Vec<(usize, usize)> {
    let is_read = |&(hub, j): &(usize, usize)| (hub as u64) < hydro.hub_count && (j as u64) < 2 + hydro.horizon;
    let all = (0..HUBS).flat_map(|hub| (0..2 + MONTHS).map(move |j| (hub, j)));
    all.filter(|place| is_read(place) == read).collect()
}

fn break_unread(rng: &mut Random, hydro: &mut Hydro) {
    let often = rng.pick(&[1, 2, 10]);
    for (hub, j) in places(hydro, false) {
        if rng.once_in(often) {
            *price_mut(&mut hydro.hubs[hub], j) = outside(rng, 0, MOST_HUB_PRICE);
        }
    }
}

/// A price that is read: any, the last one, or one of a hub's first three.
fn break_price(rng: &mut Random, hydro: &mut Hydro) {
    let places = places(hydro, true);
    let (hub, j) = match rng.below(3) {
        0 => rng.pick(&places),
        1 => places[places.len() - 1],
        _ => (rng.below(hydro.hub_count as usize), rng.below(3)),
    };
    *price_mut(&mut hydro.hubs[hub], j) = outside(rng, 0, MOST_HUB_PRICE);
}

fn break_limits(rng: &mut Random, hydro: &mut Hydro) {
    let count = rng.pick(&[1, 1, 1, 1, 2, 3]);
    let mut kinds: Vec<usize> = (0..count).map(|_| rng.below(5)).collect();
    // places are read by the counts, so that these come last
    kinds.sort();
    for kind in kinds {
        match kind {
            0 => break_price(rng, hydro),
            1 => hydro.h = outside(rng, 1, MOST_H),
            2 => hydro.gas = outside(rng, 0, MOST_GAS),
            3 => hydro.hub_count = count_outside(rng, HUBS as u64),
            _ => hydro.horizon = count_outside(rng, MONTHS as u64),
        }
    }
}

/// Quantities that hold the bid; now and then not quite, or no edges of a step.
fn quantities(rng: &mut Random, bid: &Curve) -> (i128, i128) {
    let (start, end) = (bid.start.clamp(0, MOST_QUANTITY), bid.end().clamp(0, MOST_QUANTITY));
    match rng.below(16) {
        0 => rng.pick(&[(start, start), (end, start), (end, end), (start + 1, start)]),
        1 => (outside(rng, 0, MOST_QUANTITY), end),
        2 => (start, outside(rng, 0, MOST_QUANTITY)),
        3 => rng.pick(&[(start + 1, end), (start, end - 1), (start, start + 1)]),
        4 => (0, MOST_QUANTITY),
        5..=9 => (start, end),
        _ => (rng.between(0, start), rng.between(end, MOST_QUANTITY)),
    }
}

fn table(rng: &mut Random, bid: &Curve) -> Hydro {
    let (prices, gas) = (scale(rng, bid), scale(rng, bid));
    // the same scale for both most often, so that each amount may be the largest
    let gas = if rng.once_in(4) { gas } else { prices };
    let (h, gas) = h_and_gas(rng, gas);
    let (lowest, highest) = quantities(rng, bid);
    Hydro {
        lowest,
        highest,
        h,
        gas,
        hub_count: rng.pick(&[1, 1, 2, 3, 4]),
        horizon: rng.pick(&[1, 1, 2, 3, 6, 11, 12, 12]),
        hubs: (0..HUBS).map(|_| hub(rng, prices)).collect(),
    }
}

/// Equal seeds give equal cases.
pub fn case(seed: u64) -> Case {
    let rng = &mut Random::new(seed);
    let hour = small_case(rng);
    let unit = rng.below(hour.opening.offers.len().max(1));
    let nothing = Curve {
        start: 0,
        steps: Vec::new(),
    };
    let bid = hour.opening.offers.get(unit).map_or(nothing, |offer| offer.bid.clone());
    let mut hydro = table(rng, &bid);
    if rng.once_in(6) {
        tie(rng, &mut hydro);
    }
    if rng.once_in(2) {
        break_unread(rng, &mut hydro);
    }
    if rng.once_in(4) {
        break_limits(rng, &mut hydro);
    }
    Case { hydro, hour, unit }
}
