//! What a range of seeds reaches: facts by name, and how many cases have each.

use crate::generate::{case, price_at, Case, HUBS, MONTHS};
use crate::{Hub, Hydro, Limit, MOST_GAS, MOST_H, MOST_HUB_PRICE};
use independent::curve::Curve;
use independent::generate::calls;
use independent::numbers::{within, Refusal, MOST_QUANTITY};
use independent::passes::{Call, RealTime};
use std::fmt;
use std::ops::Range;

/// Facts, and whether a case has them. Every case has all names in one order.
type Facts = Vec<(&'static str, bool)>;

/// How many cases have each fact.
#[derive(Clone, Debug, Default)]
pub struct Coverage(pub Vec<(&'static str, usize)>);

impl Coverage {
    pub fn of(seeds: Range<u64>) -> Coverage {
        let mut counts: Vec<(&'static str, usize)> = Vec::new();
        for seed in seeds {
            let facts = facts(&case(seed));
            if counts.is_empty() {
                counts = facts.iter().map(|&(name, _)| (name, 0)).collect();
            }
            let numbers = counts.iter_mut().zip(facts);
            numbers.for_each(|((_, count), (_, holds))| *count += usize::from(holds));
        }
        Coverage(counts)
    }

    /// What every range of 6,000 seeds has to reach: all of it.
    pub fn all_reached(&self) -> bool {
        self.0.iter().all(|&(_, count)| count > 0)
    }
}

impl fmt::Display for Coverage {
    fn fmt(&self, f: &mut fmt::Formatter<'_>) -> fmt::Result {
        self.0.iter().try_for_each(|(name, count)| writeln!(f, "{count:>8} {name}"))
    }
}

fn facts(case: &Case) -> Facts {
    let hydro = &case.hydro;
    let answer = hydro.default_curve();
    let number = answer.as_ref().err().copied();
    let curve = answer.ok();
    let price = curve.as_ref().map(|curve| curve.steps[0].price);
    let hour = curve.and_then(|curve| case.hour_with(curve));
    [
        vec![
            ("tables", true),
            ("accepted", number.is_none()),
            ("refused by 22", number == Some(22)),
            ("refused by 2", number == Some(2)),
        ],
        limit_facts(hydro),
        place_facts(hydro),
        quantity_facts(hydro, number),
        amount_facts(hydro, price),
        more_facts(hydro, price),
        unread_facts(hydro, price),
        end_facts(hydro, price),
        hour_facts(hour.as_ref(), case.unit, price.unwrap_or_default()),
    ]
    .concat()
}

/// 22 for one limit alone, on either side.
fn limit_facts(hydro: &Hydro) -> Facts {
    let broken = hydro.broken();
    let alone = |limit: Limit| broken == [limit];
    vec![
        ("22 for H alone, below", alone(Limit::H) && hydro.h < 1),
        ("22 for H alone, above", alone(Limit::H) && hydro.h > MOST_H),
        ("22 for gas alone, below", alone(Limit::Gas) && hydro.gas < 0),
        ("22 for gas alone, above", alone(Limit::Gas) && hydro.gas > MOST_GAS),
        ("22 for the hub count alone, 0", alone(Limit::HubCount) && hydro.hub_count == 0),
        ("22 for the hub count alone, 5", alone(Limit::HubCount) && hydro.hub_count == 5),
        ("22 for the hub count alone, more", alone(Limit::HubCount) && hydro.hub_count > 5),
        ("22 for the horizon alone, 0", alone(Limit::Horizon) && hydro.horizon == 0),
        ("22 for the horizon alone, 13", alone(Limit::Horizon) && hydro.horizon == 13),
        ("22 for the horizon alone, more", alone(Limit::Horizon) && hydro.horizon > 13),
        ("22 for hub prices alone", alone(Limit::HubPrice)),
        ("22 for several limits", broken.len() > 1),
    ]
}

/// Whether a number is no hub price.
fn wrong(price: i128) -> bool {
    !within(price, 0, MOST_HUB_PRICE)
}

/// 22 for one price alone, by its place.
fn place_facts(hydro: &Hydro) -> Facts {
    let (hubs, horizon) = (hydro.hub_count.min(HUBS as u64) as usize, hydro.horizon.min(MONTHS as u64) as usize);
    let places = (0..hubs).flat_map(|hub| (0..2 + horizon).map(move |j| (hub, j)));
    let wrong: Vec<(usize, usize)> = places.filter(|&(hub, j)| wrong(price_at(&hydro.hubs[hub], j))).collect();
    let alone = hydro.broken() == [Limit::HubPrice] && wrong.len() == 1;
    let (hub, j) = wrong.first().copied().unwrap_or_default();
    let price = hydro.hubs.get(hub).map_or(0, |hub| price_at(hub, j));
    let last = 1 + horizon;
    vec![
        ("22 for one price alone, below", alone && price < 0),
        ("22 for one price alone, above", alone && price > MOST_HUB_PRICE),
        ("  the default hub's peak", alone && (hub, j) == (0, 0)),
        ("  its balance of month", alone && (hub, j) == (0, 1)),
        ("  its next month", alone && (hub, j) == (0, 2)),
        ("  its last month up to the horizon", alone && hub == 0 && j > 2 && j == last),
        ("  another hub's peak", alone && hub > 0 && j == 0),
        ("  the last hub's last month", alone && hub > 0 && hub + 1 == hubs && j == last),
    ]
}

/// 2, by its cause, and where 22 comes before it.
fn quantity_facts(hydro: &Hydro, number: Option<Refusal>) -> Facts {
    let (lowest, highest) = (hydro.lowest, hydro.highest);
    let inside = within(lowest, 0, MOST_QUANTITY) && within(highest, 0, MOST_QUANTITY);
    let two = number == Some(2);
    vec![
        ("2 for a quantity below 0", two && lowest.min(highest) < 0),
        ("2 for a quantity above 1,000,000", two && lowest.max(highest) > MOST_QUANTITY),
        ("2 for equal quantities alone", two && inside && lowest == highest),
        ("2 for falling quantities alone", two && inside && lowest > highest),
        (
            "22 where the quantities are wrong too",
            number == Some(22) && !(inside && lowest < highest),
        ),
    ]
}

/// Which amounts are the largest.
fn amount_facts(hydro: &Hydro, price: Option<i128>) -> Facts {
    let amounts = price.map(|_| hydro.amounts()).unwrap_or_default();
    let largest: Vec<usize> = (0..3).filter(|&amount| price == Some(amounts[amount])).collect();
    let is_whole = |(dividend, divisor): (i128, i128)| dividend % divisor == 0;
    let rounded = |amount: usize| largest == [amount] && !is_whole(hydro.fractions()[amount]);
    vec![
        ("the amount of gas is the largest", largest == [0]),
        ("that of the default hub", largest == [1]),
        ("that of all hubs", largest == [2]),
        ("the amount of gas, rounded", rounded(0)),
        ("that of the default hub, rounded", rounded(1)),
        ("that of all hubs, rounded", rounded(2)),
        ("gas and the default hub tie", largest == [0, 1]),
        ("gas and all hubs tie", largest == [0, 2]),
        ("the default hub and all hubs tie", largest == [1, 2]),
        ("all three tie, above 0", largest.len() == 3 && price > Some(0)),
    ]
}

/// What a hub or a month less, or more, makes of an accepted table.
fn more_facts(hydro: &Hydro, price: Option<i128>) -> Facts {
    let (hubs, horizon) = (hydro.hub_count, hydro.horizon);
    // nothing is asked of a refused table
    let other = |hubs: Option<u64>, horizon: Option<u64>| price.and_then(|_| Some(hydro.with_counts(hubs?, horizon?).default_curve()));
    let priced = |answer: Option<Result<Curve, Refusal>>| Some(answer?.ok()?.steps[0].price);
    let (hub_less, month_less) = (
        priced(other(hubs.checked_sub(1), Some(horizon))),
        priced(other(Some(hubs), horizon.checked_sub(1))),
    );
    let (hub_more, month_more) = (other(hubs.checked_add(1), Some(horizon)), other(Some(hubs), horizon.checked_add(1)));
    let refused = |answer: &Option<Result<Curve, Refusal>>| matches!(answer, Some(Err(_)));
    vec![
        ("a hub less lowers the price", hub_less.is_some() && hub_less < price),
        ("a month less lowers it", month_less.is_some() && month_less < price),
        ("a hub more is refused for its prices", hubs < 4 && refused(&hub_more)),
        ("a month more is refused for its prices", horizon < 12 && refused(&month_more)),
        ("a hub more raises the price", priced(hub_more) > price),
        ("a month more raises it", priced(month_more) > price),
    ]
}

/// Prices out of range in accepted tables.
fn unread_facts(hydro: &Hydro, price: Option<i128>) -> Facts {
    let accepted = price.is_some();
    let (hubs, horizon) = (hydro.hub_count.min(HUBS as u64) as usize, hydro.horizon.min(MONTHS as u64) as usize);
    let (read, past) = hydro.hubs.split_at(hubs);
    let months = |hub: &Hub| hub.monthly[horizon..].iter().any(|&price| wrong(price));
    vec![
        (
            "accepted, a month past the horizon out of range",
            accepted && read.iter().any(months),
        ),
        (
            "accepted, the month just past it",
            accepted && read.iter().any(|hub| hub.monthly.get(horizon).is_some_and(|&price| wrong(price))),
        ),
        (
            "accepted, a hub past the count out of range",
            accepted && past.iter().any(|hub| wrong(hub.day_ahead_peak)),
        ),
    ]
}

/// Accepted tables with a value at its limit.
fn end_facts(hydro: &Hydro, price: Option<i128>) -> Facts {
    let at = |holds: bool| price.is_some() && holds;
    let read = hydro.prices_read();
    vec![
        ("accepted with H 1", at(hydro.h == 1)),
        ("accepted with H 100,000", at(hydro.h == MOST_H)),
        ("accepted with gas 0", at(hydro.gas == 0)),
        ("accepted with gas 1,000,000", at(hydro.gas == MOST_GAS)),
        ("accepted with 1 hub", at(hydro.hub_count == 1)),
        ("accepted with 4 hubs", at(hydro.hub_count == 4)),
        ("accepted with a horizon of 1", at(hydro.horizon == 1)),
        ("accepted with a horizon of 12", at(hydro.horizon == 12)),
        ("accepted with a price 0", at(read.contains(&0))),
        ("accepted with a price 100,000,000", at(read.contains(&MOST_HUB_PRICE))),
        ("accepted from 0", at(hydro.lowest == 0)),
        ("accepted to 1,000,000", at(hydro.highest == MOST_QUANTITY)),
        ("accepted with one hundredth", at(hydro.highest - hydro.lowest == 1)),
        ("the price is 0", price == Some(0)),
        ("the price is 140,000,000", price == Some(140_000_000)),
    ]
}

/// What happens to a hydro unit in its hour.
#[derive(Default)]
struct Met {
    number: Refusal,
    opened: bool,
    cut_by_interval: bool,
    cut_by_pass: bool,
    cut_to_hydro_price: bool,
    cut_to_floor_price: bool,
    capped_without_a_cut: bool,
    hour_bid_cut: bool,
}

fn met(hour: &calls::Case, unit: usize, price: i128) -> Met {
    let mut met = Met::default();
    let mut present = match hour.opening.open() {
        Ok(opened) => RealTime::new(opened),
        Err(number) => {
            met.number = number;
            return met;
        }
    };
    met.opened = true;
    for call in &hour.calls {
        let before = present.clone();
        let causes = present.hour.causes(call.values()).unwrap_or_default();
        if present.take(call).is_err() {
            continue;
        }
        match call {
            Call::Interval(_) => met.interval(
                &before.hour.curves()[unit],
                &present.hour.curves()[unit],
                causes[unit].floor_price,
                price,
            ),
            Call::Pass(_) => met.cut_by_pass |= before.curves[unit] != present.curves[unit],
        }
    }
    let submitted = hour.opening.offers[unit].bid.prices();
    met.hour_bid_cut = present.hour_bid(unit).is_ok_and(|bid| bid.prices().last() < submitted.last());
    met
}

impl Met {
    fn interval(&mut self, before: &Curve, after: &Curve, floor_price: Option<i128>, price: i128) {
        let Some(floor_price) = floor_price else { return };
        let cap = price.max(floor_price);
        let cut = before != after;
        self.cut_by_interval |= cut;
        self.capped_without_a_cut |= !cut;
        self.cut_to_hydro_price |= cut && cap == price && after.prices().contains(&cap);
        self.cut_to_floor_price |= cut && cap > price && after.prices().contains(&cap);
    }
}

fn hour_facts(hour: Option<&calls::Case>, unit: usize, price: i128) -> Facts {
    let met = hour.map(|hour| met(hour, unit, price)).unwrap_or_default();
    vec![
        ("hours with a hydro unit", hour.is_some()),
        ("  opened", met.opened),
        ("  refused by 11", met.number == 11),
        ("  the unit cut by an interval", met.cut_by_interval),
        ("  cut to the hydro price", met.cut_to_hydro_price),
        ("  cut to a floor price above it", met.cut_to_floor_price),
        ("  capped and not cut", met.capped_without_a_cut),
        ("  cut by a pass", met.cut_by_pass),
        ("  its hour bid lower than its bid", met.hour_bid_cut),
    ]
}
