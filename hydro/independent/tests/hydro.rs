//! Hydro defaults: cases of request 2.8 worked by hand, the request's claims over seeds, and what the seeds reach.

use hydro_independent::coverage::Coverage;
use hydro_independent::generate::{case, MONTHS};
use hydro_independent::{Hub, Hydro, MOST_HUB_PRICE};
use independent::numbers::Refusal;

fn hub(day_ahead_peak: i128, balance_of_month: i128, months: &[i128]) -> Hub {
    let mut monthly = months.to_vec();
    monthly.resize(MONTHS, 0);
    Hub {
        day_ahead_peak,
        balance_of_month,
        monthly,
    }
}

/// Four hubs, of which the first counts and has these prices; a horizon of one month.
fn table(h: i128, gas: i128, first: Hub) -> Hydro {
    let none = hub(0, 0, &[]);
    Hydro {
        lowest: 10_000,
        highest: 30_000,
        h,
        gas,
        hub_count: 1,
        horizon: 1,
        hubs: vec![first, none.clone(), none.clone(), none],
    }
}

fn worked() -> Hydro {
    table(10_000, 40_000, hub(500_000, 400_000, &[300_000, 0, 900_000]))
}

fn price(hydro: &Hydro) -> Result<i128, Refusal> {
    let curve = hydro.default_curve()?;
    assert_eq!(curve.edges(), [hydro.lowest, hydro.highest]);
    Ok(curve.steps[0].price)
}

#[test]
fn the_largest_of_three_amounts() {
    assert_eq!(worked().amounts(), [440_000, 700_000, 550_000]);
    assert_eq!(price(&worked()), Ok(700_000));
    assert_eq!(price(&worked().with_counts(1, 2)), Ok(700_000));
    assert_eq!(price(&worked().with_counts(1, 3)), Ok(990_000));
}

#[test]
fn other_hubs_count_for_the_last_amount_alone() {
    let mut hydro = worked();
    hydro.hubs[1].day_ahead_peak = 1_000_000;
    assert_eq!(price(&hydro), Ok(700_000));
    assert_eq!(hydro.with_counts(2, 1).amounts(), [440_000, 700_000, 1_100_000]);
    assert_eq!(price(&hydro.with_counts(2, 1)), Ok(1_100_000));
}

#[test]
fn each_amount_is_rounded_up_once() {
    let alone = |first: Hub| price(&table(1, 0, first));
    assert_eq!(alone(hub(1, 0, &[])), Ok(2));
    assert_eq!(alone(hub(5, 0, &[])), Ok(7));
    assert_eq!(alone(hub(0, 0, &[10])), Ok(14));
    assert_eq!(price(&table(1, 0, hub(0, 0, &[0, 10])).with_counts(1, 2)), Ok(11));
    assert_eq!(price(&table(1, 1, hub(0, 0, &[]))), Ok(1));
    assert_eq!(price(&table(100_000, 1_000_000, hub(0, 0, &[]))), Ok(110_000_000));
    assert_eq!(alone(hub(MOST_HUB_PRICE, 0, &[])), Ok(140_000_000));
}

#[test]
fn prices_past_the_counts_are_not_read() {
    let mut hydro = worked();
    hydro.hubs[0].monthly[1] = -1;
    assert_eq!(price(&hydro), Ok(700_000));
    assert_eq!(price(&hydro.with_counts(1, 2)), Err(22));
    hydro.hubs[1].balance_of_month = MOST_HUB_PRICE + 1;
    assert_eq!(price(&hydro), Ok(700_000));
    assert_eq!(price(&hydro.with_counts(2, 1)), Err(22));
}

#[test]
fn a_value_outside_its_limits_comes_before_the_quantities() {
    let equal = Hydro {
        highest: 10_000,
        ..worked()
    };
    assert_eq!(price(&equal), Err(2));
    assert_eq!(price(&Hydro { h: 0, ..equal }), Err(22));
    for (hub_count, horizon) in [(0, 1), (5, 1), (1, 0), (1, 13), (u64::MAX, 1), (1, u64::MAX)] {
        assert_eq!(price(&worked().with_counts(hub_count, horizon)), Err(22));
    }
}

// ---- claims of the request, over seeds

/// "a larger hub count or horizon never lowers it where neither is refused"
#[test]
fn larger_counts_never_lower_the_price() {
    let mut pairs = 0;
    for seed in 0..1_500 {
        let hydro = case(seed).hydro;
        let prices: Vec<Vec<Option<i128>>> = (1..=4)
            .map(|hubs| (1..=12).map(|horizon| price(&hydro.with_counts(hubs, horizon)).ok()).collect())
            .collect();
        for (hubs, horizon) in (0..4).flat_map(|hubs| (0..12).map(move |horizon| (hubs, horizon))) {
            let larger = prices[hubs..].iter().flat_map(|of_hubs| &of_hubs[horizon..]).flatten();
            if let Some(price) = prices[hubs][horizon] {
                pairs += larger.inspect(|&&more| assert!(more >= price, "{hydro:?}")).count();
            }
        }
    }
    assert!(pairs > 100_000, "{pairs}");
}

/// "Prices past the horizon or the hub count aren't read."
#[test]
fn what_is_not_read_changes_nothing() {
    for seed in 0..3_000 {
        let (hydro, other) = (case(seed).hydro, case(seed + 1).hydro);
        let mut changed = hydro.clone();
        for (index, hub) in changed.hubs.iter_mut().enumerate() {
            if index as u64 >= hydro.hub_count {
                *hub = other.hubs[index].clone();
            }
            let months = hub.monthly.iter_mut().zip(&other.hubs[index].monthly);
            let unread = months.enumerate().filter(|&(month, _)| month as u64 >= hydro.horizon);
            unread.for_each(|(_, (price, other))| *price = *other);
        }
        assert_eq!(changed.default_curve(), hydro.default_curve());
    }
}

/// "each up": the least whole number that isn't below, found by inequalities; and the price is one of the three and below none.
#[test]
fn the_price_is_the_largest_amount_up() {
    for seed in 0..3_000 {
        let hydro = case(seed).hydro;
        if let Ok(price) = price(&hydro) {
            let amounts = hydro.amounts();
            for ((dividend, divisor), amount) in hydro.fractions().into_iter().zip(amounts) {
                assert!(amount * divisor >= dividend && (amount - 1) * divisor < dividend);
            }
            assert!(amounts.contains(&price) && amounts.iter().all(|&amount| amount <= price));
        }
    }
}

#[test]
fn seeds_reach_every_cause_amount_and_limit() {
    for first in [0, 6_000] {
        let coverage = Coverage::of(first..first + 6_000);
        assert!(coverage.all_reached(), "{coverage}");
    }
}
