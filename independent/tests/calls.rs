//! Lists of calls in numbers: packs by paper 01's words, the definitions over seeds, and what the seeds reach.

use independent::costs::{Costs, Point};
use independent::coverage::calls::CallCoverage;
use independent::curve::{Curve, Step};
use independent::generate::calls::case;
use independent::hour::{Cause, Interval, Offer, Opening, Output, Source};
use independent::passes::{Call, RealTime};

fn curve(start: i128, steps: &[(i128, i128)]) -> Curve {
    let step = |&(end, price)| Step { end, price };
    Curve {
        start,
        steps: steps.iter().map(step).collect(),
    }
}

/// Case T's opening, but for its source.
fn opening(source: Source) -> Opening {
    Opening {
        month: 25,
        sellers: vec![1],
        offers: vec![Offer {
            portfolio: 0,
            bid: curve(10000, &[(15000, 300000), (30000, 900000)]),
            source,
        }],
    }
}

fn costs_of_t() -> Source {
    let point = |(m, h)| Point { m, h };
    let points = [(10000, 10000), (20000, 9000), (30000, 9500)].map(point);
    let costs = Costs {
        gas: 40000,
        om: 20000,
        msc: 1000,
        soc: 3000,
        fee: 50,
        ..Costs::default()
    };
    Source::Costs(points.to_vec(), costs)
}

fn interval_of_t() -> Interval {
    Interval {
        shadow_prices: vec![500000],
        outputs: vec![Output {
            lmp: 600000,
            dispatch: 20000,
            available: 30000,
            floor: 0,
        }],
        shift_factors: vec![vec![-500000]],
        parameter: 100,
    }
}

#[test]
fn a_pack_that_is_the_default_curve_answers_as_the_costs() {
    let default = curve(10000, &[(20000, 378402), (24000, 444403), (30000, 488402)]);
    for source in [costs_of_t(), Source::Pack(default.clone())] {
        let mut hour = RealTime::new(opening(source).open().unwrap());
        assert_eq!(hour.hour.resources[0].default_energy_bid, default);
        let causes = hour.hour.causes(&interval_of_t());
        let cause = Cause {
            component: 250_000_000_000,
            competitive_price: 350_000,
            floor_price: Some(350_100),
        };
        assert_eq!(causes, Ok(vec![cause]));
        hour.take(&Call::Interval(interval_of_t())).unwrap();
        let cut = [
            (15000, 300000),
            (20000, 378402),
            (24000, 444403),
            (30000, 488402),
        ];
        assert_eq!(hour.hour.curves(), [curve(10000, &cut)]);
    }
}

#[test]
fn a_pack_has_the_checks_of_a_default_curve() {
    let number = |start, steps: &[(i128, i128)]| {
        let opened = opening(Source::Pack(curve(start, steps))).open();
        opened.map_or_else(|number| number, |_| 0)
    };
    let flat = |count: i128| -> Vec<(i128, i128)> { (1..=count).map(|i| (3000 * i, 7)).collect() };
    assert_eq!(number(0, &flat(11)), 0);
    assert_eq!(number(0, &flat(12)), 1);
    assert_eq!(number(0, &[]), 1);
    assert_eq!(number(0, &[(30000, 0), (30000, 0)]), 2);
    assert_eq!(number(0, &[(1_000_000, 1_000_000_000)]), 0);
    assert_eq!(number(0, &[(1_000_001, 0)]), 2);
    assert_eq!(number(0, &[(30000, 1_000_000_001)]), 3);
    assert_eq!(number(0, &[(30000, -1_000_000_000)]), 0);
    assert_eq!(number(0, &[(20000, 1), (30000, 0)]), 3);
    assert_eq!(number(10001, &[(30000, 0)]), 11);
    assert_eq!(number(10000, &[(29999, 0)]), 11);
}

/// The cap of a call at a quantity, where it makes a cut.
fn cap(hour: &RealTime, call: &Call, resource: usize, quantity: i128) -> Option<i128> {
    let cause = hour.hour.causes(call.values()).unwrap()[resource];
    let default = &hour.hour.resources[resource].default_energy_bid;
    let default_price = default.price(quantity).unwrap();
    cause.floor_price.map(|l| default_price.max(l))
}

/// The hourly and the five-minute price of the middle of a bid, call by call: the least of the
/// submitted price and the caps. Answers how many calls cut it.
fn check_prices(mut hour: RealTime, calls: &[Call], resource: usize) -> usize {
    let bid = hour.hour.resources[resource].bid.clone();
    let quantity = (bid.start + bid.end()) / 2;
    let mut hourly = bid.price(quantity).unwrap();
    let mut five_minute = hourly;
    let mut cuts = 0;
    for call in calls {
        if hour.take(call).is_ok() {
            let cap = cap(&hour, call, resource, quantity).unwrap_or(i128::MAX);
            cuts += usize::from(cap < five_minute);
            match call {
                Call::Interval(_) => {
                    hourly = hourly.min(cap);
                    five_minute = hourly;
                }
                Call::Pass(_) => five_minute = five_minute.min(cap),
            }
        }
        assert_eq!(hour.hour.curves()[resource].price(quantity), Some(hourly));
        assert_eq!(hour.curves[resource].price(quantity), Some(five_minute));
    }
    cuts
}

#[test]
fn prices_are_the_least_of_the_submitted_price_and_the_caps() {
    let mut cuts = 0;
    for seed in 0..3000 {
        let case = case(seed);
        if let Ok(hour) = case.opening.open() {
            for resource in 0..hour.resources.len().min(4) {
                cuts += check_prices(RealTime::new(hour.clone()), &case.calls, resource);
            }
        }
    }
    assert!(cuts > 500, "{cuts}");
}

#[test]
fn seeds_reach_every_refusal_and_every_kind_of_call() {
    for first in [0, 6000] {
        let coverage = CallCoverage::of(first..first + 6000);
        assert!(coverage.all_reached(), "{coverage:?}");
        assert!(coverage.openings[0] > coverage.lists / 2);
        assert!(coverage.intervals[0] > coverage.lists);
    }
}
