//! Hours in numbers: what is accepted, what is refused with which number, and that a refusal changes nothing.

use noskjerf::hour::{BidCurve, Cause, Costs, Hour, Interval, Opening, Resource, Verdict, CELLS};
use noskjerf::judgement::{Charges, DefaultCurve};
use noskjerf::{Finding, Refused, Seller, Step};

const CHARGES: Charges = Charges {
    gas: 40000,
    rate: 0,
    allowance: 0,
    om: 20000,
    msc: 1000,
    soc: 3000,
    fee: 50,
};

fn steps(steps: &[(i64, i64)]) -> Vec<Step> {
    steps.iter().map(|&(end, price)| Step { end, price }).collect()
}

fn prices(curve: &BidCurve) -> Vec<i64> {
    curve.steps.iter().map(|step| step.price).collect()
}

fn costs_of_t() -> Costs {
    Costs::new(CHARGES).point(10000, 10000).point(20000, 9000).point(30000, 9500)
}

fn bid_of_t() -> Resource {
    Resource::new(0, 10000).step(15000, 300000).step(30000, 900000)
}

/// The curve that Case T's costs give, as paper 02 says it.
fn default_of_t() -> DefaultCurve {
    DefaultCurve {
        start: 10000,
        steps: steps(&[(20000, 378402), (24000, 444403), (30000, 488402)]),
    }
}

fn opening(resource: Resource) -> Opening {
    Opening::month(25).portfolio(true).resource(resource)
}

fn opened() -> Hour {
    Hour::open(&opening(bid_of_t().costs(costs_of_t()))).unwrap()
}

/// Case T's interval with another locational price and dispatch. The component is 250,000, so that L is 249,900 below the price.
fn at(lmp: i64, dispatch: i64) -> Interval {
    Interval::new()
        .constraint(500000)
        .resource(lmp, dispatch, 30000, 0)
        .factor(0, 0, -500000)
        .parameter(100)
}

fn interval_of_t() -> Interval {
    at(600000, 20000)
}

fn number<T: std::fmt::Debug>(answer: Result<T, Refused>) -> u8 {
    answer.unwrap_err().number
}

/// The number of an interval's refusal and of a pass's, each of which leaves the hour as it was.
fn refused(hour: &Hour, interval: &Interval) -> (u8, u8) {
    let mut called = hour.clone();
    let numbers = (number(called.interval(interval)), number(called.pass(interval)));
    assert!(called == *hour);
    numbers
}

#[test]
fn case_t() {
    let pack = Hour::open(&opening(bid_of_t().pack(default_of_t()))).unwrap();
    for mut hour in [opened(), pack] {
        assert_eq!((hour.accepted(), hour.passes(), hour.resources()), (0, 0, 1));
        assert_eq!(hour.default_curve(0), default_of_t());
        let bid = BidCurve {
            start: 10000,
            steps: steps(&[(15000, 300000), (30000, 900000)]),
        };
        assert_eq!((hour.curve(0), hour.five_minute(0)), (bid.clone(), bid));
        let verdict = Verdict {
            constraint: 0,
            finding: Finding::NonCompetitive,
            demand: 10_000_000_000,
            left: 0,
            sellers: vec![Seller {
                constraint: 0,
                portfolio: 0,
                withheld: 15_000_000_000,
            }],
        };
        assert_eq!(hour.interval(&interval_of_t()).unwrap(), [verdict]);
        let cut = BidCurve {
            start: 10000,
            steps: steps(&[(15000, 300000), (20000, 378402), (24000, 444403), (30000, 488402)]),
        };
        assert_eq!((hour.curve(0), hour.five_minute(0)), (cut.clone(), cut));
        assert_eq!((hour.accepted(), hour.passes()), (1, 0));
    }
}

#[test]
fn a_pack_is_the_default_curve() {
    let pack = DefaultCurve {
        start: 9000,
        steps: steps(&[(12000, -1_000_000_000), (40000, 1_000_000_000)]),
    };
    let mut hour = Hour::open(&opening(bid_of_t().pack(pack.clone()))).unwrap();
    assert_eq!(hour.default_curve(0), pack);
    hour.interval(&interval_of_t()).unwrap();
    assert_eq!(prices(&hour.curve(0)), [300000, 900000]);
    hour.interval(&at(400000, 20000)).unwrap();
    assert_eq!(hour.curve(0).steps, steps(&[(12000, 150100), (15000, 300000), (30000, 900000)]));
}

#[test]
fn passes_cut_the_five_minute_curve_alone() {
    let mut hour = opened();
    let now = |hour: &Hour| (prices(&hour.curve(0))[1], prices(&hour.five_minute(0))[1]);
    assert_eq!(number(hour.pass(&interval_of_t())), 19);
    hour.interval(&at(749900, 20000)).unwrap();
    assert_eq!(now(&hour), (500000, 500000));
    assert_eq!(hour.pass(&at(749800, 20000)).unwrap()[0].finding, Finding::NonCompetitive);
    assert_eq!(now(&hour), (500000, 499900));
    hour.pass(&at(749900, 20000)).unwrap();
    assert_eq!(now(&hour), (500000, 499900));
    hour.pass(&at(600000, 20000)).unwrap();
    assert_eq!((now(&hour), hour.passes()), ((500000, 378402), 3));
    assert_eq!(number(hour.pass(&at(600000, 20000).parameter(101))), 19);
    hour.interval(&at(600000, 0)).unwrap();
    assert_eq!((now(&hour), hour.passes()), ((500000, 500000), 0));
    // a pass starts from the interval's curves: a floor price of 550,100 is above them
    hour.pass(&at(800000, 20000)).unwrap();
    assert_eq!((now(&hour), hour.passes()), ((500000, 500000), 1));
}

#[test]
fn one_bid_for_the_hour_after_four_intervals() {
    let mut hour = opened();
    for lmp in [749900, 749800, 749900, 749900] {
        assert_eq!(number(hour.bid(0)), 20);
        assert_eq!(number(hour.bid(64)), 20);
        hour.interval(&at(lmp, 20000)).unwrap();
    }
    let bid = hour.bid(0).unwrap();
    assert_eq!(bid, hour.curve(0));
    assert_eq!(prices(&bid), [300000, 499900]);
    assert_eq!(hour.accepted(), 4);
    let mut fifth = hour.clone();
    assert_eq!(number(fifth.interval(&interval_of_t())), 12);
    assert_eq!(number(fifth.interval(&interval_of_t().resource(0, 0, 0, 0))), 12);
    assert!(fifth == hour);
    hour.pass(&interval_of_t()).unwrap();
    assert_eq!(hour.bid(0).unwrap(), bid);
    assert!(fifth != hour);
}

/// The number of the refusal of Case T's opening with another resource.
fn refused_resource(resource: Resource) -> u8 {
    number(Hour::open(&opening(resource)))
}

#[test]
fn bids_costs_and_packs_are_refused() {
    let of_costs = |costs: Costs| refused_resource(bid_of_t().costs(costs));
    assert_eq!(refused_resource(Resource::new(0, 10000).costs(costs_of_t())), 1);
    assert_eq!(refused_resource(bid_of_t().step(30000, 900000).costs(costs_of_t())), 2);
    assert_eq!(refused_resource(bid_of_t().step(30001, 899999).costs(costs_of_t())), 3);
    assert_eq!(refused_resource(bid_of_t()), 4);
    assert_eq!(of_costs(Costs::new(CHARGES).point(10000, 10000)), 4);
    assert_eq!(of_costs(costs_of_t().point(30000, 9500)), 5);
    assert_eq!(of_costs(costs_of_t().point(40000, 0)), 6);
    assert_eq!(
        of_costs(Costs {
            charges: Charges { fee: -1, ..CHARGES },
            ..costs_of_t()
        }),
        7
    );
    assert_eq!(
        of_costs(Costs::new(CHARGES).point(10000, 10000).point(29999, 1).point(30000, 9500)),
        8
    );
    assert_eq!(refused_resource(bid_of_t().step(30001, 900000).costs(costs_of_t())), 11);
    let of_pack = |start: i64, rows: &[(i64, i64)]| refused_resource(bid_of_t().pack(DefaultCurve { start, steps: steps(rows) }));
    assert_eq!(of_pack(10000, &[]), 1);
    assert_eq!(of_pack(10000, &[(30000, 0), (30000, 0)]), 2);
    assert_eq!(of_pack(-1, &[(30000, 0)]), 2);
    assert_eq!(of_pack(10000, &[(20000, 0), (30000, -1)]), 3);
    assert_eq!(of_pack(10000, &[(30000, 1_000_000_001)]), 3);
    assert_eq!(of_pack(10001, &[(30000, 0)]), 11);
    assert_eq!(of_pack(10000, &[(29999, 0)]), 11);
    // a bid comes before its pack, and either before 11
    let empty = DefaultCurve {
        start: 10000,
        steps: Vec::new(),
    };
    assert_eq!(refused_resource(bid_of_t().step(30000, 900000).pack(empty.clone())), 2);
    assert_eq!(refused_resource(bid_of_t().step(40000, 900000).pack(empty)), 1);
}

#[test]
fn openings_are_refused() {
    let resource = || bid_of_t().costs(costs_of_t());
    let of = |opening: Opening| number(Hour::open(&opening));
    assert_eq!(of(Opening::month(0).portfolio(true).resource(resource())), 9);
    assert_eq!(of(Opening::month(1201).portfolio(true).resource(resource())), 9);
    assert_eq!(of(Opening::month(25).resource(resource())), 9);
    assert_eq!(of(Opening::month(25).portfolio(true)), 9);
    assert_eq!(of(Opening::month(25).portfolio(2).resource(resource())), 10);
    assert_eq!(of(Opening::month(25).portfolio(false).resource(Resource::new(1, 0))), 10);
    assert_eq!(of(Opening::month(25).portfolio(false).resource(Resource::new(-1, 0))), 10);
    // the lower resource first
    let both = Opening::month(25).portfolio(1).resource(bid_of_t()).resource(Resource::new(0, 0));
    assert_eq!(of(both), 4);
}

#[test]
fn lists_past_their_room_reach_the_engine() {
    let flat = |count: i64| DefaultCurve {
        start: 0,
        steps: (1..=count).map(|i| Step { end: 100 * i, price: 0 }).collect(),
    };
    let bid = |count: i64| (1..=count).fold(Resource::new(0, 0), |bid, i| bid.step(100 * i, 0));
    assert!(Hour::open(&opening(bid(10).pack(flat(11)))).is_ok());
    for count in [11, 12, 300] {
        assert_eq!(refused_resource(bid(count).pack(flat(11))), 1);
    }
    for count in [12, 13, 300] {
        assert_eq!(refused_resource(bid(10).pack(flat(count))), 1);
        let costs = (0..count).fold(Costs::new(CHARGES), |costs, i| costs.point(100 * i, 1));
        assert_eq!(refused_resource(bid(10).costs(costs)), 4);
    }
    let many = |portfolios: usize, resources: usize| {
        let opening = (0..portfolios).fold(Opening::month(25), |opening, _| opening.portfolio(true));
        (0..resources).fold(opening, |opening, _| opening.resource(bid(1).pack(flat(1))))
    };
    assert_eq!(Hour::open(&many(16, 64)).unwrap().resources(), 64);
    for (portfolios, resources) in [(17, 1), (300, 1), (1, 65), (1, 300)] {
        assert_eq!(number(Hour::open(&many(portfolios, resources))), 9);
    }
}

#[test]
fn intervals_and_passes_are_refused() {
    let mut hour = opened();
    hour.interval(&at(749900, 20000)).unwrap();
    hour.pass(&at(749800, 20000)).unwrap();
    let both = |interval: Interval| {
        let (taken, passed) = refused(&hour, &interval);
        assert_eq!((taken, number(hour.why(&interval))), (passed, passed));
        taken
    };
    assert_eq!(both(interval_of_t().resource(0, 0, 0, 0)), 13);
    assert_eq!(both(Interval::new()), 13);
    for count in [33, 34, 300] {
        assert_eq!(both((1..count).fold(interval_of_t(), |interval, _| interval.constraint(0))), 14);
        assert_eq!(
            both((1..2 * count).fold(interval_of_t(), |interval, _| interval.resource(0, 0, 0, 0))),
            13
        );
    }
    assert_eq!(both(interval_of_t().constraint(-1)), 15);
    assert_eq!(both(interval_of_t().constraint(100_000_001)), 15);
    assert_eq!(both(interval_of_t().factor(0, 0, 1_000_001)), 15);
    assert_eq!(both(interval_of_t().parameter(101)), 15);
    assert_eq!(both(at(100_000_001, 20000)), 15);
    assert_eq!(both(at(600000, 30001)), 16);
    assert_eq!(both(at(600000, -1)), 16);
    assert_eq!(both(Interval::new().resource(0, 0, 1_000_001, 0)), 16);
    assert_eq!(both(Interval::new().resource(0, 0, 10, 11)), 16);
}

#[test]
fn factors_outside_the_interval_mean_nothing() {
    let plain = interval_of_t();
    let strewn = plain
        .clone()
        .factor(0, 1, i64::MIN)
        .factor(0, 32, i64::MAX)
        .factor(1, 0, i64::MAX)
        .factor(64, 0, i64::MAX)
        .factor(usize::MAX, usize::MAX, i64::MAX);
    let (mut hour, mut other) = (opened(), opened());
    assert_eq!(hour.interval(&plain), other.interval(&strewn));
    assert!(hour == other);
    assert_eq!(hour.why(&plain), hour.why(&strewn));
    // the last number set holds
    assert_eq!(hour.why(&plain), hour.why(&plain.clone().factor(0, 0, 7).factor(0, 0, -500000)));
}

/// P7: with C = 1 the floor price is the locational price and the parameter; with C = 0 no cap applies, nor with a dispatch of 0.
#[test]
fn why() {
    let hour = opened();
    let cause = |interval: Interval| hour.why(&interval).unwrap()[0];
    let of = |component: i64, competitive_price: i64, floor_price: Option<i64>| Cause {
        resource: 0,
        component,
        competitive_price,
        floor_price,
    };
    assert_eq!(cause(interval_of_t()), of(250_000_000_000, 350000, Some(350100)));
    assert_eq!(cause(at(600000, 0).factor(0, 0, -1)), of(0, 600000, None));
    let smallest = Interval::new().constraint(1).resource(500, 1, 1, 0).factor(0, 0, -1).parameter(7);
    assert_eq!(cause(smallest.clone()), of(1, 500, Some(507)));
    assert_eq!(cause(smallest.constraint(0).factor(0, 1, -1)), of(1, 500, Some(507)));
}

/// P8: a bid of 300000 below its cap, the default price. A cap applies, and nothing is cut.
#[test]
fn a_cap_that_changes_nothing() {
    let low = Resource::new(0, 10000).step(30000, 300000).costs(costs_of_t());
    let mut hour = Hour::open(&opening(low)).unwrap();
    let cause = hour.why(&interval_of_t()).unwrap()[0];
    assert!(cause.capped());
    assert_eq!(cause.floor_price, Some(350100));
    let bid = hour.curve(0);
    hour.interval(&interval_of_t()).unwrap();
    assert_eq!(hour.curve(0), bid);
    assert_eq!((bid.steps.len(), bid.steps[0].price), (1, 300000));
}

/// The second resource isn't dispatched; the third loads the constraint.
#[test]
fn why_no_cap_applies() {
    let resource = || bid_of_t().costs(costs_of_t());
    let hour = Hour::open(&opening(resource()).resource(resource()).resource(resource())).unwrap();
    let interval = interval_of_t()
        .resource(600000, 0, 30000, 0)
        .factor(1, 0, -500000)
        .resource(600000, 20000, 30000, 0)
        .factor(2, 0, 500000);
    let causes = hour.why(&interval).unwrap();
    let found: Vec<_> = causes
        .iter()
        .map(|cause| (cause.resource, cause.component, cause.competitive_price, cause.floor_price))
        .collect();
    assert_eq!(causes.iter().map(Cause::capped).collect::<Vec<_>>(), [true, false, false]);
    let expected = [
        (0, 250_000_000_000, 350000, Some(350100)),
        (1, 250_000_000_000, 350000, None),
        (2, -250_000_000_000, 850000, None),
    ];
    assert_eq!(found, expected);
}

#[test]
fn what_is_asked_changes_nothing() {
    let mut hour = opened();
    hour.interval(&at(749900, 20000)).unwrap();
    let kept = hour.cells().to_vec();
    hour.why(&interval_of_t()).unwrap();
    for resource in [0, 1, 63, 64, usize::MAX] {
        hour.curve(resource);
        hour.five_minute(resource);
        hour.bid(resource).unwrap_err();
        hour.default_curve(resource);
    }
    assert_eq!(hour.cells().as_slice(), kept);
    assert!(Hour::from_cells(hour.cells()) == hour);
}

#[test]
fn a_resource_outside_the_hour_has_a_blank_curve() {
    let mut hour = opened();
    for _ in 0..4 {
        hour.interval(&interval_of_t()).unwrap();
    }
    let blank = BidCurve {
        start: 0,
        steps: Vec::new(),
    };
    for resource in [1, 63, 64, 1000, usize::MAX] {
        assert_eq!(hour.curve(resource), blank);
        assert_eq!(hour.five_minute(resource), blank);
        assert_eq!(hour.bid(resource), Ok(blank.clone()));
        let default = hour.default_curve(resource);
        assert_eq!((default.start, default.steps), (0, Vec::new()));
    }
}

/// Numbers that no hour has.
fn garbage(seed: i64) -> Hour {
    let mut cells = [0; CELLS];
    let mut mixed = seed;
    for (cell, at) in cells.iter_mut().zip(0..) {
        mixed = mixed.wrapping_mul(6_364_136_223_846_793_005).wrapping_add(at);
        *cell = mixed >> (seed % 60);
    }
    Hour::from_cells(&cells)
}

/// Asks all that can be asked of an hour, and takes an interval and a pass for as many resources as it may have.
fn ask_all(mut hour: Hour) {
    for resource in [0, 1, 31, 63, 64, usize::MAX] {
        assert!(hour.curve(resource).steps.len() <= 20);
        assert!(hour.five_minute(resource).steps.len() <= 20);
        assert!(hour.default_curve(resource).steps.len() <= 11);
        assert_eq!(hour.bid(resource).is_ok(), hour.accepted() >= 4);
    }
    let resources = hour.resources().min(65);
    let interval = (0..resources).fold(Interval::new().constraint(500000), |interval, _| {
        interval.resource(600000, 20000, 30000, 0)
    });
    let interval = (0..64).fold(interval, |interval, resource| interval.factor(resource, 0, -500000));
    let fits = hour.resources() <= 64;
    assert_eq!(hour.why(&interval).map(|causes| causes.len()).ok(), fits.then_some(resources));
    let (accepted, passes) = (hour.accepted(), hour.passes());
    assert_eq!(hour.pass(&interval).is_ok(), accepted > 0 && passes < 3 && fits);
    assert_eq!(hour.interval(&interval).is_ok(), accepted < 4 && fits);
}

#[test]
fn every_content_is_an_hour() {
    for cell in [0, 1, 2, 3, 64, 65, -1, i64::MIN, i64::MAX] {
        ask_all(Hour::from_cells(&[cell; CELLS]));
    }
    for seed in 0..2000 {
        ask_all(garbage(seed));
    }
    // the front of an hour and its first row, one number wrong at a time
    for at in 0..387 {
        for cell in [-1, i64::MIN, i64::MAX] {
            let mut cells = *opened().cells();
            cells[at] = cell;
            ask_all(Hour::from_cells(&cells));
        }
    }
}

#[test]
fn a_refusal_says_why() {
    let refused = opened().bid(0).unwrap_err();
    assert_eq!(refused.to_string(), "fewer than four intervals are accepted (refusal 20)");
    let boxed: Box<dyn std::error::Error + Send + Sync> = Box::new(refused);
    assert!(boxed.is::<Refused>());
}

#[test]
fn an_hour_is_shown_by_its_counts() {
    let mut hour = opened();
    hour.interval(&interval_of_t()).unwrap();
    hour.pass(&interval_of_t()).unwrap();
    assert_eq!(format!("{hour:?}"), "Hour { accepted: 1, passes: 1, resources: 1, .. }");
}
