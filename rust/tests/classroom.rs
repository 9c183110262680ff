//! Classroom bids: the places of request 2.12 worked by hand, its claims, and each bid in an hour.

use noskjerf::hour::{Hour, Interval, Opening, Resource};
use noskjerf::judgement::{bid, classroom_bids, Bid, DefaultCurve};
use noskjerf::{Refused, Step};

fn steps(of: &[(i64, i64)]) -> Vec<Step> {
    of.iter().map(|&(end, price)| Step { end, price }).collect()
}

fn ends(bid: &Bid) -> Vec<i64> {
    bid.steps.iter().map(|step| step.end).collect()
}

fn prices(bid: &Bid) -> Vec<i64> {
    bid.steps.iter().map(|step| step.price).collect()
}

#[test]
fn places_worked_by_hand() {
    let bids = classroom_bids();
    assert_eq!(bids.len(), 37);
    for (place, of) in [
        (0, vec![(100, 0)]),
        (1, vec![(100, 10000)]),
        (2, vec![(100, 20000)]),
        (3, vec![(200, 0)]),
        (8, vec![(300, 20000)]),
        (9, vec![(100, 0), (200, 0)]),
        (10, vec![(100, 0), (200, 10000)]),
        (14, vec![(100, 20000), (200, 20000)]),
        (15, vec![(100, 0), (300, 0)]),
        (26, vec![(200, 20000), (300, 20000)]),
        (27, vec![(100, 0), (200, 0), (300, 0)]),
        (28, vec![(100, 0), (200, 0), (300, 10000)]),
        (36, vec![(100, 20000), (200, 20000), (300, 20000)]),
    ] {
        assert_eq!(
            bids[place],
            Bid {
                start: 0,
                steps: steps(&of)
            },
            "place {place}"
        );
    }
}

/// "by step count, then by the list of ends, then by the list of prices, smaller first", and "each listed once".
#[test]
fn each_stands_before_the_next() {
    let order = |bid: &Bid| (bid.steps.len(), ends(bid), prices(bid));
    assert!(classroom_bids().windows(2).all(|pair| order(&pair[0]) < order(&pair[1])));
}

#[test]
fn each_is_of_the_ends_and_prices_asked_for() {
    for bid in classroom_bids() {
        assert_eq!(bid.start, 0);
        assert!(ends(&bid).iter().all(|end| [100, 200, 300].contains(end)));
        assert!(prices(&bid).iter().all(|price| [0, 10000, 20000].contains(price)));
    }
}

/// "every listed one is accepted as a bid"
#[test]
fn each_is_accepted_in_every_month() {
    for each in classroom_bids() {
        for month in (0..=1201).chain([u64::MAX]) {
            assert_eq!(bid(month, each.start, &each.steps), Ok(()), "{each:?} in month {month}");
        }
    }
}

/// An hour of one net seller with a bid, whose default energy bid goes from 0 to an end at one price.
fn opened(bid: &Bid, end: i64, price: i64) -> Result<Hour, Refused> {
    let pack = DefaultCurve {
        start: 0,
        steps: steps(&[(end, price)]),
    };
    let unit = bid
        .steps
        .iter()
        .fold(Resource::new(0, bid.start), |unit, step| unit.step(step.end, step.price));
    Hour::open(&Opening::month(25).portfolio(true).resource(unit.pack(pack)))
}

/// The floor price is 12000 - 5000 + 100 = 7100, below the default price of 8000, so that 8000 is the cap.
fn interval() -> Interval {
    let interval = Interval::new().constraint(10000).resource(12000, 200, 300, 0);
    interval.factor(0, 0, -500000).parameter(100)
}

/// The steps at most at a price, neighbours of one price merged.
fn capped(bid: &Bid, cap: i64) -> Vec<Step> {
    let mut curve: Vec<Step> = Vec::new();
    for step in &bid.steps {
        let price = step.price.min(cap);
        match curve.last_mut() {
            Some(last) if last.price == price => last.end = step.end,
            _ => curve.push(Step { price, ..*step }),
        }
    }
    curve
}

#[test]
fn each_opens_an_hour_and_is_cut_to_the_cap() {
    for bid in classroom_bids() {
        let mut hour = opened(&bid, 300, 8000).unwrap();
        assert_eq!((hour.curve(0).start, hour.curve(0).steps), (0, capped(&bid, 20000)));
        hour.interval(&interval()).unwrap();
        assert_eq!((hour.curve(0).start, hour.curve(0).steps), (0, capped(&bid, 8000)));
    }
}

#[test]
fn an_hour_wants_a_default_energy_bid_round_each() {
    for bid in classroom_bids() {
        let last = bid.steps[bid.steps.len() - 1].end;
        assert_eq!(opened(&bid, last - 1, 0).map(|_| ()), Err(Refused { number: 11 }));
        assert!(opened(&bid, last, 0).is_ok());
    }
}
