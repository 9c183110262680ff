//! Reliability contract units: the worked cases of request 2.9.

use noskjerf::hour::{Hour, Interval, Opening, Resource};
use noskjerf::judgement::{join, DefaultCurve};
use noskjerf::{Refused, Step};

fn curve(start: i64, steps: &[(i64, i64)]) -> DefaultCurve {
    DefaultCurve {
        start,
        steps: steps.iter().map(|&(end, price)| Step { end, price }).collect(),
    }
}

/// So many steps of price 7, each 10 wide.
fn flat(start: i64, count: i64) -> DefaultCurve {
    let steps: Vec<(i64, i64)> = (1..=count).map(|i| (start + 10 * i, 7)).collect();
    curve(start, &steps)
}

fn number(proxy: &DefaultCurve, above: &DefaultCurve) -> u8 {
    join(proxy, above).map_or_else(|refused| refused.number, |_| 0)
}

/// Parts of the first and of the second place with each number of a part, alone.
fn refused_parts() -> [(u8, [DefaultCurve; 2]); 4] {
    [
        (1, [flat(0, 0), flat(10, 0)]),
        (1, [flat(0, 12), flat(10, 12)]),
        (2, [curve(0, &[(10, 5), (10, 5)]), curve(10, &[(30, 5), (20, 5)])]),
        (3, [curve(0, &[(5, 9), (10, 8)]), curve(10, &[(20, 9), (30, 8)])]),
    ]
}

#[test]
fn each_price_is_raised_to_the_largest_before_it() {
    let above = curve(10, &[(20, 3), (30, 7)]);
    for (proxy, joined) in [
        (vec![(10, 5)], vec![(10, 5), (20, 5), (30, 7)]),
        (vec![(10, 2)], vec![(10, 2), (20, 3), (30, 7)]),
        (vec![(4, 5), (10, 6)], vec![(4, 5), (10, 6), (20, 6), (30, 7)]),
        (vec![(10, 8)], vec![(10, 8), (20, 8), (30, 8)]),
    ] {
        assert_eq!(join(&curve(0, &proxy), &above), Ok(curve(0, &joined)));
    }
}

#[test]
fn prices_below_0_are_raised_like_others() {
    let joined = join(&curve(0, &[(10, -3)]), &curve(10, &[(20, -9)]));
    assert_eq!(joined, Ok(curve(0, &[(10, -3), (20, -3)])));
}

#[test]
fn eleven_steps_of_one_price_stay_eleven() {
    for first in 1..=10 {
        assert_eq!(join(&flat(0, first), &flat(10 * first, 11 - first)), Ok(flat(0, 11)));
    }
}

#[test]
fn prices_and_edges_reach_their_limits() {
    let (proxy, above) = (curve(0, &[(1, -1_000_000_000)]), curve(1, &[(1_000_000, 1_000_000_000)]));
    assert_eq!(
        join(&proxy, &above),
        Ok(curve(0, &[(1, -1_000_000_000), (1_000_000, 1_000_000_000)]))
    );
    assert_eq!(number(&proxy, &curve(1, &[(1_000_000, 1_000_000_001)])), 3);
    assert_eq!(number(&curve(0, &[(1, -1_000_000_001)]), &above), 3);
    assert_eq!(number(&proxy, &curve(1, &[(1_000_001, 0)])), 2);
    assert_eq!(number(&curve(-1, &[(1, 0)]), &above), 2);
    assert_eq!(
        number(&curve(i64::MIN, &[(i64::MAX, i64::MIN)]), &curve(i64::MAX, &[(i64::MIN, i64::MAX)])),
        2
    );
}

#[test]
fn the_lowest_number_over_both_parts_wins() {
    let (proxy, above) = (curve(0, &[(10, 5)]), curve(10, &[(20, 5)]));
    for (of_proxy, [first, _]) in refused_parts() {
        assert_eq!(number(&first, &above), of_proxy);
        // also before 23 and 24
        assert_eq!(number(&first, &flat(500, 11)), of_proxy);
        for (of_above, [_, second]) in refused_parts() {
            assert_eq!(number(&proxy, &second), of_above);
            assert_eq!(number(&first, &second), of_proxy.min(of_above));
        }
    }
}

#[test]
fn the_second_part_starts_where_the_first_one_ends() {
    let proxy = curve(0, &[(5, 5), (10, 5)]);
    for start in [0, 5, 9, 11] {
        assert_eq!(number(&proxy, &curve(start, &[(20, 5)])), 23);
    }
    // before 24
    assert_eq!(number(&flat(0, 11), &flat(111, 1)), 23);
}

#[test]
fn both_parts_have_11_steps_at_most() {
    for (first, second) in [(6, 6), (11, 1), (1, 11), (11, 11)] {
        assert_eq!(number(&flat(0, first), &flat(10 * first, second)), 24);
    }
    assert_eq!(number(&flat(0, 100_000), &flat(1_000_000, 1)), 1);
}

/// In Case T's hour the floor price is 350,100: 700,000 up to 200 MW, then 500,000, which is raised, and 800,000.
#[test]
fn a_joined_curve_opens_an_hour() {
    let joined = join(
        &curve(10000, &[(20000, 700000)]),
        &curve(20000, &[(24000, 500000), (30000, 800000)]),
    )
    .unwrap();
    let unit = Resource::new(0, 10000).step(15000, 300000).step(30000, 900000);
    let mut hour = Hour::open(&Opening::month(25).portfolio(true).resource(unit.pack(joined.clone()))).unwrap();
    assert_eq!(hour.default_curve(0), joined);
    let interval = Interval::new()
        .constraint(500000)
        .resource(600000, 20000, 30000, 0)
        .factor(0, 0, -500000);
    hour.interval(&interval.parameter(100)).unwrap();
    let after = hour.curve(0);
    assert_eq!(
        (after.start, after.steps),
        (10000, curve(10000, &[(15000, 300000), (24000, 700000), (30000, 800000)]).steps)
    );
}

#[test]
fn the_bid_lies_within_the_whole_joined_curve() {
    let opened = |start: i64, end: i64| {
        let unit = Resource::new(0, start)
            .step(end, 7)
            .pack(join(&flat(100, 1), &flat(110, 1)).unwrap());
        Hour::open(&Opening::month(25).portfolio(true).resource(unit)).map(|_| ())
    };
    assert_eq!(opened(100, 120), Ok(()));
    assert_eq!(opened(99, 120), Err(Refused { number: 11 }));
    assert_eq!(opened(100, 121), Err(Refused { number: 11 }));
}

#[test]
fn a_refusal_says_why() {
    let said = |above: &DefaultCurve| join(&flat(0, 6), above).unwrap_err().to_string();
    assert_eq!(
        said(&flat(61, 5)),
        "the second part does not start at the first one's last end (refusal 23)"
    );
    assert_eq!(said(&flat(60, 6)), "the two parts have more than 11 steps together (refusal 24)");
}
