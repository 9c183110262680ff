//! Classroom bids: the request's claims, places worked by hand, and what the seeds reach of hours with such bids.

use independent::classroom::{classroom_bids, curves, order};
use independent::coverage::classroom::ClassroomCoverage;
use independent::curve::{check_bid, Curve, Step};

fn bid(steps: &[(i128, i128)]) -> Curve {
    let step = |&(end, price): &(i128, i128)| Step { end, price };
    Curve {
        start: 0,
        steps: steps.iter().map(step).collect(),
    }
}

#[test]
fn there_are_37() {
    let bids = classroom_bids();
    let of_steps = |count: usize| bids.iter().filter(|bid| bid.steps.len() == count).count();
    assert_eq!(bids.len(), 37);
    assert_eq!([1, 2, 3].map(of_steps), [9, 18, 10]);
}

#[test]
fn places_worked_by_hand() {
    let bids = classroom_bids();
    for (place, steps) in [
        (0, vec![(100, 0)]),
        (1, vec![(100, 10000)]),
        (2, vec![(100, 20000)]),
        (3, vec![(200, 0)]),
        (8, vec![(300, 20000)]),
        (9, vec![(100, 0), (200, 0)]),
        (10, vec![(100, 0), (200, 10000)]),
        (14, vec![(100, 20000), (200, 20000)]),
        (15, vec![(100, 0), (300, 0)]),
        (26, vec![(200, 20000), (300, 20000)]),
        (27, vec![(100, 0), (200, 0), (300, 0)]),
        (28, vec![(100, 0), (200, 0), (300, 10000)]),
        (36, vec![(100, 20000), (200, 20000), (300, 20000)]),
    ] {
        assert_eq!(bids[place], bid(&steps), "place {place}");
    }
    assert_eq!(bids.get(37), None);
}

/// "each listed once", and in the request's order.
#[test]
fn each_stands_before_the_next() {
    let bids = classroom_bids();
    assert!(bids
        .windows(2)
        .all(|pair| order(&pair[0]) < order(&pair[1])));
}

/// "every listed one is accepted as a bid": in whichever month.
#[test]
fn each_is_accepted_in_every_month() {
    for bid in classroom_bids() {
        for month in -1..=1202 {
            assert_eq!(check_bid(&bid, month), Ok(()), "{bid:?} in month {month}");
        }
    }
}

/// "every bid": none of another number of steps is accepted, and none of 1 to 3 that isn't listed.
#[test]
fn no_other_is_accepted() {
    let listed = classroom_bids();
    for count in 0..=5 {
        for curve in curves(count) {
            for month in [1, 13, 25] {
                let accepted = check_bid(&curve, month).is_ok();
                assert_eq!(accepted, listed.contains(&curve), "{curve:?}");
            }
        }
    }
}

#[test]
fn seeds_reach_every_bid_cut_and_uncut() {
    for first in [0, 6000] {
        let coverage = ClassroomCoverage::of(first..first + 6000);
        assert!(coverage.all_reached(), "{coverage:?}");
        // "every listed one is accepted as a bid"
        for number in 1..=8 {
            let refused = [coverage.texts[number], coverage.lists.openings[number]];
            assert_eq!(refused, [0, 0], "refused by {number}");
        }
    }
}
