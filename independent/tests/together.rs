//! Short on every path together: worked cases of request 2.11, its claims over seeds by trying every set, and what the seeds reach.

use independent::coverage::together::TogetherCoverage;
use independent::curve::{Curve, Step};
use independent::generate::together::case;
use independent::hour::{Hour, Interval, Offer, Opening, Output, Source};
use independent::together::works;

/// An hour in which each portfolio has a resource.
fn opened(sellers: &[i128]) -> Hour {
    let curve = Curve {
        start: 0,
        steps: vec![Step { end: 10, price: 1 }],
    };
    let offer = |portfolio: usize| Offer {
        portfolio: portfolio as i128,
        bid: curve.clone(),
        source: Source::Pack(curve.clone()),
    };
    let opening = Opening {
        month: 25,
        sellers: sellers.to_vec(),
        offers: (0..sellers.len()).map(offer).collect(),
    };
    opening.open().unwrap()
}

/// An interval of these shadow prices, dispatch and available of each resource, and factors.
fn interval(shadow: &[i128], outputs: &[(i128, i128)], factors: &[&[i128]]) -> Interval {
    let output = |&(dispatch, available): &(i128, i128)| Output {
        lmp: 0,
        dispatch,
        available,
        floor: 0,
    };
    Interval {
        shadow_prices: shadow.to_vec(),
        outputs: outputs.iter().map(output).collect(),
        shift_factors: factors.iter().map(|row| row.to_vec()).collect(),
        parameter: 0,
    }
}

/// P5's: 5, 4, 3 and 2 of supply.
fn four(first: i128, second: i128) -> Interval {
    interval(
        &[1],
        &[(first, 5), (second, 4), (0, 3), (0, 2)],
        &[&[-1], &[-1], &[-1], &[-1]],
    )
}

/// Two constraints, each with a seller of its own, and a third seller.
fn two_paths(first: i128, second: i128) -> Interval {
    interval(
        &[first, second],
        &[(1, 1), (1, 1), (0, 1)],
        &[&[-1, 0], &[0, -1], &[0, 0]],
    )
}

/// The set, the sets tried and the floor.
fn found(hour: &Hour, interval: &Interval, budget: u64) -> (Option<u32>, u64, u64) {
    let together = hour.together(interval, budget).unwrap();
    (together.best, together.tried, together.floor)
}

#[test]
fn four_sellers() {
    let hour = opened(&[1, 1, 1, 1]);
    assert_eq!(found(&hour, &four(3, 0), u64::MAX), (Some(7), 15, 3));
    assert_eq!(found(&hour, &four(2, 0), u64::MAX), (Some(15), 15, 4));
    assert_eq!(found(&hour, &four(3, 0), 6), (Some(15), 6, 3));
    assert_eq!(found(&hour, &four(3, 0), 7), (Some(7), 7, 3));
    assert_eq!(found(&hour, &four(3, 0), 0), (Some(15), 0, 3));
}

#[test]
fn net_buyers_withhold_nothing() {
    let hour = opened(&[0, 1, 1, 1]);
    assert_eq!(found(&hour, &four(5, 0), u64::MAX), (None, 0, 0));
    assert_eq!(found(&hour, &four(5, 1), u64::MAX), (Some(14), 7, 3));
    let buyers = opened(&[0, 0, 0, 0]);
    assert_eq!(found(&buyers, &four(5, 1), u64::MAX), (None, 0, 0));
}

#[test]
fn a_seller_for_each_of_two_constraints() {
    let hour = opened(&[1, 1, 1]);
    assert_eq!(found(&hour, &two_paths(1, 1), u64::MAX), (Some(3), 7, 1));
    assert_eq!(found(&hour, &two_paths(1, 1), 2), (Some(7), 2, 1));
    assert_eq!(found(&hour, &two_paths(0, 1), u64::MAX), (Some(2), 7, 1));
}

#[test]
fn refused_where_nothing_binds() {
    let hour = opened(&[1, 1, 1]);
    let number = |interval: &Interval| hour.together(interval, 9).unwrap_err();
    let idle = |constraints: usize, first: (i128, i128)| {
        let row: &[i128] = &vec![0; constraints];
        interval(row, &[first, (0, 0), (0, 0)], &[row; 3])
    };
    assert_eq!(number(&two_paths(0, 0)), 26);
    assert_eq!(number(&two_paths(0, -1)), 15);
    assert_eq!(number(&idle(0, (1, 1))), 26);
    assert_eq!(number(&idle(32, (1, 1))), 26);
    assert_eq!(number(&idle(0, (2, 1))), 16);
    assert_eq!(number(&idle(33, (2, 1))), 14);
    assert_eq!(number(&interval(&[], &[(0, 1)], &[&[]])), 13);
}

/// The request's claims on an interval and a budget, by trying every set.
fn check_claims(hour: &Hour, interval: &Interval, budget: u64) -> bool {
    let Ok(together) = hour.together(interval, budget) else {
        return false;
    };
    let paths = hour.binding(interval);
    let sets: Vec<u32> = (0..1 << hour.net_seller.len())
        .filter(|&set| hour.has_only_net_sellers(set))
        .collect();
    let working: Vec<u32> = sets
        .iter()
        .copied()
        .filter(|&set| works(&paths, set))
        .collect();
    let Some(best) = together.best else {
        // "If all net sellers together can't, no set of them can"
        assert_eq!((together.tried, together.floor), (0, 0));
        assert!(working.is_empty());
        return true;
    };
    let (best, count) = (u64::from(best.count_ones()), sets.len() as u64 - 1);
    let fewest = working.iter().map(|set| u64::from(set.count_ones())).min();
    assert!(working.contains(&together.best.unwrap()));
    // "sets tried equals the smaller of budget and the number of non-empty sets of net sellers"
    assert_eq!(together.tried, budget.min(count));
    // "No set that works has fewer members than the floor"
    assert!(Some(together.floor) <= fewest);
    // "with the sets all tried, no working set has fewer than the best"
    assert!(together.tried < count || Some(best) == fewest);
    // "More budget never gives a best with more members."
    for more in [budget.saturating_add(1), u64::MAX] {
        let found = hour.together(interval, more).unwrap().best.unwrap();
        assert!(u64::from(found.count_ones()) <= best);
    }
    true
}

#[test]
fn the_claims_hold_by_every_set() {
    let mut answered = 0;
    for seed in 0..6000 {
        let case = case(seed);
        if case.opening.sellers.len() <= 8 {
            let hour = case.opening.open().unwrap();
            answered += usize::from(check_claims(&hour, &case.interval, case.budget));
        }
    }
    assert!(answered > 4000, "{answered}");
}

#[test]
fn seeds_reach_every_kind() {
    for first in [0, 6000] {
        let coverage = TogetherCoverage::of(first..first + 6000);
        assert!(coverage.all_reached(), "{coverage:?}");
        assert!(coverage.above_floor > coverage.asked / 15);
        assert!(coverage.by_steps > coverage.asked / 60);
        assert!(coverage.cut_short_above > coverage.asked / 20);
        assert!(coverage.ties > coverage.asked / 10);
    }
}
