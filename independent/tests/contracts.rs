//! Reliability contract units: worked cases of request 2.9, its claims over seeds and over all small parts, and what the seeds reach.

use independent::contract::Contract;
use independent::coverage::contracts::ContractCoverage;
use independent::curve::{check_default, Curve, Step};
use independent::generate::contracts::case;
use independent::hour::{Hour, Interval, Offer, Opening, Output, Source};

fn curve(start: i128, steps: &[(i128, i128)]) -> Curve {
    let step = |&(end, price)| Step { end, price };
    Curve {
        start,
        steps: steps.iter().map(step).collect(),
    }
}

/// So many steps of price 7, each 10 wide.
fn flat(start: i128, count: i128) -> Curve {
    let steps: Vec<(i128, i128)> = (1..=count).map(|i| (start + 10 * i, 7)).collect();
    curve(start, &steps)
}

fn join(proxy: Curve, above: Curve) -> Result<Curve, u8> {
    Contract { proxy, above }.join()
}

#[test]
fn each_price_is_raised_to_the_largest_before_it() {
    let joined = |steps: &[(i128, i128)]| {
        let above = curve(10, &[(20, 3), (30, 7)]);
        join(curve(0, steps), above).unwrap().prices()
    };
    assert_eq!(joined(&[(10, 5)]), [5, 5, 7]);
    assert_eq!(joined(&[(10, 2)]), [2, 3, 7]);
    assert_eq!(joined(&[(4, 5), (10, 6)]), [5, 6, 6, 7]);
    assert_eq!(
        join(curve(0, &[(10, -3)]), curve(10, &[(20, -9)])),
        Ok(curve(0, &[(10, -3), (20, -3)]))
    );
    assert_eq!(
        join(curve(0, &[(10, 3)]), curve(10, &[(20, 3)])),
        Ok(curve(0, &[(10, 3), (20, 3)]))
    );
}

#[test]
fn the_lowest_number_wins() {
    let (falling, none) = (curve(0, &[(5, 9), (10, 8)]), curve(10, &[]));
    assert_eq!(join(falling.clone(), none), Err(1));
    assert_eq!(join(falling, curve(10, &[(20, 5), (20, 5)])), Err(2));
    let high = curve(10, &[(20, 1_000_000_001)]);
    assert_eq!(join(flat(0, 1), high), Err(3));
    assert_eq!(join(flat(0, 12), flat(120, 1)), Err(1));
}

#[test]
fn the_parts_meet_and_have_11_steps_together() {
    assert_eq!(join(flat(0, 6), flat(60, 5)), Ok(flat(0, 11)));
    assert_eq!(join(flat(0, 1), flat(9, 1)), Err(23));
    assert_eq!(join(flat(0, 1), flat(11, 1)), Err(23));
    assert_eq!(join(flat(0, 11), flat(111, 1)), Err(23));
    assert_eq!(join(flat(0, 6), flat(60, 6)), Err(24));
    assert_eq!(join(flat(0, 11), flat(110, 1)), Err(24));
}

/// Case T's hour with a contracted unit: 700,000 up to 200 MW, then 500,000 and 800,000.
fn opened() -> Hour {
    let contract = Contract {
        proxy: curve(10000, &[(20000, 700000)]),
        above: curve(20000, &[(24000, 500000), (30000, 800000)]),
    };
    let opening = Opening {
        month: 25,
        sellers: vec![1],
        offers: vec![Offer {
            portfolio: 0,
            bid: curve(10000, &[(15000, 300000), (30000, 900000)]),
            source: Source::Contract(contract),
        }],
    };
    opening.open().unwrap()
}

#[test]
fn the_joined_curve_serves_as_a_default_curve() {
    let mut hour = opened();
    let interval = Interval {
        shadow_prices: vec![500000],
        outputs: vec![Output {
            lmp: 600000,
            dispatch: 20000,
            available: 30000,
            floor: 0,
        }],
        shift_factors: vec![vec![-500000]],
        parameter: 100,
    };
    hour.take(&interval).unwrap();
    let cut = [(15000, 300000), (24000, 700000), (30000, 800000)];
    assert_eq!(hour.curves(), [curve(10000, &cut)]);
}

/// The price that the parts have at a quantity.
fn own_price(contract: &Contract, quantity: i128) -> i128 {
    let parts = [&contract.proxy, &contract.above];
    let mut prices = parts.iter().filter_map(|part| part.price(quantity));
    prices.next().unwrap()
}

/// At each quantity the joined price is the largest that the parts have up to it.
#[test]
fn joined_prices_over_seeds() {
    let mut joined = 0;
    for seed in 0..3000 {
        let contract = case(seed).contract();
        let Ok(curve) = contract.join() else { continue };
        assert_eq!(check_default(&curve), Ok(()));
        let edges = curve.edges();
        let lower_edges = &edges[..edges.len() - 1];
        for &quantity in lower_edges {
            let up_to = lower_edges.iter().filter(|&&edge| edge <= quantity);
            let largest = up_to.map(|&edge| own_price(&contract, edge)).max();
            assert_eq!(curve.price(quantity), largest);
        }
        joined += 1;
    }
    assert!(joined > 1000, "{joined}");
}

/// All lists of so many numbers within a range, never falling.
fn never_falling(count: usize, lowest: i128, highest: i128) -> Vec<Vec<i128>> {
    let mut lists = vec![Vec::new()];
    for _ in 0..count {
        let longer = |list: &Vec<i128>| {
            let from = list.last().copied().unwrap_or(lowest);
            let extended = |number| [&list[..], &[number]].concat();
            (from..=highest).map(extended).collect::<Vec<_>>()
        };
        lists = lists.iter().flat_map(longer).collect();
    }
    lists
}

/// The curve with a step for each quantity, neighbours of one price not merged.
fn by_quantity(start: i128, prices: &[i128]) -> Curve {
    let steps = (start + 1..).zip(prices.iter().copied());
    curve(start, &steps.collect::<Vec<_>>())
}

fn nowhere_below(one: &[i128], other: &[i128]) -> bool {
    one.iter().zip(other).all(|(one, other)| one >= other)
}

/// "No price of either part is lowered, and every other never-falling curve that is nowhere below
/// the joined parts is nowhere below ours." Answers how many others there are.
fn check_least(proxy: &[i128], above: &[i128]) -> usize {
    let contract = Contract {
        proxy: by_quantity(0, proxy),
        above: by_quantity(proxy.len() as i128, above),
    };
    let ours = contract.join().unwrap().prices();
    let parts = [proxy, above].concat();
    let mut others = never_falling(parts.len(), -1, 3);
    others.retain(|other| nowhere_below(other, &parts));
    assert!(others.contains(&ours));
    assert!(others.iter().all(|other| nowhere_below(other, &ours)));
    others.len()
}

#[test]
fn ours_is_the_least_never_falling_curve_above_all_small_parts() {
    let mut others = 0;
    for (first, second) in [(1, 1), (1, 2), (2, 1), (2, 2), (3, 2)] {
        for proxy in never_falling(first, -1, 2) {
            let above = never_falling(second, -1, 2);
            others += above
                .iter()
                .map(|above| check_least(&proxy, above))
                .sum::<usize>();
        }
    }
    assert!(others > 5000, "{others}");
}

#[test]
fn seeds_reach_every_number_and_every_kind_of_join() {
    for first in [0, 6000] {
        let coverage = ContractCoverage::of(first..first + 6000);
        assert!(coverage.all_reached(), "{coverage:?}");
        assert!(coverage.joined > coverage.pairs / 3);
    }
}
