//! Classroom bids (request 2.12).

use crate::curve::{check_bid, Curve, Step};

/// "ends among 100, 200, 300"
pub const ENDS: [i128; 3] = [100, 200, 300];

/// "prices among 0, 10000, 20000"
pub const PRICES: [i128; 3] = [0, 10_000, 20_000];

/// Every list of so many of these numbers, in any order, any of them more than once.
fn lists(count: usize, numbers: &[i128]) -> Vec<Vec<i128>> {
    let mut lists = vec![Vec::new()];
    for _ in 0..count {
        let longer = |list: &Vec<i128>| -> Vec<Vec<i128>> {
            let with = |number: &i128| [&list[..], &[*number]].concat();
            numbers.iter().map(with).collect()
        };
        lists = lists.iter().flat_map(longer).collect();
    }
    lists
}

/// Every curve of so many steps "with start 0" that has these ends and prices, accepted or not.
pub fn curves(count: usize) -> Vec<Curve> {
    let mut curves = Vec::new();
    for ends in lists(count, &ENDS) {
        for prices in lists(count, &PRICES) {
            let steps = ends.iter().zip(prices);
            curves.push(Curve {
                start: 0,
                steps: steps.map(|(&end, price)| Step { end, price }).collect(),
            });
        }
    }
    curves
}

/// "by step count, then by the list of ends, then by the list of prices, smaller first"
pub fn order(bid: &Curve) -> (usize, Vec<i128>, Vec<i128>) {
    let ends = bid.steps.iter().map(|step| step.end).collect();
    (bid.steps.len(), ends, bid.prices())
}

/// "every bid with start 0, ends among 100, 200, 300 and prices among 0, 10000, 20000, never
/// falling". Three ends rise over three steps at most.
pub fn classroom_bids() -> Vec<Curve> {
    let mut bids: Vec<Curve> = (1..=ENDS.len()).flat_map(curves).collect();
    bids.retain(|bid| check_bid(bid, 1).is_ok());
    bids.sort_by_key(order);
    bids
}
