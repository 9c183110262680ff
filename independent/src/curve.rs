//! Curve: stepped prices over quantity.

use crate::numbers::{is_quantity, never_fall, strictly_rise, within, Refusal};

#[derive(Clone, Copy, Debug, PartialEq, Eq)]
pub struct Step {
    pub end: i128,
    pub price: i128,
}

/// "A curve has a start and 1 to 10 steps (end, price)"; "refusal 1 allows a default curve 11".
#[derive(Clone, Debug, PartialEq, Eq)]
pub struct Curve {
    pub start: i128,
    pub steps: Vec<Step>,
}

pub const MOST_BID_STEPS: i128 = 10;

/// "refusal 1 allows a default curve 11"
pub const MOST_DEFAULT_STEPS: i128 = 11;

pub const LOWEST_BID_PRICE: i128 = -1_500_000;

/// "A default curve ... allows prices of -1,000,000,000 to 1,000,000,000."
pub const FURTHEST_DEFAULT_PRICE: i128 = 1_000_000_000;

/// "at most 5,000,000 in months 1 to 12 since the rule took effect, 7,500,000 in months 13 to 24,
/// 10,000,000 from month 25"
pub fn highest_bid_price(month: i128) -> i128 {
    match month {
        1..=12 => 5_000_000,
        13..=24 => 7_500_000,
        _ => 10_000_000,
    }
}

impl Curve {
    /// The start and every end, in order.
    pub fn edges(&self) -> Vec<i128> {
        let mut edges = vec![self.start];
        edges.extend(self.steps.iter().map(|step| step.end));
        edges
    }

    pub fn prices(&self) -> Vec<i128> {
        self.steps.iter().map(|step| step.price).collect()
    }

    pub fn end(&self) -> i128 {
        *self.edges().last().unwrap()
    }

    /// "Quantity q has the price of the step with lower edge <= q < end."
    pub fn price(&self, quantity: i128) -> Option<i128> {
        let mut lower_edge = self.start;
        for step in &self.steps {
            if lower_edge <= quantity && quantity < step.end {
                return Some(step.price);
            }
            lower_edge = step.end;
        }
        None
    }

    /// Refusals 1 to 3; the lowest number wins.
    pub fn check(&self, most: i128, lowest: i128, highest: i128) -> Result<(), Refusal> {
        let applies = self.refusals(most, lowest, highest);
        let number = (1..).zip(applies).find(|&(_, applies)| applies);
        number.map_or(Ok(()), |(number, _)| Err(number))
    }

    /// Whether each of 1 to 3 applies.
    pub fn refusals(&self, most: i128, lowest: i128, highest: i128) -> [bool; 3] {
        let (edges, prices) = (self.edges(), self.prices());
        [
            // 1: "step count outside 1 to 10"
            !within(self.steps.len() as i128, 1, most),
            // 2: "an edge outside 0 to 1,000,000, or edges not rising"
            !edges.iter().all(|&edge| is_quantity(edge)) || !strictly_rise(&edges),
            // 3: "price outside its range, or falling"
            !prices.iter().all(|&price| within(price, lowest, highest)) || !never_fall(&prices),
        ]
    }
}

/// "A bid price is at least -1,500,000 and at most ..."
pub fn check_bid(bid: &Curve, month: i128) -> Result<(), Refusal> {
    bid.check(MOST_BID_STEPS, LOWEST_BID_PRICE, highest_bid_price(month))
}

pub fn check_default(default_energy_bid: &Curve) -> Result<(), Refusal> {
    default_energy_bid.check(
        MOST_DEFAULT_STEPS,
        -FURTHEST_DEFAULT_PRICE,
        FURTHEST_DEFAULT_PRICE,
    )
}

/// "each step price is raised to the largest before it"; "then raise each price to the largest
/// before it"
pub fn raised(prices: &[i128], index: usize) -> i128 {
    *prices[..=index].iter().max().unwrap()
}

/// "Neighbouring steps with one price are merged."
pub fn merged(curve: &Curve) -> Curve {
    let mut steps: Vec<Step> = Vec::new();
    for step in &curve.steps {
        match steps.last_mut() {
            Some(last) if last.price == step.price => last.end = step.end,
            _ => steps.push(*step),
        }
    }
    Curve {
        start: curve.start,
        steps,
    }
}

#[cfg(test)]
mod tests {
    use super::*;

    fn curve(start: i128, steps: &[(i128, i128)]) -> Curve {
        let steps = steps
            .iter()
            .map(|&(end, price)| Step { end, price })
            .collect();
        Curve { start, steps }
    }

    #[test]
    fn month_sets_the_highest_bid_price() {
        let bid = curve(0, &[(10, 5_000_001)]);
        assert_eq!(check_bid(&bid, 12), Err(3));
        assert_eq!(check_bid(&bid, 13), Ok(()));
        assert_eq!(highest_bid_price(24), 7_500_000);
        assert_eq!(highest_bid_price(25), 10_000_000);
    }

    #[test]
    fn lowest_number_wins() {
        assert_eq!(check_bid(&curve(0, &[]), 1), Err(1));
        assert_eq!(check_bid(&curve(0, &[(5, -1_500_001), (5, 0)]), 1), Err(2));
        assert_eq!(check_bid(&curve(-1, &[(5, 0)]), 1), Err(2));
        assert_eq!(check_bid(&curve(0, &[(5, 1), (6, 0)]), 1), Err(3));
        assert_eq!(check_bid(&curve(0, &[(5, 1), (1_000_000, 1)]), 1), Ok(()));
        assert_eq!(check_bid(&curve(0, &[(5, 1), (1_000_001, 1)]), 1), Err(2));
    }

    #[test]
    fn price_by_quantity_and_merge() {
        let bid = curve(2, &[(5, 1), (7, 1), (9, 3)]);
        assert_eq!(bid.price(1), None);
        assert_eq!(bid.price(2), Some(1));
        assert_eq!(bid.price(7), Some(3));
        assert_eq!(bid.price(9), None);
        assert_eq!(merged(&bid), curve(2, &[(7, 1), (9, 3)]));
    }
}
