//! Tables of costs: the engine's default prices, through its static library, against the independent implementation's unrounded ones and
//! the bound on rounding.

use crate::books::costs;
use independent::costs::has_split;
use independent::generate::books::case;
use independent::rounding::{bound, is_bounded, unrounded_prices, Amount};
use noskjerf::judgement;
use std::ops::Range;

/// Of the tables with a price past the bound, at most so many are shown.
const SHOWN: usize = 3;

#[derive(Default)]
struct Counts {
    tables: usize,
    with_split: usize,
    prices: usize,
    past: usize,
    /// The largest part of the bound that a price uses.
    nearest: f64,
}

impl Counts {
    /// Counts a table's prices; answers whether each lies within the bound.
    fn count(&mut self, prices: &[i64], unrounded: &[Amount], bound: Amount) -> bool {
        self.tables += 1;
        self.prices += prices.len();
        for (&price, amount) in prices.iter().zip(unrounded) {
            let over = Amount::whole(price.into()).plus(amount.times(-1, 1));
            self.nearest = self.nearest.max(over.nearly() / bound.nearly());
        }
        let each = |(&price, &amount): (&i64, &Amount)| is_bounded(price.into(), amount, bound);
        prices.len() == unrounded.len() && prices.iter().zip(unrounded).all(each)
    }

    fn compare_table(&mut self, seed: u64) {
        let case = case(seed);
        let (points, charges) = costs(&case);
        let Ok(curve) = judgement::default_curve(&points, &charges) else {
            return;
        };
        let prices: Vec<i64> = curve.steps.iter().map(|step| step.price).collect();
        let (unrounded, bound) = (unrounded_prices(&case.points, &case.costs), bound(&case.costs));
        self.with_split += usize::from(has_split(&case.points));
        if self.count(&prices, &unrounded, bound) {
            return;
        }
        self.past += 1;
        if self.past <= SHOWN {
            println!("table {seed}: {:?} {:?}", case.points, case.costs);
            println!("  engine    {prices:?}");
            println!("  unrounded {unrounded:?}, bound {bound:?}");
        }
    }
}

/// Tries a table for each seed; answers how many accepted ones have a price that isn't within the bound.
pub fn compare(seeds: Range<u64>) -> usize {
    let mut counts = Counts::default();
    for seed in seeds {
        counts.compare_table(seed);
    }
    let Counts {
        tables,
        with_split,
        prices,
        ..
    } = counts;
    let percent = 100.0 * counts.nearest;
    println!("compare: {prices} default prices of {tables} tables, {with_split} with a split, use at most {percent:.2}% of the bound");
    println!("compare: {tables} tables of costs, {} past the bound on rounding", counts.past);
    counts.past
}
