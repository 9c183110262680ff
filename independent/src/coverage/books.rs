//! What a range of seeds reaches of books of gas prices.

use crate::costs::{default_curve, Costs};
use crate::gas::{days_rise, ends_inside_a_pair, entries, up_to, Entry, Market, MARKETS};
use crate::generate::books::{case, Case};
use std::ops::Range;

#[derive(Clone, Debug, Default)]
pub struct BookCoverage {
    /// Each book is asked in both markets.
    pub asked: usize,
    /// Refused by 21, for one cause alone.
    pub inside_a_pair: usize,
    pub not_rising: usize,
    pub empty: usize,
    /// Of those that don't rise: a day equal to the one before it, one below it, and all up to the
    /// trading day rising.
    pub equal_days: usize,
    pub falling_days: usize,
    pub not_rising_later: usize,
    /// Of the empty runs, those of an empty list.
    pub empty_lists: usize,
    /// Refused by 21, where the other list has a price for that day.
    pub only_other_has_price: usize,
    /// Refused by 21, with costs that are refused too.
    pub costs_refused_too: usize,
    /// Runs that aren't empty, by their last day: the trading day, or an earlier one.
    pub published: usize,
    pub unpublished: usize,
    /// Runs with later entries after them, and runs of all entries.
    pub later_entries: usize,
    pub whole_lists: usize,
    /// Runs whose last day is the first or the last that 32 bits hold.
    pub first_day: usize,
    pub last_day: usize,
    /// Runs beside a list that would be refused.
    pub other_broken: usize,
    /// Costs after a book with a price, by refusal number; 0 counts those accepted.
    pub refusals: [usize; 9],
    /// Refused by 7 for the book's price alone.
    pub price_over_limit: usize,
    /// Accepted though the gas price in the costs is outside its range.
    pub own_gas_unread: usize,
}

impl BookCoverage {
    pub fn of(seeds: Range<u64>) -> BookCoverage {
        let mut coverage = BookCoverage::default();
        for seed in seeds {
            let case = case(seed);
            for market in MARKETS {
                coverage.count(&case, market);
            }
        }
        coverage
    }

    fn count(&mut self, case: &Case, market: Market) {
        self.asked += 1;
        match case.book.run(market, case.day) {
            Ok(run) => {
                self.count_run(case, market, &run);
                self.count_costs(case, market);
            }
            Err(number) => {
                assert_eq!(number, 21);
                self.count_refused(case, market);
            }
        }
    }

    fn count_refused(&mut self, case: &Case, market: Market) {
        let list = case.book.list(market);
        let inside_a_pair = ends_inside_a_pair(list);
        let rises = days_rise(list);
        let empty = up_to(list, case.day).is_empty();
        self.inside_a_pair += usize::from(inside_a_pair && rises && !empty);
        self.empty += usize::from(empty && rises && !inside_a_pair);
        self.empty_lists += usize::from(list.is_empty());
        if !rises && !inside_a_pair && !empty {
            self.count_not_rising(list, case.day);
        }
        let other = case.book.price(other(market), case.day);
        self.only_other_has_price += usize::from(other.is_ok());
        let costs = default_curve(&case.points, &with_gas(&case.costs, 0));
        self.costs_refused_too += usize::from(costs.is_err());
    }

    fn count_not_rising(&mut self, list: &[u32], day: u32) {
        let entries = entries(list);
        let neighbours = |test: fn(u32, u32) -> bool| {
            let mut pairs = entries.windows(2);
            pairs.any(|pair| test(pair[0].day, pair[1].day))
        };
        let front = entries.iter().take_while(|entry| entry.day <= day).count();
        self.not_rising += 1;
        self.equal_days += usize::from(neighbours(|left, right| left == right));
        self.falling_days += usize::from(neighbours(|left, right| left > right));
        self.not_rising_later += usize::from(front > 0 && days_rise(&list[..2 * front]));
    }

    fn count_run(&mut self, case: &Case, market: Market, run: &[Entry]) {
        let last = run[run.len() - 1].day;
        let whole = 2 * run.len() == case.book.list(market).len();
        self.published += usize::from(last == case.day);
        self.unpublished += usize::from(last < case.day);
        self.later_entries += usize::from(!whole);
        self.whole_lists += usize::from(whole);
        self.first_day += usize::from(last == 0);
        self.last_day += usize::from(last == u32::MAX);
        let other = case.book.list(other(market));
        self.other_broken += usize::from(ends_inside_a_pair(other) || !days_rise(other));
    }

    fn count_costs(&mut self, case: &Case, market: Market) {
        let (points, costs) = (&case.points, &case.costs);
        let curve = case.book.default_curve(market, case.day, points, costs);
        let number = curve.map_or_else(usize::from, |_| 0);
        let otherwise = default_curve(points, &with_gas(costs, 0));
        let own_gas_taken = (0..=1_000_000).contains(&costs.gas);
        self.refusals[number] += 1;
        self.price_over_limit += usize::from(number == 7 && otherwise.is_ok());
        self.own_gas_unread += usize::from(number == 0 && !own_gas_taken);
    }

    /// What every range of 6,000 seeds has to reach.
    pub fn all_reached(&self) -> bool {
        self.refusals[4..].iter().all(|&count| count > 0)
            && [
                self.inside_a_pair,
                self.not_rising,
                self.empty,
                self.equal_days,
                self.falling_days,
                self.not_rising_later,
                self.empty_lists,
                self.only_other_has_price,
                self.costs_refused_too,
                self.published,
                self.unpublished,
                self.later_entries,
                self.whole_lists,
                self.first_day,
                self.last_day,
                self.other_broken,
                self.refusals[0],
                self.price_over_limit,
                self.own_gas_unread,
            ]
            .iter()
            .all(|&count| count > 0)
    }
}

fn other(market: Market) -> Market {
    match market {
        Market::DayAhead => Market::RealTime,
        Market::RealTime => Market::DayAhead,
    }
}

fn with_gas(costs: &Costs, gas: i128) -> Costs {
    Costs { gas, ..*costs }
}
