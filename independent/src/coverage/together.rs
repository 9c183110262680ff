//! What a range of seeds reaches of net sellers that leave every binding constraint short together.

use crate::generate::together::{case, Case};
use crate::hour::{Hour, Interval};
use crate::together::{is_member, works, Path, Together};
use std::ops::Range;

#[derive(Clone, Debug, Default)]
pub struct TogetherCoverage {
    pub asked: usize,
    /// 13 to 16, and of them those of an interval in which nothing binds.
    pub refused: [usize; 4],
    pub refused_and_none_binds: [usize; 4],
    /// 26, without a constraint and with some.
    pub no_constraint: usize,
    pub none_binds: usize,
    /// Answered by an hour that has taken four intervals.
    pub full_hours: usize,
    /// No set works; and of these, such that would with the net buyers.
    pub none: usize,
    pub none_for_buyers: usize,
    /// Intervals with a best set, by how often a set replaced the best: never, once, by steps.
    pub kept: usize,
    pub replaced: usize,
    pub by_steps: usize,
    /// A set as small as the best worked, and didn't replace it.
    pub ties: usize,
    /// All sets tried: the best has as many members as the floor, or more.
    pub at_floor: usize,
    pub above_floor: usize,
    pub two_above_floor: usize,
    /// The budget ended before the sets, and of these such that more budget gives fewer members.
    pub cut_short: usize,
    pub cut_short_above: usize,
    pub budgets_of_0: usize,
    pub budgets_past_63_bits: usize,
    /// A binding constraint of which one seller fewer than it needs leaves just demand, and of which
    /// those it needs leave one less.
    pub at_equality: usize,
    pub one_below: usize,
    /// Best sets with a member that withholds nothing.
    pub idle_members: usize,
    /// Constraints that don't bind, and would have made another result.
    pub idle_constraints: usize,
    pub floors_above_3: usize,
    pub binding_32: usize,
    pub most_sellers: usize,
}

fn all_tried(hour: &Hour, interval: &Interval) -> Together {
    let all = hour.together(interval, u64::MAX);
    all.expect("refused for no budget")
}

impl TogetherCoverage {
    pub fn of(seeds: Range<u64>) -> TogetherCoverage {
        let mut coverage = TogetherCoverage::default();
        for seed in seeds {
            coverage.count(&case(seed));
        }
        coverage
    }

    fn count(&mut self, case: &Case) {
        let mut hour = case.opening.open().expect("an hour within the limits");
        for _ in 0..case.taken {
            let _ = hour.take(&case.interval);
        }
        self.asked += 1;
        match hour.together(&case.interval, case.budget) {
            Ok(found) => {
                self.full_hours += usize::from(hour.accepted == 4);
                self.count_found(&hour, case, &found);
            }
            Err(26) if case.interval.shadow_prices.is_empty() => self.no_constraint += 1,
            Err(26) => self.none_binds += 1,
            Err(number) => {
                let at = usize::from(number) - 13;
                let mut prices = case.interval.shadow_prices.iter();
                self.refused[at] += 1;
                self.refused_and_none_binds[at] += usize::from(prices.all(|&price| price <= 0));
            }
        }
    }

    fn count_found(&mut self, hour: &Hour, case: &Case, found: &Together) {
        let paths = hour.binding(&case.interval);
        let sellers = hour.all_net_sellers().count_ones() as usize;
        let Some(best) = found.best else {
            let everybody = (1 << hour.net_seller.len()) - 1;
            self.none += 1;
            self.none_for_buyers += usize::from(works(&paths, everybody));
            return;
        };
        match found.replaced {
            0 => self.kept += 1,
            1 => self.replaced += 1,
            _ => self.by_steps += 1,
        }
        self.ties += usize::from(found.ties > 0);
        self.count_budget(hour, case, found, sellers);
        self.count_paths(hour, &paths, found);
        let idle = |portfolio: usize| paths.iter().all(|path| path.withholdable[portfolio] == 0);
        let mut members = (0..hour.net_seller.len()).filter(|&p| is_member(best, p));
        self.idle_members += usize::from(members.any(idle));
        self.idle_constraints += usize::from(is_other_with_all(hour, case, found));
        self.binding_32 += usize::from(paths.len() == 32);
        self.most_sellers = self.most_sellers.max(sellers);
    }

    fn count_budget(&mut self, hour: &Hour, case: &Case, found: &Together, sellers: usize) {
        let members = found.best.map_or(0, u32::count_ones);
        let above = u64::from(members) - found.floor;
        self.budgets_of_0 += usize::from(case.budget == 0);
        self.budgets_past_63_bits += usize::from(case.budget >> 63 == 1);
        if found.tried < (1 << sellers) - 1 {
            let fewest = all_tried(hour, &case.interval).best;
            self.cut_short += 1;
            self.cut_short_above += usize::from(fewest.map_or(0, u32::count_ones) < members);
            return;
        }
        self.at_floor += usize::from(above == 0);
        self.above_floor += usize::from(above > 0);
        self.two_above_floor += usize::from(above > 1);
    }

    fn count_paths(&mut self, hour: &Hour, paths: &[Path], found: &Together) {
        self.floors_above_3 += usize::from(found.floor > 3);
        for path in paths {
            let mut amounts: Vec<i128> = (0..hour.net_seller.len())
                .filter(|&portfolio| hour.net_seller[portfolio])
                .map(|portfolio| path.withholdable[portfolio])
                .collect();
            amounts.sort_by_key(|amount| -amount);
            let left = |count: usize| path.supply - amounts[..count].iter().sum::<i128>();
            let need = (0..amounts.len()).find(|&count| left(count) < path.demand);
            let need = need.unwrap_or(amounts.len());
            self.at_equality += usize::from(need > 0 && left(need - 1) == path.demand);
            self.one_below += usize::from(left(need) == path.demand - 1);
        }
    }

    /// What every range of 6,000 seeds has to reach.
    pub fn all_reached(&self) -> bool {
        let all = |counts: &[usize]| counts.iter().all(|&count| count > 0);
        all(&self.refused)
            && all(&self.refused_and_none_binds)
            && self.most_sellers == 16
            && all(&[
                self.no_constraint,
                self.none_binds,
                self.full_hours,
                self.none,
                self.none_for_buyers,
                self.kept,
                self.replaced,
                self.by_steps,
                self.ties,
                self.at_floor,
                self.above_floor,
                self.two_above_floor,
                self.cut_short,
                self.cut_short_above,
                self.budgets_of_0,
                self.budgets_past_63_bits,
                self.at_equality,
                self.one_below,
                self.idle_members,
                self.idle_constraints,
                self.floors_above_3,
                self.binding_32,
            ])
    }
}

/// Whether the result is another one where every constraint binds.
fn is_other_with_all(hour: &Hour, case: &Case, found: &Together) -> bool {
    let mut interval = case.interval.clone();
    let prices = interval.shadow_prices.iter_mut();
    prices.for_each(|price| *price = 1);
    hour.together(&interval, case.budget).as_ref() != Ok(found)
}
