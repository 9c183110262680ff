//! What a range of seeds reaches of the farthest counts and values.

use crate::hour::{cut, Hour, Interval, Output};
use crate::numbers::MILLION;
use crate::print::{Accepted, Answer};

/// 64 resources, each with the most effectiveness and dispatch.
const MOST_DEMAND: i128 = 64 * MILLION * MILLION;

const LOWEST_LMP: i128 = -100_000_000;

#[derive(Clone, Debug, Default)]
pub struct Edges {
    /// 13 of intervals with 256 resources or more; of these, those with the hour's count in the
    /// lowest eight bits, and those with 256 constraints or more as well.
    pub resources_past_255: usize,
    pub resources_alike_in_8_bits: usize,
    pub both_past_255: usize,
    /// 14 of intervals with 256 constraints or more; of these, those with at most 32 in the lowest
    /// eight bits.
    pub constraints_past_255: usize,
    pub constraints_few_in_8_bits: usize,
    /// 14 where 15 applies too.
    pub both_14_and_15: usize,
    /// Binding constraints with the most demand there can be.
    pub most_demand: usize,
    /// Intervals with 64 resources that cut the last one's bid, and that are refused by 15 or 16 for
    /// the last one alone.
    pub last_of_64_cut: usize,
    pub last_of_64_refused: usize,
    /// Cuts with a competitive price below the lowest lmp, and those 1,000,000,000 below it or more.
    pub below_lowest_lmp: usize,
    pub far_below_lowest_lmp: usize,
}

impl Edges {
    pub fn count(&mut self, answer: &Answer) {
        for (index, accepted) in answer.accepted.iter().enumerate() {
            let before = index.checked_sub(1).map(|before| &answer.accepted[before]);
            self.count_accepted(accepted, before);
        }
        let number = answer.refused.map_or(0, |refused| refused.number);
        if let Some((hour, interval)) = &answer.refused_interval {
            self.count_refused(number, hour, interval);
        }
    }

    fn count_refused(&mut self, number: u8, hour: &Hour, interval: &Interval) {
        let (resources, constraints) = (interval.outputs.len(), interval.shadow_prices.len());
        if number == 13 && resources >= 256 {
            self.resources_past_255 += 1;
            let alike = resources % 256 == hour.resources.len();
            self.resources_alike_in_8_bits += usize::from(alike);
            self.both_past_255 += usize::from(constraints >= 256);
        }
        if number == 14 && constraints >= 256 {
            self.constraints_past_255 += 1;
            self.constraints_few_in_8_bits += usize::from(constraints % 256 <= 32);
        }
        self.both_14_and_15 += usize::from(number == 14 && !interval.prices_in_limits());
        let last_alone = matches!(number, 15 | 16) && resources == 64 && is_last_alone(interval);
        self.last_of_64_refused += usize::from(last_alone);
    }

    fn count_accepted(&mut self, accepted: &Accepted, before: Option<&Accepted>) {
        let most = accepted.verdicts.iter();
        self.most_demand += most.filter(|verdict| verdict.demand == MOST_DEMAND).count();
        for index in 0..accepted.curves.len() {
            self.count_cut(accepted, index);
        }
        if accepted.curves.len() == 64 {
            let submitted = crate::curve::merged(&accepted.hour.resources[63].bid);
            let earlier = before.map_or(&submitted, |before| &before.curves[63]);
            self.last_of_64_cut += usize::from(accepted.curves[63] != *earlier);
        }
    }

    fn count_cut(&mut self, accepted: &Accepted, index: usize) {
        let (interval, verdicts) = (&accepted.interval, &accepted.verdicts);
        if let Some(floor_price) = cut(interval, verdicts, index) {
            let competitive_price = floor_price - interval.parameter;
            self.below_lowest_lmp += usize::from(competitive_price < LOWEST_LMP);
            let far = competitive_price <= LOWEST_LMP - 1_000_000_000;
            self.far_below_lowest_lmp += usize::from(far);
        }
    }

    pub fn all_reached(&self) -> bool {
        [
            self.resources_past_255,
            self.resources_alike_in_8_bits,
            self.both_past_255,
            self.constraints_past_255,
            self.constraints_few_in_8_bits,
            self.both_14_and_15,
            self.most_demand,
            self.last_of_64_cut,
            self.last_of_64_refused,
            self.below_lowest_lmp,
            self.far_below_lowest_lmp,
        ]
        .iter()
        .all(|&count| count > 0)
    }
}

/// Whether nothing is at fault but the values of the last of 64 resources.
fn is_last_alone(interval: &Interval) -> bool {
    let mut mended = interval.clone();
    mended.outputs[63] = Output {
        lmp: 0,
        dispatch: 0,
        available: 0,
        floor: 0,
    };
    mended.shift_factors[63].fill(0);
    mended.prices_in_limits() && mended.quantities_in_limits()
}
