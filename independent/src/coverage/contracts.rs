//! What a range of seeds reaches of pairs of parts of a contracted unit's curve.

use crate::contract::Contract;
use crate::curve::{check_default, Curve, FURTHEST_DEFAULT_PRICE, MOST_DEFAULT_STEPS};
use crate::generate::contracts::{case, Case, Part};
use crate::numbers::MOST_QUANTITY;
use std::ops::Range;

/// The numbers of a refused pair.
pub const NUMBERS: [usize; 5] = [1, 2, 3, 23, 24];

#[derive(Clone, Debug, Default)]
pub struct ContractCoverage {
    pub pairs: usize,
    /// By refusal number; and those with no other number that applies.
    pub refused: [usize; 25],
    pub alone: [usize; 25],
    /// Refused by 1, 2 and 3 that apply to both parts.
    pub both_parts: [usize; 3],
    /// Refused where the first part's number is below the second's, and the other way round.
    pub first_lower: usize,
    pub second_lower: usize,
    /// Refused by 23: the second part starts past the first one's last end, or before it; and those
    /// where 24 applies too.
    pub gaps: usize,
    pub overlaps: usize,
    pub both_23_and_24: usize,
    /// Refused by 24, by the steps of the parts.
    pub six_and_six: usize,
    pub eleven_and_one: usize,
    pub one_and_eleven: usize,
    pub joined: usize,
    pub of_11_steps: usize,
    /// Joined with a price raised, with every price of the second part raised, with one raised that
    /// stays below 0, and with none raised.
    pub raised: usize,
    pub all_raised: usize,
    pub raised_below_0: usize,
    pub none_raised: usize,
    /// Joined, the first part's last price being the second one's first.
    pub one_price_where_they_meet: usize,
    pub prices_negative: usize,
    /// Joined over all quantities, and with the lowest or the highest price.
    pub widest: usize,
    pub furthest_prices: usize,
    /// A count that 32 bits don't hold.
    pub counts_past_32_bits: usize,
    /// Joined and refused with a count past the numbers given, and joined with numbers past the
    /// count.
    pub short_joined: usize,
    pub short_refused: usize,
    pub longer_joined: usize,
}

/// Whether each of 1 to 3 applies to a part.
fn of_part(part: &Curve) -> [bool; 3] {
    let furthest = FURTHEST_DEFAULT_PRICE;
    part.refusals(MOST_DEFAULT_STEPS, -furthest, furthest)
}

/// How many of all the numbers apply, those of either part counted once.
fn numbers_that_apply(contract: &Contract) -> usize {
    let [first, second] = [&contract.proxy, &contract.above].map(of_part);
    let of_parts = (0..3).filter(|&at| first[at] || second[at]).count();
    of_parts + usize::from(contract.is_apart()) + usize::from(contract.is_too_long())
}

fn is_short(part: &Part) -> bool {
    part.numbers.len() / 2 < part.count
}

fn is_longer(part: &Part) -> bool {
    part.numbers.len() / 2 > part.count
}

impl ContractCoverage {
    pub fn of(seeds: Range<u64>) -> ContractCoverage {
        let mut coverage = ContractCoverage::default();
        for seed in seeds {
            let case = case(seed);
            coverage.pairs += 1;
            coverage.count_numbers(&case);
            let contract = case.contract();
            match contract.join() {
                Ok(curve) => coverage.count_joined(&contract, &curve),
                Err(number) => coverage.count_refused(&contract, number.into()),
            }
        }
        coverage
    }

    /// What the parts are given as.
    fn count_numbers(&mut self, case: &Case) {
        let parts = [&case.proxy, &case.above];
        let joined = case.contract().join().is_ok();
        let short = parts.into_iter().any(is_short);
        let longer = parts.into_iter().any(is_longer);
        let far = parts.iter().any(|part| part.count > u32::MAX as usize);
        self.counts_past_32_bits += usize::from(far);
        self.short_joined += usize::from(joined && short);
        self.short_refused += usize::from(!joined && short);
        self.longer_joined += usize::from(joined && longer);
    }

    fn count_refused(&mut self, contract: &Contract, number: usize) {
        self.refused[number] += 1;
        self.alone[number] += usize::from(numbers_that_apply(contract) == 1);
        match number {
            23 => self.count_apart(contract),
            24 => self.count_too_long(contract),
            _ => self.count_parts(contract, number),
        }
    }

    fn count_parts(&mut self, contract: &Contract, number: usize) {
        let parts = [&contract.proxy, &contract.above];
        let both = parts.iter().all(|part| of_part(part)[number - 1]);
        self.both_parts[number - 1] += usize::from(both);
        if let [Err(first), Err(second)] = parts.map(check_default) {
            self.first_lower += usize::from(first < second);
            self.second_lower += usize::from(second < first);
        }
    }

    fn count_apart(&mut self, contract: &Contract) {
        let (end, start) = (contract.proxy.end(), contract.above.start);
        self.gaps += usize::from(end < start);
        self.overlaps += usize::from(start < end);
        self.both_23_and_24 += usize::from(contract.is_too_long());
    }

    fn count_too_long(&mut self, contract: &Contract) {
        let steps = (contract.proxy.steps.len(), contract.above.steps.len());
        self.six_and_six += usize::from(steps == (6, 6));
        self.eleven_and_one += usize::from(steps == (11, 1));
        self.one_and_eleven += usize::from(steps == (1, 11));
    }

    fn count_joined(&mut self, contract: &Contract, curve: &Curve) {
        let furthest = FURTHEST_DEFAULT_PRICE;
        let prices = curve.prices();
        self.joined += 1;
        self.of_11_steps += usize::from(curve.steps.len() == 11);
        self.prices_negative += usize::from(prices[0] < 0);
        self.widest += usize::from(curve.start == 0 && curve.end() == MOST_QUANTITY);
        self.furthest_prices += usize::from(prices.iter().any(|price| price.abs() == furthest));
        self.count_raised(contract, &prices);
    }

    fn count_raised(&mut self, contract: &Contract, prices: &[i128]) {
        let own = contract.appended().prices();
        let first = contract.proxy.steps.len();
        let raised: Vec<usize> = (0..own.len()).filter(|&at| own[at] < prices[at]).collect();
        let all = raised.len() == contract.above.steps.len();
        let below_0 = raised.iter().any(|&at| prices[at] < 0);
        self.raised += usize::from(!raised.is_empty());
        self.all_raised += usize::from(all);
        self.raised_below_0 += usize::from(below_0);
        self.none_raised += usize::from(raised.is_empty());
        self.one_price_where_they_meet += usize::from(own[first - 1] == own[first]);
    }

    /// Each number with the pairs that it refuses alone, and all that it refuses.
    pub fn by_number(&self) -> [(usize, [usize; 2]); 5] {
        NUMBERS.map(|number| (number, [self.alone[number], self.refused[number]]))
    }

    /// What every range of 6,000 seeds has to reach.
    pub fn all_reached(&self) -> bool {
        let all = |counts: &[usize]| counts.iter().all(|&count| count > 0);
        self.by_number().iter().all(|(_, counts)| all(counts))
            && all(&self.both_parts)
            && all(&[
                self.first_lower,
                self.second_lower,
                self.gaps,
                self.overlaps,
                self.both_23_and_24,
                self.six_and_six,
                self.eleven_and_one,
                self.one_and_eleven,
                self.of_11_steps,
                self.raised,
                self.all_raised,
                self.raised_below_0,
                self.none_raised,
                self.one_price_where_they_meet,
                self.prices_negative,
                self.widest,
                self.furthest_prices,
                self.counts_past_32_bits,
                self.short_joined,
                self.short_refused,
                self.longer_joined,
            ])
    }
}
