//! What a range of seeds reaches.

pub mod books;
pub mod calls;
pub mod classroom;
pub mod contracts;
pub mod days;
pub mod edges;
pub mod together;

use crate::curve::Curve;
use crate::generate;
use crate::hour::{component, Resource};
use crate::print::{answer, by_weight, print, Accepted, Answer};
use crate::verdict::{Verdict, COMPETITIVE, NON_COMPETITIVE, NOT_BINDING};
use edges::Edges;
use std::ops::Range;

#[derive(Clone, Debug, Default)]
pub struct Coverage {
    pub texts: usize,
    pub bytes: usize,
    /// By refusal number; 0 counts texts without refusal.
    pub refusals: [usize; 19],
    /// By accepted intervals before it.
    pub refusals_after: [usize; 5],
    pub refused_on_line_1: usize,
    pub opened: usize,
    pub accepted_intervals: usize,
    pub verdicts: [usize; 3],
    /// Binding constraints whose demand is what is left of supply, and is above 0.
    pub at_equality: usize,
    /// Binding constraints whose demand is one above what is left of supply.
    pub one_above: usize,
    /// Binding constraints with two net sellers that can withhold the same.
    pub ties: usize,
    /// Those where the tie decides who is named.
    pub deciding_ties: usize,
    /// Binding constraints with two sellers or more named.
    pub several_sellers: usize,
    /// Those whose sellers aren't printed by rising portfolio number.
    pub sellers_not_rising: usize,
    /// Those of which two sellers named withhold the same.
    pub equal_sellers: usize,
    pub most_steps: usize,
    pub curves_of_20_steps: usize,
    /// Default curves of accepted intervals with a split segment, with the 80% mark at a point, and of 11 steps.
    pub split_segments: usize,
    pub marks_at_a_point: usize,
    pub default_curves_of_11_steps: usize,
    /// Printed curves in which the two parts of a split segment have prices of their own.
    pub curves_with_both_parts: usize,
    pub curves_cut: usize,
    pub curves_cut_further: usize,
    /// Quantities whose submitted price is exactly a cap.
    pub prices_at_cap: usize,
    pub components_of_0_from_opposed_factors: usize,
    pub components_below_a_million: usize,
    pub components_negative: usize,
    pub prices_negative: usize,
    pub parameters_missing: usize,
    /// Texts that print something else with 100 written for each missing parameter.
    pub missing_deciding: usize,
    /// Texts of 65,535, 65,536 and 65,537 bytes.
    pub sizes: [usize; 3],
    pub full_texts_accepted_whole: usize,
    pub edges: Edges,
}

impl Coverage {
    pub fn of(seeds: Range<u64>) -> Coverage {
        let mut coverage = Coverage::default();
        for seed in seeds {
            let text = generate::text(seed);
            let answer = answer(&text);
            coverage.count_text(&text, &answer);
            coverage.count_answer(&answer);
            coverage.edges.count(&answer);
        }
        coverage
    }

    fn count_text(&mut self, text: &[u8], answer: &Answer) {
        self.texts += 1;
        self.bytes += text.len();
        if (65_535..=65_537).contains(&text.len()) {
            self.sizes[text.len() - 65_535] += 1;
        }
        let full = text.len() == 65_536;
        self.full_texts_accepted_whole += usize::from(full && answer.refused.is_none());
        let lines = text.split(|&byte| byte == b'\n');
        self.parameters_missing += lines.filter(|line| *line == b"-").count();
        self.count_deciding(text, answer);
    }

    fn count_deciding(&mut self, text: &[u8], found: &Answer) {
        let written = with_hundreds(text);
        let decides = written != text && written.len() <= 65_536;
        self.missing_deciding += usize::from(decides && print(&answer(&written)) != print(found));
    }

    fn count_answer(&mut self, answer: &Answer) {
        let number = answer.refused.map_or(0, |refused| refused.number);
        self.refusals[number as usize] += 1;
        self.opened += usize::from(answer.opened);
        if let Some(refused) = answer.refused {
            self.refusals_after[answer.accepted.len()] += 1;
            self.refused_on_line_1 += usize::from(refused.line == 1);
        }
        for (index, accepted) in answer.accepted.iter().enumerate() {
            self.accepted_intervals += 1;
            self.count_verdicts(accepted);
            self.count_components(accepted);
            self.count_curves(accepted);
            self.count_cuts(
                accepted,
                index.checked_sub(1).map(|before| &answer.accepted[before]),
            );
        }
    }

    fn count_verdicts(&mut self, accepted: &Accepted) {
        for verdict in &accepted.verdicts {
            self.verdicts[verdict.code as usize] += 1;
            if verdict.code == NOT_BINDING {
                continue;
            }
            let equal = verdict.left == verdict.demand && verdict.demand > 0;
            assert_eq!(
                verdict.left < verdict.demand,
                verdict.code == NON_COMPETITIVE
            );
            assert!(verdict.code == COMPETITIVE || !equal);
            self.at_equality += usize::from(equal);
            self.one_above += usize::from(verdict.left + 1 == verdict.demand);
            self.ties += usize::from(has_tie(verdict));
            self.deciding_ties += usize::from(has_deciding_tie(verdict));
            self.count_sellers(verdict);
        }
    }

    fn count_sellers(&mut self, verdict: &Verdict) {
        let sellers = by_weight(verdict);
        let neighbours = |test: fn(&[(usize, i128)]) -> bool| sellers.windows(2).any(test);
        self.several_sellers += usize::from(sellers.len() > 1);
        self.sellers_not_rising += usize::from(neighbours(|pair| pair[0].0 > pair[1].0));
        self.equal_sellers += usize::from(neighbours(|pair| pair[0].1 == pair[1].1));
    }

    fn count_components(&mut self, accepted: &Accepted) {
        for index in 0..accepted.curves.len() {
            let c = component(&accepted.interval, &accepted.verdicts, index);
            let factors = accepted.interval.shift_factors[index].iter();
            let opposed = factors
                .zip(&accepted.verdicts)
                .any(|(&factor, verdict)| factor != 0 && verdict.code == NON_COMPETITIVE);
            self.components_of_0_from_opposed_factors += usize::from(c == 0 && opposed);
            self.components_below_a_million += usize::from(0 < c && c < 1_000_000);
            self.components_negative += usize::from(c < 0);
        }
    }

    fn count_curves(&mut self, accepted: &Accepted) {
        for (curve, resource) in accepted.curves.iter().zip(&accepted.hour.resources) {
            self.most_steps = self.most_steps.max(curve.steps.len());
            self.curves_of_20_steps += usize::from(curve.steps.len() == 20);
            self.count_split(curve, resource);
            self.prices_negative += curve.prices().iter().filter(|&&price| price < 0).count();
            let at_cap = |&edge: &i128| {
                let submitted = resource.bid.price(edge);
                let default = resource.default_energy_bid.price(edge);
                let mut caps = resource
                    .floor_prices
                    .iter()
                    .map(|&floor| default.max(Some(floor)));
                submitted.is_some() && caps.any(|cap| cap == submitted)
            };
            self.prices_at_cap += curve.edges().iter().filter(|edge| at_cap(edge)).count();
        }
    }

    fn count_split(&mut self, curve: &Curve, resource: &Resource) {
        let default = &resource.default_energy_bid;
        self.split_segments += usize::from(resource.is_split);
        self.marks_at_a_point += usize::from(resource.mark_at_point);
        self.default_curves_of_11_steps += usize::from(default.steps.len() == 11);
        let mark = 4 * default.end() / 5;
        self.curves_with_both_parts +=
            usize::from(resource.is_split && curve.edges().contains(&mark));
    }

    fn count_cuts(&mut self, accepted: &Accepted, before: Option<&Accepted>) {
        for (index, curve) in accepted.curves.iter().enumerate() {
            let submitted = crate::curve::merged(&accepted.hour.resources[index].bid);
            self.curves_cut += usize::from(*curve != submitted);
            if let Some(before) = before.map(|before| &before.curves[index]) {
                self.curves_cut_further += usize::from(before != curve && *before != submitted);
            }
        }
    }

    /// What every range of 20,000 seeds has to reach.
    pub fn all_reached(&self) -> bool {
        self.refusals.iter().all(|&count| count > 0)
            && self.refusals_after.iter().all(|&count| count > 0)
            && self.sizes.iter().all(|&count| count > 0)
            && self.verdicts.iter().all(|&count| count > 0)
            && self.most_steps == 20
            && self.edges.all_reached()
            && [
                self.accepted_intervals,
                self.split_segments,
                self.marks_at_a_point,
                self.default_curves_of_11_steps,
                self.curves_with_both_parts,
                self.at_equality,
                self.one_above,
                self.ties,
                self.deciding_ties,
                self.sellers_not_rising,
                self.equal_sellers,
                self.curves_cut,
                self.curves_cut_further,
                self.prices_at_cap,
                self.components_of_0_from_opposed_factors,
                self.components_below_a_million,
                self.components_negative,
                self.prices_negative,
                self.parameters_missing,
                self.missing_deciding,
                self.full_texts_accepted_whole,
            ]
            .iter()
            .all(|&count| count > 0)
    }
}

/// 2.5: "must write 100"
fn with_hundreds(text: &[u8]) -> Vec<u8> {
    let mut written = Vec::new();
    let mut names: &[u8] = b"";
    for line in text.split_inclusive(|&byte| byte == b'\n') {
        let missing = names == b"parameter\n" && line == b"-\n";
        written.extend_from_slice(if missing { b"100\n" } else { line });
        names = line;
    }
    written
}

/// Two net sellers can withhold the same.
fn has_tie(verdict: &Verdict) -> bool {
    let amounts = &verdict.withholdable;
    let equal = |portfolio: usize| {
        amounts[portfolio] > 0 && amounts[..portfolio].contains(&amounts[portfolio])
    };
    (0..amounts.len()).any(equal)
}

/// A seller is named and another that can withhold the same isn't.
fn has_deciding_tie(verdict: &Verdict) -> bool {
    let named = |portfolio: usize| {
        verdict
            .sellers
            .iter()
            .any(|&(seller, _)| seller == portfolio)
    };
    let equal = |portfolio: usize| {
        let amount = verdict.withholdable[portfolio];
        !named(portfolio)
            && verdict
                .sellers
                .iter()
                .any(|&(_, withheld)| withheld == amount)
    };
    (0..verdict.withholdable.len()).any(equal)
}
