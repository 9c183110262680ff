//! What a range of seeds reaches of lists of calls in numbers.

use crate::curve::check_bid;
use crate::generate::calls::{case, Case};
use crate::hour::{Offer, Opening, Source};
use crate::numbers::Refusal;
use crate::passes::{Call, RealTime};
use std::ops::Range;

#[derive(Clone, Debug, Default)]
pub struct CallCoverage {
    pub lists: usize,
    /// By refusal number; 0 counts those opened.
    pub openings: [usize; 12],
    /// Refused by 1, 2, 3 and 11 for a pack's curve.
    pub packs_refused: [usize; 4],
    /// Refused for a bid whose costs are refused too, and for one whose pack is.
    pub costs_refused_too: usize,
    pub packs_refused_too: usize,
    /// Refused for more than 16 portfolios or 64 resources.
    pub counts_over_the_room: usize,
    /// Resources of opened hours, by source; packs of 11 steps, packs with a price past any that
    /// costs give, and contracted units with a price raised.
    pub costs: usize,
    pub packs: usize,
    pub packs_of_11_steps: usize,
    pub packs_at_furthest_prices: usize,
    pub contracts: usize,
    pub contracts_raised: usize,
    /// By refusal number; 0 counts those accepted. Causes are asked before each call.
    pub intervals: [usize; 20],
    pub passes: [usize; 20],
    pub causes: [usize; 20],
    /// 19 before any interval, and after three passes.
    pub passes_too_early: usize,
    pub passes_too_many: usize,
    /// Calls accepted after a refused one.
    pub accepted_after_refused: usize,
    /// Accepted passes after the fourth interval.
    pub passes_of_a_full_hour: usize,
    /// Curves that an interval changes, such of resources with a pack, and of contracted units.
    pub cuts_in_intervals: usize,
    pub cuts_of_packs: usize,
    pub cuts_of_contracts: usize,
    /// Five-minute curves that a pass changes, and such that an earlier pass had changed.
    pub cuts_in_passes: usize,
    pub further_cuts_in_passes: usize,
    /// Five-minute curves below the hour's that an accepted interval begins anew.
    pub begun_anew: usize,
    /// Resources asked for the bid for the hour, too early and in time; bids that are the curve of
    /// some intervals but not of all four.
    pub hour_bids_refused: usize,
    pub hour_bids: usize,
    pub hour_bids_of_unequal_curves: usize,
    /// Causes with a cut, with a component above 0 but no cut, and with one below 0.
    pub causes_of_a_cut: usize,
    pub not_dispatched: usize,
    pub components_negative: usize,
    pub most_steps: usize,
}

impl CallCoverage {
    pub fn of(seeds: Range<u64>) -> CallCoverage {
        let mut coverage = CallCoverage::default();
        for seed in seeds {
            coverage.count(&case(seed));
        }
        coverage
    }

    pub fn count(&mut self, case: &Case) {
        self.lists += 1;
        match case.opening.open() {
            Ok(hour) => {
                self.openings[0] += 1;
                self.count_sources(&case.opening);
                self.count_calls(case, RealTime::new(hour));
            }
            Err(number) => self.count_refused(&case.opening, number),
        }
    }

    fn count_refused(&mut self, opening: &Opening, number: Refusal) {
        self.openings[usize::from(number)] += 1;
        let over = opening.sellers.len() > 16 || opening.offers.len() > 64;
        self.counts_over_the_room += usize::from(over);
        let mut offers = opening.offers.iter();
        let refused = offers.find(|offer| offer.open(opening.month).is_err());
        if let Some(offer) = refused.filter(|_| number != 9 && number != 10) {
            self.count_refused_offer(offer, opening.month, number);
        }
    }

    fn count_refused_offer(&mut self, offer: &Offer, month: i128, number: Refusal) {
        let bid_refused = check_bid(&offer.bid, month).is_err();
        let too = usize::from(bid_refused && offer.source.default_energy_bid().is_err());
        match offer.source {
            Source::Costs(..) => self.costs_refused_too += too,
            Source::Pack(_) => self.packs_refused_too += too,
            Source::Contract(_) => assert_eq!(too, 0, "parts that can be joined"),
        }
        let own = [1, 2, 3, 11].iter().position(|&own| own == number);
        if let (Source::Pack(_), Some(at), false) = (&offer.source, own, bid_refused) {
            self.packs_refused[at] += 1;
        }
    }

    fn count_sources(&mut self, opening: &Opening) {
        for offer in &opening.offers {
            match &offer.source {
                Source::Costs(..) => self.costs += 1,
                Source::Pack(curve) => {
                    self.packs += 1;
                    self.packs_of_11_steps += usize::from(curve.steps.len() == 11);
                    let far = curve
                        .prices()
                        .iter()
                        .any(|price| price.abs() == 1_000_000_000);
                    self.packs_at_furthest_prices += usize::from(far);
                }
                Source::Contract(contract) => {
                    let raised = contract.joined() != contract.appended();
                    self.contracts += 1;
                    self.contracts_raised += usize::from(raised);
                }
            }
        }
    }

    fn count_calls(&mut self, case: &Case, mut hour: RealTime) {
        let mut refused = false;
        self.count_bids(&hour);
        for call in &case.calls {
            self.count_causes(&hour, call);
            let before = hour.clone();
            let answer = hour.take(call).map(|_| ());
            let number = answer.map_or_else(usize::from, |()| 0);
            self.accepted_after_refused += usize::from(refused && number == 0);
            refused |= number != 0;
            match call {
                Call::Interval(_) => self.intervals[number] += 1,
                Call::Pass(_) => self.passes[number] += 1,
            }
            match call {
                Call::Interval(_) if number == 0 => self.count_interval(case, &before, &hour),
                Call::Pass(_) => self.count_pass(number, &before, &hour),
                Call::Interval(_) => {}
            }
            self.count_bids(&hour);
        }
    }

    fn count_causes(&mut self, hour: &RealTime, call: &Call) {
        let causes = hour.hour.causes(call.values());
        let number = causes
            .as_ref()
            .map_or_else(|&number| usize::from(number), |_| 0);
        self.causes[number] += 1;
        for cause in causes.unwrap_or_default() {
            let cuts = cause.floor_price.is_some();
            self.causes_of_a_cut += usize::from(cuts);
            self.not_dispatched += usize::from(!cuts && cause.component > 0);
            self.components_negative += usize::from(cause.component < 0);
        }
    }

    fn count_interval(&mut self, case: &Case, before: &RealTime, after: &RealTime) {
        let (old, new) = (before.hour.curves(), after.hour.curves());
        for (index, offer) in case.opening.offers.iter().enumerate() {
            let cuts = usize::from(old[index] != new[index]);
            self.cuts_in_intervals += cuts;
            match offer.source {
                Source::Costs(..) => {}
                Source::Pack(_) => self.cuts_of_packs += cuts,
                Source::Contract(_) => self.cuts_of_contracts += cuts,
            }
            let anew = before.curves[index] != old[index] && before.curves[index] != new[index];
            self.begun_anew += usize::from(anew);
            self.most_steps = self.most_steps.max(new[index].steps.len());
        }
    }

    fn count_pass(&mut self, number: usize, before: &RealTime, after: &RealTime) {
        self.passes_too_early += usize::from(number == 19 && before.hour.accepted == 0);
        self.passes_too_many += usize::from(number == 19 && before.passes == 3);
        self.passes_of_a_full_hour += usize::from(number == 0 && before.hour.accepted == 4);
        let hourly = after.hour.curves();
        for (index, curve) in after.curves.iter().enumerate() {
            let cuts = *curve != before.curves[index];
            let further = before.curves[index] != hourly[index];
            self.cuts_in_passes += usize::from(cuts);
            self.further_cuts_in_passes += usize::from(cuts && further);
        }
    }

    fn count_bids(&mut self, hour: &RealTime) {
        for resource in 0..hour.curves.len() {
            let Ok(bid) = hour.hour_bid(resource) else {
                self.hour_bids_refused += 1;
                continue;
            };
            self.hour_bids += 1;
            let unequal = hour
                .after_interval
                .iter()
                .any(|curves| curves[resource] != bid);
            self.hour_bids_of_unequal_curves += usize::from(unequal);
        }
    }

    /// What every range of 6,000 seeds has to reach.
    pub fn all_reached(&self) -> bool {
        let all = |counts: &[usize]| counts.iter().all(|&count| count > 0);
        all(&self.openings)
            && all(&self.packs_refused)
            && all(&self.intervals[12..17])
            && all(&self.passes[13..17])
            && all(&self.causes[13..17])
            && self.most_steps == 20
            && all(&[
                self.costs_refused_too,
                self.packs_refused_too,
                self.counts_over_the_room,
                self.costs,
                self.packs,
                self.packs_of_11_steps,
                self.packs_at_furthest_prices,
                self.contracts,
                self.contracts_raised,
                self.intervals[0],
                self.passes[0],
                self.causes[0],
                self.passes_too_early,
                self.passes_too_many,
                self.accepted_after_refused,
                self.passes_of_a_full_hour,
                self.cuts_in_intervals,
                self.cuts_of_packs,
                self.cuts_of_contracts,
                self.cuts_in_passes,
                self.further_cuts_in_passes,
                self.begun_anew,
                self.hour_bids_refused,
                self.hour_bids,
                self.hour_bids_of_unequal_curves,
                self.causes_of_a_cut,
                self.not_dispatched,
                self.components_negative,
            ])
    }
}
