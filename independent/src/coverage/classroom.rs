//! What a range of seeds reaches of hours with classroom bids.

use super::calls::CallCoverage;
use crate::classroom::classroom_bids;
use crate::curve::{merged, Curve};
use crate::generate::classroom::{case, Case};
use crate::passes::{Call, RealTime};
use crate::print::answer;
use std::ops::Range;

/// What becomes of the bid at a place of the list.
#[derive(Clone, Copy, Debug, Default)]
pub struct OfBid {
    /// Resources of opened hours that have it.
    pub opened: usize,
    /// Curves after an accepted interval: as submitted, and with a lower price somewhere.
    pub uncut: usize,
    pub cut: usize,
}

#[derive(Clone, Debug, Default)]
pub struct ClassroomCoverage {
    pub hours: usize,
    /// Texts, by refusal number; 0 counts those accepted whole.
    pub texts: [usize; 19],
    /// The same hours in numbers.
    pub lists: CallCoverage,
    pub bids: Vec<OfBid>,
    /// Curves after an accepted interval with fewer steps than the bid, and with more.
    pub merged: usize,
    pub divided: usize,
    /// Cut, but not at every quantity.
    pub cut_in_part: usize,
    /// Cut to a price below 0.
    pub cut_below_0: usize,
}

fn is_below_at(bid: &Curve, curve: &Curve, quantity: i128) -> bool {
    curve.price(quantity) < bid.price(quantity)
}

impl ClassroomCoverage {
    pub fn of(seeds: Range<u64>) -> ClassroomCoverage {
        let bids = classroom_bids();
        let mut coverage = ClassroomCoverage {
            bids: vec![OfBid::default(); bids.len()],
            ..ClassroomCoverage::default()
        };
        for seed in seeds {
            coverage.count(&case(seed, &bids));
        }
        coverage
    }

    fn count(&mut self, case: &Case) {
        let refused = answer(&case.text).refused;
        self.hours += 1;
        self.texts[refused.map_or(0, |refused| usize::from(refused.number))] += 1;
        self.lists.count(&case.list);
        let Ok(hour) = case.list.opening.open() else {
            return;
        };
        for &place in &case.places {
            self.bids[place].opened += 1;
        }
        let mut hour = RealTime::new(hour);
        for call in &case.list.calls {
            let accepted = hour.take(call).is_ok();
            if accepted && matches!(call, Call::Interval(_)) {
                self.count_curves(case, &hour);
            }
        }
    }

    fn count_curves(&mut self, case: &Case, hour: &RealTime) {
        for (&place, resource) in case.places.iter().zip(&hour.hour.resources) {
            let (bid, curve) = (&resource.bid, resource.curve());
            let below = |&quantity: &i128| is_below_at(bid, &curve, quantity);
            let cut = (0..bid.end()).filter(below).count() as i128;
            let of_bid = &mut self.bids[place];
            of_bid.uncut += usize::from(curve == merged(bid));
            of_bid.cut += usize::from(cut > 0);
            self.merged += usize::from(curve.steps.len() < bid.steps.len());
            self.divided += usize::from(curve.steps.len() > bid.steps.len());
            self.cut_in_part += usize::from(cut > 0 && cut < bid.end());
            self.cut_below_0 += usize::from(curve.prices()[0] < 0);
        }
    }

    /// What every range of 6,000 seeds has to reach.
    pub fn all_reached(&self) -> bool {
        let all = |counts: &[usize]| counts.iter().all(|&count| count > 0);
        let of_bid = |bid: &OfBid| all(&[bid.opened, bid.uncut, bid.cut]);
        let lists = &self.lists;
        let texts = [0, 9, 10, 11, 12, 15, 16].map(|number| self.texts[number]);
        all(&texts)
            && self.bids.iter().all(of_bid)
            && all(&[0, 9, 10, 11].map(|number| lists.openings[number]))
            && all(&[0, 12, 13, 14, 15, 16].map(|number| lists.intervals[number]))
            && all(&[0, 19].map(|number| lists.passes[number]))
            && all(&[
                lists.cuts_in_passes,
                lists.hour_bids,
                self.merged,
                self.divided,
                self.cut_in_part,
                self.cut_below_0,
            ])
    }
}
