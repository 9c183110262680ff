//! What a range of seeds reaches of lists of trading days, and of hours marked by verdicts.

use crate::designation::{is_not_above, Day, Tally, HOURS, LATEST};
use crate::generate::days::{list, marked_hours};
use crate::verdict::{COMPETITIVE, NON_COMPETITIVE};
use std::ops::Range;

#[derive(Clone, Debug, Default)]
pub struct DayCoverage {
    pub lists: usize,
    pub empty_lists: usize,
    pub longest: usize,
    pub days: usize,
    pub accepted: usize,
    /// Refused for one cause alone: the number of the last day, a lower one, a bound mark past the
    /// hours, a non-competitive one beside it, a non-competitive hour not bound.
    pub equal_numbers: usize,
    pub lower_numbers: usize,
    pub past_the_hours: usize,
    pub past_in_both_kinds: usize,
    pub not_bound: usize,
    /// Refused for more than one.
    pub several_causes: usize,
    /// Refused where 60 days are held.
    pub refused_when_full: usize,
    /// Accepted though a refused day has a number as high or higher.
    pub accepted_below_refused: usize,
    /// Accepted as the first with number 0; with the last number of 32 bits; after a gap.
    pub first_is_0: usize,
    pub last_number: usize,
    pub gaps: usize,
    /// Accepted days of 0 and of 24 bound hours; with all of some non-competitive.
    pub without_marks: usize,
    pub full_days: usize,
    pub all_non_competitive: usize,
    /// Days that fell out with marks.
    pub marks_gone: usize,
    /// By verdict, after each accepted day.
    pub verdicts: [usize; 2],
    pub verdict_changed: usize,
    /// Non-competitive for 9 bound hours alone; competitive with 10.
    pub nine_hours: usize,
    pub ten_hours: usize,
    /// 4 × competitive is 3 × bound, or just below it by one hour more, with 10 bound hours or more.
    pub three_quarters: usize,
    pub just_below: usize,
    /// The same of lists that are longer than 60 days.
    pub three_quarters_of_latest: usize,
    pub just_below_of_latest: usize,
    pub hours: HourCoverage,
}

/// Of hours marked by verdicts.
#[derive(Clone, Debug, Default)]
pub struct HourCoverage {
    pub hours: usize,
    /// Without an interval; none binding; bound and competitive; non-competitive.
    pub without_intervals: usize,
    pub not_binding: usize,
    pub competitive: usize,
    pub non_competitive: usize,
    /// Non-competitive by an interval that isn't the last.
    pub by_an_earlier_interval: usize,
    /// Hours 0 and 23; past the 24, and past 32.
    pub first_hour: usize,
    pub last_hour: usize,
    pub past_the_hours: usize,
    pub past_32: usize,
    /// The hour before once more, and without a mark where there was one.
    pub twice: usize,
    pub mark_kept: usize,
}

impl DayCoverage {
    pub fn of(seeds: Range<u64>) -> DayCoverage {
        let mut coverage = DayCoverage::default();
        for seed in seeds {
            coverage.count_list(&list(seed));
            coverage.hours.count(seed);
        }
        coverage
    }

    fn count_list(&mut self, days: &[Day]) {
        self.lists += 1;
        self.empty_lists += usize::from(days.is_empty());
        self.longest = self.longest.max(days.len());
        self.days += days.len();
        let mut tally = Tally::default();
        let mut highest_refused = None;
        for day in days {
            let verdict = tally.verdict();
            if tally.update(day).is_ok() {
                let above = highest_refused < Some(day.number);
                self.accepted_below_refused += usize::from(!above);
                self.count_accepted(day, &tally);
                self.verdict_changed += usize::from(verdict != tally.verdict());
            } else {
                self.count_refused(&tally.accepted(), day);
                highest_refused = highest_refused.max(Some(day.number));
            }
        }
    }

    fn count_refused(&mut self, accepted: &[&Day], day: &Day) {
        let last = accepted.last().copied();
        let (number, past) = (is_not_above(day, last), day.has_mark_past_the_hours());
        let not_bound = day.has_hour_not_bound();
        self.refused_when_full += usize::from(accepted.len() >= LATEST);
        match (number, past, not_bound) {
            (true, false, false) => {
                let equal = last.is_some_and(|last| last.number == day.number);
                self.equal_numbers += usize::from(equal);
                self.lower_numbers += usize::from(!equal);
            }
            (false, true, false) => {
                let both = day.non_competitive.iter().any(|&hour| hour >= HOURS);
                self.past_the_hours += usize::from(!both);
                self.past_in_both_kinds += usize::from(both);
            }
            (false, false, true) => self.not_bound += 1,
            _ => self.several_causes += 1,
        }
    }

    fn count_accepted(&mut self, day: &Day, after: &Tally) {
        let accepted = after.accepted();
        let held = &accepted[..accepted.len() - 1];
        let step = held.last().map(|last| day.number - last.number);
        self.accepted += 1;
        self.first_is_0 += usize::from(held.is_empty() && day.number == 0);
        self.last_number += usize::from(day.number == u32::MAX);
        self.gaps += usize::from(step > Some(1));
        self.without_marks += usize::from(day.bound.is_empty());
        self.full_days += usize::from(day.bound.len() == HOURS);
        let all = !day.bound.is_empty() && day.bound == day.non_competitive;
        self.all_non_competitive += usize::from(all);
        let gone = held.len().checked_sub(LATEST).map(|first| held[first]);
        self.marks_gone += usize::from(gone.is_some_and(|day| !day.bound.is_empty()));
        self.verdicts[usize::from(after.verdict())] += 1;
        self.count_edges(after);
    }

    fn count_edges(&mut self, tally: &Tally) {
        let (bound, competitive) = (tally.bound_hours(), tally.competitive_bound_hours());
        let longer = tally.accepted().len() > LATEST;
        let equal = bound >= 10 && 4 * competitive == 3 * bound;
        let below =
            bound >= 10 && 4 * competitive < 3 * bound && 4 * (competitive + 1) >= 3 * bound;
        self.nine_hours += usize::from(bound == 9 && 4 * competitive >= 3 * bound);
        self.ten_hours += usize::from(bound == 10 && tally.verdict() == COMPETITIVE);
        self.three_quarters += usize::from(equal);
        self.just_below += usize::from(below);
        self.three_quarters_of_latest += usize::from(equal && longer);
        self.just_below_of_latest += usize::from(below && longer);
    }

    /// What every range of 1,000 seeds has to reach.
    pub fn all_reached(&self) -> bool {
        self.verdicts.iter().all(|&count| count > 0)
            && self.hours.all_reached()
            && self.longest == 130
            && [
                self.empty_lists,
                self.equal_numbers,
                self.lower_numbers,
                self.past_the_hours,
                self.past_in_both_kinds,
                self.not_bound,
                self.several_causes,
                self.refused_when_full,
                self.accepted_below_refused,
                self.first_is_0,
                self.last_number,
                self.gaps,
                self.without_marks,
                self.full_days,
                self.all_non_competitive,
                self.marks_gone,
                self.verdict_changed,
                self.nine_hours,
                self.ten_hours,
                self.three_quarters,
                self.just_below,
                self.three_quarters_of_latest,
                self.just_below_of_latest,
            ]
            .iter()
            .all(|&count| count > 0)
    }
}

impl HourCoverage {
    fn count(&mut self, seed: u64) {
        let mut day = Day::default();
        let mut before = None;
        for (hour, verdicts) in marked_hours(seed) {
            let was_bound = day.bound.contains(&hour);
            day.mark(hour, &verdicts);
            self.count_verdicts(&verdicts);
            self.count_hour(hour);
            let unmarked = !verdicts.contains(&COMPETITIVE) && !verdicts.contains(&NON_COMPETITIVE);
            self.twice += usize::from(before == Some(hour));
            self.mark_kept += usize::from(was_bound && unmarked);
            before = Some(hour);
        }
    }

    fn count_verdicts(&mut self, verdicts: &[u8]) {
        let competitive = verdicts.contains(&COMPETITIVE);
        let non_competitive = verdicts.contains(&NON_COMPETITIVE);
        let last = verdicts.last();
        self.hours += 1;
        self.without_intervals += usize::from(last.is_none());
        self.not_binding += usize::from(last.is_some() && !competitive && !non_competitive);
        self.competitive += usize::from(competitive && !non_competitive);
        self.non_competitive += usize::from(non_competitive);
        let earlier = non_competitive && last != Some(&NON_COMPETITIVE);
        self.by_an_earlier_interval += usize::from(earlier);
    }

    fn count_hour(&mut self, hour: usize) {
        self.first_hour += usize::from(hour == 0);
        self.last_hour += usize::from(hour == HOURS - 1);
        self.past_the_hours += usize::from((HOURS..32).contains(&hour));
        self.past_32 += usize::from(hour >= 32);
    }

    fn all_reached(&self) -> bool {
        [
            self.without_intervals,
            self.not_binding,
            self.competitive,
            self.non_competitive,
            self.by_an_earlier_interval,
            self.first_hour,
            self.last_hour,
            self.past_the_hours,
            self.past_32,
            self.twice,
            self.mark_kept,
        ]
        .iter()
        .all(|&count| count > 0)
    }
}
