//! Sixty-day designations (request 2.10, 39.7.3).

use crate::numbers::Refusal;
use crate::verdict::{COMPETITIVE, NON_COMPETITIVE};
use std::collections::BTreeSet;

/// "A day holds 24 hours"
pub const HOURS: usize = 24;

/// "over the latest 60 trading days"
pub const LATEST: usize = 60;

/// "each marked bound or not, and non-competitive or not": the hours that are marked so.
#[derive(Clone, Debug, Default, PartialEq, Eq)]
pub struct Day {
    pub number: u32,
    pub bound: BTreeSet<usize>,
    pub non_competitive: BTreeSet<usize>,
}

impl Day {
    /// "An hour's marks are made from its intervals' verdicts on that constraint"
    pub fn mark(&mut self, hour: usize, verdicts: &[u8]) {
        // "bound if any is 0 or 1"
        if verdicts.contains(&COMPETITIVE) || verdicts.contains(&NON_COMPETITIVE) {
            self.bound.insert(hour);
        }
        // "non-competitive if any is 1"
        if verdicts.contains(&NON_COMPETITIVE) {
            self.non_competitive.insert(hour);
        }
    }

    /// "a mark past the 24 hours"
    pub fn has_mark_past_the_hours(&self) -> bool {
        let mut marked = self.bound.iter().chain(&self.non_competitive);
        marked.any(|&hour| hour >= HOURS)
    }

    /// "a non-competitive hour not bound"
    pub fn has_hour_not_bound(&self) -> bool {
        let mut hours = self.non_competitive.iter();
        hours.any(|hour| !self.bound.contains(hour))
    }
}

/// "a day number not above the last accepted one"
pub fn is_not_above(day: &Day, last_accepted: Option<&Day>) -> bool {
    last_accepted.is_some_and(|last| day.number <= last.number)
}

/// 25, "the only check".
fn check(day: &Day, last_accepted: Option<&Day>) -> Result<(), Refusal> {
    if is_not_above(day, last_accepted) || day.has_mark_past_the_hours() || day.has_hour_not_bound()
    {
        return Err(25);
    }
    Ok(())
}

/// The tally of one constraint: every day that came, "refused ones included".
#[derive(Clone, Debug, Default)]
pub struct Tally {
    pub days: Vec<Day>,
}

impl Tally {
    pub fn update(&mut self, day: &Day) -> Result<(), Refusal> {
        let answer = check(day, self.accepted().last().copied());
        self.days.push(day.clone());
        answer
    }

    /// The accepted days of the list, found from its first day on.
    pub fn accepted(&self) -> Vec<&Day> {
        let mut accepted = Vec::new();
        for day in &self.days {
            if check(day, accepted.last().copied()).is_ok() {
                accepted.push(day);
            }
        }
        accepted
    }

    /// "the last 60 accepted of that list"
    pub fn latest(&self) -> Vec<&Day> {
        let mut latest = self.accepted();
        let older = latest.len().saturating_sub(LATEST);
        latest.drain(..older);
        latest
    }

    pub fn bound_hours(&self) -> usize {
        self.latest().iter().map(|day| day.bound.len()).sum()
    }

    pub fn non_competitive_hours(&self) -> usize {
        let days = self.latest();
        days.iter().map(|day| day.non_competitive.len()).sum()
    }

    /// "the competitive bound hours": bound, and not marked non-competitive.
    pub fn competitive_bound_hours(&self) -> usize {
        let days = self.latest();
        let competitive = |day: &&Day| day.bound.difference(&day.non_competitive).count();
        days.iter().map(competitive).sum()
    }

    /// "Competitive: at least 10 bound hours, and 4 × the competitive bound hours at least 3 × the
    /// bound hours. Anything less is non-competitive."
    pub fn verdict(&self) -> u8 {
        let bound = self.bound_hours();
        if bound >= 10 && 4 * self.competitive_bound_hours() >= 3 * bound {
            COMPETITIVE
        } else {
            NON_COMPETITIVE
        }
    }
}
