//! Sixty-day designations: the default verdict on a constraint, by its latest 60 trading days, where an assessment fails.

use crate::ffi::{self, HOURS, MARKS, TALLY};
use crate::hour::Verdict;
use crate::judgement::{refused_or_not, Refused};
use crate::{Finding, Page};
use std::fmt;

/// How many numbers a tally is.
pub const CELLS: usize = TALLY;

/// A trading day of one constraint: its number, and in which of 24 hours the constraint was bound, and non-competitive. Bit h stands for hour
/// h, from 0.
///
/// ```
/// use noskjerf::designation::Day;
/// use noskjerf::Finding::{Competitive, NonCompetitive, NotBinding};
///
/// let day = Day::new(20).mark(3, &[NotBinding, Competitive]).mark(4, &[Competitive, NonCompetitive]).mark(5, &[NotBinding]);
/// assert_eq!((day.bound, day.noncompetitive), (0b11000, 0b10000));
/// ```
#[derive(Clone, Copy, Debug, Default, PartialEq, Eq, Hash)]
pub struct Day {
    /// The day's number, above that of the day before it.
    pub number: u32,
    /// The bound hours.
    pub bound: u32,
    /// The non-competitive hours, each of them bound.
    pub noncompetitive: u32,
}

impl Day {
    /// A day without a mark.
    pub fn new(number: u32) -> Day {
        Day { number, ..Day::default() }
    }

    /// Marks an hour by what its intervals found of the constraint: bound if any is competitive or non-competitive, non-competitive if any is
    /// that. A mark that is there stays. An hour past the 24 is marked past them, so that the day is refused (25).
    #[must_use]
    pub fn mark(self, hour: usize, findings: &[Finding]) -> Day {
        let numbers: Vec<i64> = findings.iter().map(|finding| finding.number()).collect();
        let mut marks: [u32; MARKS] = [self.bound, self.noncompetitive];
        assert_eq!(
            ffi::mark(&mut marks, hour, &numbers),
            0,
            "the marks have the room that the engine asks for"
        );
        let [bound, noncompetitive] = marks;
        Day {
            bound,
            noncompetitive,
            ..self
        }
    }

    /// Marks an hour by the verdicts of its accepted intervals, as [`Hour::interval`](crate::Hour::interval) answers them. An interval that
    /// doesn't have the constraint marks nothing. Passes are no intervals of the hour.
    ///
    /// ```
    /// # use noskjerf::hour::{Hour, Interval, Opening, Resource};
    /// # use noskjerf::{judgement::DefaultCurve, Step};
    /// use noskjerf::designation::Day;
    ///
    /// # let pack = DefaultCurve { start: 0, steps: vec![Step { end: 20000, price: 378402 }] };
    /// # let opening = Opening::month(25).portfolio(true).resource(Resource::new(0, 0).step(20000, 900000).pack(pack));
    /// let mut hour = Hour::open(&opening)?;
    /// let idle = Interval::new().constraint(0).constraint(500000).resource(600000, 0, 30000, 0).factor(0, 1, -500000);
    /// let busy = Interval::new().constraint(0).constraint(500000).resource(600000, 20000, 30000, 0).factor(0, 1, -500000);
    /// let verdicts = [hour.interval(&idle)?, hour.interval(&busy)?];
    ///
    /// // constraint 0 doesn't bind; constraint 1 is competitive in the one interval and non-competitive in the other
    /// assert_eq!(Day::new(20).mark_hour(17, &verdicts, 0), Day::new(20));
    /// let day = Day::new(20).mark_hour(17, &verdicts, 1);
    /// assert_eq!((day.bound, day.noncompetitive), (1 << 17, 1 << 17));
    /// # Ok::<(), noskjerf::Refused>(())
    /// ```
    #[must_use]
    pub fn mark_hour(self, hour: usize, intervals: &[Vec<Verdict>], constraint: usize) -> Day {
        let verdicts = intervals.iter().flatten();
        self.mark(hour, &on(constraint, verdicts.map(|verdict| (verdict.constraint, verdict.finding))))
    }

    /// Marks an hour by the pages of its text, in the same way.
    ///
    /// ```
    /// use noskjerf::designation::Day;
    ///
    /// // pages before a refusal are of accepted intervals, and hold
    /// let output = noskjerf::run(b"month\n025\n");
    /// assert_eq!(Day::new(20).mark_pages(17, &output.pages, 0), Day::new(20));
    /// ```
    #[must_use]
    pub fn mark_pages(self, hour: usize, pages: &[Page], constraint: usize) -> Day {
        let verdicts = pages.iter().flat_map(|page| &page.verdicts);
        self.mark(hour, &on(constraint, verdicts.map(|verdict| (verdict.constraint, verdict.finding))))
    }
}

/// What is found of one constraint.
fn on(constraint: usize, verdicts: impl Iterator<Item = (usize, Finding)>) -> Vec<Finding> {
    verdicts.filter(|(of, _)| *of == constraint).map(|(_, finding)| finding).collect()
}

/// The tally of a constraint over the latest 60 trading days.
///
/// It holds the last 60 days that were accepted; gaps between their numbers count for nothing.
///
/// ```
/// use noskjerf::designation::{Day, Tally};
/// use noskjerf::Finding::{Competitive, NonCompetitive};
///
/// let mut tally = Tally::new();
/// assert_eq!(tally.verdict(), NonCompetitive);
///
/// // in each of twelve days one hour is bound; in three of them it is non-competitive
/// for number in 1..=12 {
///     let finding = if number % 4 == 0 { NonCompetitive } else { Competitive };
///     tally.update(&Day::new(number).mark(17, &[finding]))?;
/// }
/// assert_eq!(tally.hours(), (12, 3));
/// assert_eq!(tally.verdict(), Competitive);
///
/// // day 12 is there already; nothing changes
/// let refused = tally.update(&Day::new(12).mark(17, &[NonCompetitive])).unwrap_err();
/// assert_eq!(refused.number, 25);
/// assert_eq!(tally.hours(), (12, 3));
///
/// tally.update(&Day::new(13).mark(17, &[NonCompetitive]))?;
/// assert_eq!(tally.verdict(), NonCompetitive);
/// # Ok::<(), noskjerf::Refused>(())
/// ```
#[derive(Clone, PartialEq, Eq)]
pub struct Tally {
    cells: [u32; CELLS],
}

impl Tally {
    /// A fresh tally, without a day.
    pub fn new() -> Tally {
        Tally { cells: [0; CELLS] }
    }

    /// Adds a day; of more than 60 the oldest goes. The refusal is 25: the day's number isn't above that of the last day accepted, a mark is
    /// past the 24 hours, or a non-competitive hour isn't bound. The tally is then as it was.
    pub fn update(&mut self, day: &Day) -> Result<(), Refused> {
        let answer = ffi::day(&mut self.cells, day.number, day.bound, day.noncompetitive);
        refused_or_not(u64::try_from(answer).expect("a tally has the room that the engine asks for"))
    }

    /// The default verdict: competitive where at least 10 hours are bound and 4 × the competitive ones among them are at least 3 × the bound
    /// ones, else non-competitive, as on a fresh tally.
    pub fn verdict(&self) -> Finding {
        self.designated().0
    }

    /// How many hours of the days held are bound, and how many non-competitive.
    pub fn hours(&self) -> (u32, u32) {
        self.designated().1
    }

    /// How many days are held, up to 60.
    pub fn days(&self) -> u32 {
        self.cells[0]
    }

    /// The number of the last day accepted, where there is one.
    pub fn last(&self) -> Option<u32> {
        (self.days() > 0).then_some(self.cells[1])
    }

    /// The numbers that the tally is. They may be kept anywhere and put back with [`Tally::from_cells`].
    ///
    /// ```
    /// use noskjerf::designation::{Day, Tally};
    ///
    /// let mut tally = Tally::new();
    /// tally.update(&Day::new(20))?;
    /// let kept = tally.cells().to_vec();
    /// assert_eq!(Tally::from_cells(kept.as_slice().try_into().unwrap()), tally);
    /// # Ok::<(), noskjerf::Refused>(())
    /// ```
    pub fn cells(&self) -> &[u32; CELLS] {
        &self.cells
    }

    /// The tally that these numbers are. Every content is one.
    pub fn from_cells(cells: &[u32; CELLS]) -> Tally {
        Tally { cells: *cells }
    }

    /// The default verdict, and the hours that it is made of.
    fn designated(&self) -> (Finding, (u32, u32)) {
        let mut hours: [u32; HOURS] = [0; HOURS];
        let number = ffi::designation(&self.cells, &mut hours);
        let finding = Finding::of(number).expect("a tally has the room that the engine asks for");
        let [bound, noncompetitive] = hours;
        (finding, (bound, noncompetitive))
    }
}

impl Default for Tally {
    fn default() -> Tally {
        Tally::new()
    }
}

impl fmt::Debug for Tally {
    fn fmt(&self, f: &mut fmt::Formatter<'_>) -> fmt::Result {
        f.debug_struct("Tally")
            .field("days", &self.days())
            .field("last", &self.last())
            .field("hours", &self.hours())
            .field("verdict", &self.verdict())
            .finish_non_exhaustive()
    }
}
