//! Lists of trading days and days marked by verdicts, through the engine's static library and through the independent implementation. After
//! each day the tally is asked for everything it can tell.

use independent::designation::{self, HOURS, LATEST};
use independent::generate::days::{list, marked_hours, MarkedHour};
use noskjerf::designation::{Day, Tally, CELLS};
use noskjerf::Finding;
use std::collections::BTreeSet;
use std::ops::Range;

/// Of the lists and of the marked days that differ, at most so many are shown.
const SHOWN: usize = 3;

/// A list for so many seeds: it has some 64 days.
const SEEDS_OF_A_LIST: usize = 50;

/// What a tally tells after a day.
#[derive(Debug, PartialEq)]
struct Answer {
    /// The number of the refusal, or 0.
    refusal: u8,
    /// Whether a refused day changed the tally.
    changed_by_refusal: bool,
    /// How many days are held, and the last one's number.
    held: (u32, Option<u32>),
    bound: u32,
    noncompetitive: u32,
    verdict: u8,
    /// Every number that the tally is.
    cells: [u32; CELLS],
}

/// How many were compared, and how many of them differ.
#[derive(Default)]
struct Counts {
    lists: usize,
    days: usize,
    lists_differ: usize,
    hours: usize,
    hours_differ: usize,
}

fn small(number: usize) -> u32 {
    number.try_into().expect("a number of 32 bits")
}

// ---- the engine

/// The hours of a set, all of them below 32, as bits.
fn mask(hours: &BTreeSet<usize>) -> u32 {
    hours.iter().map(|&hour| 1 << hour).sum()
}

fn day(day: &designation::Day) -> Day {
    Day {
        number: day.number,
        bound: mask(&day.bound),
        noncompetitive: mask(&day.non_competitive),
    }
}

fn number(finding: Finding) -> u8 {
    match finding {
        Finding::Competitive => 0,
        Finding::NonCompetitive => 1,
        Finding::NotBinding => 2,
    }
}

fn engine(days: &[designation::Day]) -> Vec<Answer> {
    let mut tally = Tally::new();
    let updated = |given: &designation::Day| {
        let before = tally.clone();
        let refusal = tally.update(&day(given)).map_or_else(|refused| refused.number, |()| 0);
        let (bound, noncompetitive) = tally.hours();
        Answer {
            refusal,
            changed_by_refusal: refusal != 0 && tally != before,
            held: (tally.days(), tally.last()),
            bound,
            noncompetitive,
            verdict: number(tally.verdict()),
            cells: *tally.cells(),
        }
    };
    days.iter().map(updated).collect()
}

// ---- the independent implementation

/// The numbers of a tally that holds these days: the newest stand first.
fn cells(latest: &[&designation::Day]) -> [u32; CELLS] {
    let mut cells = [0; CELLS];
    cells[0] = small(latest.len());
    cells[1] = latest.last().map_or(0, |day| day.number);
    for (i, day) in latest.iter().rev().enumerate() {
        cells[2 + i] = mask(&day.bound);
        cells[2 + LATEST + i] = mask(&day.non_competitive);
    }
    cells
}

fn literal(days: &[designation::Day]) -> Vec<Answer> {
    let mut tally = designation::Tally::default();
    let updated = |day: &designation::Day| {
        let refusal = tally.update(day).map_or_else(|number| number, |()| 0);
        let latest = tally.latest();
        Answer {
            refusal,
            changed_by_refusal: false,
            held: (small(latest.len()), latest.last().map(|day| day.number)),
            bound: small(tally.bound_hours()),
            noncompetitive: small(tally.non_competitive_hours()),
            verdict: tally.verdict(),
            cells: cells(&latest),
        }
    };
    days.iter().map(updated).collect()
}

// ---- marked hours

/// A day after its hours are marked.
#[derive(Debug, PartialEq)]
struct Marks {
    /// Of each kind the marks within the 24 hours, and whether there is one past them.
    bound: (u32, bool),
    noncompetitive: (u32, bool),
    /// What a fresh tally says of the day.
    refusal: u8,
}

fn engine_marks(hours: &[MarkedHour]) -> Marks {
    let finding = |verdict: &u8| match verdict {
        0 => Finding::Competitive,
        1 => Finding::NonCompetitive,
        _ => Finding::NotBinding,
    };
    let mut marked = Day::new(1);
    for (hour, verdicts) in hours {
        marked = marked.mark(*hour, &verdicts.iter().map(finding).collect::<Vec<_>>());
    }
    let within = (1 << HOURS) - 1;
    let split = |marks: u32| (marks & within, marks > within);
    Marks {
        bound: split(marked.bound),
        noncompetitive: split(marked.noncompetitive),
        refusal: Tally::new().update(&marked).map_or_else(|refused| refused.number, |()| 0),
    }
}

fn literal_marks(hours: &[MarkedHour]) -> Marks {
    let mut marked = designation::Day::default();
    for (hour, verdicts) in hours {
        marked.mark(*hour, verdicts);
    }
    let split = |hours: &BTreeSet<usize>| {
        let mut within = hours.clone();
        within.retain(|&hour| hour < HOURS);
        (mask(&within), within.len() < hours.len())
    };
    Marks {
        bound: split(&marked.bound),
        noncompetitive: split(&marked.non_competitive),
        refusal: designation::Tally::default().update(&marked).map_or_else(|number| number, |()| 0),
    }
}

// ---- both

impl Counts {
    fn compare_list(&mut self, seed: u64) {
        let days = list(seed);
        let (engine, literal) = (engine(&days), literal(&days));
        self.lists += 1;
        self.days += days.len();
        let Some(first) = engine.iter().zip(&literal).position(|(engine, literal)| engine != literal) else {
            return;
        };
        self.lists_differ += 1;
        if self.lists_differ <= SHOWN {
            println!("list of trading days {seed}: {:?}", &days[..=first]);
            println!("  engine      {:?}", engine[first]);
            println!("  independent {:?}", literal[first]);
        }
    }

    fn compare_marks(&mut self, seed: u64) {
        let hours = marked_hours(seed);
        let (engine, literal) = (engine_marks(&hours), literal_marks(&hours));
        self.hours += hours.len();
        if engine == literal {
            return;
        }
        self.hours_differ += 1;
        if self.hours_differ <= SHOWN {
            println!("marked hours {seed}: {hours:?}");
            println!("  engine      {engine:?}");
            println!("  independent {literal:?}");
        }
    }
}

/// Compares a day of marked hours for each seed and a list of days for every fiftieth; answers how many differ.
pub fn compare(seeds: Range<u64>) -> usize {
    let mut counts = Counts::default();
    for seed in seeds.clone().step_by(SEEDS_OF_A_LIST) {
        counts.compare_list(seed);
    }
    for seed in seeds {
        counts.compare_marks(seed);
    }
    let Counts { lists, days, hours, .. } = counts;
    println!("compare: {lists} lists of {days} trading days, {} differ", counts.lists_differ);
    println!("compare: {hours} hours marked by verdicts, {} differ", counts.hours_differ);
    counts.lists_differ + counts.hours_differ
}
