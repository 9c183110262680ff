//! Lists of trading days: worked cases of request 2.10, the definitions over seeds, and what the seeds reach.

use independent::coverage::days::DayCoverage;
use independent::designation::{Day, Tally};
use independent::generate::days::{list, marked_hours};
use independent::verdict::{COMPETITIVE, NON_COMPETITIVE};

fn day(number: u32, bound: &[usize], non_competitive: &[usize]) -> Day {
    Day {
        number,
        bound: bound.iter().copied().collect(),
        non_competitive: non_competitive.iter().copied().collect(),
    }
}

/// A tally after these days, and what each of them was answered.
fn after(days: &[Day]) -> (Tally, Vec<u8>) {
    let mut tally = Tally::default();
    let answers = days.iter().map(|day| tally.update(day));
    let answers = answers.map(|answer| answer.err().unwrap_or(0)).collect();
    (tally, answers)
}

/// Bound hours, non-competitive ones and the verdict.
fn designation(tally: &Tally) -> (usize, usize, u8) {
    (
        tally.bound_hours(),
        tally.non_competitive_hours(),
        tally.verdict(),
    )
}

/// Days from 1 on, each bound in hour 0.
fn hour_a_day(count: u32) -> Vec<Day> {
    (1..=count).map(|number| day(number, &[0], &[])).collect()
}

#[test]
fn a_fresh_tally_is_non_competitive() {
    assert_eq!(designation(&Tally::default()), (0, 0, NON_COMPETITIVE));
}

#[test]
fn ten_hours_are_enough() {
    let nine = after(&hour_a_day(9)).0;
    assert_eq!(designation(&nine), (9, 0, NON_COMPETITIVE));
    let ten = after(&hour_a_day(10)).0;
    assert_eq!(designation(&ten), (10, 0, COMPETITIVE));
}

#[test]
fn three_quarters_are_enough() {
    let hours: Vec<usize> = (0..12).collect();
    // 4 x 9 and 4 x 8 against 3 x 12
    let three = after(&[day(1, &hours, &hours[..3])]).0;
    assert_eq!(designation(&three), (12, 3, COMPETITIVE));
    let four = after(&[day(1, &hours, &hours[..4])]).0;
    assert_eq!(designation(&four), (12, 4, NON_COMPETITIVE));
}

#[test]
fn the_latest_60_days_count() {
    let mut days = hour_a_day(61);
    assert_eq!(after(&days).0.latest().len(), 60);
    assert_eq!(after(&days).0.bound_hours(), 60);
    days.extend((62..=120).map(|number| day(number, &[], &[])));
    assert_eq!(after(&days).0.bound_hours(), 1);
    days.push(day(121, &[], &[]));
    assert_eq!(after(&days).0.bound_hours(), 0);
}

#[test]
fn a_number_is_above_the_last_accepted_one() {
    let numbers = [(5, 0), (5, 25), (4, 25), (6, 0)];
    let days = numbers.map(|(number, _)| day(number, &[0], &[]));
    let (tally, answers) = after(&days);
    assert_eq!(answers, numbers.map(|(_, answer)| answer));
    assert_eq!(tally.bound_hours(), 2);
    // a refused day isn't the last accepted one
    let days = [
        day(5, &[], &[]),
        day(9, &[24], &[]),
        day(6, &[], &[]),
        day(0, &[], &[]),
    ];
    assert_eq!(after(&days).1, [0, 25, 0, 25]);
    assert_eq!(after(&days[3..]).1, [0]);
}

#[test]
fn marks_have_24_hours_and_a_non_competitive_hour_is_bound() {
    let cases: [(&[usize], &[usize], u8); 7] = [
        (&[23], &[23], 0),
        (&[24], &[], 25),
        (&[0], &[24], 25),
        (&[24], &[24], 25),
        (&[0], &[1], 25),
        (&[], &[0], 25),
        (&[0, 1], &[1], 0),
    ];
    for (bound, non_competitive, answer) in cases {
        assert_eq!(after(&[day(1, bound, non_competitive)]).1, [answer]);
    }
}

#[test]
fn hours_are_marked_by_their_intervals() {
    let cases: [(&[u8], &[usize], &[usize]); 6] = [
        (&[2, 0], &[3], &[]),
        (&[0, 1], &[3], &[3]),
        (&[1, 0, 2, 2], &[3], &[3]),
        (&[2, 2], &[], &[]),
        (&[], &[], &[]),
        (&[1], &[3], &[3]),
    ];
    for (verdicts, bound, non_competitive) in cases {
        let mut marked = Day::default();
        marked.mark(3, verdicts);
        assert_eq!(marked, day(0, bound, non_competitive), "{verdicts:?}");
    }
    let mut marked = Day::default();
    marked.mark(31, &[0]);
    assert_eq!(after(&[marked]).1, [25]);
}

/// The bound and the non-competitive hours of the last 60 of some days.
fn counted(accepted: &[Day]) -> (usize, usize) {
    let (mut bound, mut non_competitive) = (0, 0);
    for day in accepted.iter().rev().take(60) {
        bound += day.bound.len();
        non_competitive += day.non_competitive.len();
    }
    (bound, non_competitive)
}

#[test]
fn after_every_list_the_last_60_accepted_are_counted() {
    let mut refused = 0;
    for seed in 0..200 {
        let mut tally = Tally::default();
        let mut accepted = Vec::new();
        for day in list(seed) {
            match tally.update(&day) {
                Ok(()) => accepted.push(day),
                Err(number) => refused += usize::from(number == 25),
            }
            let (bound, non_competitive, verdict) = designation(&tally);
            assert_eq!((bound, non_competitive), counted(&accepted));
            // a quarter of the bound hours at most
            let competitive = bound >= 10 && non_competitive * 4 <= bound;
            assert_eq!(verdict == COMPETITIVE, competitive);
        }
        let numbers: Vec<u32> = accepted.iter().map(|day| day.number).collect();
        assert!(numbers.windows(2).all(|pair| pair[0] < pair[1]));
    }
    assert!(refused > 1000, "{refused}");
}

#[test]
fn a_mark_has_a_verdict() {
    for seed in 0..3000 {
        let hours = marked_hours(seed);
        let mut marked = Day::default();
        for (hour, verdicts) in &hours {
            marked.mark(*hour, verdicts);
        }
        for &(hour, _) in &hours {
            let mut own = hours.iter().filter(|(other, _)| *other == hour);
            let mut also = own.clone();
            assert_eq!(
                marked.bound.contains(&hour),
                own.any(|(_, verdicts)| verdicts.iter().any(|&verdict| verdict < 2))
            );
            assert_eq!(
                marked.non_competitive.contains(&hour),
                also.any(|(_, verdicts)| verdicts.contains(&1))
            );
        }
    }
}

#[test]
fn seeds_reach_every_cause_and_every_edge() {
    for first in [0, 1200] {
        let coverage = DayCoverage::of(first..first + 1200);
        assert!(coverage.all_reached(), "{coverage:?}");
        assert!(coverage.days > 60_000 && coverage.accepted > coverage.days / 2);
    }
}
