//! Sixty-day designations: the worked cases of request 2.10.

use noskjerf::designation::{Day, Tally, CELLS};
use noskjerf::hour::{Hour, Interval, Opening, Resource};
use noskjerf::judgement::DefaultCurve;
use noskjerf::{run, Finding, Refused, Step};
use Finding::{Competitive, NonCompetitive, NotBinding};

const REFUSED: Result<(), Refused> = Err(Refused { number: 25 });

/// A bit for each of 24 hours.
const ALL_HOURS: u32 = (1 << 24) - 1;

/// Case T, as paper 01 gives it: constraint 0 binds and is non-competitive.
const CASE_T: &[u8] = include_bytes!("../../crates/mitigate/stdin");

fn day(number: u32, bound: u32, noncompetitive: u32) -> Day {
    Day {
        number,
        bound,
        noncompetitive,
    }
}

/// A tally after days with these marks, numbered from 1 on, all of them taken.
fn after(marks: &[(u32, u32)]) -> Tally {
    let mut tally = Tally::new();
    for (number, &(bound, noncompetitive)) in (1..).zip(marks) {
        tally.update(&day(number, bound, noncompetitive)).unwrap();
    }
    tally
}

/// The first hours of a day.
fn first_hours(count: u32) -> u32 {
    (1 << count) - 1
}

#[test]
fn a_fresh_tally_is_non_competitive() {
    assert_eq!((Tally::new().hours(), Tally::new().verdict()), ((0, 0), NonCompetitive));
    assert_eq!((Tally::new().days(), Tally::new().last()), (0, None));
    assert_eq!(Tally::default(), Tally::new());
    assert_eq!(Tally::new().cells(), &[0; CELLS]);
}

#[test]
fn ten_bound_hours_are_enough() {
    let nine = after(&[(1, 0); 9]);
    assert_eq!((nine.hours(), nine.verdict()), ((9, 0), NonCompetitive));
    let ten = after(&[(1, 0); 10]);
    assert_eq!((ten.hours(), ten.verdict()), ((10, 0), Competitive));
}

#[test]
fn three_quarters_of_the_bound_hours_are_competitive() {
    // 4 x 9 and 4 x 8 against 3 x 12; 4 x 8 and 4 x 7 against 3 x 10; 4 x 18 and 4 x 17 against 3 x 24
    let cases = [(12, 3, 4), (10, 2, 3), (24, 6, 7)];
    for (bound, enough, too_many) in cases {
        assert_eq!(
            after(&[(first_hours(bound), first_hours(enough))]).verdict(),
            Competitive,
            "{bound}"
        );
        assert_eq!(
            after(&[(first_hours(bound), first_hours(too_many))]).verdict(),
            NonCompetitive,
            "{bound}"
        );
    }
}

#[test]
fn the_latest_sixty_days_are_held() {
    let mut tally = after(&[(1, 0); 61]);
    assert_eq!((tally.days(), tally.last(), tally.hours()), (60, Some(61), (60, 0)));
    for number in 62..=120 {
        tally.update(&Day::new(number)).unwrap();
    }
    assert_eq!(tally.hours(), (1, 0));
    tally.update(&Day::new(121)).unwrap();
    assert_eq!((tally.days(), tally.hours(), tally.verdict()), (60, (0, 0), NonCompetitive));
}

#[test]
fn the_oldest_day_goes() {
    let mut marks = vec![(ALL_HOURS, ALL_HOURS)];
    marks.extend([(0, 0); 59]);
    assert_eq!(after(&marks).hours(), (24, 24));
    marks.push((3, 1));
    assert_eq!(after(&marks).hours(), (2, 1));
}

/// Tries days on a tally, none of which it takes.
fn refuses(tally: &Tally, days: &[Day]) {
    for day in days {
        let mut tried = tally.clone();
        assert_eq!(tried.update(day), REFUSED, "{day:?}");
        assert_eq!(tried, *tally, "{day:?}");
    }
}

#[test]
fn a_days_number_is_above_the_last_one() {
    let mut tally = Tally::new();
    tally.update(&day(5, 1, 0)).unwrap();
    refuses(&tally, &[day(5, 1, 0), day(4, 1, 0), day(0, 0, 0)]);
    tally.update(&day(6, 1, 0)).unwrap();
    assert_eq!((tally.days(), tally.last(), tally.hours()), (2, Some(6), (2, 0)));
    let mut tally = Tally::new();
    tally.update(&day(0, 1, 0)).unwrap();
    assert_eq!(tally.last(), Some(0));
    refuses(&tally, &[day(0, 1, 0)]);
    tally.update(&day(u32::MAX, 1, 0)).unwrap();
    refuses(&tally, &[day(0, 1, 0), day(u32::MAX, 1, 0)]);
}

#[test]
fn a_mark_past_the_24_hours_is_refused() {
    let mut tally = Tally::new();
    for bit in 24..32 {
        let past = 1 << bit;
        refuses(
            &tally,
            &[day(1, past, 0), day(1, ALL_HOURS, past), day(1, past, past), day(1, past | 1, 1)],
        );
    }
    tally.update(&day(1, ALL_HOURS, 1 << 23)).unwrap();
    assert_eq!(tally.hours(), (24, 1));
}

#[test]
fn a_non_competitive_hour_is_bound() {
    let mut tally = Tally::new();
    refuses(
        &tally,
        &[day(1, 1, 2), day(1, 0, 1), day(1, 2, 3), day(1, ALL_HOURS - 1, ALL_HOURS)],
    );
    tally.update(&day(1, 3, 2)).unwrap();
    assert_eq!(tally.hours(), (2, 1));
}

#[test]
fn a_refused_day_is_not_the_last_one() {
    let mut tally = Tally::new();
    refuses(&tally, &[day(9, 0, 1)]);
    tally.update(&day(5, 1, 0)).unwrap();
    for refused in [day(9, 1 << 24, 0), day(9, 1, 2), day(3, 1, 0)] {
        assert_eq!(tally.update(&refused), REFUSED);
    }
    tally.update(&day(6, 1, 0)).unwrap();
    assert_eq!((tally.last(), tally.hours()), (Some(6), (2, 0)));
}

#[test]
fn the_refusal_says_why() {
    let said = Tally::new().update(&day(1, 1, 2)).unwrap_err().to_string();
    let reason = "the day's number is not above the last accepted one, a mark is past the 24 hours, or a non-competitive hour is not bound";
    assert_eq!(said, format!("{reason} (refusal 25)"));
}

#[test]
fn an_hour_is_marked_by_its_intervals() {
    let cases: [(&[Finding], u32, u32); 8] = [
        (&[], 0, 0),
        (&[NotBinding, NotBinding], 0, 0),
        (&[NotBinding, Competitive], 8, 0),
        (&[Competitive, NotBinding], 8, 0),
        (&[Competitive, NonCompetitive], 8, 8),
        (&[NonCompetitive, Competitive, Competitive, NotBinding], 8, 8),
        (&[NotBinding, NotBinding, NotBinding, NonCompetitive], 8, 8),
        (&[NonCompetitive], 8, 8),
    ];
    for (findings, bound, noncompetitive) in cases {
        assert_eq!(Day::new(7).mark(3, findings), day(7, bound, noncompetitive), "{findings:?}");
    }
}

#[test]
fn a_mark_stays() {
    let marked = Day::new(7).mark(3, &[NonCompetitive]).mark(0, &[Competitive]);
    assert_eq!(marked, day(7, 9, 8));
    assert_eq!(marked.mark(3, &[Competitive]).mark(0, &[]).mark(3, &[NotBinding]), marked);
    assert_eq!(marked.mark(0, &[NonCompetitive]), day(7, 9, 9));
}

#[test]
fn an_hour_past_the_24_makes_the_day_refused() {
    for hour in [24, 31, 32, 33, 64, (1 << 32) + 3, usize::MAX] {
        for finding in [Competitive, NonCompetitive] {
            let marked = Day::new(7).mark(hour, &[finding]);
            assert_eq!((marked.number, marked.bound), (7, 1 << 24));
            assert_eq!(Tally::new().update(&marked), REFUSED, "hour {hour}");
        }
        assert_eq!(Day::new(7).mark(hour, &[NotBinding]), Day::new(7));
    }
}

/// An hour of one seller with one resource.
fn hour() -> Hour {
    let steps = vec![Step { end: 20000, price: 378402 }];
    let resource = Resource::new(0, 0).step(20000, 900000).pack(DefaultCurve { start: 0, steps });
    Hour::open(&Opening::month(25).portfolio(true).resource(resource)).unwrap()
}

/// An interval of two constraints: the first never binds; the second, where it does, is non-competitive with the resource dispatched alone.
fn interval(shadow: i64, dispatch: i64) -> Interval {
    let constraints = Interval::new().constraint(0).constraint(shadow);
    constraints.resource(600000, dispatch, 30000, 0).factor(0, 1, -500000)
}

#[test]
fn an_hour_is_marked_by_the_verdicts_of_its_run() {
    let marks = |intervals: &[Interval], constraint: usize| {
        let mut hour = hour();
        let verdicts: Vec<_> = intervals.iter().map(|interval| hour.interval(interval).unwrap()).collect();
        let marked = Day::new(7).mark_hour(17, &verdicts, constraint);
        (marked.bound, marked.noncompetitive)
    };
    let (off, idle, busy) = (interval(0, 20000), interval(500000, 0), interval(500000, 20000));
    assert_eq!(marks(&[], 1), (0, 0));
    assert_eq!(marks(&[off.clone(), off.clone()], 1), (0, 0));
    assert_eq!(marks(&[idle.clone(), off.clone()], 1), (1 << 17, 0));
    assert_eq!(marks(&[busy.clone(), idle.clone(), off.clone()], 1), (1 << 17, 1 << 17));
    for other in [0, 2, 31, 32, usize::MAX] {
        assert_eq!(
            marks(&[off.clone(), idle.clone(), busy.clone()], other),
            (0, 0),
            "constraint {other}"
        );
    }
}

#[test]
fn a_pass_is_no_interval() {
    let mut hour = hour();
    let verdicts = [hour.interval(&interval(500000, 0)).unwrap()];
    assert_eq!(hour.pass(&interval(500000, 20000)).unwrap()[1].finding, NonCompetitive);
    assert_eq!(Day::new(7).mark_hour(0, &verdicts, 1), day(7, 1, 0));
}

#[test]
fn an_hour_is_marked_by_the_pages_of_its_text() {
    let pages = run(CASE_T).pages;
    assert_eq!(Day::new(7).mark_pages(23, &pages, 0), day(7, 1 << 23, 1 << 23));
    assert_eq!(Day::new(7).mark_pages(23, &pages, 1), Day::new(7));
    // pages before a refusal hold
    let refused = run(&[CASE_T, b"constraint shadow\n"].concat());
    assert_eq!((refused.pages.len(), refused.refusal.map(|refusal| refusal.number)), (1, Some(17)));
    assert_eq!(Day::new(7).mark_pages(0, &refused.pages, 0), day(7, 1, 1));
}

#[test]
fn twelve_days_of_case_t() {
    let pages = run(CASE_T).pages;
    let mut tally = Tally::new();
    for number in 1..=12 {
        tally.update(&Day::new(number).mark_pages(17, &pages, 0)).unwrap();
    }
    assert_eq!((tally.hours(), tally.verdict()), ((12, 12), NonCompetitive));
}

#[test]
fn every_content_is_a_tally() {
    let mut full = Tally::from_cells(&[u32::MAX; CELLS]);
    assert_eq!((full.hours(), full.verdict()), ((1920, 1920), NonCompetitive));
    assert_eq!(full.update(&Day::new(u32::MAX)), REFUSED);
    assert_eq!(full.cells(), &[u32::MAX; CELLS]);
    let mut cells = [0; CELLS];
    cells[61] = 0xfff0_0000;
    assert_eq!(Tally::from_cells(&cells).verdict(), Competitive);
    cells[62] = u32::MAX;
    assert_eq!(
        (Tally::from_cells(&cells).hours(), Tally::from_cells(&cells).verdict()),
        ((12, 32), NonCompetitive)
    );
}

#[test]
fn a_tally_is_its_numbers() {
    let tally = after(&[(0x805, 4), (3, 0)]);
    let cells = *tally.cells();
    assert_eq!((cells[..4].to_vec(), cells[62..64].to_vec()), (vec![2, 2, 3, 0x805], vec![0, 4]));
    let mut other = Tally::from_cells(&cells);
    assert_eq!(other, tally);
    other.update(&day(3, 1, 1)).unwrap();
    assert_ne!(other, tally);
    assert_eq!(*tally.cells(), cells);
    let said = "Tally { days: 3, last: Some(3), hours: (6, 2), verdict: NonCompetitive, .. }";
    assert_eq!(format!("{other:?}"), said);
}
