//! Books of gas prices: worked cases of request 2.7, the definitions over seeds, and what the seeds reach.

use independent::costs::{Costs, Point};
use independent::coverage::books::BookCoverage;
use independent::gas::{Book, Market, MARKETS};
use independent::generate::books::case;
use Market::{DayAhead, RealTime};

fn book(day_ahead: &[u32], real_time: &[u32]) -> Book {
    Book {
        day_ahead: day_ahead.to_vec(),
        real_time: real_time.to_vec(),
    }
}

/// Three published days ahead; in real time one day twice.
fn published() -> Book {
    book(&[3, 40000, 5, 41000, 9, 39000], &[4, 50000, 4, 1])
}

/// Case T's costs, but for a gas price outside its range.
fn costs_of_t() -> (Vec<Point>, Costs) {
    let point = |(m, h)| Point { m, h };
    let points = [(10000, 10000), (20000, 9000), (30000, 9500)].map(point);
    let costs = Costs {
        gas: -1,
        om: 20000,
        msc: 1000,
        soc: 3000,
        fee: 50,
        ..Costs::default()
    };
    (points.to_vec(), costs)
}

#[test]
fn an_unpublished_day_takes_the_latest_before_it() {
    let book = published();
    for day in 0..=2 {
        assert_eq!(book.price(DayAhead, day), Err(21));
    }
    let days = [
        (3, 40000),
        (4, 40000),
        (5, 41000),
        (8, 41000),
        (9, 39000),
        (10, 39000),
        (u32::MAX, 39000),
    ];
    for (day, price) in days {
        assert_eq!(book.price(DayAhead, day), Ok(price), "day {day}");
    }
}

#[test]
fn the_run_starts_where_the_list_does() {
    let run = published().run(DayAhead, 8).unwrap();
    let numbers: Vec<u32> = run
        .iter()
        .flat_map(|entry| [entry.day, entry.price])
        .collect();
    assert_eq!(numbers, [3, 40000, 5, 41000]);
}

#[test]
fn a_broken_list_has_no_run_on_any_day() {
    let lists: [&[u32]; 6] = [
        &[4, 50000, 4, 1],
        &[5, 1, 4, 1],
        &[3, 40000, 5, 41000, 9],
        &[3],
        &[1, 7, 9, 7, 9, 7],
        &[],
    ];
    for list in lists {
        for day in [0, 1, 3, 4, 5, 9, 10, u32::MAX] {
            assert_eq!(book(list, &[0, 1]).run(DayAhead, day), Err(21), "{list:?}");
            assert_eq!(book(&[0, 1], list).run(RealTime, day), Err(21), "{list:?}");
        }
    }
}

#[test]
fn days_reach_from_0_to_the_last_of_32_bits() {
    let book = book(&[0, 7, u32::MAX, 8], &[]);
    assert_eq!(book.price(DayAhead, 0), Ok(7));
    assert_eq!(book.price(DayAhead, u32::MAX - 1), Ok(7));
    assert_eq!(book.price(DayAhead, u32::MAX), Ok(8));
}

#[test]
fn the_costs_of_t_take_the_books_price() {
    let (points, costs) = costs_of_t();
    let book = book(&[1, 40000], &[1, 1_000_001]);
    let curve = book.default_curve(DayAhead, 1, &points, &costs).unwrap();
    assert_eq!(curve.edges(), [10000, 20000, 24000, 30000]);
    assert_eq!(curve.prices(), [378402, 444403, 488402]);
    assert_eq!(book.default_curve(RealTime, 1, &points, &costs), Err(7));
}

#[test]
fn the_costs_take_the_price_of_their_day() {
    let (points, costs) = costs_of_t();
    // 11/10, up, of 24,001 and of fuel: 8 times the price in use
    for (day, price) in [
        (3, 378402),
        (4, 378402),
        (5, 387202),
        (8, 387202),
        (9, 369602),
    ] {
        let curve = published().default_curve(DayAhead, day, &points, &costs);
        assert_eq!(curve.unwrap().prices()[0], price, "day {day}");
    }
}

#[test]
fn the_book_is_tested_before_the_costs() {
    let (mut points, costs) = costs_of_t();
    points[1].m = 10000;
    let book = book(&[1, 40000], &[]);
    assert_eq!(book.default_curve(DayAhead, 0, &points, &costs), Err(21));
    assert_eq!(book.default_curve(DayAhead, 1, &points, &costs), Err(5));
    assert_eq!(
        book.default_curve(DayAhead, 1, &points[..1], &costs),
        Err(4)
    );
    assert_eq!(book.default_curve(RealTime, 1, &points, &costs), Err(21));
}

/// The price of the greatest day that isn't later, found number by number.
fn latest(list: &[u32], day: u32) -> u32 {
    let days = (0..list.len()).step_by(2).filter(|&at| list[at] <= day);
    list[1 + days.max_by_key(|&at| list[at]).unwrap()]
}

#[test]
fn the_price_in_use_is_that_of_the_latest_day() {
    let mut found = 0;
    for seed in 0..3000 {
        let case = case(seed);
        for market in MARKETS {
            if let Ok(price) = case.book.price(market, case.day) {
                assert_eq!(price, latest(case.book.list(market), case.day));
                found += 1;
            }
        }
    }
    assert!(found > 3000, "{found}");
}

#[test]
fn the_other_list_changes_nothing() {
    for seed in 0..3000 {
        let (one, next) = (case(seed), case(seed + 1));
        let ahead = book(&one.book.day_ahead, &next.book.real_time);
        let real = book(&next.book.day_ahead, &one.book.real_time);
        for (market, book) in [(DayAhead, ahead), (RealTime, real)] {
            let (points, costs) = (&one.points, &one.costs);
            assert_eq!(book.run(market, one.day), one.book.run(market, one.day));
            assert_eq!(
                book.default_curve(market, one.day, points, costs),
                one.book.default_curve(market, one.day, points, costs)
            );
        }
    }
}

#[test]
fn seeds_reach_every_cause_and_refusal() {
    for first in [0, 6000] {
        let coverage = BookCoverage::of(first..first + 6000);
        assert!(coverage.all_reached(), "{coverage:?}");
        assert!(coverage.published + coverage.unpublished > coverage.asked / 2);
    }
}
