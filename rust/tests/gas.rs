//! Books of gas prices: the worked cases of request 2.7.

use noskjerf::gas::{Book, Market};
use noskjerf::judgement::{Charges, DefaultCurve, Point, Refused};
use Market::{DayAhead, RealTime};

const REFUSED: Refused = Refused { number: 21 };

/// Three published days ahead; in real time one day twice.
const DAYS: &[u32] = &[3, 40000, 5, 41000, 9, 39000];
const TWICE: &[u32] = &[4, 50000, 4, 1];

/// Lists without a run on any day.
const BROKEN: [&[u32]; 6] = [TWICE, &[5, 1, 4, 1], &[3, 40000, 5, 41000, 9], &[3], &[1, 7, 9, 7, 9, 7], &[]];

/// Trading days before, at, between and after the entries of these lists.
const TRADING_DAYS: [u32; 10] = [0, 1, 2, 3, 4, 5, 8, 9, 10, u32::MAX];

fn ahead(day_ahead: &[u32]) -> Book<'_> {
    Book { day_ahead, real_time: &[] }
}

/// Case T's costs, with a gas price that isn't read.
fn on_costs_of_t(book: Book<'_>, market: Market, day: u32, change: impl Fn(&mut Vec<Point>, &mut Charges)) -> Result<DefaultCurve, u8> {
    let mut points = [(10000, 10000), (20000, 9000), (30000, 9500)]
        .map(|(mw, heat)| Point { mw, heat })
        .to_vec();
    let mut charges = Charges {
        gas: -1,
        om: 20000,
        msc: 1000,
        soc: 3000,
        fee: 50,
        ..Charges::default()
    };
    change(&mut points, &mut charges);
    book.default_curve(market, day, &points, &charges).map_err(|refused| refused.number)
}

#[test]
fn an_unpublished_day_takes_the_latest_before_it() {
    let book = Book {
        day_ahead: DAYS,
        real_time: TWICE,
    };
    for day in 0..3 {
        assert_eq!(book.price(DayAhead, day), Err(REFUSED));
    }
    for (day, price) in [(3, 40000), (4, 40000), (5, 41000), (8, 41000), (9, 39000), (u32::MAX, 39000)] {
        assert_eq!(book.price(DayAhead, day), Ok(price), "day {day}");
    }
}

#[test]
fn the_run_is_the_callers_own_list() {
    let list = DAYS.to_vec();
    for (day, length) in [(3, 2), (8, 4), (9, 6)] {
        // the book is gone, the list stays
        let run = ahead(&list).run(DayAhead, day).unwrap();
        assert_eq!(run.as_ptr(), list.as_ptr());
        assert_eq!(run.len(), length);
        let book = Book {
            day_ahead: DAYS,
            real_time: &list,
        };
        assert_eq!(book.run(RealTime, day).unwrap().as_ptr(), list.as_ptr());
    }
}

#[test]
fn days_reach_from_0_to_the_last_of_32_bits() {
    let book = ahead(&[0, 7, u32::MAX, u32::MAX]);
    assert_eq!(book.price(DayAhead, 0), Ok(7));
    assert_eq!(book.price(DayAhead, u32::MAX - 1), Ok(7));
    assert_eq!(book.price(DayAhead, u32::MAX), Ok(u32::MAX));
}

#[test]
fn a_broken_list_has_no_run_and_changes_nothing_for_the_other() {
    let alone = ahead(DAYS);
    for list in BROKEN {
        let (first, second) = (
            Book {
                day_ahead: list,
                real_time: DAYS,
            },
            Book {
                day_ahead: DAYS,
                real_time: list,
            },
        );
        for day in TRADING_DAYS {
            assert_eq!(first.run(DayAhead, day), Err(REFUSED), "{list:?}");
            assert_eq!(second.run(RealTime, day), Err(REFUSED), "{list:?}");
            assert_eq!(first.run(RealTime, day), alone.run(DayAhead, day), "{list:?}");
            assert_eq!(second.run(DayAhead, day), alone.run(DayAhead, day), "{list:?}");
        }
    }
}

#[test]
fn a_long_list_is_tested_whole() {
    let mut list: Vec<u32> = (0..100_000).flat_map(|day| [10 * day, day]).collect();
    assert_eq!(ahead(&list).price(DayAhead, 499_999), Ok(49_999));
    list[199_998] = list[199_996];
    assert_eq!(ahead(&list).price(DayAhead, 5), Err(REFUSED));
}

#[test]
fn the_costs_of_t_take_the_books_price() {
    let book = Book {
        day_ahead: &[1, 40000],
        real_time: &[1, 1_000_001],
    };
    let curve = on_costs_of_t(book, DayAhead, 1, |_, _| ()).unwrap();
    assert_eq!(curve.start, 10000);
    let steps: Vec<(i64, i64)> = curve.steps.iter().map(|step| (step.end, step.price)).collect();
    assert_eq!(steps, [(20000, 378402), (24000, 444403), (30000, 488402)]);
    assert_eq!(on_costs_of_t(book, RealTime, 1, |_, _| ()), Err(7));
}

#[test]
fn the_costs_take_the_price_of_their_day() {
    // 11/10, up, of 24,001 and of fuel: 8 times the price in use
    for (day, price) in [(3, 378402), (4, 378402), (5, 387202), (8, 387202), (9, 369602), (10, 369602)] {
        let curve = on_costs_of_t(ahead(DAYS), DayAhead, day, |_, _| ()).unwrap();
        assert_eq!(curve.steps[0].price, price, "day {day}");
    }
}

/// A change of costs.
type Fault = fn(&mut Vec<Point>, &mut Charges);

#[test]
fn the_book_is_tested_before_the_costs() {
    let book = ahead(&[1, 40000]);
    let faults: [(u8, Fault); 5] = [
        (4, |points, _| points.clear()),
        (5, |points, _| points[1].mw = 10000),
        (6, |points, _| points[1].heat = 0),
        (7, |_, charges| charges.om = -1),
        (8, |points, _| points[1] = Point { mw: 29999, heat: 1 }),
    ];
    for (number, fault) in faults {
        assert_eq!(on_costs_of_t(book, DayAhead, 1, fault), Err(number));
        assert_eq!(on_costs_of_t(book, DayAhead, 0, fault), Err(21));
        assert_eq!(on_costs_of_t(book, RealTime, 1, fault), Err(21));
    }
}

#[test]
fn the_refusal_says_why() {
    let said = ahead(&[]).price(DayAhead, 1).unwrap_err().to_string();
    let reason = "the market's list of gas prices ends inside a pair, its days do not rise, or it has no entry up to the trading day";
    assert_eq!(said, format!("{reason} (refusal 21)"));
}
