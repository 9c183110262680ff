//! Net sellers that leave every binding constraint short together: the cases worked by hand, budgets, refusals, and that nothing is changed.

use noskjerf::hour::{Hour, Interval, Opening, Resource, Together, CELLS};
use noskjerf::judgement::DefaultCurve;
use noskjerf::{Refused, Step};

/// An hour in which each portfolio, a net seller where it says so, has a unit.
fn opened(sellers: &[bool]) -> Hour {
    let step = |price: i64| Step { end: 10, price };
    let pack = DefaultCurve {
        start: 0,
        steps: vec![step(1)],
    };
    let mut opening = Opening::month(25);
    for (portfolio, &seller) in (0..).zip(sellers) {
        let unit = Resource::new(portfolio, 0).step(10, 2).pack(pack.clone());
        opening = opening.portfolio(seller).resource(unit);
    }
    Hour::open(&opening).unwrap()
}

/// P5's: 5, 4, 3 and 2 of supply on one constraint, and what the first two have dispatched.
fn four(first: i64, second: i64) -> Interval {
    let interval = Interval::new()
        .constraint(1)
        .resource(0, first, 5, 0)
        .resource(0, second, 4, 0)
        .resource(0, 0, 3, 0)
        .resource(0, 0, 2, 0);
    (0..4).fold(interval, |interval, resource| interval.factor(resource, 0, -1))
}

/// Two constraints with these shadow prices, each relieved by a resource of its own; a third relieves neither.
fn two_paths(first: i64, second: i64) -> Interval {
    Interval::new()
        .constraint(first)
        .constraint(second)
        .resource(0, 1, 1, 0)
        .resource(0, 1, 1, 0)
        .resource(0, 0, 1, 0)
        .factor(0, 0, -1)
        .factor(1, 1, -1)
}

fn found(best: &[usize], tried: u64, floor: u64) -> Result<Together, Refused> {
    let best = (!best.is_empty()).then(|| best.to_vec());
    Ok(Together { best, tried, floor })
}

const NONE: &[usize] = &[];

#[test]
fn four_sellers() {
    let hour = opened(&[true; 4]);
    // demand 3 of 14: 12 have to go; demand 2: 13, which is all four
    assert_eq!(hour.together(&four(3, 0), u64::MAX), found(&[0, 1, 2], 15, 3));
    assert_eq!(hour.together(&four(2, 0), u64::MAX), found(&[0, 1, 2, 3], 15, 4));
}

#[test]
fn sets_are_tried_in_rising_order_up_to_the_budget() {
    let hour = opened(&[true; 4]);
    for (budget, tried) in [(0, 0), (1, 1), (6, 6)] {
        assert_eq!(hour.together(&four(3, 0), budget), found(&[0, 1, 2, 3], tried, 3));
    }
    for (budget, tried) in [(7, 7), (14, 14), (15, 15), (16, 15), (1 << 63, 15), (u64::MAX, 15)] {
        assert_eq!(hour.together(&four(3, 0), budget), found(&[0, 1, 2], tried, 3));
    }
}

#[test]
fn net_buyers_are_in_no_set() {
    let hour = opened(&[false, true, true, true]);
    // the others' 9 leave 5: not below a demand of 5
    assert_eq!(hour.together(&four(5, 0), u64::MAX), found(NONE, 0, 0));
    assert_eq!(hour.together(&four(5, 1), u64::MAX), found(&[1, 2, 3], 7, 3));
    assert_eq!(hour.together(&four(5, 1), 6), found(&[1, 2, 3], 6, 3));
    assert_eq!(opened(&[false; 4]).together(&four(5, 1), u64::MAX), found(NONE, 0, 0));
}

#[test]
fn a_seller_for_each_of_two_constraints() {
    let hour = opened(&[true; 3]);
    assert_eq!(hour.together(&two_paths(1, 1), u64::MAX), found(&[0, 1], 7, 1));
    assert_eq!(hour.together(&two_paths(1, 1), 2), found(&[0, 1, 2], 2, 1));
    assert_eq!(hour.together(&two_paths(0, 1), u64::MAX), found(&[1], 7, 1));
    assert_eq!(hour.together(&two_paths(1, 0), u64::MAX), found(&[0], 7, 1));
}

#[test]
fn of_equal_sets_the_lower_stays() {
    let equal = |floor: i64| {
        let interval = Interval::new().constraint(1).resource(0, 5, 5, floor).resource(0, 1, 5, 0);
        interval.factor(0, 0, -1).factor(1, 0, -1)
    };
    let hour = opened(&[true; 2]);
    assert_eq!(hour.together(&equal(0), u64::MAX), found(&[0], 3, 1));
    // with a floor of 3 the first can withhold 2 alone
    assert_eq!(hour.together(&equal(3), u64::MAX), found(&[1], 3, 1));
}

#[test]
fn sixteen_sellers() {
    let interval = (0..16).fold(Interval::new().constraint(1), |interval, resource| {
        interval.resource(0, i64::from(resource < 2), 1, 0).factor(resource, 0, -1)
    });
    let hour = opened(&[true; 16]);
    let (all, but_last): (Vec<usize>, Vec<usize>) = ((0..16).collect(), (0..15).collect());
    assert_eq!(hour.together(&interval, u64::MAX), found(&but_last, 65535, 15));
    assert_eq!(hour.together(&interval, 32767), found(&but_last, 32767, 15));
    assert_eq!(hour.together(&interval, 32766), found(&all, 32766, 15));
}

#[test]
fn refused() {
    let hour = opened(&[true; 3]);
    let number = |interval: Interval| {
        let numbers = [0, 1, u64::MAX].map(|budget| hour.together(&interval, budget).unwrap_err().number);
        assert!(numbers.iter().all(|&number| number == numbers[0]));
        numbers[0]
    };
    let three = |shadow: i64| two_paths(shadow, 0);
    assert_eq!(number(three(0)), 26);
    assert_eq!(number(three(0).resource(0, 0, 0, 0)), 13);
    assert_eq!(number(Interval::new()), 13);
    assert_eq!(number((0..31).fold(three(0), |interval, _| interval.constraint(0))), 14);
    assert_eq!(number(three(-1)), 15);
    assert_eq!(number(three(100_000_001)), 15);
    assert_eq!(number(three(0).parameter(101)), 15);
    assert_eq!(number(three(0).factor(0, 0, 1_000_001)), 15);
    let outputs = Interval::new().resource(0, 2, 1, 0).resource(0, 0, 0, 0).resource(0, 0, 0, 0);
    assert_eq!(number(outputs.clone()), 16);
    assert_eq!(number(outputs.parameter(-1)), 15);
    let none = Interval::new().resource(0, 1, 1, 0).resource(0, 0, 0, 0).resource(0, 0, 0, 0);
    assert_eq!(number(none), 26);
}

#[test]
fn a_refusal_says_why() {
    let refused = opened(&[true; 3]).together(&two_paths(0, 0), 1).unwrap_err();
    assert_eq!(refused.to_string(), "no constraint of the interval binds (refusal 26)");
}

/// 12 never applies, and neither intervals nor passes change what is found.
#[test]
fn whose_turn_it_is_plays_no_part() {
    let mut hour = opened(&[true; 4]);
    for _ in 0..4 {
        assert_eq!(hour.together(&four(3, 0), u64::MAX), found(&[0, 1, 2], 15, 3));
        hour.interval(&four(3, 0)).unwrap();
        hour.pass(&four(3, 0)).unwrap();
    }
    assert_eq!(hour.interval(&four(3, 0)).unwrap_err().number, 12);
    assert_eq!(hour.together(&four(3, 0), u64::MAX), found(&[0, 1, 2], 15, 3));
    assert_eq!(hour.together(&two_paths(1, 1), 0).unwrap_err().number, 13);
}

/// The marks of the sellers in an hour's cells.
fn marks(cells: &[i64; CELLS]) -> &[i64] {
    &cells[323..339]
}

/// What is found of any content: of its net sellers, within the budget, not below the floor; and nothing is changed.
fn ask(cells: &[i64; CELLS], budget: u64) -> bool {
    let hour = Hour::from_cells(cells);
    let resources = hour.resources().min(65);
    let outputs = (0..resources).fold(Interval::new().constraint(1).constraint(1), |interval, _| {
        interval.resource(0, 900, 1000, 0)
    });
    let interval = (0..resources).fold(outputs, |interval, resource| interval.factor(resource, resource % 2, -1));
    let answer = hour.together(&interval, budget);
    assert_eq!(hour.cells(), cells);
    if hour.resources() > 64 {
        assert_eq!(answer.unwrap_err().number, 13);
        return false;
    }
    let together = answer.unwrap();
    let sellers = marks(cells).iter().filter(|&&mark| mark == 1).count();
    match together.best {
        None => assert_eq!((together.tried, together.floor), (0, 0)),
        Some(ref best) => {
            assert!(best.iter().all(|&portfolio| marks(cells)[portfolio] == 1));
            assert_eq!(together.tried, budget.min((1 << sellers) - 1));
            assert!(together.floor >= 1 && together.floor <= best.len() as u64);
        }
    }
    together.best.is_some()
}

#[test]
fn every_content_is_an_hour() {
    for cell in [0, 1, 2, 15, 16, 64, 65, -1, i64::MIN, i64::MAX] {
        for budget in [0, 7, u64::MAX] {
            ask(&[cell; CELLS], budget);
        }
    }
    let mut mixed: i64 = 1;
    let mut some = 0;
    for round in 0..500 {
        let mut cells = [0; CELLS];
        for cell in cells.iter_mut() {
            mixed = mixed.wrapping_mul(6_364_136_223_846_793_005).wrapping_add(1);
            *cell = if round % 5 == 0 { mixed } else { (mixed >> 33).rem_euclid(4) - 1 };
        }
        some += usize::from(ask(&cells, mixed.unsigned_abs() >> 50));
    }
    assert!(some > 20, "{some} hours with a set");
}
