//! Printed curves against the definitions, quantity by quantity, and what the seeds reach.

use independent::coverage::Coverage;
use independent::generate;
use independent::hour::{component, floor_price};
use independent::print::{answer, Accepted};

/// The cap an accepted interval sets at a quantity, where it sets one.
fn cap(accepted: &Accepted, resource: usize, quantity: i128) -> Option<i128> {
    let c = component(&accepted.interval, &accepted.verdicts, resource);
    let dispatched = accepted.interval.outputs[resource].dispatch > 0;
    let default_energy_bid = &accepted.hour.resources[resource].default_energy_bid;
    let default_price = default_energy_bid.price(quantity).unwrap();
    let l = floor_price(&accepted.interval, resource, c);
    (dispatched && c > 0).then_some(default_price.max(l))
}

/// Each quantity of one resource, through the whole list of accepted intervals.
fn check_quantities(list: &[Accepted], resource: usize) {
    let bid = &list[0].hour.resources[resource].bid;
    for quantity in bid.start..bid.end() {
        let mut price = bid.price(quantity).unwrap();
        for accepted in list {
            price = cap(accepted, resource, quantity).map_or(price, |cap| cap.min(price));
            assert_eq!(accepted.curves[resource].price(quantity), Some(price));
        }
    }
}

fn check_shape(accepted: &Accepted, resource: usize) {
    let (curve, bid) = (
        &accepted.curves[resource],
        &accepted.hour.resources[resource].bid,
    );
    assert_eq!((curve.start, curve.end()), (bid.start, bid.end()));
    assert!(curve.edges().windows(2).all(|pair| pair[0] < pair[1]));
    assert!(curve.prices().windows(2).all(|pair| pair[0] < pair[1]));
    assert!(curve.steps.len() <= 20);
}

#[test]
fn every_quantity_has_the_least_of_its_submitted_price_and_its_caps() {
    let mut checked = 0;
    for seed in 0..1500 {
        let answer = answer(&generate::text(seed));
        let Some(first) = answer.accepted.first() else {
            continue;
        };
        for resource in 0..first.curves.len() {
            answer
                .accepted
                .iter()
                .for_each(|accepted| check_shape(accepted, resource));
            let bid = &first.hour.resources[resource].bid;
            if bid.end() - bid.start <= 1000 {
                check_quantities(&answer.accepted, resource);
                checked += 1;
            }
        }
    }
    assert!(checked > 500, "{checked}");
}

#[test]
fn equal_seeds_give_equal_texts() {
    for seed in 0..256 {
        assert_eq!(generate::text(seed), generate::text(seed));
    }
}

#[test]
fn seeds_reach_every_refusal_and_limit() {
    let coverage = Coverage::of(0..6000);
    assert!(coverage.all_reached(), "{coverage:?}");
    assert!(coverage.opened > coverage.texts / 2);
    assert!(coverage.refused_on_line_1 < coverage.texts / 20);
}
