//! Hydro defaults: the cases of request 2.8 worked by hand, every refusal, and a hydro unit in an hour.

use noskjerf::hour::{Cause, Costs, Hour, Interval, Opening, Resource};
use noskjerf::judgement::{Charges, DefaultCurve};
use noskjerf_hydro::{Hub, Hydro, Refused};

fn hub(peak: i64, balance: i64, months: &[i64]) -> Hub {
    Hub {
        peak,
        balance,
        months: months.to_vec(),
    }
}

/// The first worked case: 440,000, 700,000 and 550,000.
fn worked() -> Hydro {
    Hydro {
        low: 10_000,
        high: 30_000,
        heat: 10_000,
        gas: 40_000,
        horizon: 1,
        hubs: vec![hub(500_000, 400_000, &[300_000, 0, 900_000])],
    }
}

/// All within the limits, and every amount the least that it can be.
fn least(hubs: Vec<Hub>) -> Hydro {
    Hydro {
        low: 0,
        high: 1,
        heat: 1,
        gas: 0,
        horizon: 1,
        hubs,
    }
}

/// The price of the one step, or the number of the refusal.
fn price(hydro: &Hydro) -> Result<i64, u8> {
    let curve = hydro.default_curve().map_err(|refused| refused.number)?;
    assert_eq!((curve.start, curve.steps.len(), curve.steps[0].end), (hydro.low, 1, hydro.high));
    Ok(curve.steps[0].price)
}

#[test]
fn the_largest_of_three_amounts() {
    for (horizon, due) in [(1, 700_000), (2, 700_000), (3, 990_000)] {
        assert_eq!(price(&Hydro { horizon, ..worked() }), Ok(due), "horizon {horizon}");
    }
    let gas = Hydro {
        heat: 100_000,
        gas: 1_000_000,
        ..worked()
    };
    assert_eq!(price(&gas), Ok(110_000_000));
}

#[test]
fn the_second_hub_counts_for_the_long_term_alone() {
    let second = |peak: i64| Hydro {
        hubs: vec![worked().hubs.remove(0), hub(peak, 0, &[0])],
        ..worked()
    };
    assert_eq!(price(&second(1_000_000)), Ok(1_100_000));
    assert_eq!(price(&second(600_000)), Ok(700_000));
}

#[test]
fn each_amount_is_rounded_up_once() {
    assert_eq!(price(&least(vec![hub(1, 0, &[0])])), Ok(2));
    assert_eq!(price(&least(vec![hub(5, 0, &[0])])), Ok(7));
    assert_eq!(price(&least(vec![hub(0, 0, &[10])])), Ok(14));
    let second_month = Hydro {
        horizon: 2,
        ..least(vec![hub(0, 0, &[0, 10])])
    };
    assert_eq!(price(&second_month), Ok(11));
    let gas = Hydro {
        gas: 1,
        ..least(vec![hub(0, 0, &[0])])
    };
    assert_eq!(price(&gas), Ok(1));
}

#[test]
fn months_past_the_horizon_are_not_read() {
    for unread in [-1, 100_000_001, i64::MIN, i64::MAX] {
        let hydro = |horizon: usize, months: &[i64]| Hydro {
            horizon,
            ..least(vec![hub(10, 0, months)])
        };
        assert_eq!(price(&hydro(1, &[0, unread])), Ok(14));
        assert_eq!(price(&hydro(2, &[0, unread])), Err(22));
        let mut months = [0; 13];
        months[12] = unread;
        assert_eq!(price(&hydro(12, &months)), Ok(14));
        months[11] = unread;
        assert_eq!(price(&hydro(11, &months)), Ok(14));
        assert_eq!(price(&hydro(12, &months)), Err(22));
    }
}

#[test]
fn a_month_that_is_read_has_to_be_there() {
    for count in 0..=12 {
        for horizon in 1..=12 {
            let hydro = Hydro {
                horizon,
                ..least(vec![hub(10, 0, &vec![0; count])])
            };
            assert_eq!(
                price(&hydro),
                if horizon <= count { Ok(14) } else { Err(22) },
                "{count} months, horizon {horizon}"
            );
        }
    }
}

/// A change of the first worked case.
type Change = fn(&mut Hydro);

#[test]
fn each_value_outside_its_limits_is_22() {
    let faults: [Change; 19] = [
        |hydro| hydro.heat = 0,
        |hydro| hydro.heat = -1,
        |hydro| hydro.heat = 100_001,
        |hydro| hydro.heat = i64::MAX,
        |hydro| hydro.gas = -1,
        |hydro| hydro.gas = 1_000_001,
        |hydro| hydro.gas = i64::MIN,
        |hydro| hydro.horizon = 0,
        |hydro| hydro.horizon = 13,
        |hydro| hydro.horizon = usize::MAX,
        |hydro| hydro.hubs.clear(),
        |hydro| hydro.hubs = vec![hub(0, 0, &[0]); 5],
        |hydro| hydro.hubs = vec![hub(0, 0, &[0]); 1_000],
        |hydro| hydro.hubs[0].peak = -1,
        |hydro| hydro.hubs[0].peak = 100_000_001,
        |hydro| hydro.hubs[0].balance = -1,
        |hydro| hydro.hubs[0].months[0] = 100_000_001,
        |hydro| hydro.hubs[0].months.clear(),
        |hydro| hydro.hubs.push(hub(0, i64::MIN, &[0])),
    ];
    for (index, fault) in faults.iter().enumerate() {
        let mut hydro = worked();
        fault(&mut hydro);
        assert_eq!(price(&hydro), Err(22), "fault {index}");
        // 22 comes before 2
        hydro.high = hydro.low;
        assert_eq!(price(&hydro), Err(22), "fault {index}");
    }
}

#[test]
fn the_limits_are_taken() {
    let limits = |heat: i64, gas: i64, horizon: usize, hubs: usize, each: i64| Hydro {
        low: 0,
        high: 1_000_000,
        heat,
        gas,
        horizon,
        hubs: vec![hub(each, each, &[each; 12]); hubs],
    };
    assert_eq!(price(&limits(1, 0, 1, 1, 0)), Ok(0));
    assert_eq!(price(&limits(100_000, 1_000_000, 12, 4, 100_000_000)), Ok(140_000_000));
}

#[test]
fn quantities_that_are_no_edges_are_2() {
    for (low, high) in [
        (10_000, 10_000),
        (10_001, 10_000),
        (-1, 5),
        (0, 1_000_001),
        (i64::MIN, i64::MAX),
        (i64::MAX, i64::MIN),
    ] {
        assert_eq!(price(&Hydro { low, high, ..worked() }), Err(2), "{low} to {high}");
    }
}

#[test]
fn a_refusal_says_why() {
    let said = |number: u8| Refused { number }.to_string();
    assert!(said(22).ends_with("or a price that is read outside 0 to 100,000,000 (refusal 22)"));
    assert_eq!(said(2), noskjerf::Refused { number: 2 }.to_string());
    assert_eq!(said(21), noskjerf::Refused { number: 21 }.to_string());
    let error: Box<dyn std::error::Error + Send + Sync> = Box::new(Refused { number: 22 });
    assert_eq!(error.to_string(), said(22));
}

// ---- in an hour

/// Case T's bid.
fn unit() -> Resource {
    Resource::new(0, 10_000).step(15_000, 300_000).step(30_000, 900_000)
}

fn opened(resource: Resource) -> Hour {
    Hour::open(&Opening::month(25).portfolio(true).resource(resource)).unwrap()
}

/// Case T's interval, with this locational price: the floor price is 250,000 below it and 100.
fn interval(lmp: i64) -> Interval {
    let interval = Interval::new().constraint(500_000).parameter(100);
    interval.resource(lmp, 20_000, 30_000, 0).factor(0, 0, -500_000)
}

fn prices(hour: &Hour) -> (Vec<i64>, Vec<i64>) {
    let hourly = hour.curve(0).steps.iter().map(|step| step.price).collect();
    (hourly, hour.five_minute(0).steps.iter().map(|step| step.price).collect())
}

#[test]
fn a_hydro_unit_is_cut_to_its_price_or_the_floor_price() {
    let mut hour = opened(unit().pack(worked().default_curve().unwrap()));
    assert_eq!(hour.default_curve(0), worked().default_curve().unwrap());
    // a floor price of 749,850 above the hydro price, then of 350,100 below it
    hour.interval(&interval(999_750)).unwrap();
    assert_eq!(prices(&hour), (vec![300_000, 749_850], vec![300_000, 749_850]));
    hour.pass(&interval(600_000)).unwrap();
    assert_eq!(prices(&hour), (vec![300_000, 749_850], vec![300_000, 700_000]));
    hour.interval(&interval(600_000)).unwrap();
    assert_eq!(prices(&hour), (vec![300_000, 700_000], vec![300_000, 700_000]));
}

#[test]
fn a_cut_has_the_same_causes_as_on_any_other() {
    let charges = Charges {
        gas: 40_000,
        om: 20_000,
        msc: 1_000,
        soc: 3_000,
        fee: 50,
        ..Charges::default()
    };
    let costs = Costs::new(charges).point(10_000, 10_000).point(20_000, 9_000).point(30_000, 9_500);
    let (hydro, other) = (opened(unit().pack(worked().default_curve().unwrap())), opened(unit().costs(costs)));
    for lmp in [600_000, 999_750, -5] {
        let causes: Vec<Cause> = hydro.why(&interval(lmp)).unwrap();
        assert_eq!(causes, other.why(&interval(lmp)).unwrap());
        assert!(causes[0].capped());
    }
}

#[test]
fn a_bid_outside_the_quantities_is_11() {
    for (low, high) in [(10_001, 30_000), (10_000, 29_999)] {
        let pack: DefaultCurve = Hydro { low, high, ..worked() }.default_curve().unwrap();
        let opening = Opening::month(25).portfolio(true).resource(unit().pack(pack));
        assert_eq!(Hour::open(&opening).unwrap_err().number, 11);
    }
}
