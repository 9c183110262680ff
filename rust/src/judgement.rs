//! Judgements on one bid or one table of costs, the two parts of a curve joined, and bids for a classroom, without a text.

use crate::{ffi, Step};

pub use crate::refusal::Refused;

/// Judges a bid that starts at `start`, submitted in a month since the rule took effect; the month sets the highest price.
///
/// The refusal is the lowest of 1 (the count of the steps), 2 (the edges) and 3 (the prices) that applies. The month itself is not
/// judged: any is taken, 0 counts as month 1, and one above 1,200 as month 1,200.
///
/// ```
/// use noskjerf::{judgement::bid, Step};
///
/// let steps = [Step { end: 15000, price: 300000 }, Step { end: 30000, price: 5000001 }];
/// assert_eq!(bid(12, 10000, &steps).unwrap_err().number, 3);
/// assert_eq!(bid(13, 10000, &steps), Ok(()));
/// ```
pub fn bid(month: u64, start: i64, steps: &[Step]) -> Result<(), Refused> {
    refused_or_not(ffi::bid(month, start, steps.len(), &ends_and_prices(steps)))
}

/// A point of a resource's costs.
#[derive(Clone, Copy, Debug, PartialEq, Eq)]
pub struct Point {
    /// The quantity, in hundredths of a MW.
    pub mw: i64,
    /// The average heat rate at this quantity, in Btu/kWh.
    pub heat: i64,
}

/// The prices, rates and fees of a resource's costs.
#[derive(Clone, Copy, Debug, Default, PartialEq, Eq)]
pub struct Charges {
    /// The gas price, in 0.0001 dollar per MMBtu: 0 to 1,000,000.
    pub gas: i64,
    /// The emission rate, in millionths of a tonne per MMBtu: 0 to 200,000.
    pub rate: i64,
    /// The price of a greenhouse gas allowance, in 0.0001 dollar per tonne: 0 to 10,000,000.
    pub allowance: i64,
    /// Operation and maintenance, in 0.0001 dollar per MWh: 0 to 1,000,000, as are the three below.
    pub om: i64,
    /// The market services charge, in 0.0001 dollar per MWh.
    pub msc: i64,
    /// The system operations charge, in 0.0001 dollar per MWh.
    pub soc: i64,
    /// The bid segment fee, in 0.0001 dollar per segment.
    pub fee: i64,
}

impl Charges {
    /// The charges in the engine's order.
    pub(crate) fn in_order(&self) -> [i64; 7] {
        let Charges {
            gas,
            rate,
            allowance,
            om,
            msc,
            soc,
            fee,
        } = *self;
        [gas, rate, allowance, om, msc, soc, fee]
    }
}

/// A default energy bid, or a part of one.
#[derive(Clone, Debug, PartialEq, Eq)]
pub struct DefaultCurve {
    /// Where the curve starts, in hundredths of a MW.
    pub start: i64,
    /// Its steps, 1 to 11 of them.
    pub steps: Vec<Step>,
}

/// Works out the default energy bid of a resource from its costs: one step between each two neighbouring points, and two where the 80%
/// mark, 4/5 of the last quantity rounded down, lies strictly between them.
///
/// Each price is at least the one that the same rules give with nothing rounded but that mark, and above it by less than 11/10 × (gas /
/// 1000 + rate × allowance / 1,000,000,000 + 3) + 1.
///
/// The refusal is the lowest of 4 (the count of the points), 5 (their quantities), 6 (their heat rates), 7 (the charges) and 8 (an
/// incremental heat rate) that applies.
///
/// ```
/// use noskjerf::judgement::{default_curve, Charges, Point};
///
/// let points = [(10000, 10000), (20000, 9000), (30000, 9500)].map(|(mw, heat)| Point { mw, heat });
/// let charges = Charges { gas: 40000, om: 20000, msc: 1000, soc: 3000, fee: 50, ..Charges::default() };
/// let curve = default_curve(&points, &charges)?;
/// assert_eq!(curve.start, 10000);
/// assert_eq!((curve.steps[0].end, curve.steps[0].price), (20000, 378402));
/// assert_eq!((curve.steps[1].end, curve.steps[1].price), (24000, 444403));
/// assert_eq!((curve.steps[2].end, curve.steps[2].price), (30000, 488402));
/// # Ok::<(), noskjerf::judgement::Refused>(())
/// ```
pub fn default_curve(points: &[Point], charges: &Charges) -> Result<DefaultCurve, Refused> {
    let numbers = in_turn(points);
    worked_out(|edges, prices| ffi::default(points.len(), &numbers, &charges.in_order(), edges, prices))
}

/// The points as the engine takes them: mw and heat in turn.
pub(crate) fn in_turn(points: &[Point]) -> Vec<i64> {
    points.iter().flat_map(|point| [point.mw, point.heat]).collect()
}

/// Joins the two parts of a reliability contract unit's default energy bid: `proxy` has the proxy prices up to the contract capacity, which
/// is where it ends, and `above` the default prices above it.
///
/// The curve has the steps of both, each price raised to the largest before it, so that no price of either part is lowered; neighbours of
/// one price stay two steps. It serves as a default energy bid in an opening, by [`Resource::pack`](crate::hour::Resource::pack).
///
/// The refusal is the lowest that applies of 1 (the count of the steps), 2 (the edges) and 3 (the prices) of either part, 23 (the second
/// part doesn't start at the first one's last end) and 24 (more than 11 steps together).
///
/// Proxy prices up to 100 MW below Case T's default curve, and Case T's hour with the two joined:
///
/// ```
/// use noskjerf::hour::{Hour, Interval, Opening, Resource};
/// use noskjerf::judgement::{default_curve, join, Charges, DefaultCurve, Point};
/// use noskjerf::Step;
///
/// let points = [(10000, 10000), (20000, 9000), (30000, 9500)].map(|(mw, heat)| Point { mw, heat });
/// let charges = Charges { gas: 40000, om: 20000, msc: 1000, soc: 3000, fee: 50, ..Charges::default() };
/// let above = default_curve(&points, &charges)?;
/// let proxy = DefaultCurve { start: 0, steps: vec![Step { end: 10000, price: 400000 }] };
///
/// let joined = join(&proxy, &above)?;
/// let prices = joined.steps.iter().map(|step| step.price).collect::<Vec<_>>();
/// // 378402 is raised
/// assert_eq!(prices, [400000, 400000, 444403, 488402]);
/// // the other way round they don't meet
/// assert_eq!(join(&above, &proxy).unwrap_err().number, 23);
///
/// let unit = Resource::new(0, 10000).step(15000, 300000).step(30000, 900000).pack(joined);
/// let mut hour = Hour::open(&Opening::month(25).portfolio(true).resource(unit))?;
/// hour.interval(&Interval::new().constraint(500000).resource(600000, 20000, 30000, 0).factor(0, 0, -500000).parameter(100))?;
/// let prices = hour.curve(0).steps.iter().map(|step| step.price).collect::<Vec<_>>();
/// assert_eq!(prices, [300000, 400000, 444403, 488402]);
/// # Ok::<(), noskjerf::Refused>(())
/// ```
pub fn join(proxy: &DefaultCurve, above: &DefaultCurve) -> Result<DefaultCurve, Refused> {
    let (of_proxy, of_above) = (ends_and_prices(&proxy.steps), ends_and_prices(&above.steps));
    worked_out(|edges, prices| ffi::join(&part(proxy, &of_proxy), &part(above, &of_above), edges, prices))
}

/// A bid as it is submitted.
#[derive(Clone, Debug, PartialEq, Eq)]
pub struct Bid {
    /// Where the bid starts, in hundredths of a MW.
    pub start: i64,
    /// Its steps, 1 to 10 of them.
    pub steps: Vec<Step>,
}

/// The 37 bids for drills in a classroom: every bid with start 0, ends among 100, 200 and 300 and prices among 0, 10000 and 20000, which never
/// fall.
///
/// They come by their count of steps, then by the list of their ends, then by the list of their prices, smaller first, and each once. They are
/// as submitted: neighbours of one price stay two steps. Each is accepted as a bid, in every month; an hour also wants a default energy bid
/// round it, and one from 0 to 300 is round all.
///
/// ```
/// use noskjerf::judgement::{bid, classroom_bids};
///
/// let bids = classroom_bids();
/// assert_eq!(bids.len(), 37);
/// for month in [1, 12, 13, 24, 25, 1200] {
///     assert!(bids.iter().all(|each| bid(month, each.start, &each.steps) == Ok(())));
/// }
///
/// // the last: three times 20000
/// let steps = bids[36].steps.iter().map(|step| (step.end, step.price)).collect::<Vec<_>>();
/// assert_eq!(steps, [(100, 20000), (200, 20000), (300, 20000)]);
/// ```
pub fn classroom_bids() -> Vec<Bid> {
    (0..ffi::CLASSROOM).map(classroom_bid).collect()
}

fn classroom_bid(k: usize) -> Bid {
    let bid = worked_out(|edges, prices| ffi::classroom(k, edges, prices));
    let DefaultCurve { start, steps } = bid.expect("there are so many bids");
    Bid { start, steps }
}

/// A part as the engine takes it, with the numbers of its steps.
fn part<'a>(curve: &DefaultCurve, steps: &'a [i64]) -> ffi::Part<'a> {
    ffi::Part {
        start: curve.start,
        count: curve.steps.len(),
        steps,
    }
}

/// The steps as the engine takes them: end and price in turn.
fn ends_and_prices(steps: &[Step]) -> Vec<i64> {
    steps.iter().flat_map(|step| [step.end, step.price]).collect()
}

/// The curve that the engine puts into the buffers it is lent, or its refusal.
pub(crate) fn worked_out(engine: impl FnOnce(&mut [u64; ffi::EDGES], &mut [i64; ffi::PRICES]) -> i64) -> Result<DefaultCurve, Refused> {
    let mut edges = [0; ffi::EDGES];
    let mut prices = [0; ffi::PRICES];
    let answer = engine(&mut edges, &mut prices);
    refused_or_not(u64::try_from(answer).expect("the buffers have the room that the engine asks for"))?;
    Ok(curve(&edges, &prices))
}

/// The answer of the engine: 0, or the number of a refusal.
pub(crate) fn refused_or_not(answer: u64) -> Result<(), Refused> {
    match u8::try_from(answer).expect("the number of a refusal is small") {
        0 => Ok(()),
        number => Err(Refused { number }),
    }
}

/// The curve in buffers that the engine filled: how many steps, the start, the ends; and the prices.
fn curve(edges: &[u64; ffi::EDGES], prices: &[i64; ffi::PRICES]) -> DefaultCurve {
    let [steps, start, ends @ ..] = edges.map(|edge| i64::try_from(edge).expect("an edge is a number of 63 bits"));
    let steps = usize::try_from(steps).unwrap_or(usize::MAX);
    let rows = ends.iter().zip(prices).take(steps);
    DefaultCurve {
        start,
        steps: rows.map(|(&end, &price)| Step { end, price }).collect(),
    }
}

#[cfg(test)]
mod tests {
    use super::*;

    const TOP: Charges = Charges {
        gas: 1_000_000,
        rate: 200_000,
        allowance: 10_000_000,
        om: 1_000_000,
        msc: 1_000_000,
        soc: 1_000_000,
        fee: 1_000_000,
    };

    fn judged(month: u64, start: i64, steps: &[(i64, i64)]) -> u8 {
        let steps: Vec<Step> = steps.iter().map(|&(end, price)| Step { end, price }).collect();
        bid(month, start, &steps).map_or_else(|refused| refused.number, |()| 0)
    }

    fn costs(points: &[(i64, i64)], charges: &Charges) -> Result<DefaultCurve, u8> {
        let points: Vec<Point> = points.iter().map(|&(mw, heat)| Point { mw, heat }).collect();
        default_curve(&points, charges).map_err(|refused| refused.number)
    }

    fn rising(count: i64) -> Vec<(i64, i64)> {
        (1..=count).map(|i| (100 * i, 1)).collect()
    }

    #[test]
    fn a_bid_has_1_to_10_steps() {
        assert_eq!(judged(25, 0, &[]), 1);
        assert_eq!(judged(25, 0, &rising(10)), 0);
        assert_eq!(judged(25, 0, &rising(11)), 1);
        assert_eq!(judged(25, 0, &rising(100_000)), 1);
    }

    #[test]
    fn edges_lie_within_limits_and_rise() {
        assert_eq!(judged(25, 0, &[(1_000_000, 0)]), 0);
        assert_eq!(judged(25, -1, &[(1_000_000, 0)]), 2);
        assert_eq!(judged(25, 0, &[(1_000_001, 0)]), 2);
        assert_eq!(judged(25, 5, &[(5, 0)]), 2);
        assert_eq!(judged(25, 5, &[(7, 0), (7, 0)]), 2);
        assert_eq!(judged(25, i64::MIN, &[(i64::MAX, 0)]), 2);
    }

    #[test]
    fn the_month_sets_the_highest_price() {
        for (month, top) in [
            (1, 5_000_000),
            (12, 5_000_000),
            (13, 7_500_000),
            (24, 7_500_000),
            (25, 10_000_000),
            (1_200, 10_000_000),
        ] {
            assert_eq!(judged(month, 0, &[(1, top)]), 0);
            assert_eq!(judged(month, 0, &[(1, top + 1)]), 3);
        }
        assert_eq!(judged(25, 0, &[(1, -1_500_000)]), 0);
        assert_eq!(judged(25, 0, &[(1, -1_500_001)]), 3);
    }

    #[test]
    fn prices_never_fall() {
        assert_eq!(judged(25, 0, &[(1, 7), (2, 7)]), 0);
        assert_eq!(judged(25, 0, &[(1, 7), (2, 6)]), 3);
        // the lowest number wins
        assert_eq!(judged(25, 0, &[(1, i64::MAX), (1, 0)]), 2);
    }

    #[test]
    fn costs_have_2_to_11_points() {
        assert_eq!(costs(&[], &TOP), Err(4));
        assert_eq!(costs(&rising(1), &TOP), Err(4));
        assert_eq!(costs(&[(8, 1), (10, 1)], &TOP).unwrap().steps.len(), 1);
        assert_eq!(costs(&rising(10), &TOP).unwrap().steps.len(), 9);
        assert_eq!(costs(&rising(12), &TOP), Err(4));
    }

    #[test]
    fn the_80_percent_mark_splits_a_segment() {
        let ends = |points: &[(i64, i64)]| -> Vec<i64> { costs(points, &TOP).unwrap().steps.iter().map(|step| step.end).collect() };
        assert_eq!(ends(&[(0, 1), (7, 1)]), [5, 7]);
        assert_eq!(ends(&[(2, 1), (8, 1), (10, 1)]), [8, 10]);
        assert_eq!(ends(&[(2, 1), (9, 1), (10, 1)]), [8, 9, 10]);
        // 4/5 of 1,100 is inside the segment from 800 to 900: eleven points, eleven steps
        assert_eq!(costs(&rising(11), &TOP).unwrap().steps.len(), 11);
    }

    #[test]
    fn points_lie_within_limits() {
        assert_eq!(costs(&[(-1, 1), (2, 1)], &TOP), Err(5));
        assert_eq!(costs(&[(0, 1), (1_000_001, 1)], &TOP), Err(5));
        assert_eq!(costs(&[(2, 1), (2, 1)], &TOP), Err(5));
        assert_eq!(costs(&[(0, 0), (2, 1)], &TOP), Err(6));
        assert_eq!(costs(&[(0, 1), (2, 100_001)], &TOP), Err(6));
    }

    #[test]
    fn charges_lie_within_limits() {
        for charges in [
            Charges { gas: TOP.gas + 1, ..TOP },
            Charges { rate: TOP.rate + 1, ..TOP },
            Charges {
                allowance: TOP.allowance + 1,
                ..TOP
            },
            Charges { om: TOP.om + 1, ..TOP },
            Charges { msc: TOP.msc + 1, ..TOP },
            Charges { soc: TOP.soc + 1, ..TOP },
            Charges { fee: TOP.fee + 1, ..TOP },
            Charges { gas: -1, ..TOP },
        ] {
            assert_eq!(costs(&rising(2), &charges), Err(7), "{charges:?}");
        }
    }

    #[test]
    fn an_incremental_heat_rate_lies_within_limits() {
        assert_eq!(costs(&[(10000, 10000), (29999, 1), (30000, 9500)], &TOP), Err(8));
        assert!(costs(&[(0, 1), (999, 1), (1000, 100_000), (2000, 100_000)], &TOP).is_ok());
    }

    #[test]
    fn each_charge_has_its_place() {
        // a first step of 2: a price of 11/10 of each charge's own part, up
        let price = |charges: Charges| costs(&[(0, 2000), (3, 2000)], &charges).unwrap().steps[0].price;
        let none = Charges::default();
        assert_eq!(price(none), 0);
        assert_eq!(price(Charges { gas: 100, ..none }), 220);
        assert_eq!(
            price(Charges {
                rate: 200_000,
                allowance: 1_000_000,
                ..none
            }),
            440_000
        );
        assert_eq!(price(Charges { om: 10, ..none }), 11);
        assert_eq!(price(Charges { msc: 20, ..none }), 22);
        assert_eq!(price(Charges { soc: 30, ..none }), 33);
        assert_eq!(price(Charges { fee: 3, ..none }), 165);
    }

    #[test]
    fn there_are_just_so_many_classroom_bids() {
        let bid = |k: usize| worked_out(|edges, prices| ffi::classroom(k, edges, prices)).map_err(|refused| refused.number);
        assert!((0..ffi::CLASSROOM).all(|k| bid(k).is_ok()));
        for k in [ffi::CLASSROOM, 38, 256, 1 << 32, usize::MAX] {
            assert_eq!(bid(k), Err(1));
        }
    }

    #[test]
    fn refused_says_why() {
        let refused = bid(25, 0, &[]).unwrap_err();
        assert_eq!(
            refused.to_string(),
            "a bid has no step, or more than 10 (a default curve 11) (refusal 1)"
        );
    }
}
