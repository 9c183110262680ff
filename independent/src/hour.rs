//! Interval and hour (31.2.3, 34.1.5).

use crate::contract::Contract;
use crate::costs::{default_curve, has_split, mark, Costs, Point};
use crate::curve::{check_bid, check_default, merged, Curve, Step};
use crate::numbers::{is_quantity, up, within, Refusal, MILLION};
use crate::verdict::{
    effectiveness, judge, sets_of_at_most_three, Counterflow, Verdict, NON_COMPETITIVE,
};

/// "A default curve, from a pack or from costs"
#[derive(Clone, Debug)]
pub enum Source {
    Costs(Vec<Point>, Costs),
    Pack(Curve),
    /// "The joined curve serves as a default curve in opening."
    Contract(Contract),
}

/// A resource as the opening brings it.
#[derive(Clone, Debug)]
pub struct Offer {
    pub portfolio: i128,
    pub bid: Curve,
    pub source: Source,
}

#[derive(Clone, Debug)]
pub struct Opening {
    pub month: i128,
    pub sellers: Vec<i128>,
    pub offers: Vec<Offer>,
}

/// A resource as an interval brings it.
#[derive(Clone, Copy, Debug)]
pub struct Output {
    pub lmp: i128,
    pub dispatch: i128,
    pub available: i128,
    pub floor: i128,
}

#[derive(Clone, Debug)]
pub struct Interval {
    pub shadow_prices: Vec<i128>,
    pub outputs: Vec<Output>,
    /// By resource, then by constraint.
    pub shift_factors: Vec<Vec<i128>>,
    pub parameter: i128,
}

#[derive(Clone, Debug)]
pub struct Resource {
    pub portfolio: usize,
    pub bid: Curve,
    pub default_energy_bid: Curve,
    /// Whether the 80% mark splits a segment, and whether it is a point's quantity.
    pub is_split: bool,
    pub mark_at_point: bool,
    /// L of each accepted interval in which the resource was dispatched and C above 0.
    pub floor_prices: Vec<i128>,
}

#[derive(Clone, Debug)]
pub struct Hour {
    pub net_seller: Vec<bool>,
    pub resources: Vec<Resource>,
    pub accepted: usize,
}

impl Opening {
    /// "Opening checks 9, then 10, then each resource in number order: bid, costs (or the pack's
    /// curve), 11."
    pub fn open(&self) -> Result<Hour, Refusal> {
        self.check_limits()?;
        self.check_sellers()?;
        let mut resources = Vec::new();
        for offer in &self.offers {
            resources.push(offer.open(self.month)?);
        }
        let net_seller = self.sellers.iter().map(|&seller| seller == 1).collect();
        Ok(Hour {
            net_seller,
            resources,
            accepted: 0,
        })
    }

    /// 9: "month, portfolio or resource count outside limits"
    fn check_limits(&self) -> Result<(), Refusal> {
        let fits = within(self.month, 1, 1200)
            && within(self.sellers.len() as i128, 1, 16)
            && within(self.offers.len() as i128, 1, 64);
        fits.then_some(()).ok_or(9)
    }

    /// 10: "seller not 0 or 1, or unknown portfolio"
    fn check_sellers(&self) -> Result<(), Refusal> {
        let known = |offer: &Offer| within(offer.portfolio, 0, self.sellers.len() as i128 - 1);
        let fits = self
            .sellers
            .iter()
            .all(|&seller| seller == 0 || seller == 1)
            && self.offers.iter().all(known);
        fits.then_some(()).ok_or(10)
    }
}

impl Source {
    /// "costs (or the pack's curve)": 4 to 8, or 1 to 3 of a default curve.
    pub fn default_energy_bid(&self) -> Result<Curve, Refusal> {
        let curve = match self {
            Source::Costs(points, costs) => default_curve(points, costs)?,
            Source::Pack(curve) => curve.clone(),
            Source::Contract(contract) => contract.join()?,
        };
        check_default(&curve)?;
        Ok(curve)
    }

    /// Whether the 80% mark splits a segment of the costs, and whether it is a point's quantity.
    fn at_mark(&self) -> (bool, bool) {
        match self {
            Source::Costs(points, _) => {
                let mark = mark(points);
                (
                    has_split(points),
                    points.iter().any(|point| point.m == mark),
                )
            }
            Source::Pack(_) | Source::Contract(_) => (false, false),
        }
    }
}

impl Offer {
    pub fn open(&self, month: i128) -> Result<Resource, Refusal> {
        check_bid(&self.bid, month)?;
        let default_energy_bid = self.source.default_energy_bid()?;
        // 11: "bid reaches outside its default curve"
        if self.bid.start < default_energy_bid.start || self.bid.end() > default_energy_bid.end() {
            return Err(11);
        }
        let (is_split, mark_at_point) = self.source.at_mark();
        Ok(Resource {
            portfolio: self.portfolio as usize,
            bid: self.bid.clone(),
            default_energy_bid,
            is_split,
            mark_at_point,
            floor_prices: Vec::new(),
        })
    }
}

impl Interval {
    /// 15: "shadow, lmp, parameter or factor outside limits"
    pub fn prices_in_limits(&self) -> bool {
        let far = 100_000_000;
        self.shadow_prices
            .iter()
            .all(|&shadow| within(shadow, 0, far))
            && self
                .outputs
                .iter()
                .all(|output| within(output.lmp, -far, far))
            && within(self.parameter, 0, 100)
            && self
                .shift_factors
                .iter()
                .flatten()
                .all(|&s| within(s, -MILLION, MILLION))
    }

    /// 16: "available outside 0 to 1,000,000, or floor or dispatch below 0 or above it"
    pub fn quantities_in_limits(&self) -> bool {
        self.outputs.iter().all(|output| {
            is_quantity(output.available)
                && within(output.floor, 0, output.available)
                && within(output.dispatch, 0, output.available)
        })
    }
}

impl Resource {
    /// The cap one accepted interval sets at a quantity: "the higher of default price and L".
    fn cap(&self, quantity: i128, floor_price: i128) -> i128 {
        self.default_energy_bid
            .price(quantity)
            .unwrap()
            .max(floor_price)
    }

    /// The least of the quantity's submitted price and its caps.
    pub fn price(&self, quantity: i128) -> i128 {
        let submitted = self.bid.price(quantity).unwrap();
        let caps = self
            .floor_prices
            .iter()
            .map(|&floor_price| self.cap(quantity, floor_price));
        caps.fold(submitted, i128::min)
    }

    /// Every edge of bid or default curve that lies on the bid, in order. Between two neighbours
    /// neither price changes.
    fn breakpoints(&self) -> Vec<i128> {
        let mut edges = self.bid.edges();
        edges.extend(self.default_energy_bid.edges());
        edges.retain(|&edge| within(edge, self.bid.start, self.bid.end()));
        edges.sort();
        edges.dedup();
        edges
    }

    /// "this curve starts and ends where its submitted bid does"
    pub fn curve(&self) -> Curve {
        let breakpoints = self.breakpoints();
        let step = |pair: &[i128]| Step {
            end: pair[1],
            price: self.price(pair[0]),
        };
        let steps = breakpoints.windows(2).map(step).collect();
        merged(&Curve {
            start: self.bid.start,
            steps,
        })
    }
}

impl Hour {
    /// "An interval call is accepted exactly when none of 12 to 16 applies."
    pub fn check(&self, interval: &Interval) -> Result<(), Refusal> {
        // 12: "four already accepted"
        if self.accepted >= 4 {
            return Err(12);
        }
        self.check_values(interval)
    }

    /// 13 to 16, of an interval or a pass.
    pub fn check_values(&self, interval: &Interval) -> Result<(), Refusal> {
        // 13: "resource count isn't the hour's"
        if interval.outputs.len() != self.resources.len() {
            return Err(13);
        }
        // 14: "over 32 constraints"
        if interval.shadow_prices.len() > 32 {
            return Err(14);
        }
        if !interval.prices_in_limits() {
            return Err(15);
        }
        if !interval.quantities_in_limits() {
            return Err(16);
        }
        Ok(())
    }

    /// What every resource brings to one constraint.
    fn counterflows(&self, interval: &Interval, constraint: usize) -> Vec<Counterflow> {
        let flow = |index: usize| Counterflow {
            portfolio: self.resources[index].portfolio,
            effectiveness: effectiveness(interval.shift_factors[index][constraint]),
            dispatch: interval.outputs[index].dispatch,
            available: interval.outputs[index].available,
            floor: interval.outputs[index].floor,
        };
        (0..self.resources.len()).map(flow).collect()
    }

    pub fn curves(&self) -> Vec<Curve> {
        self.resources.iter().map(Resource::curve).collect()
    }

    pub fn verdicts(&self, interval: &Interval) -> Vec<Verdict> {
        let sets = sets_of_at_most_three(self.net_seller.len());
        let verdict = |constraint: usize| {
            let flows = self.counterflows(interval, constraint);
            judge(
                interval.shadow_prices[constraint],
                &flows,
                &self.net_seller,
                &sets,
            )
        };
        (0..interval.shadow_prices.len()).map(verdict).collect()
    }

    /// "An hour takes an interval and becomes the next hour."
    pub fn take(&mut self, interval: &Interval) -> Result<Vec<Verdict>, Refusal> {
        self.check(interval)?;
        let verdicts = self.verdicts(interval);
        for (index, resource) in self.resources.iter_mut().enumerate() {
            resource
                .floor_prices
                .extend(cut(interval, &verdicts, index));
        }
        self.accepted += 1;
        Ok(verdicts)
    }

    /// Why an interval or a pass of these values cuts each resource or not.
    pub fn causes(&self, interval: &Interval) -> Result<Vec<Cause>, Refusal> {
        self.check_values(interval)?;
        let verdicts = self.verdicts(interval);
        let cause = |resource: usize| {
            let component = component(interval, &verdicts, resource);
            Cause {
                component,
                competitive_price: competitive_price(interval, resource, component),
                floor_price: cut(interval, &verdicts, resource),
            }
        };
        Ok((0..self.resources.len()).map(cause).collect())
    }
}

/// C, the competitive price, and L where the interval cuts the resource.
#[derive(Clone, Copy, Debug, PartialEq, Eq)]
pub struct Cause {
    pub component: i128,
    pub competitive_price: i128,
    pub floor_price: Option<i128>,
}

/// "C is minus the sum of s × shadow over non-competitive constraints."
pub fn component(interval: &Interval, verdicts: &[Verdict], resource: usize) -> i128 {
    let mut sum = 0;
    for (constraint, verdict) in verdicts.iter().enumerate() {
        if verdict.code == NON_COMPETITIVE {
            sum +=
                interval.shift_factors[resource][constraint] * interval.shadow_prices[constraint];
        }
    }
    -sum
}

/// L of a resource in an interval or a pass: "If dispatch > 0 and C > 0 ... Otherwise it stays."
pub fn cut(interval: &Interval, verdicts: &[Verdict], resource: usize) -> Option<i128> {
    let c = component(interval, verdicts, resource);
    let cuts = interval.outputs[resource].dispatch > 0 && c > 0;
    cuts.then(|| floor_price(interval, resource, c))
}

/// "Competitive price = lmp - C / 1,000,000, up"
pub fn competitive_price(interval: &Interval, resource: usize, c: i128) -> i128 {
    up(interval.outputs[resource].lmp * MILLION - c, MILLION)
}

/// "Floor price L = competitive price + parameter."
pub fn floor_price(interval: &Interval, resource: usize, c: i128) -> i128 {
    competitive_price(interval, resource, c) + interval.parameter
}

#[cfg(test)]
mod tests {
    use super::*;

    fn resource(bid: i128, default: i128, floor_prices: &[i128]) -> Resource {
        let curve = |price| Curve {
            start: 0,
            steps: vec![Step { end: 10, price }],
        };
        Resource {
            portfolio: 0,
            bid: curve(bid),
            default_energy_bid: curve(default),
            is_split: false,
            mark_at_point: false,
            floor_prices: floor_prices.to_vec(),
        }
    }

    #[test]
    fn a_bid_below_its_cap_stays() {
        assert_eq!(
            resource(300_000, 378_402, &[350_100]).curve().prices(),
            [300_000]
        );
    }

    #[test]
    fn a_cut_carries_on() {
        assert_eq!(
            resource(900_000, 378_402, &[500_000]).curve().prices(),
            [500_000]
        );
        let later = resource(900_000, 378_402, &[500_000, 350_100]);
        assert_eq!(later.curve().prices(), [378_402]);
        let higher_again = resource(900_000, 378_402, &[500_000, 350_100, 600_000]);
        assert_eq!(higher_again.curve().prices(), [378_402]);
    }

    #[test]
    fn the_smallest_component() {
        let output = Output {
            lmp: 500,
            dispatch: 1,
            available: 1,
            floor: 0,
        };
        let interval = Interval {
            shadow_prices: vec![1],
            outputs: vec![output],
            shift_factors: vec![vec![-1]],
            parameter: 7,
        };
        assert_eq!(floor_price(&interval, 0, 1), 507);
        assert_eq!(floor_price(&interval, 0, 1_000_000), 506);
    }
}
