//! Five-minute passes (request 2.1) and one bid for the hour (request 2.2).

use crate::curve::{merged, Curve, Step};
use crate::hour::{cut, Hour, Interval};
use crate::numbers::{within, Refusal};
use crate::verdict::Verdict;

/// A call of a list.
#[derive(Clone, Debug)]
pub enum Call {
    Interval(Interval),
    Pass(Interval),
}

impl Call {
    pub fn values(&self) -> &Interval {
        match self {
            Call::Interval(values) | Call::Pass(values) => values,
        }
    }
}

/// An hour and the five-minute curves of the quarter hour that runs.
#[derive(Clone, Debug)]
pub struct RealTime {
    pub hour: Hour,
    /// Accepted since the last accepted interval.
    pub passes: usize,
    pub curves: Vec<Curve>,
    /// The hour's curves right after each accepted interval.
    pub after_interval: Vec<Vec<Curve>>,
}

impl RealTime {
    pub fn new(hour: Hour) -> RealTime {
        let curves = hour.curves();
        RealTime {
            hour,
            passes: 0,
            curves,
            after_interval: Vec::new(),
        }
    }

    pub fn take(&mut self, call: &Call) -> Result<Vec<Verdict>, Refusal> {
        match call {
            Call::Interval(interval) => self.interval(interval),
            Call::Pass(pass) => self.pass(pass),
        }
    }

    /// An accepted interval begins a quarter hour: its first pass "starts from that interval's
    /// curves".
    pub fn interval(&mut self, interval: &Interval) -> Result<Vec<Verdict>, Refusal> {
        let verdicts = self.hour.take(interval)?;
        self.passes = 0;
        self.curves = self.hour.curves();
        self.after_interval.push(self.curves.clone());
        Ok(verdicts)
    }

    /// "at each quantity, the lowest of the four intervals' curves (34.1.5.3), neighbours with one
    /// price merged" (request 2.2)
    pub fn hour_bid(&self, resource: usize) -> Result<Curve, Refusal> {
        // 20: "fewer than four intervals accepted, the only check"
        if self.after_interval.len() < 4 {
            return Err(20);
        }
        let curves: Vec<&Curve> = self
            .after_interval
            .iter()
            .map(|curves| &curves[resource])
            .collect();
        let mut edges: Vec<i128> = curves.iter().flat_map(|curve| curve.edges()).collect();
        edges.sort();
        edges.dedup();
        let lowest = |quantity: i128| {
            let prices = curves.iter().map(|curve| curve.price(quantity).unwrap());
            prices.min().unwrap()
        };
        let step = |pair: &[i128]| Step {
            end: pair[1],
            price: lowest(pair[0]),
        };
        Ok(merged(&Curve {
            start: curves[0].start,
            steps: edges.windows(2).map(step).collect(),
        }))
    }

    /// "each later one from the pass before. Passes never alter the hour's curves"
    pub fn pass(&mut self, pass: &Interval) -> Result<Vec<Verdict>, Refusal> {
        // 19: "no interval accepted yet or three passes accepted since the last, tested before 13"
        if self.hour.accepted == 0 || self.passes == 3 {
            return Err(19);
        }
        self.hour.check_values(pass)?;
        let verdicts = self.hour.verdicts(pass);
        for (index, curve) in self.curves.iter_mut().enumerate() {
            if let Some(floor_price) = cut(pass, &verdicts, index) {
                let default_energy_bid = &self.hour.resources[index].default_energy_bid;
                *curve = mitigated(curve, default_energy_bid, floor_price);
            }
        }
        self.passes += 1;
        Ok(verdicts)
    }
}

/// "each quantity's price becomes the smaller of its present price and its cap, the higher of
/// default price and L"
fn mitigated(present: &Curve, default_energy_bid: &Curve, floor_price: i128) -> Curve {
    let mut edges = present.edges();
    edges.extend(default_energy_bid.edges());
    edges.retain(|&edge| within(edge, present.start, present.end()));
    edges.sort();
    edges.dedup();
    let price = |quantity: i128| {
        let cap = default_energy_bid.price(quantity).unwrap().max(floor_price);
        present.price(quantity).unwrap().min(cap)
    };
    let step = |pair: &[i128]| Step {
        end: pair[1],
        price: price(pair[0]),
    };
    merged(&Curve {
        start: present.start,
        steps: edges.windows(2).map(step).collect(),
    })
}

#[cfg(test)]
mod tests {
    use super::*;
    use crate::hour::{Output, Resource};

    /// One net seller with a bid of 900000 and a default price of 378402.
    fn hour() -> RealTime {
        let curve = |price| Curve {
            start: 0,
            steps: vec![Step { end: 20_000, price }],
        };
        RealTime::new(Hour {
            net_seller: vec![true],
            resources: vec![Resource {
                portfolio: 0,
                bid: curve(900_000),
                default_energy_bid: curve(378_402),
                is_split: false,
                mark_at_point: false,
                floor_prices: Vec::new(),
            }],
            accepted: 0,
        })
    }

    /// C is 250,000: L is lmp - 250000 + parameter.
    fn call(lmp: i128, dispatch: i128, parameter: i128) -> Interval {
        Interval {
            shadow_prices: vec![500_000],
            outputs: vec![Output {
                lmp,
                dispatch,
                available: 30_000,
                floor: 0,
            }],
            shift_factors: vec![vec![-500_000]],
            parameter,
        }
    }

    fn prices(hour: &RealTime) -> (Vec<i128>, Vec<i128>) {
        (hour.hour.curves()[0].prices(), hour.curves[0].prices())
    }

    #[test]
    fn passes_cut_the_five_minute_price_alone() {
        let mut hour = hour();
        assert_eq!(hour.pass(&call(600_000, 20_000, 100)), Err(19));
        assert_eq!(prices(&hour), (vec![900_000], vec![900_000]));
        assert!(hour.interval(&call(749_900, 20_000, 100)).is_ok());
        assert_eq!(prices(&hour), (vec![500_000], vec![500_000]));
        assert!(hour.pass(&call(650_000, 20_000, 100)).is_ok());
        assert_eq!(prices(&hour), (vec![500_000], vec![400_100]));
        assert_eq!(hour.pass(&call(600_000, 20_000, 101)), Err(15));
        assert!(hour.pass(&call(749_900, 20_000, 100)).is_ok());
        assert_eq!(prices(&hour), (vec![500_000], vec![400_100]));
        assert!(hour.pass(&call(600_000, 20_000, 100)).is_ok());
        assert_eq!(prices(&hour), (vec![500_000], vec![378_402]));
        assert_eq!(hour.pass(&call(600_000, 20_000, 101)), Err(19));
        assert_eq!(prices(&hour), (vec![500_000], vec![378_402]));
    }

    #[test]
    fn an_accepted_interval_begins_again() {
        let mut hour = hour();
        assert!(hour.interval(&call(749_900, 20_000, 100)).is_ok());
        assert!(hour.pass(&call(600_000, 20_000, 100)).is_ok());
        assert_eq!(hour.interval(&call(600_000, 20_000, 101)), Err(15));
        assert_eq!(prices(&hour), (vec![500_000], vec![378_402]));
        for _ in 0..3 {
            assert!(hour.interval(&call(600_000, 0, 100)).is_ok());
            assert_eq!(prices(&hour), (vec![500_000], vec![500_000]));
        }
        assert_eq!(hour.interval(&call(600_000, 0, 100)), Err(12));
        assert!(hour.pass(&call(650_000, 20_000, 100)).is_ok());
        assert_eq!(prices(&hour), (vec![500_000], vec![400_100]));
    }

    #[test]
    fn the_hour_bid_is_the_lowest_of_four() {
        let mut hour = hour();
        for lmp in [749_900, 650_000, 700_000] {
            assert!(hour.interval(&call(lmp, 20_000, 100)).is_ok());
            assert_eq!(hour.hour_bid(0), Err(20));
        }
        assert_eq!(hour.interval(&call(749_900, 20_000, 101)), Err(15));
        assert_eq!(hour.hour_bid(0), Err(20));
        assert!(hour.interval(&call(749_900, 20_000, 100)).is_ok());
        assert_eq!(hour.hour_bid(0).unwrap().prices(), [400_100]);
        assert!(hour.pass(&call(600_000, 20_000, 100)).is_ok());
        assert_eq!(hour.hour_bid(0).unwrap().prices(), [400_100]);
    }
}
