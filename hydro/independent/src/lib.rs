//! The hydro default (request 2.8, 39.7.1.7), worked out word by word from the request. Tables by seed stand beside it, and what they reach.

pub mod coverage;
pub mod generate;

use independent::curve::{check_default, Curve, Step};
use independent::numbers::{up, within, Refusal};

/// The prices of one hub.
#[derive(Clone, Debug)]
pub struct Hub {
    pub day_ahead_peak: i128,
    pub balance_of_month: i128,
    /// "the first monthly price is next month's"
    pub monthly: Vec<i128>,
}

#[derive(Clone, Debug)]
pub struct Hydro {
    /// "from a given lowest to a given highest quantity"
    pub lowest: i128,
    pub highest: i128,
    pub h: i128,
    pub gas: i128,
    pub hub_count: u64,
    pub horizon: u64,
    /// "the price tables"; "The first hub is the default one"
    pub hubs: Vec<Hub>,
}

/// "these limits"
#[derive(Clone, Copy, Debug, PartialEq, Eq)]
pub enum Limit {
    H,
    Gas,
    HubCount,
    Horizon,
    HubPrice,
}

/// "H is 1 to 100,000 Btu/kWh"
pub const MOST_H: i128 = 100_000;

/// "gas as in 01"
pub const MOST_GAS: i128 = 1_000_000;

/// "hub prices 0 to 100,000,000"
pub const MOST_HUB_PRICE: i128 = 100_000_000;

/// The first so many of a list.
fn first<T>(list: &[T], count: u64) -> &[T] {
    let count = usize::try_from(count).unwrap_or(usize::MAX);
    &list[..count.min(list.len())]
}

fn largest(prices: &[i128]) -> i128 {
    prices.iter().copied().max().expect("there is a price")
}

impl Hydro {
    /// "Prices past the horizon or the hub count aren't read."
    pub fn prices_read(&self) -> Vec<i128> {
        let of_hub = |hub: &Hub| {
            let monthly = first(&hub.monthly, self.horizon);
            [&[hub.day_ahead_peak, hub.balance_of_month], monthly].concat()
        };
        first(&self.hubs, self.hub_count).iter().flat_map(of_hub).collect()
    }

    /// "the day-ahead peak, balance-of-month and next-month prices at the default hub"
    fn at_default_hub(&self) -> [i128; 3] {
        let hub = &self.hubs[0];
        [hub.day_ahead_peak, hub.balance_of_month, hub.monthly[0]]
    }

    /// "three amounts", as dividend and divisor
    pub fn fractions(&self) -> [(i128, i128); 3] {
        [
            // "11 × H × gas / 10,000"
            (11 * self.h * self.gas, 10_000),
            // "14/10 of the largest of .. at the default hub"
            (14 * largest(&self.at_default_hub()), 10),
            // "11/10 of the largest of day-ahead peak, balance-of-month and the monthly prices up to the storage horizon, over 1 to 4 hubs"
            (11 * largest(&self.prices_read()), 10),
        ]
    }

    /// "each up"
    pub fn amounts(&self) -> [i128; 3] {
        self.fractions().map(|(dividend, divisor)| up(dividend, divisor))
    }

    /// The limits that a value is outside of.
    pub fn broken(&self) -> Vec<Limit> {
        let is_price = |price: &i128| within(*price, 0, MOST_HUB_PRICE);
        let kept = [
            (Limit::H, within(self.h, 1, MOST_H)),
            (Limit::Gas, within(self.gas, 0, MOST_GAS)),
            (Limit::HubCount, within(self.hub_count.into(), 1, 4)),
            (Limit::Horizon, within(self.horizon.into(), 1, 12)),
            (Limit::HubPrice, self.prices_read().iter().all(is_price)),
        ];
        kept.into_iter().filter(|&(_, kept)| !kept).map(|(limit, _)| limit).collect()
    }

    /// "one step from a given lowest to a given highest quantity, priced at the largest of three amounts"
    pub fn default_curve(&self) -> Result<Curve, Refusal> {
        // "22, a value outside these limits, checked before 1"
        if !self.broken().is_empty() {
            return Err(22);
        }
        let step = Step {
            end: self.highest,
            price: largest(&self.amounts()),
        };
        let curve = Curve {
            start: self.lowest,
            steps: vec![step],
        };
        check_default(&curve)?;
        Ok(curve)
    }

    /// "All else the same, the price tables too"
    pub fn with_counts(&self, hub_count: u64, horizon: u64) -> Hydro {
        Hydro {
            hub_count,
            horizon,
            ..self.clone()
        }
    }
}
