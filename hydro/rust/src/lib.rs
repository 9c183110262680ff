//! The hydro pack of [`noskjerf`]: default energy bids of hydroelectric resources (tariff 39.7.1.7), as a safe library over a proved archive.
//!
//! A [`Hydro`] is what such a bid is made from. [`Hydro::default_curve`] answers a curve of one step, which a resource of an hour takes as its
//! pack. A cut on a hydro unit then has the same causes as on any other.
//!
//! ```
//! use noskjerf::hour::{Hour, Interval, Opening, Resource};
//! use noskjerf_hydro::{Hub, Hydro};
//!
//! let hub = Hub { peak: 500000, balance: 400000, months: vec![300000, 0, 900000] };
//! let hydro = Hydro { low: 10000, high: 30000, heat: 10000, gas: 40000, horizon: 1, hubs: vec![hub] };
//! let default = hydro.default_curve()?;
//! assert_eq!((default.start, default.steps[0].end, default.steps[0].price), (10000, 30000, 700000));
//!
//! // Case T's bid and interval: the second step, 900000, is cut to the default price
//! let unit = Resource::new(0, 10000).step(15000, 300000).step(30000, 900000).pack(default);
//! let mut hour = Hour::open(&Opening::month(25).portfolio(true).resource(unit))?;
//! let interval = Interval::new().constraint(500000).resource(600000, 20000, 30000, 0).factor(0, 0, -500000).parameter(100);
//! hour.interval(&interval)?;
//! let steps: Vec<_> = hour.curve(0).steps.iter().map(|step| (step.end, step.price)).collect();
//! assert_eq!(steps, [(15000, 300000), (30000, 700000)]);
//! # Ok::<(), Box<dyn std::error::Error>>(())
//! ```
//!
//! # Building
//!
//! The pack is a static library of its own for Linux on x86-64, `libnoskjerf_hydro.a`, which `hydro/archive` writes to the project's
//! `target/lib`, beside the engine's. The crate needs Rust 1.63 and the crate `noskjerf`. Where the two libraries stand elsewhere, the environment
//! variable `NOSKJERF_LIB` names their folder as an absolute path. A program names the crate's folder in its `Cargo.toml`:
//!
//! ```toml
//! [dependencies]
//! noskjerf = { path = "../noskjerf/rust" }
//! noskjerf_hydro = { path = "../noskjerf/hydro/rust" }
//! ```
//!
//! Quantities are hundredths of a MW and prices 0.0001 dollar per MWh. Any number of threads may call at once.

#![deny(unsafe_code)]
#![warn(missing_docs)]

#[allow(unsafe_code)]
mod ffi;

use noskjerf::judgement::DefaultCurve;
use noskjerf::Step;
use std::error::Error;
use std::fmt;

/// How many hubs there may be.
pub const MAX_HUBS: usize = 4;

/// How many months the storage horizon may have.
pub const MAX_HORIZON: usize = 12;

/// How many prices a hub has for the archive: its peak, its balance of month, and those of twelve months.
const HUB_PRICES: usize = 2 + MAX_HORIZON;

/// What stands for a month's price that isn't there. The archive refuses it, by 22, where it would be read.
const MISSING: i64 = -1;

/// The prices of a hub, in 0.0001 dollar per MWh, each 0 to 100,000,000.
#[derive(Clone, Debug, Default, PartialEq, Eq)]
pub struct Hub {
    /// The day-ahead peak price.
    pub peak: i64,
    /// The balance-of-month price.
    pub balance: i64,
    /// The monthly prices, next month's first. Those past the storage horizon aren't read; one that is read has to be there.
    pub months: Vec<i64>,
}

impl Hub {
    /// The hub's prices as the archive takes them.
    fn in_order(&self) -> impl Iterator<Item = i64> + '_ {
        let months = self.months.iter().copied().chain(std::iter::repeat(MISSING));
        [self.peak, self.balance].into_iter().chain(months).take(HUB_PRICES)
    }
}

/// What the default energy bid of a hydroelectric resource is made from.
#[derive(Clone, Debug, Default, PartialEq, Eq)]
pub struct Hydro {
    /// The lowest quantity, in hundredths of a MW.
    pub low: i64,
    /// The highest quantity, above the lowest and at most 1,000,000.
    pub high: i64,
    /// H, in Btu/kWh: 1 to 100,000.
    pub heat: i64,
    /// The gas price, in 0.0001 dollar per MMBtu: 0 to 1,000,000.
    pub gas: i64,
    /// The storage horizon, in months: 1 to 12.
    pub horizon: usize,
    /// The hubs, 1 to 4 of them. The first is the default one.
    pub hubs: Vec<Hub>,
}

impl Hydro {
    /// One step from the lowest to the highest quantity, priced at the largest of three amounts, each up: 11 × H × gas / 10,000; 14/10 of the
    /// largest of peak, balance of month and next month at the default hub; 11/10 of the largest of peak, balance of month and the monthly
    /// prices up to the horizon, over the hubs.
    ///
    /// The refusal is 22, a value outside its limits, whatever the quantities; else 2, quantities that are no edges of a step.
    ///
    /// ```
    /// use noskjerf_hydro::{Hub, Hydro};
    ///
    /// let hub = Hub { peak: 1, balance: 0, months: vec![0] };
    /// let hydro = Hydro { low: 0, high: 1, heat: 1, gas: 0, horizon: 1, hubs: vec![hub] };
    /// assert_eq!(hydro.default_curve()?.steps[0].price, 2);
    /// // the price of the second month isn't there
    /// let longer = Hydro { horizon: 2, ..hydro };
    /// assert_eq!(longer.default_curve().unwrap_err().number, 22);
    /// # Ok::<(), noskjerf_hydro::Refused>(())
    /// ```
    pub fn default_curve(&self) -> Result<DefaultCurve, Refused> {
        // the count says that there are too many; their prices needn't be handed over
        let hubs = self.hubs.iter().take(MAX_HUBS);
        let hub_prices: Vec<i64> = hubs.flat_map(Hub::in_order).collect();
        let asked = ffi::Asked {
            low: self.low,
            high: self.high,
            heat: self.heat,
            gas: self.gas,
            hubs: self.hubs.len(),
            horizon: self.horizon,
            hub_prices: &hub_prices,
        };
        let mut edges = [0; ffi::EDGES];
        let mut prices = [0; ffi::PRICES];
        match u8::try_from(ffi::hydro(&asked, &mut edges, &mut prices)).expect("0, or the number of a refusal") {
            0 => Ok(curve(&edges, &prices)),
            number => Err(Refused { number }),
        }
    }
}

/// The curve in buffers that the archive filled: how many steps, the start, the ends; and the prices.
fn curve(edges: &[u64; ffi::EDGES], prices: &[i64; ffi::PRICES]) -> DefaultCurve {
    let [steps, start, ends @ ..] = edges.map(|edge| i64::try_from(edge).expect("an edge is at most 1,000,000"));
    let steps = usize::try_from(steps).expect("a curve has at most 11 steps");
    let rows = ends.iter().zip(prices).take(steps);
    DefaultCurve {
        start,
        steps: rows.map(|(&end, &price)| Step { end, price }).collect(),
    }
}

/// Why a hydro default was refused: 22 or 2.
///
/// ```
/// use noskjerf_hydro::Hydro;
///
/// let refused = Hydro::default().default_curve().unwrap_err();
/// assert_eq!(refused.number, 22);
/// assert!(refused.to_string().starts_with("the heat rate H is outside 1 to 100,000, "));
/// ```
#[derive(Clone, Copy, Debug, PartialEq, Eq, Hash)]
pub struct Refused {
    /// The number of the reason.
    pub number: u8,
}

impl Refused {
    /// The reason alone, as a sentence for a person.
    pub fn reason(&self) -> &'static str {
        match self.number {
            22 => "the heat rate H is outside 1 to 100,000, the gas price outside 0 to 1,000,000, the hub count outside 1 to 4, the storage horizon outside 1 to 12, or a price that is read outside 0 to 100,000,000",
            number => noskjerf::Refused { number }.reason(),
        }
    }
}

impl fmt::Display for Refused {
    fn fmt(&self, f: &mut fmt::Formatter<'_>) -> fmt::Result {
        write!(f, "{} (refusal {})", self.reason(), self.number)
    }
}

impl Error for Refused {}

#[cfg(doctest)]
#[doc = include_str!("../../README.md")]
struct Readme;
