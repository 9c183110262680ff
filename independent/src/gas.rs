//! Book of gas prices (request 2.7, 39.7.1.1.1.3).

use crate::costs::{default_curve, Costs, Point};
use crate::curve::Curve;
use crate::numbers::{strictly_rise, Refusal};

/// "one for the day-ahead market and one for real time"
#[derive(Clone, Copy, Debug, PartialEq, Eq)]
pub enum Market {
    DayAhead,
    RealTime,
}

pub const MARKETS: [Market; 2] = [Market::DayAhead, Market::RealTime];

/// "two lists": the numbers of each, day and price in turn.
#[derive(Clone, Debug, Default, PartialEq, Eq)]
pub struct Book {
    pub day_ahead: Vec<u32>,
    pub real_time: Vec<u32>,
}

/// "(day, price), each a number of 32 bits"
#[derive(Clone, Copy, Debug, PartialEq, Eq)]
pub struct Entry {
    pub day: u32,
    pub price: u32,
}

/// The whole entries of a list.
pub fn entries(list: &[u32]) -> Vec<Entry> {
    let entry = |pair: &[u32]| Entry {
        day: pair[0],
        price: pair[1],
    };
    list.chunks_exact(2).map(entry).collect()
}

/// "the chosen list ends inside a pair"
pub fn ends_inside_a_pair(list: &[u32]) -> bool {
    list.len() % 2 == 1
}

/// "with days strictly rising"
pub fn days_rise(list: &[u32]) -> bool {
    let days: Vec<i128> = entries(list).iter().map(|entry| entry.day.into()).collect();
    strictly_rise(&days)
}

/// "entries up to that day"
pub fn up_to(list: &[u32], day: u32) -> Vec<Entry> {
    let mut kept = entries(list);
    kept.retain(|entry| entry.day <= day);
    kept
}

impl Book {
    /// "Given ... a market": "out of the day-ahead list or the real-time list"
    pub fn list(&self, market: Market) -> &[u32] {
        match market {
            Market::DayAhead => &self.day_ahead,
            Market::RealTime => &self.real_time,
        }
    }

    /// "the book hands back the run of entries up to that day"
    pub fn run(&self, market: Market, day: u32) -> Result<Vec<Entry>, Refusal> {
        let list = self.list(market);
        let run = up_to(list, day);
        // 21: "the chosen list ends inside a pair, its days fail to rise somewhere in it, later
        // days included, or the run is empty"
        if ends_inside_a_pair(list) || !days_rise(list) || run.is_empty() {
            return Err(21);
        }
        Ok(run)
    }

    /// "The last entry of the run is the price in use"
    pub fn price(&self, market: Market, day: u32) -> Result<u32, Refusal> {
        let run = self.run(market, day)?;
        Ok(run[run.len() - 1].price)
    }

    /// The costs with the book's gas price; 21 is "found before any cost check".
    pub fn default_curve(
        &self,
        market: Market,
        day: u32,
        points: &[Point],
        costs: &Costs,
    ) -> Result<Curve, Refusal> {
        let gas = self.price(market, day)?.into();
        default_curve(points, &Costs { gas, ..*costs })
    }
}
