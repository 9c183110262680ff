//! A book of published gas prices, and default energy bids at its prices.

use crate::ffi::{self, Asked};
use crate::judgement::{in_turn, worked_out, Charges, DefaultCurve, Point, Refused};

/// The markets, each with a list of its own.
#[derive(Clone, Copy, Debug, PartialEq, Eq, Hash)]
pub enum Market {
    /// The day-ahead market.
    DayAhead,
    /// The real-time market.
    RealTime,
}

/// Published gas prices: two lists of entries, each a day and its price in turn, with days strictly rising. Prices are in 0.0001 dollar
/// per MMBtu.
///
/// An answer for one market never depends on the other market's list.
///
/// ```
/// use noskjerf::gas::{Book, Market};
///
/// let book = Book { day_ahead: &[3, 40000, 5, 41000, 9, 39000], real_time: &[4, 50000, 4, 1] };
/// assert_eq!(book.price(Market::DayAhead, 8)?, 41000);
/// // in real time day 4 stands twice
/// assert_eq!(book.price(Market::RealTime, 8).unwrap_err().number, 21);
/// # Ok::<(), noskjerf::judgement::Refused>(())
/// ```
#[derive(Clone, Copy, Debug, Default, PartialEq, Eq)]
pub struct Book<'a> {
    /// The list of the day-ahead market.
    pub day_ahead: &'a [u32],
    /// The list of the real-time market.
    pub real_time: &'a [u32],
}

impl<'a> Book<'a> {
    /// The run of entries up to a trading day, that day included: the front of the market's own list, not a copy.
    ///
    /// The refusal is 21: the list ends inside a pair, its days don't rise somewhere in it, later days included, or no entry is up to
    /// that day.
    ///
    /// ```
    /// use noskjerf::gas::{Book, Market};
    ///
    /// let book = Book { day_ahead: &[3, 40000, 5, 41000, 9, 39000], real_time: &[] };
    /// assert_eq!(book.run(Market::DayAhead, 8)?, [3, 40000, 5, 41000]);
    /// assert_eq!(book.run(Market::DayAhead, 2).unwrap_err().number, 21);
    /// # Ok::<(), noskjerf::judgement::Refused>(())
    /// ```
    pub fn run(&self, market: Market, day: u32) -> Result<&'a [u32], Refused> {
        match ffi::gas_run(&self.asked(market, day)) {
            0 => Err(Refused { number: 21 }),
            length => Ok(&self.list(market)[..length]),
        }
    }

    /// The price in use on a trading day, which is that of its run's last entry: an unpublished day takes the latest before it. The refusal
    /// is 21, as in [`Book::run`].
    ///
    /// ```
    /// use noskjerf::gas::{Book, Market};
    ///
    /// let book = Book { day_ahead: &[3, 40000, 5, 41000], real_time: &[] };
    /// assert_eq!(book.price(Market::DayAhead, 3)?, 40000);
    /// assert_eq!(book.price(Market::DayAhead, 4)?, 40000);
    /// # Ok::<(), noskjerf::judgement::Refused>(())
    /// ```
    pub fn price(&self, market: Market, day: u32) -> Result<u32, Refused> {
        let run = self.run(market, day)?;
        Ok(*run.last().expect("a run that is not refused has an entry"))
    }

    /// Works out a default energy bid as [`default_curve`](crate::judgement::default_curve) does, with the price in use for the gas price;
    /// the one in `charges` isn't read.
    ///
    /// The refusal is 21, as in [`Book::run`], whatever the costs; else the lowest of 4 to 8 that applies.
    ///
    /// ```
    /// use noskjerf::gas::{Book, Market};
    /// use noskjerf::judgement::{Charges, Point};
    ///
    /// let points = [(10000, 10000), (20000, 9000), (30000, 9500)].map(|(mw, heat)| Point { mw, heat });
    /// let charges = Charges { om: 20000, msc: 1000, soc: 3000, fee: 50, ..Charges::default() };
    /// let book = Book { day_ahead: &[1, 40000], real_time: &[1, 1000001] };
    /// let curve = book.default_curve(Market::DayAhead, 1, &points, &charges)?;
    /// assert_eq!((curve.steps[0].end, curve.steps[0].price), (20000, 378402));
    /// // a gas price is at most 1,000,000
    /// assert_eq!(book.default_curve(Market::RealTime, 1, &points, &charges).unwrap_err().number, 7);
    /// # Ok::<(), noskjerf::judgement::Refused>(())
    /// ```
    pub fn default_curve(&self, market: Market, day: u32, points: &[Point], charges: &Charges) -> Result<DefaultCurve, Refused> {
        let asked = self.asked(market, day);
        let numbers = in_turn(points);
        worked_out(|edges, prices| ffi::gas_default(&asked, points.len(), &numbers, &charges.in_order(), edges, prices))
    }

    /// The market's list.
    fn list(&self, market: Market) -> &'a [u32] {
        match market {
            Market::DayAhead => self.day_ahead,
            Market::RealTime => self.real_time,
        }
    }

    /// What the engine is asked: the markets have the numbers 0 and 1.
    fn asked(&self, market: Market, day: u32) -> Asked<'a> {
        Asked {
            day_ahead: self.day_ahead,
            real_time: self.real_time,
            market: match market {
                Market::DayAhead => 0,
                Market::RealTime => 1,
            },
            day,
        }
    }
}
