//! Net sellers that leave every binding constraint of an interval short together.

use super::{answered, Hour, Interval};
use crate::ffi::{self, FOUND};
use crate::Refused;

/// The fewest net sellers found whose full withholding leaves every binding constraint of an interval short.
#[derive(Clone, Debug, PartialEq, Eq)]
pub struct Together {
    /// The portfolios of the best set, rising. `None` where not even all net sellers together leave every binding constraint short, so that
    /// no set of them does; the other two are 0 then.
    pub best: Option<Vec<usize>>,
    /// How many sets were tried: the smaller of the budget and the number of non-empty sets of net sellers.
    pub tried: u64,
    /// The largest count of sellers that one binding constraint alone needs to be short. No set that works has fewer members.
    pub floor: u64,
}

impl Hour {
    /// The fewest net sellers that leave every binding constraint of an interval, or a pass, of these values short together: on each of them
    /// supply less all that they can withhold is below demand. It plays no part whether its turn has come, and the hour isn't changed. The
    /// refusal is the lowest of 13 to 16, then 26 where no constraint binds.
    ///
    /// All net sellers together are the first best. Then their sets are tried, up to `budget` of them, in rising order of the number in which
    /// bit p stands for portfolio p; a set that works becomes the best where it has fewer members. With all sets tried, which are at most
    /// 65,535, no set that works has fewer; before that the best is off by at most the difference to the floor.
    ///
    /// Here each of two constraints needs a seller, and each another one:
    ///
    /// ```
    /// # use noskjerf::hour::{Hour, Interval, Opening, Resource};
    /// # use noskjerf::{judgement::DefaultCurve, Step};
    /// # let pack = DefaultCurve { start: 0, steps: vec![Step { end: 30000, price: 378402 }] };
    /// # let unit = |portfolio: i64| Resource::new(portfolio, 0).step(30000, 900000).pack(pack.clone());
    /// # let opening = Opening::month(25).portfolio(true).portfolio(true).portfolio(true);
    /// // three net sellers with a unit each
    /// let hour = Hour::open(&opening.resource(unit(0)).resource(unit(1)).resource(unit(2)))?;
    /// let interval = Interval::new()
    ///     .constraint(500000)
    ///     .constraint(200000)
    ///     .resource(600000, 20000, 30000, 0)
    ///     .resource(600000, 20000, 30000, 0)
    ///     .resource(600000, 20000, 30000, 0)
    ///     .factor(0, 0, -500000)
    ///     .factor(1, 1, -500000);
    ///
    /// let together = hour.together(&interval, u64::MAX)?;
    /// assert_eq!(together.best, Some(vec![0, 1]));
    /// assert_eq!((together.tried, together.floor), (7, 1));
    ///
    /// // without a try the whole set is the best
    /// assert_eq!(hour.together(&interval, 0)?.best, Some(vec![0, 1, 2]));
    /// # Ok::<(), noskjerf::Refused>(())
    /// ```
    pub fn together(&self, interval: &Interval, budget: u64) -> Result<Together, Refused> {
        let mut found = [0; FOUND];
        answered(ffi::pivotal(&self.cells, &interval.numbers(), budget, &mut found))?;
        let [set, tried, floor] = found;
        Ok(Together {
            best: (set != 0).then(|| members(set)),
            tried,
            floor,
        })
    }
}

/// The portfolios of a set, bit p standing for portfolio p.
fn members(set: u64) -> Vec<usize> {
    (0..64).filter(|portfolio| set >> portfolio & 1 == 1).collect()
}
