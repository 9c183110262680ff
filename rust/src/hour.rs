//! An hour in numbers: opened, driven by intervals and five-minute passes, and asked for its curves, without a text.

mod together;

pub use together::Together;

use crate::ffi::{self, BLOCK, CAUSE, CAUSES, HOUR_EDGES, HOUR_PRICES, STATE, VERDICT, VERDICTS};
use crate::judgement::{in_turn, refused_or_not, worked_out, Charges, DefaultCurve, Point, Refused};
use crate::{Finding, Seller, Step};
use std::cmp::Reverse;
use std::fmt;

/// How many numbers an hour is.
pub const CELLS: usize = STATE;

/// How many steps or points a curve's or a costs' place in a block has room for.
const ROOM: usize = 11;

/// How many resources and constraints the shift factors have room for.
const RESOURCES: usize = 64;
const CONSTRAINTS: usize = 32;

/// What an hour is opened from: the month since the rule took effect, the portfolios and the resources, each numbered from 0 in the order
/// in which they are added.
#[derive(Clone, Debug, PartialEq, Eq)]
pub struct Opening {
    month: i64,
    sellers: Vec<i64>,
    resources: Vec<Resource>,
}

impl Opening {
    /// An opening in a month, which sets the highest bid price; 1 to 1,200.
    pub fn month(month: i64) -> Opening {
        Opening {
            month,
            sellers: Vec::new(),
            resources: Vec::new(),
        }
    }

    /// Adds a portfolio, 1 to 16 of them: true or 1 for a net seller, false or 0 for a net buyer. Any other number is refused, by 10.
    #[must_use]
    pub fn portfolio(mut self, seller: impl Into<i64>) -> Opening {
        self.sellers.push(seller.into());
        self
    }

    /// Adds a resource, 1 to 64 of them.
    #[must_use]
    pub fn resource(mut self, resource: Resource) -> Opening {
        self.resources.push(resource);
        self
    }
}

/// A resource: who owns it, its bid, and where its default energy bid comes from.
#[derive(Clone, Debug, PartialEq, Eq)]
pub struct Resource {
    portfolio: i64,
    start: i64,
    steps: Vec<Step>,
    source: Source,
}

#[derive(Clone, Debug, PartialEq, Eq)]
enum Source {
    Costs(Costs),
    Pack(DefaultCurve),
}

impl Resource {
    /// A resource of a portfolio, with a bid that starts at a quantity. Its costs are those of no points, which are refused, by 4.
    pub fn new(portfolio: i64, start: i64) -> Resource {
        Resource {
            portfolio,
            start,
            steps: Vec::new(),
            source: Source::Costs(Costs::default()),
        }
    }

    /// Adds a step to the bid, 1 to 10 of them.
    #[must_use]
    pub fn step(mut self, end: i64, price: i64) -> Resource {
        self.steps.push(Step { end, price });
        self
    }

    /// Lets the default energy bid be worked out from costs.
    #[must_use]
    pub fn costs(mut self, costs: Costs) -> Resource {
        self.source = Source::Costs(costs);
        self
    }

    /// Takes a pack's curve for the default energy bid, of 1 to 11 steps with prices from -1,000,000,000 to 1,000,000,000.
    #[must_use]
    pub fn pack(mut self, curve: DefaultCurve) -> Resource {
        self.source = Source::Pack(curve);
        self
    }

    /// The block of numbers that the engine takes.
    fn block(&self) -> [i64; BLOCK] {
        let mut block = [0; BLOCK];
        block[0] = self.portfolio;
        put_curve(&mut block[1..25], self.start, &self.steps);
        match &self.source {
            Source::Costs(costs) => {
                block[26] = count(costs.points.len());
                put(&mut block[27..49], &in_turn(&costs.points));
                put(&mut block[49..56], &costs.charges.in_order());
            }
            Source::Pack(curve) => {
                block[25] = 1;
                put_curve(&mut block[56..80], curve.start, &curve.steps);
            }
        }
        block
    }
}

/// The costs of a resource: 2 to 11 points, and the charges.
#[derive(Clone, Debug, Default, PartialEq, Eq)]
pub struct Costs {
    /// The points, with quantities that rise.
    pub points: Vec<Point>,
    /// The prices, rates and fees.
    pub charges: Charges,
}

impl Costs {
    /// Costs of these charges, without a point yet.
    pub fn new(charges: Charges) -> Costs {
        Costs {
            points: Vec::new(),
            charges,
        }
    }

    /// Adds a point: a quantity, and the average heat rate there.
    #[must_use]
    pub fn point(mut self, mw: i64, heat: i64) -> Costs {
        self.points.push(Point { mw, heat });
        self
    }
}

/// An interval, or a five-minute pass: constraints and resources, each numbered from 0 in the order in which they are added, shift factors, and
/// the parameter.
#[derive(Clone, Debug, Default, PartialEq, Eq)]
pub struct Interval {
    shadow: Vec<i64>,
    /// Locational price, dispatch, available and floor of each resource in turn.
    outputs: Vec<i64>,
    factors: Vec<i64>,
    parameter: i64,
}

impl Interval {
    /// An interval of no constraints and no resources, with the parameter 0.
    pub fn new() -> Interval {
        Interval::default()
    }

    /// Adds a constraint, up to 32 of them, with its shadow price. It binds where that is above 0.
    #[must_use]
    pub fn constraint(mut self, shadow: i64) -> Interval {
        self.shadow.push(shadow);
        self
    }

    /// Adds a resource, as many as the hour has: its locational price, its dispatch, what is available of it, and the floor, which is output
    /// that can't be withheld.
    #[must_use]
    pub fn resource(mut self, lmp: i64, dispatch: i64, available: i64, floor: i64) -> Interval {
        self.outputs.extend([lmp, dispatch, available, floor]);
        self
    }

    /// Sets the shift factor of a resource on a constraint, in millionths. One that is never set is 0, and one of a resource or constraint
    /// that the interval doesn't have means nothing.
    #[must_use]
    pub fn factor(mut self, resource: usize, constraint: usize, factor: i64) -> Interval {
        if resource < RESOURCES && constraint < CONSTRAINTS {
            let at = CONSTRAINTS * resource + constraint;
            let length = self.factors.len().max(at + 1);
            self.factors.resize(length, 0);
            self.factors[at] = factor;
        }
        self
    }

    /// Sets what is added to the competitive price to make the floor price, 0 to 100.
    #[must_use]
    pub fn parameter(mut self, parameter: i64) -> Interval {
        self.parameter = parameter;
        self
    }

    /// How many resources it has.
    fn resources(&self) -> usize {
        self.outputs.len() / 4
    }

    /// What the engine takes.
    fn numbers(&self) -> ffi::Interval<'_> {
        ffi::Interval {
            shadow: &self.shadow,
            resources: self.resources(),
            outputs: &self.outputs,
            factors: &self.factors,
            parameter: self.parameter,
        }
    }
}

/// The verdict on a constraint's path, with the sellers named.
#[derive(Clone, Debug, PartialEq, Eq)]
pub struct Verdict {
    /// The constraint.
    pub constraint: usize,
    /// What was found.
    pub finding: Finding,
    /// Demand for counterflow, in hundred-millionths of a MW; 0 where the constraint does not bind.
    pub demand: u64,
    /// Counterflow supply left without what the sellers named can withhold, in hundred-millionths of a MW; 0 where it does not bind.
    pub left: u64,
    /// The sellers named, at most three. The larger withheld amount comes first, equal ones by lower portfolio number.
    pub sellers: Vec<Seller>,
}

/// Whether an interval caps a resource's bid, and why.
///
/// A cap applies where the resource is dispatched and its component is above 0. Each quantity's cap is then the higher of its default price and
/// the floor price. It may lie above the price that it caps, which then stays: whether a bid is cut is seen by its curve before and after.
#[derive(Clone, Copy, Debug, PartialEq, Eq)]
pub struct Cause {
    /// The resource.
    pub resource: usize,
    /// C: minus the sum of shift factor times shadow price over the non-competitive constraints, in millionths of 0.0001 dollar per MWh.
    pub component: i64,
    /// The locational price less C, up.
    pub competitive_price: i64,
    /// L, the competitive price with the parameter added, where a cap applies.
    pub floor_price: Option<i64>,
}

impl Cause {
    /// Whether a cap applies.
    pub fn capped(&self) -> bool {
        self.floor_price.is_some()
    }
}

/// A bid curve as it stands in an hour. One of a resource that the hour doesn't have has no steps.
#[derive(Clone, Debug, PartialEq, Eq)]
pub struct BidCurve {
    /// Where the curve starts, in hundredths of a MW: where the bid does.
    pub start: i64,
    /// Its steps, up to 20 of them; ends and prices rise.
    pub steps: Vec<Step>,
}

/// A trading hour in numbers.
///
/// A cut made in one interval carries on to the next. Up to three five-minute passes may follow an accepted interval; they cut the five-minute
/// curves alone. A refused call leaves the hour as it was, so that a mended one may follow.
///
/// ```
/// use noskjerf::hour::{Costs, Hour, Interval, Opening, Resource};
/// use noskjerf::{judgement::Charges, Finding};
///
/// let charges = Charges { gas: 40000, om: 20000, msc: 1000, soc: 3000, fee: 50, ..Charges::default() };
/// let costs = Costs::new(charges).point(10000, 10000).point(20000, 9000).point(30000, 9500);
/// let resource = Resource::new(0, 10000).step(15000, 300000).step(30000, 900000).costs(costs);
/// let mut hour = Hour::open(&Opening::month(25).portfolio(true).resource(resource))?;
///
/// let interval = Interval::new()
///     .constraint(500000)
///     .resource(600000, 20000, 30000, 0)
///     .factor(0, 0, -500000)
///     .parameter(100);
///
/// // a cap applies to resource 0: the component is 250000, in millionths, so that the floor price is 600000 - 250000 + 100
/// let cause = hour.why(&interval)?[0];
/// assert!(cause.capped());
/// assert_eq!(cause.component, 250000 * 1000000);
/// assert_eq!(cause.floor_price, Some(350100));
///
/// let verdicts = hour.interval(&interval)?;
/// assert_eq!(verdicts[0].finding, Finding::NonCompetitive);
/// assert_eq!(verdicts[0].sellers[0].withheld, 15000000000);
/// let prices = hour.curve(0).steps.iter().map(|step| step.price).collect::<Vec<_>>();
/// assert_eq!(prices, [300000, 378402, 444403, 488402]);
///
/// // the hour has one bid after four intervals
/// assert_eq!(hour.bid(0).unwrap_err().number, 20);
/// # Ok::<(), noskjerf::Refused>(())
/// ```
#[derive(Clone, PartialEq, Eq)]
pub struct Hour {
    cells: Box<[i64; CELLS]>,
}

impl Hour {
    /// Opens an hour. The refusal is 9, then 10, then of each resource in the order of the numbers the lowest of 1 to 3 of its bid, of 4 to 8 of
    /// its costs or 1 to 3 of its pack's curve, and 11.
    pub fn open(opening: &Opening) -> Result<Hour, Refused> {
        let blocks: Vec<i64> = opening.resources.iter().flat_map(Resource::block).collect();
        let numbers = ffi::Opening {
            month: opening.month,
            sellers: &opening.sellers,
            resources: opening.resources.len(),
            blocks: &blocks,
        };
        let mut cells = Box::new([0; CELLS]);
        answered(ffi::open(&numbers, &mut cells))?;
        Ok(Hour { cells })
    }

    /// Takes an interval, up to four an hour; the verdict on each of its constraints. The refusal is the lowest of 12 to 16.
    pub fn interval(&mut self, interval: &Interval) -> Result<Vec<Verdict>, Refused> {
        let mut numbers = [0; VERDICTS];
        answered(ffi::interval(&mut self.cells, &interval.numbers(), &mut numbers))?;
        Ok(verdicts(&numbers, interval.shadow.len()))
    }

    /// Takes a five-minute pass, up to three after each accepted interval; the verdict on each of its constraints. The refusal is 19, else the
    /// lowest of 13 to 16.
    ///
    /// ```
    /// # use noskjerf::hour::{Hour, Interval, Opening, Resource};
    /// # use noskjerf::{judgement::DefaultCurve, Step};
    /// let pack = DefaultCurve { start: 0, steps: vec![Step { end: 20000, price: 378402 }] };
    /// let resource = Resource::new(0, 0).step(20000, 900000).pack(pack);
    /// let mut hour = Hour::open(&Opening::month(25).portfolio(true).resource(resource))?;
    /// let at = |lmp: i64| Interval::new().constraint(500000).resource(lmp, 20000, 30000, 0).factor(0, 0, -500000).parameter(100);
    ///
    /// assert_eq!(hour.pass(&at(650000)).unwrap_err().number, 19);
    /// hour.interval(&at(749900))?;
    /// hour.pass(&at(650000))?;
    /// assert_eq!(hour.curve(0).steps[0].price, 500000);
    /// assert_eq!(hour.five_minute(0).steps[0].price, 400100);
    /// # Ok::<(), noskjerf::Refused>(())
    /// ```
    pub fn pass(&mut self, pass: &Interval) -> Result<Vec<Verdict>, Refused> {
        let mut numbers = [0; VERDICTS];
        answered(ffi::pass(&mut self.cells, &pass.numbers(), &mut numbers))?;
        Ok(verdicts(&numbers, pass.shadow.len()))
    }

    /// Whether an interval, or a pass, of these values caps the bid of each resource of the hour, and why, whether its turn has come or not.
    /// The hour isn't changed. The refusal is the lowest of 13 to 16.
    pub fn why(&self, interval: &Interval) -> Result<Vec<Cause>, Refused> {
        let mut numbers = [0; CAUSES];
        answered(ffi::why(&self.cells, &interval.numbers(), &mut numbers))?;
        let causes = numbers.chunks_exact(CAUSE).take(interval.resources());
        Ok(causes.enumerate().map(cause).collect())
    }

    /// The bid curve of a resource after the accepted intervals.
    pub fn curve(&self, resource: usize) -> BidCurve {
        bid_curve(|edges, prices| ffi::curve(&self.cells, resource, edges, prices)).expect("a curve is never refused")
    }

    /// Its five-minute curve: the same, cut further by the passes accepted since the last accepted interval.
    pub fn five_minute(&self, resource: usize) -> BidCurve {
        bid_curve(|edges, prices| ffi::five_minute(&self.cells, resource, edges, prices)).expect("a curve is never refused")
    }

    /// Its one bid for the hour: at each quantity the lowest of the four intervals' curves. The refusal is 20, before four are accepted.
    pub fn bid(&self, resource: usize) -> Result<BidCurve, Refused> {
        bid_curve(|edges, prices| ffi::hour_bid(&self.cells, resource, edges, prices))
    }

    /// Its default energy bid.
    pub fn default_curve(&self, resource: usize) -> DefaultCurve {
        worked_out(|edges, prices| ffi::default_of(&self.cells, resource, edges, prices)).expect("a curve is never refused")
    }

    /// How many intervals are accepted.
    pub fn accepted(&self) -> usize {
        counted(self.cells[0])
    }

    /// How many passes are accepted since the last accepted interval.
    pub fn passes(&self) -> usize {
        counted(self.cells[129])
    }

    /// How many resources the hour has.
    pub fn resources(&self) -> usize {
        counted(self.cells[258])
    }

    /// The numbers that the hour is. They may be kept anywhere and put back with [`Hour::from_cells`].
    ///
    /// ```
    /// # use noskjerf::hour::{Hour, Opening, Resource};
    /// # use noskjerf::{judgement::DefaultCurve, Step};
    /// # let pack = DefaultCurve { start: 0, steps: vec![Step { end: 20000, price: 378402 }] };
    /// # let opening = Opening::month(25).portfolio(true).resource(Resource::new(0, 0).step(20000, 900000).pack(pack));
    /// let hour = Hour::open(&opening)?;
    /// let kept = hour.cells().to_vec();
    /// assert_eq!(Hour::from_cells(kept.as_slice().try_into().unwrap()), hour);
    /// # Ok::<(), noskjerf::Refused>(())
    /// ```
    pub fn cells(&self) -> &[i64; CELLS] {
        &self.cells
    }

    /// The hour that these numbers are. Every content is one: what is wrong with it is answered in refusals and curves, never left undefined.
    pub fn from_cells(cells: &[i64; CELLS]) -> Hour {
        Hour { cells: Box::new(*cells) }
    }
}

impl fmt::Debug for Hour {
    fn fmt(&self, f: &mut fmt::Formatter<'_>) -> fmt::Result {
        f.debug_struct("Hour")
            .field("accepted", &self.accepted())
            .field("passes", &self.passes())
            .field("resources", &self.resources())
            .finish_non_exhaustive()
    }
}

/// Puts the first numbers of a list that has no bound into the place that they have.
fn put(place: &mut [i64], numbers: &[i64]) {
    let length = place.len().min(numbers.len());
    place[..length].copy_from_slice(&numbers[..length]);
}

/// Puts a curve into its place of a block: start, count, and end and price of each step in turn.
fn put_curve(place: &mut [i64], start: i64, steps: &[Step]) {
    place[0] = start;
    place[1] = count(steps.len());
    let numbers: Vec<i64> = steps.iter().take(ROOM).flat_map(|step| [step.end, step.price]).collect();
    put(&mut place[2..], &numbers);
}

/// A count as the engine takes it in a block.
fn count(length: usize) -> i64 {
    i64::try_from(length).unwrap_or(i64::MAX)
}

/// A cell as the engine reads a count: a negative one is 0.
fn counted(cell: i64) -> usize {
    usize::try_from(cell.max(0)).unwrap_or(usize::MAX)
}

/// An amount of a verdict, which is never negative.
fn amount(number: i64) -> u64 {
    u64::try_from(number).expect("an amount is never negative")
}

/// The engine's answer, to a call whose slices have the room that it asks for.
fn answered(answer: i64) -> Result<(), Refused> {
    refused_or_not(u64::try_from(answer).expect("the slices have the room that the engine asks for"))
}

/// The verdicts on the first constraints.
fn verdicts(numbers: &[i64; VERDICTS], constraints: usize) -> Vec<Verdict> {
    let verdicts = numbers.chunks_exact(VERDICT).take(constraints);
    verdicts
        .enumerate()
        .map(|(constraint, numbers)| verdict(constraint, numbers))
        .collect()
}

fn verdict(constraint: usize, numbers: &[i64]) -> Verdict {
    let named = |portfolio: &usize| numbers[3] >> portfolio & 1 == 1;
    let seller = |portfolio: usize| Seller {
        constraint,
        portfolio,
        withheld: amount(numbers[4 + portfolio]),
    };
    let mut sellers: Vec<Seller> = (0..VERDICT - 4).filter(named).map(seller).collect();
    sellers.sort_by_key(|seller| Reverse(seller.withheld));
    Verdict {
        constraint,
        finding: Finding::of(numbers[0]).expect("a finding of the engine is 0, 1 or 2"),
        demand: amount(numbers[1]),
        left: amount(numbers[2]),
        sellers,
    }
}

fn cause((resource, numbers): (usize, &[i64])) -> Cause {
    Cause {
        resource,
        component: numbers[1],
        competitive_price: numbers[2],
        floor_price: (numbers[0] == 1).then_some(numbers[3]),
    }
}

/// The curve that the engine puts into the buffers it is lent, or its refusal.
fn bid_curve(engine: impl FnOnce(&mut [u64; HOUR_EDGES], &mut [i64; HOUR_PRICES]) -> i64) -> Result<BidCurve, Refused> {
    let mut edges = [0; HOUR_EDGES];
    let mut prices = [0; HOUR_PRICES];
    answered(engine(&mut edges, &mut prices))?;
    let [steps, start, ends @ ..] = edges.map(|edge| i64::try_from(edge).expect("an edge was a cell"));
    let steps = usize::try_from(steps).expect("a curve has at most 20 steps");
    let rows = ends.into_iter().zip(prices).take(steps);
    Ok(BidCurve {
        start,
        steps: rows.map(|(end, price)| Step { end, price }).collect(),
    })
}

#[cfg(test)]
mod tests {
    use super::*;

    #[test]
    fn the_engine_asks_for_this_room() {
        assert_eq!(ffi::state_room(), CELLS);
    }

    #[test]
    fn a_block_has_each_number_in_its_place() {
        let charges = Charges {
            gas: 1,
            rate: 2,
            allowance: 3,
            om: 4,
            msc: 5,
            soc: 6,
            fee: 7,
        };
        let block = Resource::new(9, 8)
            .step(10, 20)
            .costs(Costs::new(charges).point(30, 40).point(50, 60))
            .block();
        assert_eq!(block[..5], [9, 8, 1, 10, 20]);
        assert_eq!(block[25..31], [0, 2, 30, 40, 50, 60]);
        assert_eq!(block[49..56], [1, 2, 3, 4, 5, 6, 7]);
        let steps = vec![Step { end: 70, price: 80 }, Step { end: 90, price: 100 }];
        let block = Resource::new(9, 8).pack(DefaultCurve { start: 60, steps }).block();
        assert_eq!((block[2], block[25]), (0, 1));
        assert_eq!(block[56..62], [60, 2, 70, 80, 90, 100]);
    }

    #[test]
    fn a_list_past_its_room_keeps_its_count() {
        let mut costs = Costs::default();
        let mut resource = Resource::new(0, 0);
        for i in 1..=12 {
            costs = costs.point(i, i);
            resource = resource.step(i, i);
        }
        let block = resource.costs(costs).block();
        assert_eq!((block[2], block[24], block[25]), (12, 11, 0));
        assert_eq!((block[26], block[48], block[49]), (12, 11, 0));
    }

    #[test]
    fn sellers_come_by_weight() {
        let mut numbers = [0; VERDICT];
        numbers[..4].copy_from_slice(&[1, 50, 40, 0b1000_0000_0000_0110]);
        (numbers[5], numbers[6], numbers[19]) = (3, 7, 7);
        let sellers = verdict(4, &numbers).sellers;
        let found: Vec<_> = sellers
            .iter()
            .map(|seller| (seller.constraint, seller.portfolio, seller.withheld))
            .collect();
        assert_eq!(found, [(4, 2, 7), (4, 15, 7), (4, 1, 3)]);
    }
}
