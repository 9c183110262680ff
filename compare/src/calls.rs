//! Lists of calls in numbers, through the engine's static library and through the independent implementation. After the opening and after
//! each call the hour is asked for everything it can tell.

use independent::contract::Contract;
use independent::curve;
use independent::generate::calls::Case;
use independent::hour::{self, Source};
use independent::passes::{Call, RealTime};
use independent::print::by_weight;
use independent::verdict;
use noskjerf::hour::{Costs, Hour, Interval, Opening, Resource};
use noskjerf::judgement::{join, Charges, DefaultCurve};
use noskjerf::{Finding, Refused, Step};

/// Of the lists that differ, at most so many are shown by each thread.
const SHOWN: usize = 3;

/// A start, and the end and price of each step.
pub type Curve = (i128, Vec<(i128, i128)>);

/// The number of the finding, demand, left, and the sellers with what they withhold.
type Verdict = (u8, i128, i128, Vec<(usize, i128)>);

/// Component, competitive price, and the floor price where there is a cut.
type Cause = (i128, i128, Option<i128>);

/// What an hour tells when it is opened or called, and when it is asked after that.
#[derive(Debug, PartialEq)]
pub struct Answer {
    /// Why, asked before the call; the opening has no such question.
    causes: Option<Result<Vec<Cause>, u8>>,
    pub call: Result<Vec<Verdict>, u8>,
    /// Whether a refused call changed the hour.
    changed_by_refusal: bool,
    /// Intervals accepted, passes since the last, resources.
    counts: (usize, usize, usize),
    pub curves: Vec<Curve>,
    five_minute: Vec<Curve>,
    bids: Vec<Result<Curve, u8>>,
    defaults: Vec<Curve>,
}

// ---- the engine

pub fn small(number: i128) -> i64 {
    number.try_into().expect("a number of 64 bits")
}

fn costs(points: &[independent::costs::Point], costs: &independent::costs::Costs) -> Costs {
    let charges = Charges {
        gas: small(costs.gas),
        rate: small(costs.rate),
        allowance: small(costs.allowance),
        om: small(costs.om),
        msc: small(costs.msc),
        soc: small(costs.soc),
        fee: small(costs.fee),
    };
    points
        .iter()
        .fold(Costs::new(charges), |costs, point| costs.point(small(point.m), small(point.h)))
}

fn steps_of(curve: &curve::Curve) -> Vec<Step> {
    let step = |step: &curve::Step| Step {
        end: small(step.end),
        price: small(step.price),
    };
    curve.steps.iter().map(step).collect()
}

pub fn default_curve(curve: &curve::Curve) -> DefaultCurve {
    DefaultCurve {
        start: small(curve.start),
        steps: steps_of(curve),
    }
}

/// The engine's own join of a contracted unit's parts; a refused one has no step, with which no hour is opened.
fn joined(contract: &Contract) -> DefaultCurve {
    let none = DefaultCurve {
        start: 0,
        steps: Vec::new(),
    };
    join(&default_curve(&contract.proxy), &default_curve(&contract.above)).unwrap_or(none)
}

fn resource(offer: &hour::Offer) -> Resource {
    let resource = Resource::new(small(offer.portfolio), small(offer.bid.start));
    let bid = steps_of(&offer.bid).iter().fold(resource, |bid, step| bid.step(step.end, step.price));
    match &offer.source {
        Source::Costs(points, charges) => bid.costs(costs(points, charges)),
        Source::Pack(curve) => bid.pack(default_curve(curve)),
        Source::Contract(contract) => bid.pack(joined(contract)),
    }
}

pub fn opening(opening: &hour::Opening) -> Opening {
    let month = Opening::month(small(opening.month));
    let portfolios = opening.sellers.iter().fold(month, |opening, &seller| opening.portfolio(small(seller)));
    opening.offers.iter().fold(portfolios, |opening, offer| opening.resource(resource(offer)))
}

pub fn interval(values: &hour::Interval) -> Interval {
    let mut interval = Interval::new().parameter(small(values.parameter));
    for &shadow in &values.shadow_prices {
        interval = interval.constraint(small(shadow));
    }
    for output in &values.outputs {
        interval = interval.resource(
            small(output.lmp),
            small(output.dispatch),
            small(output.available),
            small(output.floor),
        );
    }
    for (resource, factors) in values.shift_factors.iter().enumerate() {
        for (constraint, &factor) in factors.iter().enumerate().filter(|(_, &factor)| factor != 0) {
            interval = interval.factor(resource, constraint, small(factor));
        }
    }
    interval
}

fn number(refused: Refused) -> u8 {
    refused.number
}

pub fn curve_of(start: i64, steps: &[Step]) -> Curve {
    (
        start.into(),
        steps.iter().map(|step| (step.end.into(), step.price.into())).collect(),
    )
}

fn bid_curve(curve: noskjerf::hour::BidCurve) -> Curve {
    curve_of(curve.start, &curve.steps)
}

fn verdict_of(verdict: &noskjerf::hour::Verdict) -> Verdict {
    let finding = match verdict.finding {
        Finding::Competitive => 0,
        Finding::NonCompetitive => 1,
        Finding::NotBinding => 2,
    };
    let sellers = verdict.sellers.iter().map(|seller| (seller.portfolio, seller.withheld.into()));
    (finding, verdict.demand.into(), verdict.left.into(), sellers.collect())
}

fn cause_of(cause: &noskjerf::hour::Cause) -> Cause {
    (
        cause.component.into(),
        cause.competitive_price.into(),
        cause.floor_price.map(Into::into),
    )
}

/// What the engine's hour tells after an opening or a call.
fn engine_asked(hour: &Hour, resources: usize) -> Answer {
    let default = |resource: usize| {
        let curve = hour.default_curve(resource);
        curve_of(curve.start, &curve.steps)
    };
    Answer {
        causes: None,
        call: Ok(Vec::new()),
        changed_by_refusal: false,
        counts: (hour.accepted(), hour.passes(), hour.resources()),
        curves: (0..resources).map(|resource| bid_curve(hour.curve(resource))).collect(),
        five_minute: (0..resources).map(|resource| bid_curve(hour.five_minute(resource))).collect(),
        bids: (0..resources).map(|resource| hour.bid(resource).map(bid_curve).map_err(number)).collect(),
        defaults: (0..resources).map(default).collect(),
    }
}

fn engine_called(hour: &mut Hour, call: &Call, resources: usize) -> Answer {
    let values = interval(call.values());
    let causes = hour.why(&values).map(|causes| causes.iter().map(cause_of).collect());
    let before = hour.clone();
    let answer = match call {
        Call::Interval(_) => hour.interval(&values),
        Call::Pass(_) => hour.pass(&values),
    };
    Answer {
        causes: Some(causes.map_err(number)),
        changed_by_refusal: answer.is_err() && *hour != before,
        call: answer.map(|verdicts| verdicts.iter().map(verdict_of).collect()).map_err(number),
        ..engine_asked(hour, resources)
    }
}

pub fn engine(case: &Case) -> Result<Vec<Answer>, u8> {
    let mut hour = Hour::open(&opening(&case.opening)).map_err(number)?;
    let resources = case.opening.offers.len();
    let mut answers = vec![engine_asked(&hour, resources)];
    for call in &case.calls {
        answers.push(engine_called(&mut hour, call, resources));
    }
    Ok(answers)
}

// ---- the independent implementation

pub fn literal_curve(curve: &curve::Curve) -> Curve {
    (curve.start, curve.steps.iter().map(|step| (step.end, step.price)).collect())
}

fn literal_verdict(verdict: &verdict::Verdict) -> Verdict {
    (verdict.code, verdict.demand, verdict.left, by_weight(verdict))
}

fn literal_asked(hour: &RealTime) -> Answer {
    let resources = hour.hour.resources.len();
    let bid = |resource: usize| hour.hour_bid(resource).map(|curve| literal_curve(&curve));
    let defaults = hour.hour.resources.iter().map(|resource| &resource.default_energy_bid);
    Answer {
        causes: None,
        call: Ok(Vec::new()),
        changed_by_refusal: false,
        counts: (hour.hour.accepted, hour.passes, resources),
        curves: hour.hour.curves().iter().map(literal_curve).collect(),
        five_minute: hour.curves.iter().map(literal_curve).collect(),
        bids: (0..resources).map(bid).collect(),
        defaults: defaults.map(literal_curve).collect(),
    }
}

fn literal_called(hour: &mut RealTime, call: &Call) -> Answer {
    let cause = |cause: &hour::Cause| (cause.component, cause.competitive_price, cause.floor_price);
    let causes = hour.hour.causes(call.values());
    let answer = hour.take(call);
    Answer {
        causes: Some(causes.map(|causes| causes.iter().map(cause).collect())),
        call: answer.map(|verdicts| verdicts.iter().map(literal_verdict).collect()),
        ..literal_asked(hour)
    }
}

pub fn literal(case: &Case) -> Result<Vec<Answer>, u8> {
    let mut hour = RealTime::new(case.opening.open()?);
    let mut answers = vec![literal_asked(&hour)];
    for call in &case.calls {
        answers.push(literal_called(&mut hour, call));
    }
    Ok(answers)
}

// ---- both

/// Shows a list up to the first call that is answered in two ways.
pub fn show(seed: u64, case: &Case, engine: &Result<Vec<Answer>, u8>, literal: &Result<Vec<Answer>, u8>) {
    println!("list {seed}: {:?}", case.opening);
    let (Ok(engine), Ok(literal)) = (engine, literal) else {
        println!("  engine      {:?}", engine.as_ref().map(Vec::len));
        println!("  independent {:?}", literal.as_ref().map(Vec::len));
        return;
    };
    let first = engine.iter().zip(literal).position(|(engine, literal)| engine != literal);
    let first = first.expect("lists of one length that differ");
    for call in &case.calls[..first] {
        println!("  {call:?}");
    }
    println!("  engine      {:?}", engine[first]);
    println!("  independent {:?}", literal[first]);
}

/// How many of these lists differ, each with the seed that it comes of.
pub fn compare(lists: impl Iterator<Item = (u64, Case)>) -> usize {
    let mut found = 0;
    for (seed, case) in lists {
        let (engine, literal) = (engine(&case), literal(&case));
        if engine == literal {
            continue;
        }
        found += 1;
        if found <= SHOWN {
            show(seed, &case, &engine, &literal);
        }
    }
    found
}
