//! Runs generated tables through the pack's archive, by its C name and by its crate, and through the independent implementation, and compares what
//! they answer; then opens an hour with the curve of each accepted one as the pack of a resource, through the engine's archive and the
//! independent implementation, and compares what every call answers: `hydro_compare [TABLES] [FIRST SEED]`.
//!
//! A seed gives the same table and the same calls each time. A table on which the answers differ is shown with all of them, an hour with both.

mod archive;

use archive::Answer;
use compare::{calls, counted, seeds, Share};
use hydro_independent::generate::{case, Case, HUBS};
use hydro_independent::{Hub, Hydro};
use independent::generate::calls as lists;
use std::process::ExitCode;

/// Of the tables that differ, at most so many are shown by each thread.
const SHOWN: usize = 3;

fn small(number: i128) -> i64 {
    number.try_into().expect("a number of 64 bits")
}

fn literal(hydro: &Hydro) -> Answer {
    let curve = hydro.default_curve()?;
    let steps = curve.steps.iter().map(|step| (small(step.end), small(step.price)));
    Ok((small(curve.start), steps.collect()))
}

/// The same through the crate. More hubs than the table has are the same ones again.
fn by_crate(hydro: &Hydro) -> Answer {
    let hub = |hub: &Hub| noskjerf_hydro::Hub {
        peak: small(hub.day_ahead_peak),
        balance: small(hub.balance_of_month),
        months: hub.monthly.iter().map(|&price| small(price)).collect(),
    };
    let hubs = hydro.hub_count.min(300) as usize;
    let asked = noskjerf_hydro::Hydro {
        low: small(hydro.lowest),
        high: small(hydro.highest),
        heat: small(hydro.h),
        gas: small(hydro.gas),
        horizon: hydro.horizon as usize,
        hubs: (0..hubs).map(|i| hub(&hydro.hubs[i % HUBS])).collect(),
    };
    let curve = asked.default_curve().map_err(|refused| refused.number)?;
    Ok((curve.start, curve.steps.iter().map(|step| (step.end, step.price)).collect()))
}

/// Whether the table's answers differ; shows the first such ones.
fn differs(seed: u64, hydro: &Hydro, shown: &mut usize) -> bool {
    let due = literal(hydro);
    let table = archive::table(hydro);
    let mut shorter = table.clone();
    while shorter.last() == Some(&0) {
        shorter.pop();
    }
    let longer = [&table[..], &[i64::MIN; 14]].concat();
    let answers = [
        ("independent", due.clone()),
        ("archive", archive::ask(hydro, &table)),
        ("without zeros at the end", archive::ask(hydro, &shorter)),
        ("with a fifth hub's prices", archive::ask(hydro, &longer)),
        ("crate", by_crate(hydro)),
    ];
    if answers.iter().all(|(_, answer)| *answer == due) {
        return false;
    }
    *shown += 1;
    if *shown <= SHOWN {
        println!("table {seed}: {hydro:?}");
        answers.iter().for_each(|(whose, answer)| println!("  {whose}: {answer:?}"));
    }
    true
}

/// The hour with the unit, where its table is accepted.
fn hour_of(case: Case) -> Option<lists::Case> {
    let curve = case.hydro.default_curve().ok()?;
    case.hour_with(curve)
}

/// How many tables differ; how many hours there are, and how many of them differ.
fn differing(seeds: Share) -> [usize; 3] {
    let mut shown = 0;
    let tables = seeds.clone().filter(|&seed| differs(seed, &case(seed).hydro, &mut shown)).count();
    let mut tried = 0;
    let hours = seeds.filter_map(|seed| Some((seed, hour_of(case(seed))?))).inspect(|_| tried += 1);
    let hours = calls::compare(hours);
    [tables, tried, hours]
}

fn main() -> ExitCode {
    let seeds = seeds();
    let [tables, tried, hours] = counted(&seeds, differing);
    println!("hydro/compare: {} tables, {tables} differ", seeds.end - seeds.start);
    println!("hydro/compare: {tried} hours with a hydro unit, {hours} differ");
    if tables + hours == 0 {
        ExitCode::SUCCESS
    } else {
        ExitCode::FAILURE
    }
}
