//! The texts of the project, part by part as a text and in numbers: verdicts, sellers, curves and the numbers of refusals are the same.

use noskjerf::hour::{Costs, Hour, Interval, Opening, Resource};
use noskjerf::judgement::Charges;
use noskjerf::{Curve, Page, Refusal, Refused, Seller, TextHour, Verdict};
use std::fs;
use std::path::Path;

type Table = Vec<Vec<i64>>;

/// The texts of the project's cases that are texts.
fn texts() -> Vec<String> {
    let folder = Path::new(env!("CARGO_MANIFEST_DIR")).join("../crates/text_cases/data");
    let paths = fs::read_dir(folder).unwrap().map(|file| file.unwrap().path());
    let texts = paths.filter(|path| path.extension() == Some("txt".as_ref()));
    texts.filter_map(|path| fs::read_to_string(path).ok()).collect()
}

/// The opening of a text, and its intervals.
fn parts(text: &str) -> Vec<String> {
    let mut parts = vec![String::new()];
    for line in text.split_inclusive('\n') {
        if line == "constraint shadow\n" {
            parts.push(String::new());
        }
        parts.last_mut().unwrap().push_str(line);
    }
    parts
}

/// The tables of a part of the right form, without their names lines. A missing parameter is 0.
fn tables(part: &str) -> Vec<Table> {
    let mut tables = Vec::new();
    for line in part.lines() {
        if line.starts_with(|first: char| first.is_ascii_lowercase()) {
            tables.push(Table::new());
            continue;
        }
        let number = |number: &str| if number == "-" { 0 } else { number.parse().unwrap() };
        tables.last_mut().unwrap().push(line.split(' ').map(number).collect());
    }
    tables
}

/// The lines of a resource.
fn own(table: &Table, resource: i64) -> impl Iterator<Item = &Vec<i64>> {
    table.iter().filter(move |row| row[0] == resource)
}

fn resource(tables: &[Table], row: &[i64]) -> Resource {
    let costs: [i64; 8] = tables[5][row[0] as usize][..].try_into().expect("a line of costs");
    let [_, gas, rate, allowance, om, msc, soc, fee] = costs;
    let charges = Charges {
        gas,
        rate,
        allowance,
        om,
        msc,
        soc,
        fee,
    };
    let costs = own(&tables[4], row[0]).fold(Costs::new(charges), |costs, point| costs.point(point[1], point[2]));
    let bid = own(&tables[3], row[0]).fold(Resource::new(row[1], row[2]), |bid, step| bid.step(step[1], step[2]));
    bid.costs(costs)
}

fn opening(part: &str) -> Opening {
    let tables = tables(part);
    let sellers = tables[1]
        .iter()
        .fold(Opening::month(tables[0][0][0]), |opening, row| opening.portfolio(row[1]));
    tables[2]
        .iter()
        .fold(sellers, |opening, row| opening.resource(resource(&tables, row)))
}

fn interval(part: &str) -> Interval {
    let tables = tables(part);
    let interval = tables[0].iter().fold(Interval::new(), |interval, row| interval.constraint(row[1]));
    let interval = tables[1]
        .iter()
        .fold(interval, |interval, row| interval.resource(row[1], row[2], row[3], row[4]));
    let interval = tables[2]
        .iter()
        .fold(interval, |interval, row| interval.factor(row[0] as usize, row[1] as usize, row[2]));
    interval.parameter(tables[3][0][0])
}

/// Whether a part is refused for its text, which has no numbers then.
fn no_form<T>(answer: &Result<T, Refusal>) -> bool {
    matches!(answer, Err(Refusal { number: 17 | 18, .. }))
}

/// What the hour answers to an interval, as a page.
fn page(hour: &mut Hour, interval: &Interval) -> Result<Page, Refused> {
    let verdicts = hour.interval(interval)?;
    let sellers: Vec<Seller> = verdicts.iter().flat_map(|verdict| verdict.sellers.clone()).collect();
    let verdict = |verdict: &noskjerf::hour::Verdict| Verdict {
        constraint: verdict.constraint,
        finding: verdict.finding,
        demand: verdict.demand,
        left: verdict.left,
    };
    let curve = |resource: usize| Curve {
        resource,
        steps: hour.curve(resource).steps,
    };
    Ok(Page {
        interval: hour.accepted(),
        verdicts: verdicts.iter().map(verdict).collect(),
        sellers,
        curves: (0..hour.resources()).map(curve).collect(),
    })
}

/// Drives a text both ways; answers how many openings and intervals were accepted, and how many refused for their values.
fn compare(text: &str) -> [usize; 4] {
    let parts = parts(text);
    let opened = TextHour::open(parts[0].as_bytes());
    if no_form(&opened) {
        return [0; 4];
    }
    let numbers = Hour::open(&opening(&parts[0]));
    let told = opened.as_ref().err().map(|refusal| refusal.number);
    assert_eq!(numbers.as_ref().err().map(|refused| refused.number), told, "{text}");
    let (mut by_text, mut hour) = match (opened, numbers) {
        (Ok(by_text), Ok(hour)) => (by_text, hour),
        _ => return [0, 1, 0, 0],
    };
    let mut counts = [1, 0, 0, 0];
    for part in &parts[1..] {
        let answer = by_text.interval(part.as_bytes());
        if !no_form(&answer) {
            counts[2 + usize::from(answer.is_err())] += 1;
            let found = page(&mut hour, &interval(part)).map_err(|refused| refused.number);
            assert_eq!(found, answer.map_err(|refusal| refusal.number), "{text}");
        }
    }
    counts
}

#[test]
fn every_text_in_numbers() {
    let mut counts = [0; 4];
    for text in texts() {
        for (count, more) in counts.iter_mut().zip(compare(&text)) {
            *count += more;
        }
    }
    assert!(counts.iter().all(|&count| count > 10), "{counts:?}");
}
