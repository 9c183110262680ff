//! What the program `mitigate` prints for a text.

use crate::curve::Curve;
use crate::hour::{Hour, Interval};
use crate::text::{Reader, Refused};
use crate::verdict::Verdict;
use std::cmp::Reverse;

pub const VERDICTS: &str = "interval constraint verdict demand left\n";
pub const SELLERS: &str = "interval constraint portfolio withheld\n";
pub const CURVES: &str = "interval resource end price\n";
pub const REFUSAL: &str = "refusal line\n";

/// One accepted interval and the curves of the hour it led to.
#[derive(Clone, Debug)]
pub struct Accepted {
    pub interval: Interval,
    pub verdicts: Vec<Verdict>,
    pub hour: Hour,
    pub curves: Vec<Curve>,
}

#[derive(Clone, Debug, Default)]
pub struct Answer {
    pub opened: bool,
    pub accepted: Vec<Accepted>,
    pub refused: Option<Refused>,
    /// An interval that was refused by its values, and the hour it came to.
    pub refused_interval: Option<(Hour, Interval)>,
}

/// "18 is tested first, then each part's text before its values."
pub fn answer(text: &[u8]) -> Answer {
    let mut answer = Answer::default();
    answer.refused = match text.len() > 65_536 {
        true => Some(Refused {
            number: 18,
            line: 1,
        }),
        false => take_parts(text, &mut answer).err(),
    };
    answer
}

/// "line from 1: ... 1 for 18, else the part's last"
fn take_parts(text: &[u8], answer: &mut Answer) -> Result<(), Refused> {
    let mut reader = Reader::new(text);
    let opening = reader.opening()?;
    let last_line = reader.lines_read();
    let mut hour = opening.open().map_err(|number| Refused {
        number,
        line: last_line,
    })?;
    answer.opened = true;
    while !reader.at_end() {
        let interval = reader.interval()?;
        let last_line = reader.lines_read();
        let verdicts = hour.take(&interval).map_err(|number| {
            answer.refused_interval = Some((hour.clone(), interval.clone()));
            Refused {
                number,
                line: last_line,
            }
        })?;
        let curves = hour
            .resources
            .iter()
            .map(|resource| resource.curve())
            .collect();
        answer.accepted.push(Accepted {
            interval,
            verdicts,
            hour: hour.clone(),
            curves,
        });
    }
    Ok(())
}

/// "Each accepted interval, counted from 1, prints its three tables, names lines included."
pub fn print(answer: &Answer) -> Vec<u8> {
    let mut out = String::new();
    for (index, accepted) in answer.accepted.iter().enumerate() {
        print_verdicts(&mut out, index + 1, &accepted.verdicts);
        print_sellers(&mut out, index + 1, &accepted.verdicts);
        print_curves(&mut out, index + 1, &accepted.curves);
    }
    if let Some(refused) = answer.refused {
        out += REFUSAL;
        out += &format!("{} {}\n", refused.number, refused.line);
    }
    out.into_bytes()
}

fn print_verdicts(out: &mut String, interval: usize, verdicts: &[Verdict]) {
    *out += VERDICTS;
    for (constraint, verdict) in verdicts.iter().enumerate() {
        let Verdict {
            code, demand, left, ..
        } = verdict;
        *out += &format!("{interval} {constraint} {code} {demand} {left}\n");
    }
}

/// "Within a constraint the larger withheld amount now comes first, equal ones by lower portfolio
/// number." (paper 02, 2.3)
pub fn by_weight(verdict: &Verdict) -> Vec<(usize, i128)> {
    let mut sellers = verdict.sellers.clone();
    sellers.sort_by_key(|&(portfolio, withheld)| (Reverse(withheld), portfolio));
    sellers
}

fn print_sellers(out: &mut String, interval: usize, verdicts: &[Verdict]) {
    *out += SELLERS;
    for (constraint, verdict) in verdicts.iter().enumerate() {
        for (portfolio, withheld) in by_weight(verdict) {
            *out += &format!("{interval} {constraint} {portfolio} {withheld}\n");
        }
    }
}

fn print_curves(out: &mut String, interval: usize, curves: &[Curve]) {
    *out += CURVES;
    for (resource, curve) in curves.iter().enumerate() {
        for step in &curve.steps {
            *out += &format!("{interval} {resource} {} {}\n", step.end, step.price);
        }
    }
}
