//! What a text prints, as pages and a refusal.

use crate::Refusal;
use std::iter::Peekable;
use std::str::Lines;

/// The names lines of the tables.
const VERDICTS: &str = "interval constraint verdict demand left";
const SELLERS: &str = "interval constraint portfolio withheld";
const CURVES: &str = "interval resource end price";
const REFUSAL: &str = "refusal line";

/// What a text prints: a page for each accepted interval, and the refusal that stopped it, if any.
#[derive(Clone, Debug, PartialEq, Eq)]
#[must_use]
pub struct Output {
    /// The bytes, as the program `mitigate` writes them.
    pub bytes: Vec<u8>,
    /// The pages of the accepted intervals, in their order.
    pub pages: Vec<Page>,
    /// Why the text was refused. The pages before it hold all the same.
    pub refusal: Option<Refusal>,
}

impl Output {
    /// The pages of a text that had to be accepted whole, or its refusal.
    ///
    /// ```
    /// fn pages(text: &[u8]) -> Result<usize, Box<dyn std::error::Error>> {
    ///     let pages = noskjerf::run(text).accepted()?;
    ///     Ok(pages.len())
    /// }
    /// assert!(pages(b"month\n").is_err());
    /// ```
    pub fn accepted(self) -> Result<Vec<Page>, Refusal> {
        match self.refusal {
            Some(refusal) => Err(refusal),
            None => Ok(self.pages),
        }
    }

    /// The output with these bytes, which the engine printed, and the refusal that it told.
    pub(crate) fn of(bytes: Vec<u8>, refusal: Option<Refusal>) -> Output {
        let pages = read(&bytes).expect("the engine prints pages and then at most one refusal");
        Output { bytes, pages, refusal }
    }
}

/// What an accepted interval prints.
#[derive(Clone, Debug, PartialEq, Eq)]
pub struct Page {
    /// The interval, 1 to 4.
    pub interval: usize,
    /// The verdict on each constraint, in the order of the constraints.
    pub verdicts: Vec<Verdict>,
    /// The sellers named, at most three for each constraint that binds, in the order of the constraints. Within a constraint the larger
    /// withheld amount comes first, equal ones by lower portfolio number.
    pub sellers: Vec<Seller>,
    /// The bid curve of each resource after this interval, in the order of the resources.
    pub curves: Vec<Curve>,
}

/// The verdict on a constraint's path.
#[derive(Clone, Copy, Debug, PartialEq, Eq)]
pub struct Verdict {
    /// The constraint.
    pub constraint: usize,
    /// What was found.
    pub finding: Finding,
    /// Demand for counterflow, in hundred-millionths of a MW; 0 where the constraint does not bind.
    pub demand: u64,
    /// Counterflow supply left without what the sellers named can withhold, in hundred-millionths of a MW; 0 where it does not bind.
    pub left: u64,
}

/// What a verdict finds.
#[derive(Clone, Copy, Debug, PartialEq, Eq, Hash)]
pub enum Finding {
    /// The constraint binds, and no three net sellers can leave supply below demand. Printed as 0.
    Competitive,
    /// The constraint binds, and some three net sellers or fewer can. Printed as 1.
    NonCompetitive,
    /// The shadow price is 0. Printed as 2.
    NotBinding,
}

impl Finding {
    /// The finding that a number is printed for.
    pub(crate) fn of(number: i64) -> Option<Finding> {
        match number {
            0 => Some(Finding::Competitive),
            1 => Some(Finding::NonCompetitive),
            2 => Some(Finding::NotBinding),
            _ => None,
        }
    }

    /// The number that it is printed as.
    pub(crate) fn number(self) -> i64 {
        match self {
            Finding::Competitive => 0,
            Finding::NonCompetitive => 1,
            Finding::NotBinding => 2,
        }
    }
}

/// A net seller named for a constraint.
#[derive(Clone, Copy, Debug, PartialEq, Eq)]
pub struct Seller {
    /// The constraint.
    pub constraint: usize,
    /// The seller's portfolio.
    pub portfolio: usize,
    /// All the counterflow supply that it can withhold, in hundred-millionths of a MW; never 0.
    pub withheld: u64,
}

/// The bid curve of a resource. It starts where the bid that opened the hour starts; the start is not printed.
#[derive(Clone, Debug, PartialEq, Eq)]
pub struct Curve {
    /// The resource.
    pub resource: usize,
    /// The steps, 1 to 20 of them; ends and prices rise.
    pub steps: Vec<Step>,
}

/// A step of a curve: it reaches from the end of the step before it, or from the curve's start, up to its own end.
#[derive(Clone, Copy, Debug, PartialEq, Eq)]
pub struct Step {
    /// The end, in hundredths of a MW.
    pub end: i64,
    /// The price, in 0.0001 dollar per MWh.
    pub price: i64,
}

/// Reads the pages that the engine printed, or nothing where they have another form. The lines of a refusal come after them and aren't
/// read: the engine tells the refusal.
fn read(bytes: &[u8]) -> Option<Vec<Page>> {
    let mut lines = std::str::from_utf8(bytes).ok()?.lines().peekable();
    let mut pages = Vec::new();
    while lines.peek() == Some(&VERDICTS) {
        pages.push(page(&mut lines)?);
    }
    match lines.next() {
        Some(REFUSAL) | None => Some(pages),
        Some(_) => None,
    }
}

/// Reads the three tables of an interval.
fn page(lines: &mut Peekable<Lines<'_>>) -> Option<Page> {
    let verdicts = table(lines, VERDICTS)?;
    let sellers = table(lines, SELLERS)?;
    let steps: Vec<[i64; 4]> = table(lines, CURVES)?;
    Some(Page {
        interval: steps.first()?[0].try_into().ok()?,
        verdicts: verdicts.into_iter().map(verdict).collect::<Option<_>>()?,
        sellers: sellers.into_iter().map(seller).collect::<Option<_>>()?,
        curves: curves(&steps)?,
    })
}

/// Reads a table: its names line, and all the lines of numbers that follow.
fn table<const N: usize>(lines: &mut Peekable<Lines<'_>>, names: &str) -> Option<Vec<[i64; N]>> {
    lines.next_if(|line| *line == names)?;
    let mut rows = Vec::new();
    while let Some(row) = lines.peek().and_then(|line| row(line)) {
        rows.push(row);
        lines.next();
    }
    Some(rows)
}

/// Reads a line of N numbers.
fn row<const N: usize>(line: &str) -> Option<[i64; N]> {
    let numbers: Vec<i64> = line.split(' ').map(|number| number.parse().ok()).collect::<Option<_>>()?;
    numbers.try_into().ok()
}

fn verdict([_, constraint, finding, demand, left]: [i64; 5]) -> Option<Verdict> {
    Some(Verdict {
        constraint: constraint.try_into().ok()?,
        finding: Finding::of(finding)?,
        demand: demand.try_into().ok()?,
        left: left.try_into().ok()?,
    })
}

fn seller([_, constraint, portfolio, withheld]: [i64; 4]) -> Option<Seller> {
    Some(Seller {
        constraint: constraint.try_into().ok()?,
        portfolio: portfolio.try_into().ok()?,
        withheld: withheld.try_into().ok()?,
    })
}

/// The curves of the lines, in which those of a resource stand together.
fn curves(mut rows: &[[i64; 4]]) -> Option<Vec<Curve>> {
    let mut curves = Vec::new();
    while let Some(first) = rows.first() {
        let (own, rest) = rows.split_at(rows.iter().take_while(|row| row[1] == first[1]).count());
        curves.push(curve(own)?);
        rows = rest;
    }
    Some(curves)
}

/// The curve of the lines of one resource.
fn curve(rows: &[[i64; 4]]) -> Option<Curve> {
    Some(Curve {
        resource: rows.first()?[1].try_into().ok()?,
        steps: rows.iter().map(|&[_, _, end, price]| Step { end, price }).collect(),
    })
}

#[cfg(test)]
mod tests {
    use super::*;

    const PAGE: &str = "\
interval constraint verdict demand left
1 0 1 10000000000 0
1 1 2 0 0
interval constraint portfolio withheld
1 0 0 15000000000
interval resource end price
1 0 15000 -300000
1 0 20000 378402
1 1 7 0
";

    #[test]
    fn a_page_is_read() {
        let pages = read(PAGE.as_bytes()).unwrap();
        assert_eq!(pages.len(), 1);
        let page = &pages[0];
        assert_eq!(page.interval, 1);
        assert_eq!(
            page.verdicts,
            [
                Verdict {
                    constraint: 0,
                    finding: Finding::NonCompetitive,
                    demand: 10_000_000_000,
                    left: 0
                },
                Verdict {
                    constraint: 1,
                    finding: Finding::NotBinding,
                    demand: 0,
                    left: 0
                },
            ]
        );
        assert_eq!(
            page.sellers,
            [Seller {
                constraint: 0,
                portfolio: 0,
                withheld: 15_000_000_000
            }]
        );
        let steps = vec![
            Step {
                end: 15000,
                price: -300000,
            },
            Step { end: 20000, price: 378402 },
        ];
        assert_eq!(page.curves[0], Curve { resource: 0, steps });
        assert_eq!(
            page.curves[1],
            Curve {
                resource: 1,
                steps: vec![Step { end: 7, price: 0 }]
            }
        );
    }

    #[test]
    fn a_page_before_a_refusal_is_read() {
        let pages = read(format!("{PAGE}refusal line\n17 24\n").as_bytes());
        assert_eq!(pages, read(PAGE.as_bytes()));
        assert_eq!(read(b"refusal line\n17 24\n"), Some(Vec::new()));
    }

    #[test]
    fn the_refusal_is_the_one_told() {
        let refusal = Some(Refusal { number: 17, line: 24 });
        let output = Output::of(format!("{PAGE}refusal line\n17 24\n").into_bytes(), refusal);
        assert_eq!((output.pages.len(), output.refusal), (1, refusal));
        assert_eq!(Output::of(PAGE.into(), None).accepted().unwrap().len(), 1);
    }

    #[test]
    fn nothing_is_read_from_another_form() {
        for other in ["x\n", "17 1\n", "1 0 1 0 0\n"] {
            assert_eq!(read(other.as_bytes()), None, "{other:?}");
        }
        assert_eq!(read(&PAGE.as_bytes()[..PAGE.len() - 40]), None);
    }
}
