//! Text: tables of names lines and value lines, read part by part.

use crate::costs::{Costs, Point};
use crate::curve::{Curve, Step};
use crate::hour::{Interval, Offer, Opening, Output, Source};
use crate::numbers::{within, Refusal};

pub const MONTH: &str = "month";
pub const PORTFOLIOS: &str = "portfolio seller";
pub const RESOURCES: &str = "resource portfolio start";
pub const STEPS: &str = "resource end price";
pub const POINTS: &str = "resource mw heat";
pub const COSTS: &str = "resource gas rate allowance om msc soc fee";
pub const CONSTRAINTS: &str = "constraint shadow";
pub const OUTPUTS: &str = "resource lmp dispatch available floor";
pub const FACTORS: &str = "resource constraint factor";
pub const PARAMETER: &str = "parameter";

/// "A refusal returns its number alone, for a text also the line."
#[derive(Clone, Copy, Debug, PartialEq, Eq)]
pub struct Refused {
    pub number: Refusal,
    pub line: usize,
}

pub type Row = Vec<i128>;

/// "The reader carries the lent text and the offset of the next line."
pub struct Reader<'a> {
    text: &'a [u8],
    offset: usize,
    lines_read: usize,
}

/// "no leading zeros, no -0, when read at most 12 digits, '-' before a negative"
fn number(field: &[u8]) -> Option<i128> {
    let (negative, digits) = match field.strip_prefix(b"-") {
        Some(digits) => (true, digits),
        None => (false, field),
    };
    if !within(digits.len() as i128, 1, 12) || !digits.iter().all(u8::is_ascii_digit) {
        return None;
    }
    if digits[0] == b'0' && (digits.len() > 1 || negative) {
        return None;
    }
    let size = digits
        .iter()
        .fold(0, |size, digit| size * 10 + i128::from(digit - b'0'));
    Some(if negative { -size } else { size })
}

/// A line of values: "one space between".
fn values(line: &[u8], columns: usize) -> Option<Row> {
    let row: Option<Row> = line.split(|&byte| byte == b' ').map(number).collect();
    row.filter(|row| row.len() == columns)
}

fn columns(names: &str) -> usize {
    names.split(' ').count()
}

/// "count up by one", "Ids ... count from 0"
fn counts_up(rows: &[Row], row: &Row) -> bool {
    row[0] == rows.len() as i128
}

/// "Steps and points are grouped by rising resource."
fn grouped(rows: &[Row], row: &Row, resources: usize) -> bool {
    declared(row[0], resources) && rows.last().is_none_or(|last| last[0] <= row[0])
}

/// "Factors strictly rise by (resource, constraint)."
fn factor_rises(rows: &[Row], row: &Row, resources: usize, constraints: usize) -> bool {
    declared(row[0], resources)
        && declared(row[1], constraints)
        && rows
            .last()
            .is_none_or(|last| (last[0], last[1]) < (row[0], row[1]))
}

/// "ids never declared in the same part are form"
fn declared(id: i128, count: usize) -> bool {
    within(id, 0, count as i128 - 1)
}

impl<'a> Reader<'a> {
    pub fn new(text: &'a [u8]) -> Reader<'a> {
        Reader {
            text,
            offset: 0,
            lines_read: 0,
        }
    }

    pub fn at_end(&self) -> bool {
        self.offset == self.text.len()
    }

    pub fn lines_read(&self) -> usize {
        self.lines_read
    }

    /// "each line closed by byte 10": a rest without byte 10 is no line.
    fn peek(&self) -> Option<&'a [u8]> {
        let rest = &self.text[self.offset..];
        let length = rest.iter().position(|&byte| byte == 10)?;
        Some(&rest[..length])
    }

    fn skip(&mut self, line: &[u8]) {
        self.offset += line.len() + 1;
        self.lines_read += 1;
    }

    /// "the faulty one for 17, the one after the last if the text ends early"
    fn faulty(&self) -> Refused {
        Refused {
            number: 17,
            line: self.lines_read + 1,
        }
    }

    fn names(&mut self, names: &str) -> Result<(), Refused> {
        let line = self
            .peek()
            .filter(|line| *line == names.as_bytes())
            .ok_or(self.faulty())?;
        self.skip(line);
        Ok(())
    }

    /// One line of values that fits the rows before it.
    fn row(
        &mut self,
        names: &str,
        rows: &[Row],
        fits: &dyn Fn(&[Row], &Row) -> bool,
    ) -> Result<Row, Refused> {
        let line = self.peek().ok_or(self.faulty())?;
        let row = values(line, columns(names)).filter(|row| fits(rows, row));
        let row = row.ok_or(self.faulty())?;
        self.skip(line);
        Ok(row)
    }

    /// A table that goes on until the next one's names line.
    fn table(
        &mut self,
        names: &str,
        next_names: &str,
        fits: &dyn Fn(&[Row], &Row) -> bool,
    ) -> Result<Vec<Row>, Refused> {
        self.names(names)?;
        let mut rows = Vec::new();
        while self.peek() != Some(next_names.as_bytes()) {
            let row = self.row(names, &rows, fits)?;
            rows.push(row);
        }
        Ok(rows)
    }

    /// "Costs have one line for each resource, month and parameter one line."
    fn table_of(
        &mut self,
        names: &str,
        count: usize,
        fits: &dyn Fn(&[Row], &Row) -> bool,
    ) -> Result<Vec<Row>, Refused> {
        self.names(names)?;
        let mut rows = Vec::new();
        while rows.len() < count {
            let row = self.row(names, &rows, fits)?;
            rows.push(row);
        }
        Ok(rows)
    }

    /// "Parameter '-' alone is missing", and 2.5: "Missing now means 0, formerly 100."
    fn parameter(&mut self) -> Result<i128, Refused> {
        self.names(PARAMETER)?;
        if self.peek() == Some(b"-") {
            self.skip(b"-");
            return Ok(0);
        }
        Ok(self.row(PARAMETER, &[], &|_, _| true)?[0])
    }

    /// "the first six are one part"
    pub fn opening(&mut self) -> Result<Opening, Refused> {
        let month = self.table_of(MONTH, 1, &|_, _| true)?[0][0];
        let portfolios = self.table(PORTFOLIOS, RESOURCES, &counts_up)?;
        let resources = self.table(RESOURCES, STEPS, &counts_up)?;
        let count = resources.len();
        let in_groups = |rows: &[Row], row: &Row| grouped(rows, row, count);
        let steps = self.table(STEPS, POINTS, &in_groups)?;
        let points = self.table(POINTS, COSTS, &in_groups)?;
        let costs = self.table_of(COSTS, count, &counts_up)?;
        let sellers = portfolios.iter().map(|row| row[1]).collect();
        let offer = |resource: &Row| Offer {
            portfolio: resource[1],
            bid: bid(resource, &steps),
            source: Source::Costs(
                points_of(resource, &points),
                costs_of(&costs[resource[0] as usize]),
            ),
        };
        Ok(Opening {
            month,
            sellers,
            offers: resources.iter().map(offer).collect(),
        })
    }

    /// "the last four another that repeats for each interval, from none on"
    pub fn interval(&mut self) -> Result<Interval, Refused> {
        let constraints = self.table(CONSTRAINTS, OUTPUTS, &counts_up)?;
        let resources = self.table(OUTPUTS, FACTORS, &counts_up)?;
        let rises =
            |rows: &[Row], row: &Row| factor_rises(rows, row, resources.len(), constraints.len());
        let factors = self.table(FACTORS, PARAMETER, &rises)?;
        let parameter = self.parameter()?;
        // "an absent one is 0"
        let mut shift_factors = vec![vec![0; constraints.len()]; resources.len()];
        for row in &factors {
            shift_factors[row[0] as usize][row[1] as usize] = row[2];
        }
        let shadow_prices = constraints.iter().map(|row| row[1]).collect();
        let outputs = resources.iter().map(output).collect();
        Ok(Interval {
            shadow_prices,
            outputs,
            shift_factors,
            parameter,
        })
    }
}

fn bid(resource: &Row, steps: &[Row]) -> Curve {
    let own = steps.iter().filter(|row| row[0] == resource[0]);
    let steps = own
        .map(|row| Step {
            end: row[1],
            price: row[2],
        })
        .collect();
    Curve {
        start: resource[2],
        steps,
    }
}

fn points_of(resource: &Row, points: &[Row]) -> Vec<Point> {
    let own = points.iter().filter(|row| row[0] == resource[0]);
    own.map(|row| Point {
        m: row[1],
        h: row[2],
    })
    .collect()
}

fn costs_of(row: &Row) -> Costs {
    Costs {
        gas: row[1],
        rate: row[2],
        allowance: row[3],
        om: row[4],
        msc: row[5],
        soc: row[6],
        fee: row[7],
    }
}

fn output(row: &Row) -> Output {
    Output {
        lmp: row[1],
        dispatch: row[2],
        available: row[3],
        floor: row[4],
    }
}

#[cfg(test)]
mod tests {
    use super::*;

    #[test]
    fn numbers_of_the_form() {
        assert_eq!(number(b"0"), Some(0));
        assert_eq!(number(b"-7"), Some(-7));
        assert_eq!(number(b"-999999999999"), Some(-999_999_999_999));
        for wrong in [
            "",
            "-",
            "-0",
            "00",
            "07",
            "-07",
            "+1",
            "1000000000000",
            "1 ",
            "1\r",
            "--1",
        ] {
            assert_eq!(number(wrong.as_bytes()), None, "{wrong}");
        }
    }

    #[test]
    fn values_are_parted_by_one_space() {
        assert_eq!(values(b"1 -2 3", 3), Some(vec![1, -2, 3]));
        assert_eq!(values(b"1  2", 2), None);
        assert_eq!(values(b" 1 2", 2), None);
        assert_eq!(values(b"1 2 ", 2), None);
        assert_eq!(values(b"1 2", 3), None);
        assert_eq!(values(b"", 1), None);
    }
}
