//! The tables of a text before they are written out.

use crate::text::{
    Row, CONSTRAINTS, COSTS, FACTORS, MONTH, OUTPUTS, PARAMETER, POINTS, PORTFOLIOS, RESOURCES,
    STEPS,
};

/// Written as "-".
pub const MISSING: i128 = i128::MIN;

#[derive(Clone, Debug)]
pub struct Table {
    pub names: &'static str,
    pub rows: Vec<Row>,
}

pub type Part = Vec<Table>;

/// The opening, then the intervals.
#[derive(Clone, Debug)]
pub struct Model {
    pub parts: Vec<Part>,
}

fn tables(names: &[&'static str]) -> Part {
    names
        .iter()
        .map(|names| Table {
            names,
            rows: Vec::new(),
        })
        .collect()
}

pub fn empty_opening() -> Part {
    tables(&[MONTH, PORTFOLIOS, RESOURCES, STEPS, POINTS, COSTS])
}

pub fn empty_interval() -> Part {
    tables(&[CONSTRAINTS, OUTPUTS, FACTORS, PARAMETER])
}

pub fn rows<'a>(part: &'a Part, names: &str) -> &'a Vec<Row> {
    &part.iter().find(|table| table.names == names).unwrap().rows
}

pub fn rows_mut<'a>(part: &'a mut Part, names: &str) -> &'a mut Vec<Row> {
    &mut part
        .iter_mut()
        .find(|table| table.names == names)
        .unwrap()
        .rows
}

fn write_row(out: &mut Vec<u8>, row: &Row) {
    let field = |value: &i128| match *value {
        MISSING => "-".to_string(),
        value => value.to_string(),
    };
    let fields: Vec<String> = row.iter().map(field).collect();
    out.extend_from_slice(fields.join(" ").as_bytes());
    out.push(b'\n');
}

pub fn part_bytes(part: &Part) -> Vec<u8> {
    let mut out = Vec::new();
    for table in part {
        out.extend_from_slice(table.names.as_bytes());
        out.push(b'\n');
        for row in &table.rows {
            write_row(&mut out, row);
        }
    }
    out
}

impl Model {
    pub fn bytes(&self) -> Vec<u8> {
        self.parts.iter().flat_map(part_bytes).collect()
    }

    /// Leaves out intervals at the end until the text has at most 65,536 bytes.
    pub fn cut_to_room(&mut self) {
        while self.parts.len() > 1 && self.bytes().len() > 65_536 {
            self.parts.pop();
        }
    }
}
