//! Values at a limit and one past it, in one or several fields of an hour.

use super::hours::add_resource;
use super::model::{rows, rows_mut, Model, Part, Table};
use super::random::Random;
use super::resources::Drawn;
use crate::costs::{Costs, Point};
use crate::curve::{highest_bid_price, Curve, Step, LOWEST_BID_PRICE};
use crate::text::{
    CONSTRAINTS, COSTS, FACTORS, MONTH, OUTPUTS, PARAMETER, POINTS, PORTFOLIOS, RESOURCES, STEPS,
};

/// Lowest and highest value of a column.
fn range(names: &str, column: usize, portfolios: i128, month: i128) -> (i128, i128) {
    match (names, column) {
        (MONTH, _) => (1, 1200),
        (PORTFOLIOS, _) => (0, 1),
        (RESOURCES, 1) => (0, portfolios - 1),
        (STEPS, 2) => (LOWEST_BID_PRICE, highest_bid_price(month)),
        (POINTS, 2) => (1, 100_000),
        (COSTS, 2) => (0, 200_000),
        (COSTS, 3) => (0, 10_000_000),
        (CONSTRAINTS, 1) => (0, 100_000_000),
        (OUTPUTS, 1) => (-100_000_000, 100_000_000),
        (FACTORS, 2) => (-1_000_000, 1_000_000),
        (PARAMETER, _) => (0, 100),
        _ => (0, 1_000_000),
    }
}

/// A limit or its neighbour on either side; now and then a value far outside.
pub fn around(rng: &mut Random, lowest: i128, highest: i128, present: i128) -> i128 {
    let widths = [
        1 << 8,
        1 << 16,
        1 << 31,
        1 << 32,
        1 << 32,
        -(1 << 32),
        3 << 32,
    ];
    match rng.below(14) {
        0..=2 => lowest - 1,
        3 => lowest,
        4..=6 => highest + 1,
        7 => highest,
        8..=10 => present + rng.pick(&widths),
        11 => rng.pick(&[999_999_999_999, -999_999_999_999]),
        12 => -present,
        _ => present + rng.between(-1, 1),
    }
}

/// Numbers no text can hold.
pub fn far(rng: &mut Random) -> i128 {
    let (lowest, highest) = (i64::MIN.into(), i64::MAX.into());
    rng.pick(&[
        lowest,
        lowest + 1,
        highest,
        highest - 1,
        1 << 62,
        -(1 << 62),
    ])
}

/// The number, or the nearest of 64 bits.
pub fn of_64_bits(number: i128) -> i128 {
    number.clamp(i64::MIN.into(), i64::MAX.into())
}

/// Outside the limits, or far outside.
pub fn outside(rng: &mut Random, lowest: i128, highest: i128, present: i128) -> i128 {
    of_64_bits(match rng.below(4) {
        0 => far(rng),
        1 => around(rng, lowest, highest, present),
        2 => lowest - 1,
        _ => highest + 1,
    })
}

fn first_column(names: &str) -> usize {
    match names {
        MONTH | PARAMETER => 0,
        FACTORS => 2,
        _ => 1,
    }
}

/// A table and one of its columns that hold limited values; each column is as likely as another.
fn some_column(rng: &mut Random, part: &Part) -> (usize, usize) {
    let mut columns = Vec::new();
    for (index, table) in part.iter().enumerate() {
        let last = table.names.split(' ').count();
        columns.extend((first_column(table.names)..last).map(|column| (index, column)));
    }
    rng.pick(&columns)
}

/// Changes one field of one part.
pub fn change_field(rng: &mut Random, model: &mut Model, part: usize) {
    let opening = &model.parts[0];
    let portfolios = rows(opening, PORTFOLIOS).len() as i128;
    let month = rows(opening, MONTH)[0][0];
    let (table, column) = some_column(rng, &model.parts[part]);
    let table = &mut model.parts[part][table];
    if table.rows.is_empty() {
        return;
    }
    let row = rng.below(table.rows.len());
    let (lowest, highest) = range(table.names, column, portfolios, month);
    let present = table.rows[row][column].clamp(-999_999_999, 999_999_999);
    table.rows[row][column] = around(rng, lowest, highest, present);
}

fn some_part(rng: &mut Random, model: &Model) -> usize {
    match rng.below(3) {
        0 => 0,
        _ => rng.below(model.parts.len()),
    }
}

/// A field of the opening or of one of the intervals.
pub fn change_some_field(rng: &mut Random, model: &mut Model) {
    let part = some_part(rng, model);
    change_field(rng, model, part);
}

/// Several fields of one part, so that refusals compete.
pub fn change_fields_of_a_part(rng: &mut Random, model: &mut Model) {
    let part = some_part(rng, model);
    for _ in 0..rng.count(2, 4) {
        change_field(rng, model, part);
    }
}

/// Dispatch or floor at available or one above it.
fn output_above_available(rng: &mut Random, part: &mut Part) {
    let outputs = rows_mut(part, OUTPUTS);
    if outputs.is_empty() {
        return;
    }
    let row = rng.below(outputs.len());
    let column = rng.pick(&[2, 4]);
    outputs[row][column] = outputs[row][3] + rng.between(0, 1);
}

/// A step's or point's field equal to the one before it, or one to its side.
fn neighbour(rng: &mut Random, opening: &mut Part) {
    let names = rng.pick(&[STEPS, POINTS]);
    let table = rows_mut(opening, names);
    if table.len() < 2 {
        return;
    }
    let row = rng.count(1, table.len() - 1);
    let column = rng.pick(&[1, 2]);
    table[row][column] = table[row - 1][column] + rng.between(-1, 1);
}

/// The bid's first or last edge at the default curve's, or one to its side.
fn bid_at_default_edge(rng: &mut Random, opening: &mut Part) {
    let resource = rng.below(rows(opening, RESOURCES).len());
    let own = |names: &str| {
        let rows = rows(opening, names).iter().enumerate();
        rows.filter(|(_, row)| row[0] == resource as i128)
            .map(|(index, _)| index)
            .collect()
    };
    let (steps, points): (Vec<usize>, Vec<usize>) = (own(STEPS), own(POINTS));
    if steps.is_empty() || points.is_empty() {
        return;
    }
    let off = rng.between(-1, 1);
    if rng.once_in(2) {
        let edge = rows(opening, POINTS)[points[0]][1];
        rows_mut(opening, RESOURCES)[resource][2] = edge + off;
    } else {
        let edge = rows(opening, POINTS)[points[points.len() - 1]][1];
        rows_mut(opening, STEPS)[steps[steps.len() - 1]][1] = edge + off;
    }
}

/// Two points whose incremental heat rate is `wanted`, found by trying.
pub fn points_of_heat_rate(rng: &mut Random, wanted: i128) -> Option<Vec<Point>> {
    for _ in 0..2000 {
        let m = rng.between(1, 12);
        let w = rng.between(1, 6);
        let n = wanted * w - rng.between(0, w - 1);
        let h = rng.between(1, 100_000);
        let right = h * m + n;
        if right % (m + w) == 0 && (1..=100_000).contains(&(right / (m + w))) {
            let left = Point { m, h };
            return Some(vec![
                left,
                Point {
                    m: m + w,
                    h: right / (m + w),
                },
            ]);
        }
    }
    None
}

/// One more resource whose R is at its limit or one past it.
fn add_heat_rate_at_limit(rng: &mut Random, model: &mut Model) {
    let wanted = rng.pick(&[-100_001, -100_000, 100_000, 100_001]);
    let Some(points) = points_of_heat_rate(rng, wanted) else {
        return;
    };
    let (start, end) = (points[0].m, points[1].m);
    let price = rng.between(-1000, 1000);
    let bid = Curve {
        start,
        steps: vec![Step { end, price }],
    };
    let (gas, rate) = (rng.pick(&[0, 1_000, 1_000_000]), rng.pick(&[0, 200_000]));
    let costs = Costs {
        gas,
        rate,
        allowance: 10_000_000,
        ..Costs::default()
    };
    add_resource(&mut model.parts[0], 0, &Drawn { bid, points, costs });
    for part in &mut model.parts[1..] {
        let id = rows(part, OUTPUTS).len() as i128;
        let lmp = rng.pick(&[5, -100_000_000]);
        rows_mut(part, OUTPUTS).push(vec![id, lmp, 1, 1, 0]);
        if !rows(part, CONSTRAINTS).is_empty() {
            rows_mut(part, FACTORS).push(vec![id, 0, -1]);
        }
    }
}

/// The last step's price at the highest a month allows or one past it, or the first step's at the
/// lowest.
fn price_at_limit(rng: &mut Random, model: &mut Model) {
    let opening = &mut model.parts[0];
    let month = rng.pick(&[1, 12, 13, 24, 25, 1200]);
    rows_mut(opening, MONTH)[0][0] = month;
    let highest = match rng.below(3) {
        0 => rng.pick(&[5_000_000, 7_500_000, 10_000_000]),
        _ => highest_bid_price(month),
    };
    let steps = rows_mut(opening, STEPS);
    match steps.len() {
        0 => {}
        _ if rng.once_in(2) => steps[0][2] = LOWEST_BID_PRICE - rng.between(0, 1),
        count => steps[count - 1][2] = highest + rng.between(0, 1),
    }
}

/// One value that stands in no order, or not inside, with another.
pub fn change_relation(rng: &mut Random, model: &mut Model) {
    match rng.below(8) {
        0 => neighbour(rng, &mut model.parts[0]),
        1 => bid_at_default_edge(rng, &mut model.parts[0]),
        2 => add_heat_rate_at_limit(rng, model),
        3..=5 => price_at_limit(rng, model),
        _ => {
            let part = rng.below(model.parts.len());
            match part {
                0 => bid_at_default_edge(rng, &mut model.parts[0]),
                _ => output_above_available(rng, &mut model.parts[part]),
            }
        }
    }
}

/// A table whose lines begin with ids.
fn some_table_with_ids<'a>(rng: &mut Random, model: &'a mut Model) -> &'a mut Table {
    let part = rng.below(model.parts.len());
    let names = match (part, rng.once_in(2)) {
        (0, true) => rng.pick(&[STEPS, POINTS]),
        (0, false) => rng.pick(&[PORTFOLIOS, RESOURCES, COSTS]),
        (_, true) => FACTORS,
        (_, false) => rng.pick(&[CONSTRAINTS, OUTPUTS]),
    };
    let part = &mut model.parts[part];
    part.iter_mut().find(|table| table.names == names).unwrap()
}

/// An id one off, undeclared, or equal to a declared one in its lowest bits; or the ids of the line
/// before; or two lines in each other's place.
pub fn change_some_id(rng: &mut Random, model: &mut Model) {
    let table = some_table_with_ids(rng, model);
    let columns = first_column(table.names);
    if table.rows.is_empty() {
        return;
    }
    let row = rng.below(table.rows.len());
    let column = rng.below(columns);
    let present = table.rows[row][column];
    let last = table.rows[table.rows.len() - 1][column];
    let farther = rng.pick(&[1 << 8, 1 << 16, 1 << 32, 1 << 32]);
    match rng.below(4) {
        0 if row > 0 => {
            let before = table.rows[row - 1][..columns].to_vec();
            table.rows[row][..columns].copy_from_slice(&before);
        }
        1 if row > 0 => table.rows.swap(row - 1, row),
        2 => table.rows[row][column] = present + farther,
        _ => {
            let choices = [present - 1, present + 1, last + 1, -1, 0, 64, 32];
            table.rows[row][column] = rng.pick(&choices);
        }
    }
}
