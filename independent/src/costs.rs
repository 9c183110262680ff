//! Default curve from costs (39.7.1.1.1.1).

use crate::curve::{raised, Curve, Step};
use crate::numbers::{is_quantity, strictly_rise, up, within, Refusal};

/// "quantity m strictly rising, average heat rate h, 1 to 100,000 Btu/kWh"
#[derive(Clone, Copy, Debug)]
pub struct Point {
    pub m: i128,
    pub h: i128,
}

#[derive(Clone, Copy, Debug, Default)]
pub struct Costs {
    pub gas: i128,
    pub rate: i128,
    pub allowance: i128,
    pub om: i128,
    pub msc: i128,
    pub soc: i128,
    pub fee: i128,
}

/// A segment, or a part of one that is split: its edges, and R after the 80% limit.
struct Piece {
    from: i128,
    to: i128,
    heat_rate: i128,
}

/// "w = m' - m and n = h' × m' - h × m. R = n / w, up."
fn incremental_heat_rate(left: Point, right: Point) -> i128 {
    let w = right.m - left.m;
    let n = right.h * right.m - left.h * left.m;
    up(n, w)
}

/// "If 5 × m' <= 4 × PMax, R is at most the larger of h and h'."
fn limited_heat_rate(left: Point, right: Point, pmax: i128) -> i128 {
    let r = incremental_heat_rate(left, right);
    if 5 * right.m <= 4 * pmax {
        r.min(left.h.max(right.h))
    } else {
        r
    }
}

/// "PMax is the last m."
pub(crate) fn pmax(points: &[Point]) -> i128 {
    points[points.len() - 1].m
}

/// "k, which is 4 × PMax / 5 rounded down"
pub fn mark(points: &[Point]) -> i128 {
    4 * pmax(points) / 5
}

/// "where k lies strictly inside it"
pub(crate) fn is_split(left: Point, right: Point, k: i128) -> bool {
    left.m < k && k < right.m
}

/// Whether some segment is split.
pub fn has_split(points: &[Point]) -> bool {
    let k = mark(points);
    points.windows(2).any(|pair| is_split(pair[0], pair[1], k))
}

/// "Both parts take n and w of the whole segment for R; the lower part is limited, the upper isn't."
fn split(left: Point, right: Point, k: i128) -> Vec<Piece> {
    let r = incremental_heat_rate(left, right);
    let lower = Piece {
        from: left.m,
        to: k,
        heat_rate: r.min(left.h.max(right.h)),
    };
    let upper = Piece {
        from: k,
        to: right.m,
        heat_rate: r,
    };
    vec![lower, upper]
}

fn pieces(points: &[Point]) -> Vec<Piece> {
    let (pmax, k) = (pmax(points), mark(points));
    let of_segment = |pair: &[Point]| {
        let (left, right) = (pair[0], pair[1]);
        if is_split(left, right, k) {
            return split(left, right, k);
        }
        vec![Piece {
            from: left.m,
            to: right.m,
            heat_rate: limited_heat_rate(left, right, pmax),
        }]
    };
    points.windows(2).flat_map(of_segment).collect()
}

/// "M is the largest R so far, from the left."
fn largest_so_far(pieces: &[Piece], index: usize) -> i128 {
    pieces[..=index]
        .iter()
        .map(|piece| piece.heat_rate)
        .max()
        .unwrap()
}

/// "fuel = M × gas / 1000, up"
fn fuel(m: i128, costs: &Costs) -> i128 {
    up(m * costs.gas, 1000)
}

/// "greenhouse = R × rate × allowance / 1,000,000,000, up"
fn greenhouse(r: i128, costs: &Costs) -> i128 {
    up(r * costs.rate * costs.allowance, 1_000_000_000)
}

/// "fee part = 100 × fee / w, up"
fn fee_part(w: i128, costs: &Costs) -> i128 {
    up(100 * costs.fee, w)
}

/// "cost = fuel + greenhouse + om + msc + soc + fee part; step price = 11 × cost / 10, up."
/// "The fee is spread over each part's own width."
fn own_price(pieces: &[Piece], index: usize, costs: &Costs) -> i128 {
    let piece = &pieces[index];
    let cost = fuel(largest_so_far(pieces, index), costs)
        + greenhouse(piece.heat_rate, costs)
        + costs.om
        + costs.msc
        + costs.soc
        + fee_part(piece.to - piece.from, costs);
    up(11 * cost, 10)
}

/// Refusals 4 to 7; the lowest number wins.
fn check(points: &[Point], costs: &Costs) -> Result<(), Refusal> {
    // 4: "point count outside 2 to 11"
    if !within(points.len() as i128, 2, 11) {
        return Err(4);
    }
    // 5: "m outside 0 to 1,000,000 or not rising"
    let quantities: Vec<i128> = points.iter().map(|point| point.m).collect();
    if !quantities.iter().all(|&m| is_quantity(m)) || !strictly_rise(&quantities) {
        return Err(5);
    }
    // 6: "h outside its range"
    if !points.iter().all(|point| within(point.h, 1, 100_000)) {
        return Err(6);
    }
    // 7: "a price, rate or fee outside its range"
    if !costs_in_range(costs) {
        return Err(7);
    }
    Ok(())
}

/// "gas: 0 to 1,000,000. rate: 0 to 200,000. allowance: 0 to 10,000,000. These four: 0 to 1,000,000."
fn costs_in_range(costs: &Costs) -> bool {
    within(costs.gas, 0, 1_000_000)
        && within(costs.rate, 0, 200_000)
        && within(costs.allowance, 0, 10_000_000)
        && within(costs.om, 0, 1_000_000)
        && within(costs.msc, 0, 1_000_000)
        && within(costs.soc, 0, 1_000_000)
        && within(costs.fee, 0, 1_000_000)
}

/// "The curve starts at the first m and each later m ends one step", and so does k where it splits a segment.
pub fn default_curve(points: &[Point], costs: &Costs) -> Result<Curve, Refusal> {
    check(points, costs)?;
    let pieces = pieces(points);
    // 8: "an R, after the 80% limit, outside -100,000 to 100,000"
    if !pieces
        .iter()
        .all(|piece| within(piece.heat_rate, -100_000, 100_000))
    {
        return Err(8);
    }
    let own_prices: Vec<i128> = (0..pieces.len())
        .map(|index| own_price(&pieces, index, costs))
        .collect();
    let step = |index: usize| Step {
        end: pieces[index].to,
        price: raised(&own_prices, index),
    };
    Ok(Curve {
        start: points[0].m,
        steps: (0..pieces.len()).map(step).collect(),
    })
}

#[cfg(test)]
mod tests {
    use super::*;

    fn points(pairs: &[(i128, i128)]) -> Vec<Point> {
        pairs.iter().map(|&(m, h)| Point { m, h }).collect()
    }

    #[test]
    fn costs_of_case_t() {
        let points = points(&[(10000, 10000), (20000, 9000), (30000, 9500)]);
        let costs = Costs {
            gas: 40000,
            om: 20000,
            msc: 1000,
            soc: 3000,
            fee: 50,
            ..Costs::default()
        };
        let curve = default_curve(&points, &costs).unwrap();
        assert_eq!(curve.prices(), [378402, 444403, 488402]);
        assert_eq!(curve.edges(), [10000, 20000, 24000, 30000]);
    }

    #[test]
    fn the_mark_splits_only_what_it_lies_strictly_inside() {
        let edges = |pairs| {
            default_curve(&points(pairs), &Costs::default())
                .unwrap()
                .edges()
        };
        assert_eq!(edges(&[(0, 1), (7, 1)]), [0, 5, 7]);
        assert_eq!(edges(&[(0, 1), (1, 1)]), [0, 1]);
        assert_eq!(edges(&[(2, 1), (8, 1), (10, 1)]), [2, 8, 10]);
        assert_eq!(edges(&[(8, 1), (10, 1)]), [8, 10]);
        assert_eq!(edges(&[(9, 1), (10, 1)]), [9, 10]);
        assert_eq!(edges(&[(2, 1), (9, 1), (10, 1)]), [2, 8, 9, 10]);
    }

    #[test]
    fn eighty_percent_of_pmax() {
        let (left, pmax) = (Point { m: 12000, h: 100 }, 30000);
        assert_eq!(
            limited_heat_rate(left, Point { m: 24000, h: 200 }, pmax),
            200
        );
        assert_eq!(
            limited_heat_rate(left, Point { m: 24001, h: 200 }, pmax),
            300
        );
    }

    #[test]
    fn incremental_heat_rate_rounds_up() {
        assert_eq!(
            incremental_heat_rate(Point { m: 1, h: 6 }, Point { m: 4, h: 4 }),
            4
        );
        assert_eq!(
            incremental_heat_rate(Point { m: 1, h: 14 }, Point { m: 4, h: 1 }),
            -3
        );
    }

    #[test]
    fn heat_rate_at_its_limits() {
        let taken = |pairs| default_curve(&points(pairs), &Costs::default()).map(|_| ());
        assert_eq!(taken(&[(1, 1000), (2, 50_500)]), Ok(()));
        assert_eq!(taken(&[(1, 999), (2, 50_500)]), Err(8));
        assert_eq!(taken(&[(2, 99_998), (3, 33_332)]), Ok(()));
        assert_eq!(taken(&[(2, 99_999), (3, 33_332)]), Err(8));
    }

    #[test]
    fn a_narrow_steps_fee_is_carried_to_the_right() {
        let costs = Costs {
            fee: 10,
            ..Costs::default()
        };
        let curve = default_curve(&points(&[(0, 1), (1, 1), (101, 1)]), &costs).unwrap();
        assert_eq!(curve.prices(), [1100, 1100, 1100]);
    }
}
