//! The bound on rounding (request 2.14): "Against the same definition with no rounding but that of k, a default price worked out from costs
//! is never lower, and is higher by less than 11/10 × (gas / 1000 + rate × allowance / 1,000,000,000 + 3) + 1, split segments included."

use crate::costs::{is_split, mark, pmax, Costs, Point};
use std::cmp::Ordering;

/// "pairs of whole numbers, a numerator over a denominator above 0", in lowest terms
#[derive(Clone, Copy, Debug, PartialEq, Eq)]
pub struct Amount {
    numerator: i128,
    denominator: i128,
}

fn common_divisor(a: i128, b: i128) -> i128 {
    if b == 0 {
        a
    } else {
        common_divisor(b, a % b)
    }
}

impl Amount {
    /// The divisor is above 0.
    pub fn over(dividend: i128, divisor: i128) -> Amount {
        assert!(divisor > 0);
        let common = common_divisor(divisor, dividend.abs());
        Amount {
            numerator: dividend / common,
            denominator: divisor / common,
        }
    }

    pub fn whole(number: i128) -> Amount {
        Amount::over(number, 1)
    }

    /// The sum, over the least denominator that both have.
    pub fn plus(self, other: Amount) -> Amount {
        let common = common_divisor(self.denominator, other.denominator);
        let (by, others) = (other.denominator / common, self.denominator / common);
        Amount::over(
            self.numerator * by + other.numerator * others,
            self.denominator * by,
        )
    }

    /// The amount × `number` / `divisor`, which is above 0.
    pub fn times(self, number: i128, divisor: i128) -> Amount {
        let common = common_divisor(self.denominator, number.abs());
        let rest = Amount::over(self.numerator, divisor);
        Amount::over(
            rest.numerator * (number / common),
            rest.denominator * (self.denominator / common),
        )
    }

    /// For what is printed alone.
    pub fn nearly(self) -> f64 {
        self.numerator as f64 / self.denominator as f64
    }
}

/// As by cross products, which can pass 128 bits: the whole parts first, then what is left of both, by its reciprocals.
impl Ord for Amount {
    fn cmp(&self, other: &Amount) -> Ordering {
        let parts = |amount: &Amount| {
            (
                amount.numerator.div_euclid(amount.denominator),
                amount.numerator.rem_euclid(amount.denominator),
            )
        };
        let ((whole, rest), (others, others_rest)) = (parts(self), parts(other));
        whole.cmp(&others).then_with(|| {
            if rest == 0 || others_rest == 0 {
                return rest.cmp(&others_rest);
            }
            Amount::over(other.denominator, others_rest).cmp(&Amount::over(self.denominator, rest))
        })
    }
}

impl PartialOrd for Amount {
    fn partial_cmp(&self, other: &Amount) -> Option<Ordering> {
        Some(self.cmp(other))
    }
}

/// A segment, or a part of one that is split: its width, and R after the 80% limit.
struct Piece {
    width: i128,
    heat_rate: Amount,
}

/// "w = m' - m and n = h' × m' - h × m. R = n / w"; where the limit holds, "R is at most the larger of h and h'".
fn heat_rate(left: Point, right: Point, limited: bool) -> Amount {
    let w = right.m - left.m;
    let n = right.h * right.m - left.h * left.m;
    let r = Amount::over(n, w);
    if limited {
        r.min(Amount::whole(left.h.max(right.h)))
    } else {
        r
    }
}

/// "If 5 × m' <= 4 × PMax"; "Both parts take n and w of the whole segment for R; the lower part is limited, the upper isn't."
fn pieces(points: &[Point]) -> Vec<Piece> {
    let (pmax, k) = (pmax(points), mark(points));
    let of_segment = |pair: &[Point]| {
        let (left, right) = (pair[0], pair[1]);
        let piece = |from: i128, to: i128, limited: bool| Piece {
            width: to - from,
            heat_rate: heat_rate(left, right, limited),
        };
        if is_split(left, right, k) {
            vec![piece(left.m, k, true), piece(k, right.m, false)]
        } else {
            vec![piece(left.m, right.m, 5 * right.m <= 4 * pmax)]
        }
    };
    points.windows(2).flat_map(of_segment).collect()
}

/// "cost = fuel + greenhouse + om + msc + soc + fee part; step price = 11 × cost / 10", with M "the largest R so far, from the left"
fn own_price(pieces: &[Piece], index: usize, costs: &Costs) -> Amount {
    let rates = pieces[..=index].iter().map(|piece| piece.heat_rate);
    let m = rates.max().unwrap();
    let fuel = m.times(costs.gas, 1000);
    let greenhouse = pieces[index]
        .heat_rate
        .times(costs.rate * costs.allowance, 1_000_000_000);
    let fee_part = Amount::over(100 * costs.fee, pieces[index].width);
    let others = Amount::whole(costs.om + costs.msc + costs.soc);
    let cost = fuel.plus(greenhouse).plus(others).plus(fee_part);
    cost.times(11, 10)
}

/// The unrounded prices of the steps of accepted costs: "Last, each step price is raised to the largest before it."
pub fn unrounded_prices(points: &[Point], costs: &Costs) -> Vec<Amount> {
    let pieces = pieces(points);
    let mut largest: Option<Amount> = None;
    let raised = |index: usize| {
        let own = own_price(&pieces, index, costs);
        let price = largest.map_or(own, |before| own.max(before));
        largest = Some(price);
        price
    };
    (0..pieces.len()).map(raised).collect()
}

/// "11/10 × (gas / 1000 + rate × allowance / 1,000,000,000 + 3) + 1"
pub fn bound(costs: &Costs) -> Amount {
    let gas = Amount::over(costs.gas, 1000);
    let greenhouse = Amount::over(costs.rate * costs.allowance, 1_000_000_000);
    let inside = gas.plus(greenhouse).plus(Amount::whole(3));
    inside.times(11, 10).plus(Amount::whole(1))
}

/// "never lower, and .. higher by less than" the bound
pub fn is_bounded(price: i128, unrounded: Amount, bound: Amount) -> bool {
    unrounded <= Amount::whole(price) && Amount::whole(price) < unrounded.plus(bound)
}

#[cfg(test)]
mod tests {
    use super::*;
    use crate::costs::default_curve;

    fn points(pairs: &[(i128, i128)]) -> Vec<Point> {
        pairs.iter().map(|&(m, h)| Point { m, h }).collect()
    }

    /// All prices lie within the bound.
    fn assert_bounded(points: &[Point], costs: &Costs) {
        let prices = default_curve(points, costs).unwrap().prices();
        let unrounded = unrounded_prices(points, costs);
        assert_eq!(prices.len(), unrounded.len());
        for (&price, &amount) in prices.iter().zip(&unrounded) {
            assert!(
                is_bounded(price, amount, bound(costs)),
                "{price} {amount:?}"
            );
        }
    }

    /// R is 8000, and 10500 but at most 9500 up to 24000; M × 40 + 24000 + 5000 / w, w 10000, 4000 and 6000; 11/10 of that.
    #[test]
    fn case_t() {
        let points = points(&[(10000, 10000), (20000, 9000), (30000, 9500)]);
        let costs = Costs {
            gas: 40000,
            om: 20000,
            msc: 1000,
            soc: 3000,
            fee: 50,
            ..Costs::default()
        };
        let prices = [(7568011, 20), (3555211, 8), (5860811, 12)].map(|(n, d)| Amount::over(n, d));
        assert_eq!(unrounded_prices(&points, &costs), prices);
        assert_eq!(bound(&costs), Amount::over(483, 10));
        assert_bounded(&points, &costs);
    }

    /// 4 and 4 over 12375011 and 16500011 in 10,000,000,000: without its last 1 the bound would be passed.
    #[test]
    fn the_last_one_is_needed() {
        let points = points(&[(0, 1), (1_000_000, 1)]);
        let costs = Costs {
            gas: 1,
            rate: 1,
            allowance: 1,
            fee: 1,
            ..Costs::default()
        };
        let parts = |n: i128| Amount::over(n, 10_000_000_000);
        assert_eq!(default_curve(&points, &costs).unwrap().prices(), [4, 4]);
        assert_eq!(
            unrounded_prices(&points, &costs),
            [parts(12_375_011), parts(16_500_011)]
        );
        assert_eq!(bound(&costs), parts(43_011_000_011));
        assert_bounded(&points, &costs);
        let short = parts(33_011_000_011);
        assert!(!is_bounded(4, parts(12_375_011), short));
        assert!(!is_bounded(4, parts(16_500_011), short));
    }

    /// R is -10/3, then 25/2 past the mark: 11/10 of -10 and of 75/2, under -9 and 43.
    #[test]
    fn below_zero() {
        let points = points(&[(2, 10), (5, 2), (7, 5)]);
        let costs = Costs {
            gas: 3000,
            ..Costs::default()
        };
        assert_eq!(default_curve(&points, &costs).unwrap().prices(), [-9, 43]);
        assert_eq!(
            unrounded_prices(&points, &costs),
            [Amount::whole(-11), Amount::over(165, 4)]
        );
        assert_bounded(&points, &costs);
    }

    /// 11/10 of 1, of 5/7, which is raised to it, and of 5/3.
    #[test]
    fn raised_to_the_largest_before() {
        let points = points(&[(0, 1), (100, 1), (300, 1)]);
        let costs = Costs {
            fee: 1,
            ..Costs::default()
        };
        let prices = [(11, 10), (11, 10), (11, 6)].map(|(n, d)| Amount::over(n, d));
        assert_eq!(unrounded_prices(&points, &costs), prices);
        assert_bounded(&points, &costs);
    }

    /// Neither a sum nor an order passes 128 bits: M is over 333,333, R over 266,657 and the fee part over 266,650.
    #[test]
    fn at_the_limits() {
        let points = points(&[
            (200_003, 95_003),
            (533_336, 94_007),
            (799_993, 80_021),
            (999_983, 80_020),
        ]);
        let costs = Costs {
            gas: 999_983,
            rate: 199_999,
            allowance: 9_999_991,
            om: 1_000_000,
            msc: 1_000_000,
            soc: 1_000_000,
            fee: 999_983,
        };
        assert_bounded(&points, &costs);
    }

    #[test]
    fn amounts_in_order() {
        let amounts = [(-7, 2), (-10, 3), (0, 5), (1, 3), (2, 5), (1, 2), (7, 2)]
            .map(|(n, d)| Amount::over(n, d));
        assert!(amounts.windows(2).all(|pair| pair[0] < pair[1]));
        let long = 10i128.pow(37);
        assert!(Amount::over(long, long - 1) < Amount::over(long - 1, long - 2));
        assert_eq!(Amount::over(4, 6).cmp(&Amount::over(2, 3)), Ordering::Equal);
    }
}
