//! Path verdict (39.7.2.2): is the constraint's counterflow supply competitive?

/// What one resource brings to one constraint.
#[derive(Clone, Copy, Debug)]
pub struct Counterflow {
    pub portfolio: usize,
    pub effectiveness: i128,
    pub dispatch: i128,
    pub available: i128,
    pub floor: i128,
}

pub const COMPETITIVE: u8 = 0;
pub const NON_COMPETITIVE: u8 = 1;
pub const NOT_BINDING: u8 = 2;

#[derive(Clone, Debug, PartialEq, Eq)]
pub struct Verdict {
    /// "Verdict 0 is competitive, 1 non-competitive, 2 not binding (then 0 0 and no sellers)."
    pub code: u8,
    pub demand: i128,
    pub left: i128,
    /// Portfolio and the amount it withholds.
    pub sellers: Vec<(usize, i128)>,
    /// What each net seller can withhold, 0 for a net buyer.
    pub withholdable: Vec<i128>,
}

/// "A resource's effectiveness e is -s where its shift factor s is below 0, else 0."
pub fn effectiveness(shift_factor: i128) -> i128 {
    if shift_factor < 0 {
        -shift_factor
    } else {
        0
    }
}

/// "Demand is the sum of e × dispatch over all resources."
pub fn demand(flows: &[Counterflow]) -> i128 {
    flows
        .iter()
        .map(|flow| flow.effectiveness * flow.dispatch)
        .sum()
}

/// "Supply is the sum of e × available."
pub fn supply(flows: &[Counterflow]) -> i128 {
    flows
        .iter()
        .map(|flow| flow.effectiveness * flow.available)
        .sum()
}

/// "a portfolio can withhold the sum of e × (available - floor) over its resources"
fn portfolio_withholdable(flows: &[Counterflow], portfolio: usize) -> i128 {
    let own = flows.iter().filter(|flow| flow.portfolio == portfolio);
    own.map(|flow| flow.effectiveness * (flow.available - flow.floor))
        .sum()
}

/// "Seller 1 marks a net seller, 0 a net buyer." Only net sellers withhold.
fn withholdable(flows: &[Counterflow], net_seller: &[bool]) -> Vec<i128> {
    let amount = |portfolio: usize| match net_seller[portfolio] {
        true => portfolio_withholdable(flows, portfolio),
        false => 0,
    };
    (0..net_seller.len()).map(amount).collect()
}

/// Every set of at most three portfolios, bit p standing for portfolio p.
pub fn sets_of_at_most_three(portfolios: usize) -> Vec<u32> {
    (0u32..1 << portfolios)
        .filter(|set| set.count_ones() <= 3)
        .collect()
}

fn members(set: u32, portfolios: usize) -> impl Iterator<Item = usize> {
    (0..portfolios).filter(move |portfolio| set >> portfolio & 1 == 1)
}

/// "it binds and some set of at most three net sellers, each withholding a whole amount up to
/// that, leaves supply less withheld below demand". Withholding more never leaves more, so each
/// seller of a set withholds all it can.
fn some_set_leaves_too_little(
    flows: &[Counterflow],
    net_seller: &[bool],
    amounts: &[i128],
    sets: &[u32],
) -> bool {
    let (supply, demand) = (supply(flows), demand(flows));
    sets.iter().any(|&set| {
        let mut withheld = 0;
        for portfolio in members(set, net_seller.len()) {
            if !net_seller[portfolio] {
                return false;
            }
            withheld += amounts[portfolio];
        }
        supply - withheld < demand
    })
}

/// "the three largest such amounts (ties: lower portfolio number)": a net seller is among them
/// when fewer than three come before it.
fn among_three_largest(net_seller: &[bool], amounts: &[i128], portfolio: usize) -> bool {
    let before = |other: &usize| {
        let other = *other;
        net_seller[other]
            && (amounts[other] > amounts[portfolio]
                || amounts[other] == amounts[portfolio] && other < portfolio)
    };
    net_seller[portfolio] && (0..net_seller.len()).filter(before).count() < 3
}

/// "A seller that can withhold 0 isn't named."
fn named(net_seller: &[bool], amounts: &[i128]) -> Vec<(usize, i128)> {
    (0..net_seller.len())
        .filter(|&portfolio| among_three_largest(net_seller, amounts, portfolio))
        .filter(|&portfolio| amounts[portfolio] > 0)
        .map(|portfolio| (portfolio, amounts[portfolio]))
        .collect()
}

/// "A constraint binds exactly when its shadow price is above 0."
pub fn judge(
    shadow_price: i128,
    flows: &[Counterflow],
    net_seller: &[bool],
    sets: &[u32],
) -> Verdict {
    let amounts = withholdable(flows, net_seller);
    if shadow_price <= 0 {
        let sellers = Vec::new();
        return Verdict {
            code: NOT_BINDING,
            demand: 0,
            left: 0,
            sellers,
            withholdable: amounts,
        };
    }
    let code = match some_set_leaves_too_little(flows, net_seller, &amounts, sets) {
        true => NON_COMPETITIVE,
        false => COMPETITIVE,
    };
    let sellers = named(net_seller, &amounts);
    // "'left', supply less the three largest such amounts"
    let left = supply(flows) - sellers.iter().map(|&(_, amount)| amount).sum::<i128>();
    Verdict {
        code,
        demand: demand(flows),
        left,
        sellers,
        withholdable: amounts,
    }
}

#[cfg(test)]
mod tests {
    use super::*;

    fn judged(available: &[i128], net_seller: &[bool], demand: i128) -> Verdict {
        let flow = |(portfolio, &available): (usize, &i128)| Counterflow {
            portfolio,
            effectiveness: 1,
            dispatch: if portfolio == 0 { demand } else { 0 },
            available,
            floor: 0,
        };
        let flows: Vec<Counterflow> = available.iter().enumerate().map(flow).collect();
        judge(
            1,
            &flows,
            net_seller,
            &sets_of_at_most_three(net_seller.len()),
        )
    }

    #[test]
    fn four_net_sellers() {
        let sellers = [true; 4];
        assert_eq!(judged(&[5, 4, 3, 2], &sellers, 2).code, COMPETITIVE);
        assert_eq!(judged(&[5, 4, 3, 2], &sellers, 3).code, NON_COMPETITIVE);
        assert_eq!(judged(&[5, 4, 3, 2], &sellers, 3).left, 2);
    }

    #[test]
    fn a_net_buyer_does_not_withhold() {
        let sellers = [false, true, true, true];
        assert_eq!(judged(&[5, 4, 3, 2], &sellers, 5).code, COMPETITIVE);
        assert_eq!(judged(&[5, 4, 3, 2], &sellers, 6).code, NON_COMPETITIVE);
        assert_eq!(judged(&[5, 4, 3, 2], &sellers, 6).left, 5);
    }

    #[test]
    fn ties_go_to_the_lower_portfolio() {
        let verdict = judged(&[2, 7, 2, 2, 2], &[true, true, false, true, true], 0);
        assert_eq!(verdict.sellers, [(0, 2), (1, 7), (3, 2)]);
    }

    #[test]
    fn a_seller_without_amount_is_not_named() {
        assert_eq!(judged(&[0, 3, 0], &[true; 3], 0).sellers, [(1, 3)]);
    }

    #[test]
    fn every_set_once() {
        assert_eq!(sets_of_at_most_three(0), [0]);
        assert_eq!(sets_of_at_most_three(16).len(), 1 + 16 + 120 + 560);
    }
}
