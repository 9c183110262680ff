//! Short on every path together (request 2.11).

use crate::hour::{Hour, Interval};
use crate::numbers::Refusal;
use crate::verdict::effectiveness;

/// A binding constraint: demand, supply, and what each portfolio can withhold.
#[derive(Clone, Debug)]
pub struct Path {
    pub demand: i128,
    pub supply: i128,
    pub withholdable: Vec<i128>,
}

/// "The result has the best set, the sets tried, and a floor". Beside them, how the search went.
#[derive(Clone, Debug, Default, PartialEq, Eq)]
pub struct Together {
    /// "the result is none" where it is missing.
    pub best: Option<u32>,
    pub tried: u64,
    pub floor: u64,
    /// How often a set replaced the best.
    pub replaced: usize,
    /// How many sets worked and had as many members as the best, another one.
    pub ties: usize,
}

/// "bit p standing for portfolio p"
pub fn is_member(set: u32, portfolio: usize) -> bool {
    set >> portfolio & 1 == 1
}

impl Path {
    /// A constraint's demand, supply and amounts, as the path verdict has them.
    pub fn of(hour: &Hour, interval: &Interval, constraint: usize) -> Path {
        let mut path = Path {
            demand: 0,
            supply: 0,
            withholdable: vec![0; hour.net_seller.len()],
        };
        for (index, resource) in hour.resources.iter().enumerate() {
            let e = effectiveness(interval.shift_factors[index][constraint]);
            let output = interval.outputs[index];
            path.demand += e * output.dispatch;
            path.supply += e * output.available;
            path.withholdable[resource.portfolio] += e * (output.available - output.floor);
        }
        path
    }

    /// "supply less withheld below demand"
    fn is_short_of(&self, withheld: i128) -> bool {
        self.supply - withheld < self.demand
    }

    /// "full withholding leaves" it short.
    pub fn is_left_short(&self, set: u32) -> bool {
        let members = (0..self.withholdable.len()).filter(|&portfolio| is_member(set, portfolio));
        self.is_short_of(members.map(|portfolio| self.withholdable[portfolio]).sum())
    }

    /// Whether some `count` of the sellers, beside those that withhold already, leave it short.
    fn some_are_enough(&self, sellers: &[usize], count: usize, withheld: i128) -> bool {
        if count == 0 {
            return self.is_short_of(withheld);
        }
        (0..sellers.len()).any(|at| {
            let more = withheld + self.withholdable[sellers[at]];
            self.some_are_enough(&sellers[at + 1..], count - 1, more)
        })
    }

    /// "count that one constraint alone needs": combinations by size, the small ones first.
    pub fn need(&self, sellers: &[usize]) -> Option<usize> {
        (0..=sellers.len()).find(|&count| self.some_are_enough(sellers, count, 0))
    }
}

/// "leaves every binding constraint of an interval short"
pub fn works(paths: &[Path], set: u32) -> bool {
    paths.iter().all(|path| path.is_left_short(set))
}

impl Hour {
    /// "A constraint binds exactly when its shadow price is above 0."
    pub fn binding(&self, interval: &Interval) -> Vec<Path> {
        (0..interval.shadow_prices.len())
            .filter(|&constraint| interval.shadow_prices[constraint] > 0)
            .map(|constraint| Path::of(self, interval, constraint))
            .collect()
    }

    /// "only net sellers in it"
    pub fn has_only_net_sellers(&self, set: u32) -> bool {
        let portfolios = 0..self.net_seller.len();
        let buyer = |portfolio: usize| !self.net_seller[portfolio] && is_member(set, portfolio);
        set >> self.net_seller.len() == 0 && !portfolios.into_iter().any(buyer)
    }

    /// "all net sellers together"
    pub fn all_net_sellers(&self) -> u32 {
        let sellers = self.net_seller.iter().enumerate();
        sellers
            .map(|(portfolio, &seller)| u32::from(seller) << portfolio)
            .sum()
    }

    /// "sets are tried in rising order of their number ..., the empty set left out, until the given
    /// budget or the sets run out; a set that works replaces the best only if it has fewer members"
    fn search(&self, paths: &[Path], budget: u64) -> Together {
        let mut best = self.all_net_sellers();
        let (mut tried, mut replaced, mut ties) = (0, 0, 0);
        for set in 1..1 << self.net_seller.len() {
            if tried == budget {
                break;
            }
            if !self.has_only_net_sellers(set) {
                continue;
            }
            tried += 1;
            let (members, fewest) = (set.count_ones(), best.count_ones());
            if members > fewest || set == best || !works(paths, set) {
                continue;
            }
            if members < fewest {
                best = set;
                replaced += 1;
            } else {
                ties += 1;
            }
        }
        Together {
            best: Some(best),
            tried,
            floor: 0,
            replaced,
            ties,
        }
    }

    /// The fewest net sellers that leave every binding constraint of an interval short.
    pub fn together(&self, interval: &Interval, budget: u64) -> Result<Together, Refusal> {
        // "26 ... after 13 to 16; 12 never applies here"
        self.check_values(interval)?;
        let paths = self.binding(interval);
        // 26: "no constraint binds"
        if paths.is_empty() {
            return Err(26);
        }
        // "If all net sellers together can't ..., the result is none, with 0 sets tried and floor 0"
        if !works(&paths, self.all_net_sellers()) {
            return Ok(Together::default());
        }
        let sellers: Vec<usize> = (0..self.net_seller.len())
            .filter(|&portfolio| self.net_seller[portfolio])
            .collect();
        // "a floor: the largest count that one constraint alone needs"
        let needs = paths.iter().map(|path| path.need(&sellers));
        let largest = needs
            .map(|need| need.expect("all net sellers are enough"))
            .max();
        Ok(Together {
            floor: largest.unwrap_or(0) as u64,
            ..self.search(&paths, budget)
        })
    }
}
