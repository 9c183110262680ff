//! Reliability contract units (request 2.9, 39.7.1.6).

use crate::curve::{check_default, raised, Curve, Step, MOST_DEFAULT_STEPS};
use crate::numbers::Refusal;

/// "proxy prices up to its contract capacity and default prices above it"
#[derive(Clone, Debug, PartialEq, Eq)]
pub struct Contract {
    pub proxy: Curve,
    pub above: Curve,
}

impl Contract {
    /// "Join the two curves"
    pub fn appended(&self) -> Curve {
        Curve {
            start: self.proxy.start,
            steps: [&self.proxy.steps[..], &self.above.steps[..]].concat(),
        }
    }

    /// "then raise each price to the largest before it"
    pub fn joined(&self) -> Curve {
        let Curve { start, steps } = self.appended();
        let prices = self.appended().prices();
        let step = |index: usize| Step {
            end: steps[index].end,
            price: raised(&prices, index),
        };
        Curve {
            start,
            steps: (0..steps.len()).map(step).collect(),
        }
    }

    /// "Each part passes a default curve's checks first": the lowest of 1 to 3 over both.
    fn check_parts(&self) -> Result<(), Refusal> {
        let numbers = [&self.proxy, &self.above].map(|part| check_default(part).err());
        numbers.into_iter().flatten().min().map_or(Ok(()), Err)
    }

    /// 23: "the second part doesn't start at the first one's last end"
    pub fn is_apart(&self) -> bool {
        self.above.start != self.proxy.end()
    }

    /// 24: "over 11 steps together"
    pub fn is_too_long(&self) -> bool {
        self.appended().steps.len() as i128 > MOST_DEFAULT_STEPS
    }

    /// The joined curve; 23, then 24, "both after 3".
    pub fn join(&self) -> Result<Curve, Refusal> {
        self.check_parts()?;
        if self.is_apart() {
            return Err(23);
        }
        if self.is_too_long() {
            return Err(24);
        }
        Ok(self.joined())
    }
}
