//! Refusals and what they say.

use std::error::Error;
use std::fmt;

/// Why a text was refused: the number of the reason, 1 to 18, and a line of the text, counted from 1.
///
/// For 17 it is the faulty line, or the one after the last where the text ends early; for 18 it is 1; for any other number it is the
/// last line of the part (the opening, or an interval) that was refused.
///
/// ```
/// let refusal = noskjerf::run(b"").refusal.unwrap();
/// assert_eq!(refusal.to_string(), "line 1: the line is not of the form that is due there (refusal 17)");
/// ```
#[derive(Clone, Copy, Debug, PartialEq, Eq, Hash)]
pub struct Refusal {
    /// The number of the reason.
    pub number: u8,
    /// The line.
    pub line: u64,
}

impl Refusal {
    /// The reason alone, as a sentence for a person.
    pub fn reason(&self) -> &'static str {
        reason(self.number)
    }

    /// The refusal with the number and line that the engine told, where it told one: its numbers are 1 to 18.
    pub(crate) fn told([number, line]: [u64; 2]) -> Option<Refusal> {
        let number = u8::try_from(number).expect("a refusal of the engine");
        (number != 0).then_some(Refusal { number, line })
    }
}

impl fmt::Display for Refusal {
    fn fmt(&self, f: &mut fmt::Formatter<'_>) -> fmt::Result {
        write!(f, "line {}: {} (refusal {})", self.line, self.reason(), self.number)
    }
}

impl Error for Refusal {}

/// Why a call in numbers was refused: the number of the reason alone.
///
/// A bid has 1 to 3, costs 4 to 8, a book of gas prices 21, the parts of a joined curve 1 to 3, 23 and 24. Opening an hour has 1 to 11, an
/// interval 12 to 16, a pass 13 to 16 and 19, the bid for the hour 20, sellers together 13 to 16 and 26. A trading day of a tally has 25.
#[derive(Clone, Copy, Debug, PartialEq, Eq, Hash)]
pub struct Refused {
    /// The number of the reason.
    pub number: u8,
}

impl Refused {
    /// The reason alone, as a sentence for a person.
    pub fn reason(&self) -> &'static str {
        reason(self.number)
    }
}

impl fmt::Display for Refused {
    fn fmt(&self, f: &mut fmt::Formatter<'_>) -> fmt::Result {
        write!(f, "{} (refusal {})", self.reason(), self.number)
    }
}

impl Error for Refused {}

/// What a number says.
pub(crate) fn reason(number: u8) -> &'static str {
    match number {
        1 => "a bid has no step, or more than 10 (a default curve 11)",
        2 => "an edge of a bid (or of a default curve) is outside 0 to 1,000,000, or its edges do not rise",
        3 => "a bid price is outside the range that the month allows (a default price outside its own), or the prices fall",
        4 => "a resource has fewer than 2 cost points, or more than 11",
        5 => "the quantity of a cost point is outside 0 to 1,000,000, or the quantities do not rise",
        6 => "a heat rate is outside 1 to 100,000",
        7 => "a price, rate or fee of the costs is outside its range",
        8 => "an incremental heat rate, after the 80% limit, is outside -100,000 to 100,000",
        9 => "the month is outside 1 to 1,200, the portfolio count outside 1 to 16 or the resource count outside 1 to 64",
        10 => "a portfolio's seller is not 0 or 1, or a resource's portfolio is not declared",
        11 => "a bid reaches outside its default energy bid",
        12 => "the hour has taken four intervals already",
        13 => "the interval does not have as many resources as the hour",
        14 => "the interval has more than 32 constraints",
        15 => "a shadow price, locational price, parameter or shift factor is outside its limits",
        16 => "available is outside 0 to 1,000,000, or floor or dispatch is below 0 or above available",
        17 => "the line is not of the form that is due there",
        18 => "the text has more than 65,536 bytes",
        19 => "no interval is accepted yet, or three passes are accepted since the last",
        20 => "fewer than four intervals are accepted",
        21 => "the market's list of gas prices ends inside a pair, its days do not rise, or it has no entry up to the trading day",
        23 => "the second part does not start at the first one's last end",
        24 => "the two parts have more than 11 steps together",
        25 => "the day's number is not above the last accepted one, a mark is past the 24 hours, or a non-competitive hour is not bound",
        26 => "no constraint of the interval binds",
        _ => "no such refusal is known",
    }
}

#[cfg(test)]
mod tests {
    use super::*;
    use std::collections::BTreeSet;

    #[test]
    fn every_number_has_a_sentence_of_its_own() {
        let numbers = (1..=21).chain(23..=26);
        let sentences: BTreeSet<&str> = numbers.map(reason).collect();
        assert_eq!(sentences.len(), 25);
        for none in [0, 22, 27] {
            assert!(!sentences.contains(reason(none)));
        }
    }

    #[test]
    fn a_number_that_is_told_is_a_refusal() {
        assert_eq!(Refusal::told([0, 0]), None);
        assert_eq!(Refusal::told([12, 55]), Some(Refusal { number: 12, line: 55 }));
    }

    #[test]
    fn it_is_an_error() {
        let error: Box<dyn Error + Send + Sync> = Box::new(Refusal { number: 12, line: 55 });
        assert_eq!(error.to_string(), "line 55: the hour has taken four intervals already (refusal 12)");
    }
}
