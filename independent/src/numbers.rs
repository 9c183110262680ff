//! Units: whole numbers, rounding and ranges.

/// "A refusal returns its number alone."
pub type Refusal = u8;

/// "Quantities are hundredths of a MW, 0 to 1,000,000."
pub const MOST_QUANTITY: i128 = 1_000_000;

/// "Shift factors are millionths, -1,000,000 to 1,000,000."
pub const MILLION: i128 = 1_000_000;

/// "'Up' means rounded toward plus infinity." The divisor is above 0.
pub fn up(dividend: i128, divisor: i128) -> i128 {
    assert!(divisor > 0);
    -(-dividend).div_euclid(divisor)
}

pub fn within(number: i128, lowest: i128, highest: i128) -> bool {
    lowest <= number && number <= highest
}

pub fn is_quantity(number: i128) -> bool {
    within(number, 0, MOST_QUANTITY)
}

/// Each number is above the one before it.
pub fn strictly_rise(numbers: &[i128]) -> bool {
    numbers.windows(2).all(|pair| pair[0] < pair[1])
}

/// No number is below the one before it.
pub fn never_fall(numbers: &[i128]) -> bool {
    numbers.windows(2).all(|pair| pair[0] <= pair[1])
}

#[cfg(test)]
mod tests {
    use super::*;

    #[test]
    fn rounds_toward_plus_infinity() {
        assert_eq!(up(10, 3), 4);
        assert_eq!(up(-10, 3), -3);
        assert_eq!(up(9, 3), 3);
        assert_eq!(up(-9, 3), -3);
        assert_eq!(up(0, 7), 0);
        assert_eq!(up(-1, 1_000_000), 0);
        assert_eq!(up(1, 1_000_000), 1);
    }
}
