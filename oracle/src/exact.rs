//! Exact sums of squares: a finite double squared is a whole number of units of 2^-2148.

use std::cmp::Ordering;

/// A whole number, its 64-bit digits from the lowest; the highest is not zero.
#[derive(Debug, Clone, Default, PartialEq, Eq)]
pub struct Natural {
    digits: Vec<u64>,
}

impl Natural {
    /// Adds `x` times 2^(64·place).
    fn add_digit(&mut self, mut x: u64, mut place: usize) {
        while x != 0 {
            if self.digits.len() <= place {
                self.digits.resize(place + 1, 0);
            }
            let (sum, carry) = self.digits[place].overflowing_add(x);
            self.digits[place] = sum;
            x = carry as u64;
            place += 1;
        }
    }

    /// Adds `x` times 2^shift.
    pub fn add_shifted(&mut self, x: u128, shift: usize) {
        for (i, half) in [x as u64, (x >> 64) as u64].into_iter().enumerate() {
            let moved = u128::from(half) << (shift % 64);
            let place = shift / 64 + i;
            self.add_digit(moved as u64, place);
            self.add_digit((moved >> 64) as u64, place + 1);
        }
    }

    /// Adds `other` times 2^shift.
    pub fn add_natural(&mut self, other: &Self, shift: usize) {
        for (i, &digit) in other.digits.iter().enumerate() {
            self.add_shifted(u128::from(digit), 64 * i + shift);
        }
    }
}

impl Ord for Natural {
    fn cmp(&self, other: &Self) -> Ordering {
        let lengths = self.digits.len().cmp(&other.digits.len());
        lengths.then_with(|| self.digits.iter().rev().cmp(other.digits.iter().rev()))
    }
}

impl PartialOrd for Natural {
    fn partial_cmp(&self, other: &Self) -> Option<Ordering> {
        Some(self.cmp(other))
    }
}

/// The sum of the exact squares of finite numbers, in units of 2^-2148.
pub fn sum_of_squares(numbers: &[f64]) -> Natural {
    let mut sum = Natural::default();
    for x in numbers {
        assert!(x.is_finite());
        let fraction = x.to_bits() & ((1 << 52) - 1);
        // x is significand times 2^(exponent - 1074)
        let (significand, exponent) = match (x.to_bits() >> 52) & 0x7ff {
            0 => (fraction, 0),
            biased => (fraction | 1 << 52, biased as usize - 1),
        };
        sum.add_shifted(u128::from(significand).pow(2), 2 * exponent);
    }
    sum
}

/// Whether 2^41 times `a` is at most 2^41 + 1 times `b`.
pub fn close_below(a: &Natural, b: &Natural) -> bool {
    let (mut left, mut right) = (Natural::default(), b.clone());
    left.add_natural(a, 41);
    right.add_natural(b, 41);
    left <= right
}

#[cfg(test)]
mod tests {
    use super::*;

    fn natural(x: u128, shift: usize) -> Natural {
        let mut out = Natural::default();
        out.add_shifted(x, shift);
        out
    }

    #[test]
    fn squares() {
        assert_eq!(sum_of_squares(&[]), Natural::default());
        assert_eq!(sum_of_squares(&[0.0, -0.0]), Natural::default());
        assert_eq!(sum_of_squares(&[5e-324]), natural(1, 0));
        assert_eq!(sum_of_squares(&[5e-324, -1e-323]), natural(5, 0));
        assert_eq!(sum_of_squares(&[3.0, -4.0]), natural(25, 2148));
        assert_eq!(sum_of_squares(&[0.5]), natural(1, 2146));
        assert_eq!(sum_of_squares(&[f64::MIN_POSITIVE]), natural(1, 104));
        let largest = u128::from((1u64 << 53) - 1).pow(2);
        assert_eq!(sum_of_squares(&[f64::MAX]), natural(largest, 2 * 2045));
    }

    #[test]
    fn carries_and_order() {
        for shift in [0, 1, 63, 64, 65, 127, 2148] {
            let mut sum = natural(u128::MAX, shift);
            assert!(sum > natural(u128::MAX - 1, shift));
            assert!(sum < natural(1, shift + 128));
            sum.add_shifted(1, shift);
            assert_eq!(sum, natural(1, shift + 128));
            sum.add_natural(&natural(3, 5), shift);
            assert!(sum > natural(1, shift + 128) && sum < natural(2, shift + 128));
        }
    }

    #[test]
    fn closeness() {
        let million = natural(1 << 41, 100);
        assert!(close_below(&natural((1 << 41) + 1, 100), &million));
        assert!(!close_below(&natural((1 << 41) + 2, 100), &million));
        assert!(close_below(&Natural::default(), &Natural::default()));
        assert!(!close_below(&natural(1, 0), &Natural::default()));
    }
}
