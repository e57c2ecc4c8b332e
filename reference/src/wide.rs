//! Whole numbers of 512 bits, for document 01, "Accuracy over whole numbers".
//! Every operation that would leave the range panics.

use std::cmp::Ordering;
use std::ops::{Add, Mul, Sub};

const LIMBS: usize = 8;

/// An unsigned number of 512 bits, least significant limb first.
#[derive(Clone, Copy, PartialEq, Eq, Debug)]
pub struct Wide(pub [u64; 8]);

impl Wide {
    pub const ZERO: Wide = Wide([0; LIMBS]);

    /// The largest whole number whose square is not above this one.
    pub fn square_root(self) -> Wide {
        // Bit by bit: `root` is the root so far times two, shifted to the
        // place of the bit under trial.
        let mut remainder = self;
        let mut root = Wide::ZERO;
        let mut bits = self.bit_length().div_ceil(2);
        while bits > 0 {
            bits -= 1;
            let bit = Wide::power_of_two(2 * bits);
            let trial = root + bit;
            root = root.halved();
            if remainder >= trial {
                remainder = remainder - trial;
                root = root + bit;
            }
        }
        root
    }

    fn bit_length(self) -> usize {
        let top = self.0.iter().rposition(|limb| *limb != 0);
        top.map_or(0, |limb| {
            64 * (limb + 1) - self.0[limb].leading_zeros() as usize
        })
    }

    fn power_of_two(exponent: usize) -> Wide {
        let mut limbs = [0; LIMBS];
        limbs[exponent / 64] = 1 << (exponent % 64);
        Wide(limbs)
    }

    fn halved(self) -> Wide {
        let mut limbs = self.0;
        let mut carry = 0;
        for limb in limbs.iter_mut().rev() {
            let low_bit = *limb & 1;
            *limb = (*limb >> 1) | (carry << 63);
            carry = low_bit;
        }
        Wide(limbs)
    }
}

impl From<u128> for Wide {
    fn from(number: u128) -> Wide {
        let mut limbs = [0; LIMBS];
        limbs[0] = number as u64;
        limbs[1] = (number >> 64) as u64;
        Wide(limbs)
    }
}

impl Ord for Wide {
    fn cmp(&self, other: &Wide) -> Ordering {
        self.0.iter().rev().cmp(other.0.iter().rev())
    }
}

impl PartialOrd for Wide {
    fn partial_cmp(&self, other: &Wide) -> Option<Ordering> {
        Some(self.cmp(other))
    }
}

impl Add for Wide {
    type Output = Wide;

    fn add(self, other: Wide) -> Wide {
        let mut limbs = self.0;
        let mut carry = false;
        for (limb, added) in limbs.iter_mut().zip(other.0) {
            let (sum, first) = limb.overflowing_add(added);
            let (sum, second) = sum.overflowing_add(u64::from(carry));
            *limb = sum;
            carry = first || second;
        }
        assert!(!carry, "sum above 512 bits");
        Wide(limbs)
    }
}

impl Sub for Wide {
    type Output = Wide;

    fn sub(self, other: Wide) -> Wide {
        let mut limbs = self.0;
        let mut borrow = false;
        for (limb, taken) in limbs.iter_mut().zip(other.0) {
            let (rest, first) = limb.overflowing_sub(taken);
            let (rest, second) = rest.overflowing_sub(u64::from(borrow));
            *limb = rest;
            borrow = first || second;
        }
        assert!(!borrow, "difference under zero");
        Wide(limbs)
    }
}

impl Mul for Wide {
    type Output = Wide;

    fn mul(self, other: Wide) -> Wide {
        let mut limbs = [0_u64; LIMBS];
        for (shift, factor) in self.0.into_iter().enumerate() {
            if factor != 0 {
                add_product(&mut limbs, shift, factor, &other);
            }
        }
        Wide(limbs)
    }
}

/// Adds `factor` times `other`, moved up by `shift` limbs.
fn add_product(limbs: &mut [u64; LIMBS], shift: usize, factor: u64, other: &Wide) {
    let (kept, lost) = other.0.split_at(LIMBS - shift);
    let mut carry = 0_u128;
    for (limb, digit) in limbs[shift..].iter_mut().zip(kept) {
        let sum = u128::from(factor) * u128::from(*digit) + u128::from(*limb) + carry;
        *limb = sum as u64;
        carry = sum >> 64;
    }
    let fits = carry == 0 && lost.iter().all(|digit| *digit == 0);
    assert!(fits, "product above 512 bits");
}

impl Mul<u128> for Wide {
    type Output = Wide;

    fn mul(self, other: u128) -> Wide {
        self * Wide::from(other)
    }
}

#[cfg(test)]
mod tests {
    use super::*;

    /// Numbers of many lengths, from a multiplicative generator.
    fn samples(bits: u32) -> Vec<u128> {
        let mut state = 0x9E37_79B9_7F4A_7C15_F39C_C060_5CED_C835_u128;
        (0..200)
            .map(|index| {
                state = state
                    .wrapping_mul(0x2360_ED05_1FC6_5DA4_4385_DF64_9FCC_F645)
                    .wrapping_add(0x5851_F42D_4C95_7F2D_1405_7B7E_F767_814F);
                (state >> (128 - bits)) >> (index % bits)
            })
            .collect()
    }

    fn large(high: u128, low: u128) -> Wide {
        Wide::from(high) * Wide::from(u128::MAX) + Wide::from(low)
    }

    const LARGEST: Wide = Wide([u64::MAX; LIMBS]);

    #[test]
    fn agrees_with_u128() {
        let numbers = samples(63);
        for pair in numbers.windows(2) {
            let (x, y) = (pair[0], pair[1]);
            let (wide_x, wide_y) = (Wide::from(x), Wide::from(y));
            assert_eq!(wide_x + wide_y, Wide::from(x + y));
            assert_eq!(wide_x * wide_y, Wide::from(x * y));
            assert_eq!(wide_x * y, Wide::from(x * y));
            assert_eq!(wide_x.cmp(&wide_y), x.cmp(&y));
            if x >= y {
                assert_eq!(wide_x - wide_y, Wide::from(x - y));
            }
        }
    }

    #[test]
    fn roots_agree_with_u128() {
        for number in samples(128).into_iter().chain(0..2_000).chain([u128::MAX]) {
            assert_eq!(Wide::from(number).square_root(), Wide::from(number.isqrt()));
        }
    }

    #[test]
    fn identities_of_large_numbers() {
        for three in samples(120).windows(3) {
            let x = large(three[0], three[1]);
            let y = large(three[1], three[2]);
            assert_eq!(x + y, y + x);
            assert_eq!((x + y) - y, x);
            assert_eq!((x + y) * (x + y), x * x + x * y * 2 + y * y);
            let (less, more) = (x.min(y), x.max(y));
            assert_eq!((more - less) * (more + less), more * more - less * less);
            assert_eq!(more - less == Wide::ZERO, more == less);
        }
    }

    #[test]
    fn roots_of_large_squares() {
        let one = Wide::from(1);
        for pair in samples(127).windows(2) {
            let x = large(pair[0], pair[1]) + one;
            let square = x * x;
            assert_eq!(square.square_root(), x);
            assert_eq!((square - one).square_root(), x - one);
            assert_eq!((square + x * 2).square_root(), x);
            assert_eq!((square + x * 2 + one).square_root(), x + one);
        }
        let half = Wide([u64::MAX, u64::MAX, u64::MAX, u64::MAX, 0, 0, 0, 0]);
        assert_eq!(LARGEST.square_root(), half);
    }

    #[test]
    fn the_top_is_reached() {
        let half = Wide::power_of_two(511);
        assert_eq!((half - Wide::from(1)) + half, LARGEST);
        assert_eq!(Wide::power_of_two(200) * Wide::power_of_two(311), half);
        assert!(half > Wide::power_of_two(510));
        assert!(half > Wide::from(u128::MAX));
        assert_eq!(half.halved(), Wide::power_of_two(510));
    }

    #[test]
    #[should_panic(expected = "sum above 512 bits")]
    fn sum_above_panics() {
        let _ = LARGEST + Wide::from(1);
    }

    #[test]
    #[should_panic(expected = "difference under zero")]
    fn difference_under_zero_panics() {
        let _ = Wide::from(1) - Wide::from(2);
    }

    #[test]
    #[should_panic(expected = "product above 512 bits")]
    fn product_above_by_whole_limbs_panics() {
        let _ = Wide::power_of_two(256) * Wide::power_of_two(256);
    }

    #[test]
    #[should_panic(expected = "product above 512 bits")]
    fn product_above_by_a_carry_panics() {
        let _ = LARGEST * 2;
    }
}
