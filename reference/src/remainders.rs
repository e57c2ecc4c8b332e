//! What remainder the division of a product leaves.

/// The least factor from 1 on whose product with the unit leaves this remainder.
pub fn least_factor(unit: u128, denominator: u128, remainder: u128) -> Option<u128> {
    let common = common_divisor(unit, denominator);
    if !remainder.is_multiple_of(common) {
        return None;
    }
    let (unit, denominator) = (unit / common, denominator / common);
    let inverse = inverse(unit % denominator, denominator);
    let factor = remainder / common % denominator * inverse % denominator;
    Some(if factor == 0 { denominator } else { factor })
}

fn common_divisor(first: u128, second: u128) -> u128 {
    match second {
        0 => first,
        _ => common_divisor(second, first % second),
    }
}

/// The number whose product with this one leaves 1; both have no common divisor.
fn inverse(number: u128, denominator: u128) -> u128 {
    // Each rest is its factor times the number, but for multiples of the denominator.
    let (mut rests, mut factors) = ((denominator, number), (0, 1 % denominator));
    while rests.1 > 1 {
        let times = rests.0 / rests.1 % denominator;
        let next = (factors.0 + denominator * denominator - times * factors.1) % denominator;
        rests = (rests.1, rests.0 % rests.1);
        factors = (factors.1, next);
    }
    factors.1
}

#[cfg(test)]
mod tests {
    use super::*;

    #[test]
    fn the_factor_is_the_least_that_leaves_the_remainder() {
        for denominator in 1..=24 {
            for unit in 0..=2 * denominator {
                for remainder in 0..denominator {
                    let leaves = |factor: &u128| factor * unit % denominator == remainder;
                    let due = (1..=denominator).find(leaves);
                    let found = least_factor(unit, denominator, remainder);
                    assert_eq!(found, due, "{unit} over {denominator}: {remainder}");
                }
            }
        }
    }
}
