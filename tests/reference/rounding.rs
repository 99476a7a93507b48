//! The paper's two roundings. Down is towards the lower number and up towards the higher, below zero too.

/// `numerator / denominator` rounded down, for a denominator above zero.
pub fn rounded_down(numerator: i128, denominator: i128) -> i128 {
    numerator.div_euclid(denominator)
}

/// `numerator / denominator` rounded up, for a denominator above zero.
pub fn rounded_up(numerator: i128, denominator: i128) -> i128 {
    -rounded_down(-numerator, denominator)
}

#[cfg(test)]
mod tests {
    use super::*;

    #[test]
    fn down_is_towards_the_lower_number_below_zero_too() {
        assert_eq!([7, 6, -6, -7].map(|n| rounded_down(n, 3)), [2, 2, -2, -3]);
    }

    #[test]
    fn up_is_towards_the_higher_number_below_zero_too() {
        assert_eq!([7, 6, -6, -7].map(|n| rounded_up(n, 3)), [3, 2, -2, -2]);
    }
}
