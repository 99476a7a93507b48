//! Bisection: figures next to a limit.

/// A number for which a test holds while it fails for one less, from `low`, where it must fail, to `high`, where it
/// must hold; None otherwise.
pub fn least_that_holds(mut low: i128, mut high: i128, holds: impl Fn(i128) -> bool) -> Option<i128> {
    if holds(low) || !holds(high) {
        return None;
    }
    while high - low > 1 {
        let middle = (low + high) / 2;
        if holds(middle) {
            high = middle;
        } else {
            low = middle;
        }
    }
    Some(high)
}
