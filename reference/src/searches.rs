//! The search behind the paper's "largest whole" numbers.

/// The largest whole number from 0 to `most` that is small enough. 0 is, and each number below one that is small enough is so
/// too; so it is enough to halve the interval from a number that is small enough to one that is too large.
pub fn largest(most: i64, small_enough: impl Fn(i64) -> bool) -> i64 {
    let (mut largest, mut too_large) = (0, most + 1);
    while too_large - largest > 1 {
        let middle = (largest + too_large) / 2;
        if small_enough(middle) {
            largest = middle;
        } else {
            too_large = middle;
        }
    }
    largest
}

#[cfg(test)]
mod tests {
    use super::*;

    #[test]
    fn the_largest_of_all() {
        for most in 0..=40 {
            for bound in 0..=most {
                assert_eq!(largest(most, |number| number <= bound), bound);
            }
        }
    }
}
