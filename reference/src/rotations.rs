//! The paper's section "Turns": matrices, products, reduction and equality.

/// "A turn is four whole numbers (e0, e1, e2, e3)".
pub type Rotation = [i128; 4];

/// The rows of a rotation's matrix.
pub type Matrix = [[i64; 3]; 3];

/// "Its matrix rows", of a rotation in range.
pub fn matrix(rotation: Rotation) -> Matrix {
    let [e0, e1, e2, e3] = rotation.map(|number| i64::try_from(number).expect("a small number"));
    [
        [e0 * e0 + e1 * e1 - e2 * e2 - e3 * e3, 2 * (e1 * e2 - e0 * e3), 2 * (e1 * e3 + e0 * e2)],
        [2 * (e1 * e2 + e0 * e3), e0 * e0 - e1 * e1 + e2 * e2 - e3 * e3, 2 * (e2 * e3 - e0 * e1)],
        [2 * (e1 * e3 - e0 * e2), 2 * (e2 * e3 + e0 * e1), e0 * e0 - e1 * e1 - e2 * e2 + e3 * e3],
    ]
}

/// The matrix "applied to the target's ray".
pub fn applied(matrix: &Matrix, [x, y, z]: [i64; 3]) -> [i64; 3] {
    matrix.map(|[along_x, along_y, along_z]| along_x * x + along_y * y + along_z * z)
}

/// "the sum of the four squares"
pub fn sum_of_squares(rotation: Rotation) -> i128 {
    rotation.iter().map(|number| number * number).sum()
}

/// "A whole-cube turn is one whose nine entries are each 0 or ± the sum of the four squares."
pub fn is_cube_rotation(rotation: Rotation) -> bool {
    let sum = sum_of_squares(rotation);
    matrix(rotation).into_iter().flatten().all(|entry| [0, sum, -sum].contains(&entry.into()))
}

/// "Folding a first and a later turn is the quaternion product, first on the left."
pub fn product([a0, a1, a2, a3]: Rotation, [b0, b1, b2, b3]: Rotation) -> Rotation {
    [
        a0 * b0 - a1 * b1 - a2 * b2 - a3 * b3,
        a0 * b1 + a1 * b0 + a2 * b3 - a3 * b2,
        a0 * b2 - a1 * b3 + a2 * b0 + a3 * b1,
        a0 * b3 + a1 * b2 - a2 * b1 + a3 * b0,
    ]
}

/// Euclid's algorithm; the greatest common divisor of 0 and 0 is 0.
fn greatest_common_divisor(a: i128, b: i128) -> i128 {
    if b == 0 {
        a.abs()
    } else {
        greatest_common_divisor(b, a % b)
    }
}

/// "the greatest whole number that divides all four", of a rotation that is not all zero.
pub fn common_divisor(rotation: Rotation) -> i128 {
    rotation.into_iter().fold(0, greatest_common_divisor)
}

/// "A folded turn is divided by the greatest whole number that divides all four; then, if its first nonzero number is negative,
/// all four change sign."
pub fn reduced(rotation: Rotation) -> Rotation {
    let divisor = common_divisor(rotation);
    let divided = rotation.map(|number| number / divisor);
    match divided.into_iter().find(|&number| number != 0) {
        Some(first_nonzero) if first_nonzero < 0 => divided.map(|number| -number),
        _ => divided,
    }
}

/// The fold of a first and a later turn, reduced.
pub fn compose(first: Rotation, later: Rotation) -> Rotation {
    reduced(product(first, later))
}

/// "Two turns are equal when both, so reduced, are the same."
pub fn equal(first: Rotation, second: Rotation) -> bool {
    reduced(first) == reduced(second)
}

#[cfg(test)]
mod tests {
    use super::*;

    #[test]
    fn matrices_of_single_turns() {
        assert_eq!(matrix([1, 0, 0, 0]), [[1, 0, 0], [0, 1, 0], [0, 0, 1]]);
        assert_eq!(matrix([1, 1, 0, 0]), [[2, 0, 0], [0, 0, -2], [0, 2, 0]]);
        assert_eq!(matrix([1, 0, 1, 0]), [[0, 0, 2], [0, 2, 0], [-2, 0, 0]]);
        assert_eq!(matrix([1, 0, 0, 1]), [[0, -2, 0], [2, 0, 0], [0, 0, 2]]);
        assert_eq!(matrix([1, 2, 3, 4]), [[-20, 4, 22], [20, -10, 20], [10, 28, 4]]);
    }

    #[test]
    fn the_later_turn_is_applied_first() {
        // The matrix leads from target to source, so a later turn's comes before an earlier one's.
        let (first, later, ray) = ([1, 2, 3, 4], [5, -6, 7, -8], [3, -1, 2]);
        let in_turn = applied(&matrix(first), applied(&matrix(later), ray));
        assert_eq!(applied(&matrix(product(first, later)), ray), in_turn);
    }

    #[test]
    fn lengths_grow_by_the_sum_of_squares() {
        let length = |ray: [i64; 3]| ray.iter().map(|&number| i128::from(number * number)).sum::<i128>();
        let (rotation, ray) = ([31, -7, 2, 19], [5, -11, 3]);
        assert_eq!(length(applied(&matrix(rotation), ray)), sum_of_squares(rotation).pow(2) * length(ray));
    }

    #[test]
    fn whole_cube_turns() {
        for rotation in [[1, 0, 0, 0], [0, 0, -7, 0], [0, 31, -31, 0], [-2, 0, 0, 2], [1, 1, 1, -1], [5, -5, 5, 5]] {
            assert!(is_cube_rotation(rotation));
        }
        for rotation in [[2, 1, 0, 0], [1, 1, 1, 0], [3, 3, 3, 2], [0, 1, 0, 31]] {
            assert!(!is_cube_rotation(rotation));
        }
    }

    #[test]
    fn p9_first_then_later() {
        assert_eq!(compose([1, 1, 0, 0], [1, 0, 1, 0]), [1, 1, 1, 1]);
    }

    #[test]
    fn p10_the_other_order() {
        assert_eq!(compose([1, 0, 1, 0], [1, 1, 0, 0]), [1, 1, 1, -1]);
    }

    #[test]
    fn units_of_the_quaternions() {
        let (one, i, j, k) = ([1, 0, 0, 0], [0, 1, 0, 0], [0, 0, 1, 0], [0, 0, 0, 1]);
        let minus = |rotation: Rotation| rotation.map(|number| -number);
        for unit in [i, j, k] {
            assert_eq!(product(unit, unit), minus(one));
            assert_eq!(product(one, unit), unit);
            assert_eq!(product(unit, one), unit);
        }
        assert_eq!((product(i, j), product(j, k), product(k, i)), (k, i, j));
        assert_eq!((product(j, i), product(k, j), product(i, k)), (minus(k), minus(i), minus(j)));
    }

    #[test]
    fn reduction_divides_and_changes_signs() {
        assert_eq!(reduced([0, -6, 9, -3]), [0, 2, -3, 1]);
        assert_eq!(reduced([4, -6, 0, 2]), [2, -3, 0, 1]);
        assert_eq!(reduced([0, 0, 0, -31]), [0, 0, 0, 1]);
    }

    #[test]
    fn equal_by_a_negative_factor() {
        assert!(equal([1, 2, 3, 4], [-2, -4, -6, -8]));
        assert!(!equal([1, 2, 3, 4], [1, 2, 3, -4]));
    }
}
