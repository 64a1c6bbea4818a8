//! The paper's section "From ray to place".

/// "CMP, code 0, and ACP, code 1".
#[derive(Clone, Copy, Debug, PartialEq, Eq, PartialOrd, Ord)]
pub enum Format {
    Cmp,
    Acp,
}

/// The number numerator / denominator; the denominator is positive.
#[derive(Clone, Copy, Debug)]
pub struct Ratio {
    pub numerator: i128,
    pub denominator: i128,
}

/// A row of Table 4.
struct Row {
    /// Positive and largest in size where the face is this row's.
    along: i128,
    /// u × d
    u: i128,
    /// v × d
    v: i128,
}

/// The face of a ray, with d, u × d and v × d.
#[derive(Clone, Copy, Debug, PartialEq, Eq)]
pub struct OnFace {
    pub face: i128,
    pub d: i128,
    pub u: i128,
    pub v: i128,
}

/// "Table 4 of document 000: the axis with the largest size gives the face. Its rows overlap at equal sizes; the earlier row wins
/// (X, then Y, then Z). With d the size of the chosen number"; the ray is not zero.
pub fn on_face([x, y, z]: [i128; 3]) -> OnFace {
    let rows = [
        Row { along: x, u: -z, v: -y },
        Row { along: -x, u: z, v: -y },
        Row { along: y, u: x, v: z },
        Row { along: -y, u: x, v: -z },
        Row { along: z, u: x, v: -y },
        Row { along: -z, u: -x, v: -y },
    ];
    let d = x.abs().max(y.abs()).max(z.abs());
    for (face, row) in (0..).zip(rows) {
        if row.along == d {
            return OnFace { face, d, u: row.u, v: row.v };
        }
    }
    unreachable!("an axis has the largest size");
}

/// "CMP: g = u. ACP: g = u·(34 − 9|u|)/25 (equation 14)", where u is scaled / d.
fn on_curve(format: Format, scaled: i128, d: i128) -> Ratio {
    match format {
        Format::Cmp => Ratio { numerator: scaled, denominator: d },
        Format::Acp => Ratio { numerator: scaled * (34 * d - 9 * scaled.abs()), denominator: 25 * d * d },
    }
}

/// "The exact position is A·(g+1)/2 − 1/2 samples."
pub fn exact_position(format: Format, size: i128, scaled: i128, d: i128) -> Ratio {
    let g = on_curve(format, scaled, d);
    Ratio { numerator: size * (g.numerator + g.denominator) - g.denominator, denominator: 2 * g.denominator }
}

/// "T is 64 times that, rounded to the nearest whole number, halves upward": floor(64 · exact + 1/2).
pub fn position64(exact: Ratio) -> i128 {
    (2 * 64 * exact.numerator + exact.denominator).div_euclid(2 * exact.denominator)
}

/// Whether 64 times the position lies halfway between two whole numbers, so that "halves upward" decides.
pub fn is_halfway(exact: Ratio) -> bool {
    (2 * 64 * exact.numerator + exact.denominator).rem_euclid(2 * exact.denominator) == 0
}

/// What a look-up gives: face, column T, row T.
#[derive(Clone, Copy, Debug, PartialEq, Eq)]
pub struct Location {
    pub face: i64,
    pub column: i64,
    pub row: i64,
}

/// Look-up of a ray that is not zero; the column comes from u, "Rows from v likewise."
pub fn locate(format: Format, size: i128, ray: [i128; 3]) -> Location {
    let OnFace { face, d, u, v } = on_face(ray);
    let position = |scaled: i128| position64(exact_position(format, size, scaled, d));
    let [face, column, row] = [face, position(u), position(v)].map(|number| i64::try_from(number).expect("a small number"));
    Location { face, column, row }
}

#[cfg(test)]
mod tests {
    use super::*;

    fn located(format: Format, size: i128, ray: [i128; 3]) -> [i64; 3] {
        let Location { face, column, row } = locate(format, size, ray);
        [face, column, row]
    }

    #[test]
    fn p1_three_equal_sizes() {
        assert_eq!(located(Format::Cmp, 4, [1, 1, 1]), [0, -32, -32]);
    }

    #[test]
    fn p2_two_equal_sizes() {
        assert_eq!(located(Format::Cmp, 1, [0, -5, 5]), [3, 0, -32]);
    }

    #[test]
    fn p3_cmp() {
        assert_eq!(located(Format::Cmp, 4, [2, -1, 0]), [0, 96, 160]);
    }

    #[test]
    fn p4_acp() {
        assert_eq!(located(Format::Acp, 4, [2, -1, 0]), [0, 96, 172]);
    }

    #[test]
    fn lines_of_the_listing() {
        assert_eq!(located(Format::Cmp, 4, [-1, 0, 0]), [1, 96, 96]);
        assert_eq!(located(Format::Acp, 4, [2, -1, 0]), [0, 96, 172]);
    }

    #[test]
    fn each_row_of_table_4() {
        // With 4 along the axis, 1 and 2 on the others and A = 4, u and v of 1/4, 1/2 give 128 and 160, of −1/4, −1/2 64 and 32.
        assert_eq!(located(Format::Cmp, 4, [4, 1, 2]), [0, 32, 64]);
        assert_eq!(located(Format::Cmp, 4, [-4, 1, 2]), [1, 160, 64]);
        assert_eq!(located(Format::Cmp, 4, [1, 4, 2]), [2, 128, 160]);
        assert_eq!(located(Format::Cmp, 4, [1, -4, 2]), [3, 128, 32]);
        assert_eq!(located(Format::Cmp, 4, [1, 2, 4]), [4, 128, 32]);
        assert_eq!(located(Format::Cmp, 4, [1, 2, -4]), [5, 64, 32]);
    }

    #[test]
    fn halves_go_upward() {
        // A = 1, u = 1/64: 64 times the exact position is 1/2; u = −1/64: −1/2; u = −3/64: −3/2.
        for (scaled, rounded) in [(1, 1), (-1, 0), (-3, -1)] {
            let exact = exact_position(Format::Cmp, 1, scaled, 64);
            assert!(is_halfway(exact));
            assert_eq!(position64(exact), rounded);
        }
    }

    #[test]
    fn from_edge_to_edge() {
        // "T runs from −32 to 64A−32."
        for format in [Format::Cmp, Format::Acp] {
            for size in 1..=512 {
                assert_eq!(position64(exact_position(format, size, -7, 7)), -32);
                assert_eq!(position64(exact_position(format, size, 7, 7)), 64 * size - 32);
            }
        }
    }
}
