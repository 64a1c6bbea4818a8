//! The C calls as the paper has them: what each returns, and every byte of the answer buffer or of the target afterwards.

use crate::checks::{self, Refusal};
use crate::conversions::Conversion;
use crate::frames::{Frame, Shape};
use crate::scores::{self, Score};
use crate::{positions, rotations};

/// "A C call returns its number plus 256 × the index.", and "All lent memory keeps its bytes" where the call is refused.
fn finished<Given>(outcome: Result<Given, Refusal>, write: impl FnOnce(Given)) -> u64 {
    match outcome {
        Ok(given) => {
            write(given);
            0
        }
        Err(Refusal { number, index }) => number + 256 * index,
    }
}

/// "Its answer goes into a lent buffer, eight bytes a number, two's complement, little-endian". "A number that does not fit whole
/// is not written, and every other byte stays."
fn write_numbers(numbers: &[i128], answer: &mut [u8]) {
    for (&number, bytes) in numbers.iter().zip(answer.chunks_exact_mut(8)) {
        let number = i64::try_from(number).expect("an answer's number fits eight bytes");
        bytes.copy_from_slice(&number.to_le_bytes());
    }
}

/// What convert is told and lent, but for the target.
#[derive(Clone, Copy)]
pub struct ConvertArguments<'lent> {
    pub source_size: u64,
    pub target_size: u64,
    pub depth: u64,
    pub source_format: u64,
    pub target_format: u64,
    pub sampler: u64,
    pub source_layout: &'lent [u8],
    pub target_layout: &'lent [u8],
    pub rotation: [i64; 4],
    pub source: &'lent [u8],
}

/// Converts a frame; where it is accepted, the target's bytes are those of the conversion.
pub fn convert(arguments: ConvertArguments, target: &mut [u8]) -> u64 {
    let converted = accepted_conversion(arguments, target.len()).map(|conversion| conversion.target_bytes());
    finished(converted, |bytes| target.copy_from_slice(&bytes))
}

/// "Convert puts 1 to 10 (both ends share the depth; its second buffer is the target)."
pub fn accepted_conversion(arguments: ConvertArguments, target_length: usize) -> Result<Conversion, Refusal> {
    let source_size = checks::face_size(arguments.source_size.into())?;
    let target_size = checks::target_size(arguments.target_size.into())?;
    let depth = checks::depth(arguments.depth.into())?;
    let source_format = checks::format(arguments.source_format.into())?;
    let target_format = checks::format(arguments.target_format.into())?;
    let sampler = checks::sampler(arguments.sampler.into())?;
    let source_layout = checks::layout(arguments.source_layout)?;
    let target_layout = checks::layout(arguments.target_layout)?;
    let rotation = arguments.rotation.map(i128::from);
    checks::rotation_range(&[rotation])?;
    checks::rotation_nonzero(&[rotation])?;
    checks::first_length(arguments.source.len(), source_size)?;
    checks::second_length(target_length, target_size)?;
    checks::first_samples(arguments.source, depth)?;
    let source = Shape { size: source_size, depth, format: source_format, layout: source_layout };
    let target = Shape { size: target_size, depth, format: target_format, layout: target_layout };
    Ok(Conversion::new(Frame { shape: source, bytes: arguments.source }, target, rotation, sampler))
}

/// What score is told and lent, but for the answer buffer.
#[derive(Clone, Copy)]
pub struct ScoreArguments<'lent> {
    pub size: u64,
    pub depth: u64,
    pub format: u64,
    pub first_layout: &'lent [u8],
    pub second_layout: &'lent [u8],
    pub first: &'lent [u8],
    pub second: &'lent [u8],
}

/// Scores two frames; the answer is "score's two sums".
pub fn score(arguments: ScoreArguments, answer: &mut [u8]) -> u64 {
    finished(score_outcome(arguments), |score| write_numbers(&[score.errors, score.weights].map(i128::from), answer))
}

/// "Score puts 1, 3, 4, 5, 8 to 11." "Each frame has its own layout; size, depth and format are common."
fn score_outcome(arguments: ScoreArguments) -> Result<Score, Refusal> {
    let size = checks::face_size(arguments.size.into())?;
    let depth = checks::depth(arguments.depth.into())?;
    let format = checks::format(arguments.format.into())?;
    let first_layout = checks::layout(arguments.first_layout)?;
    let second_layout = checks::layout(arguments.second_layout)?;
    checks::first_length(arguments.first.len(), size)?;
    checks::second_length(arguments.second.len(), size)?;
    checks::first_samples(arguments.first, depth)?;
    checks::second_samples(arguments.second, depth)?;
    let first = Frame { shape: Shape { size, depth, format, layout: first_layout }, bytes: arguments.first };
    let second = Frame { shape: Shape { size, depth, format, layout: second_layout }, bytes: arguments.second };
    Ok(scores::score(first, second))
}

/// "Fold puts 6, 7, 12"; the answer is "fold's four numbers".
pub fn fold(first: [i64; 4], later: [i64; 4], answer: &mut [u8]) -> u64 {
    finished(fold_outcome(first.map(i128::from), later.map(i128::from)), |numbers| write_numbers(&numbers, answer))
}

fn fold_outcome(first: rotations::Rotation, later: rotations::Rotation) -> Result<Vec<i128>, Refusal> {
    checks::rotation_range(&[first, later])?;
    checks::rotation_nonzero(&[first, later])?;
    let composed = rotations::compose(first, later);
    checks::composed_range(composed)?;
    Ok(composed.to_vec())
}

/// "equality 6, 7"; the answer is "equality's 1 or 0".
pub fn equal(first: [i64; 4], second: [i64; 4], answer: &mut [u8]) -> u64 {
    finished(equal_outcome(first.map(i128::from), second.map(i128::from)), |numbers| write_numbers(&numbers, answer))
}

fn equal_outcome(first: rotations::Rotation, second: rotations::Rotation) -> Result<Vec<i128>, Refusal> {
    checks::rotation_range(&[first, second])?;
    checks::rotation_nonzero(&[first, second])?;
    Ok(vec![i128::from(rotations::equal(first, second))])
}

/// "Look-up puts 1, 4, 13, 14."; the answer is "look-up's face, column T, row T".
pub fn look_up(size: u64, format: u64, ray: [i64; 3], answer: &mut [u8]) -> u64 {
    finished(look_up_outcome(i128::from(size), i128::from(format), ray.map(i128::from)), |numbers| {
        write_numbers(&numbers, answer)
    })
}

pub(crate) fn look_up_outcome(size: i128, format: i128, ray: [i128; 3]) -> Result<Vec<i128>, Refusal> {
    checks::face_size(size)?;
    let format = checks::format(format)?;
    checks::ray_range(ray)?;
    checks::ray_nonzero(ray)?;
    let location = positions::locate(format, size, ray);
    Ok([location.face, location.column, location.row].map(i128::from).to_vec())
}

#[cfg(test)]
mod tests {
    use super::*;
    use crate::frames::USUAL_LAYOUT;

    /// The code and the bytes of a call that is lent `length` bytes of 0xEE.
    fn answered(length: usize, call: impl Fn(&mut [u8]) -> u64) -> (u64, Vec<u8>) {
        let mut answer = vec![0xEE; length];
        (call(&mut answer), answer)
    }

    fn bytes(numbers: &[i64]) -> Vec<u8> {
        numbers.iter().flat_map(|number| number.to_le_bytes()).collect()
    }

    /// A conversion in range from size 3 to size 2, with a source that counts its samples.
    fn with_conversion(test: impl Fn(ConvertArguments)) {
        let source: Vec<u8> = (0..54_u16).flat_map(u16::to_le_bytes).collect();
        test(ConvertArguments {
            source_size: 3,
            target_size: 2,
            depth: 8,
            source_format: 0,
            target_format: 1,
            sampler: 1,
            source_layout: &USUAL_LAYOUT,
            target_layout: &[5, 4, 3, 2, 1, 0, 0, 1, 2, 3, 0, 1],
            rotation: [29, 3, 7, -5],
            source: &source,
        });
    }

    #[test]
    fn a_conversion_writes_every_byte() {
        with_conversion(|good| {
            let (code, target) = answered(48, |target| convert(good, target));
            assert_eq!(code, 0);
            assert!(target.chunks(2).all(|sample| sample[1] == 0));
        });
    }

    #[test]
    fn convert_asks_in_order() {
        with_conversion(|good| {
            let wrong_samples = [0xFF; 108];
            // The first arguments are wrong for all questions but 7, which a turn that is wrong for 6 cannot be; each of the next
            // mends what the one before it is refused for.
            let mut call = ConvertArguments {
                source_size: 513,
                target_size: 0,
                depth: 7,
                source_format: 2,
                source_layout: &[0; 12],
                rotation: [0, 0, 0, -32],
                source: &[0xFF; 107],
                ..good
            };
            let refused = |call, length, code| {
                assert_eq!(answered(length, |target| convert(call, target)), (code, vec![0xEE; length]));
            };
            refused(call, 49, 1);
            call.source_size = 3;
            refused(call, 49, 2);
            call.target_size = 2;
            refused(call, 49, 3);
            call.depth = 8;
            refused(call, 49, 4);
            call.source_format = 0;
            refused(call, 49, 5);
            call.source_layout = good.source_layout;
            refused(call, 49, 6);
            call.rotation = [0; 4];
            refused(call, 49, 7);
            call.rotation = good.rotation;
            refused(call, 49, 8);
            call.source = &wrong_samples;
            refused(call, 49, 9);
            refused(call, 48, 10);
        });
    }

    #[test]
    fn convert_asks_both_ends() {
        with_conversion(|good| {
            let code = |call| answered(48, |target| convert(call, target)).0;
            for size in [0, 513, 1 << 32, u64::MAX] {
                assert_eq!(code(ConvertArguments { source_size: size, ..good }), 1);
                assert_eq!(code(ConvertArguments { target_size: size, ..good }), 2);
            }
            for depth in [0, 7, 13, u64::MAX] {
                assert_eq!(code(ConvertArguments { depth, ..good }), 3);
            }
            for wrong in [2, 256, u64::MAX] {
                assert_eq!(code(ConvertArguments { source_format: wrong, ..good }), 4);
                assert_eq!(code(ConvertArguments { target_format: wrong, ..good }), 4);
                assert_eq!(code(ConvertArguments { sampler: wrong, ..good }), 4);
            }
            let (face_twice, large_face) = ([0, 1, 2, 3, 4, 4, 0, 0, 0, 0, 0, 0], [0, 1, 2, 3, 4, 6, 0, 0, 0, 0, 0, 0]);
            let (large_turn, long) = ([0, 1, 2, 3, 4, 5, 0, 0, 0, 0, 0, 4], [0, 1, 2, 3, 4, 5, 0, 0, 0, 0, 0, 0, 0]);
            for wrong in [&face_twice[..], &large_face, &large_turn, &long, &long[..11], &[]] {
                assert_eq!(code(ConvertArguments { source_layout: wrong, ..good }), 5);
                assert_eq!(code(ConvertArguments { target_layout: wrong, ..good }), 5);
            }
        });
    }

    #[test]
    fn each_length_belongs_to_its_size() {
        with_conversion(|good| {
            let code = |call, length| answered(length, |target| convert(call, target)).0;
            for (length, number) in [(0, 9), (47, 9), (48, 0), (49, 9), (108, 9)] {
                assert_eq!(code(good, length), number);
            }
            for length in [0, 48, 106, 107] {
                assert_eq!(code(ConvertArguments { source: &good.source[..length], ..good }, 48), 8);
            }
        });
    }

    #[test]
    fn the_lowest_index_beyond_the_depth() {
        with_conversion(|good| {
            for depth in 8..=12 {
                let mut source = good.source.to_vec();
                for (index, sample) in [(53, 1 << depth), (40, u16::MAX), (17, 1 << depth), (0, 1 << 15)] {
                    let largest = ((1 << depth) - 1_u16).to_le_bytes();
                    source[2 * index..2 * index + 2].copy_from_slice(&largest);
                    let call = ConvertArguments { depth, source: &source, ..good };
                    let before = if index == 53 { 0 } else { 10 };
                    assert_eq!(answered(48, |target| convert(call, target)).0 % 256, before);
                    source[2 * index..2 * index + 2].copy_from_slice(&sample.to_le_bytes());
                    let call = ConvertArguments { depth, source: &source, ..good };
                    let refused = (10 + 256 * index as u64, vec![0xEE; 48]);
                    assert_eq!(answered(48, |target| convert(call, target)), refused);
                }
            }
        });
    }

    /// A score in range of two frames of size 2 with different layouts, 0 against 255 at all places.
    fn with_score(test: impl Fn(ScoreArguments)) {
        test(ScoreArguments {
            size: 2,
            depth: 8,
            format: 0,
            first_layout: &USUAL_LAYOUT,
            second_layout: &[5, 4, 3, 2, 1, 0, 0, 1, 2, 3, 0, 1],
            first: &[0; 48],
            second: &[255, 0].repeat(24),
        });
    }

    #[test]
    fn p8_a_score() {
        let call = ScoreArguments {
            size: 1,
            depth: 8,
            format: 0,
            first_layout: &USUAL_LAYOUT,
            second_layout: &USUAL_LAYOUT,
            first: &[10, 0].repeat(6),
            second: &[12, 0].repeat(6),
        };
        assert_eq!(answered(16, |answer| score(call, answer)), (0, bytes(&[1_572_864, 393_216])));
    }

    #[test]
    fn score_asks_in_order() {
        with_score(|good| {
            let wrong_samples = [0xFF; 48];
            // The first arguments are wrong for all questions; each of the next mends what the one before it is refused for.
            let mut call = ScoreArguments {
                size: 513,
                depth: 7,
                format: 2,
                first_layout: &[0; 12],
                second_layout: &[0; 11],
                first: &wrong_samples[1..],
                second: &wrong_samples[2..],
            };
            let refused = |call, code| assert_eq!(answered(17, |answer| score(call, answer)), (code, vec![0xEE; 17]));
            refused(call, 1);
            call.size = 2;
            refused(call, 3);
            call.depth = 8;
            refused(call, 4);
            call.format = 1;
            refused(call, 5);
            call.first_layout = good.first_layout;
            refused(call, 5);
            call.second_layout = good.second_layout;
            refused(call, 8);
            call.first = &wrong_samples;
            refused(call, 9);
            call.second = &wrong_samples;
            refused(call, 10);
            call.first = good.first;
            refused(call, 11);
            call.second = good.second;
            assert_eq!(answered(16, |answer| score(call, answer)).0, 0);
        });
    }

    #[test]
    fn score_asks_both_frames() {
        with_score(|good| {
            let code = |call| answered(16, |answer| score(call, answer)).0;
            for size in [0, 513, 1 << 32, u64::MAX] {
                assert_eq!(code(ScoreArguments { size, ..good }), 1);
            }
            for depth in [0, 7, 13, u64::MAX] {
                assert_eq!(code(ScoreArguments { depth, ..good }), 3);
            }
            for format in [2, 256, u64::MAX] {
                assert_eq!(code(ScoreArguments { format, ..good }), 4);
            }
            let (face_twice, large_turn) = ([0, 1, 2, 3, 4, 4, 0, 0, 0, 0, 0, 0], [0, 1, 2, 3, 4, 5, 0, 0, 0, 0, 0, 4]);
            for wrong in [&face_twice[..], &large_turn, &USUAL_LAYOUT[..11], &[]] {
                assert_eq!(code(ScoreArguments { first_layout: wrong, ..good }), 5);
                assert_eq!(code(ScoreArguments { second_layout: wrong, ..good }), 5);
            }
            let zeros = [0; 108];
            for length in [0, 12, 46, 47, 49, 50, 108] {
                assert_eq!(code(ScoreArguments { first: &zeros[..length], ..good }), 8);
                assert_eq!(code(ScoreArguments { second: &zeros[..length], ..good }), 9);
            }
        });
    }

    #[test]
    fn the_lowest_index_of_each_frame() {
        with_score(|good| {
            for depth in 8..=12 {
                let (mut frame, beyond) = (good.second.to_vec(), (1_u16 << depth).to_le_bytes());
                for index in [23, 11, 0] {
                    frame[2 * index..2 * index + 2].copy_from_slice(&beyond);
                    let refused = |call, number| {
                        let code = number + 256 * index as u64;
                        assert_eq!(answered(16, |answer| score(call, answer)), (code, vec![0xEE; 16]));
                    };
                    refused(ScoreArguments { depth, first: &frame, ..good }, 10);
                    refused(ScoreArguments { depth, second: &frame, ..good }, 11);
                }
            }
        });
    }

    #[test]
    fn a_sum_that_does_not_fit_is_not_written() {
        with_score(|good| {
            let weights = 24 * 35_673;
            let whole = bytes(&[255 * 255 * weights, weights]);
            for length in 0..=40 {
                let (code, answer) = answered(length, |answer| score(good, answer));
                let written = (length / 8 * 8).min(16);
                assert_eq!(code, 0);
                assert_eq!(answer[..written], whole[..written]);
                assert!(answer[written..].iter().all(|&byte| byte == 0xEE));
            }
        });
    }

    #[test]
    fn p11_refused_by_12() {
        assert_eq!(answered(32, |answer| fold([31, 1, 0, 0], [31, 1, 0, 0], answer)), (12, vec![0xEE; 32]));
    }

    #[test]
    fn range_is_asked_of_the_reduced_fold() {
        assert_eq!(answered(32, |answer| fold([31, 1, 0, 0], [31, -1, 0, 0], answer)), (0, bytes(&[1, 0, 0, 0])));
    }

    #[test]
    fn range_of_both_before_zero_of_both() {
        let (good, zero, large) = ([1, 0, 0, 0], [0; 4], [0, 0, -32, 0]);
        for call in [fold, equal] {
            assert_eq!(answered(8, |answer| call(zero, large, answer)).0, 6);
            assert_eq!(answered(8, |answer| call(large, zero, answer)).0, 6);
            assert_eq!(answered(8, |answer| call(zero, good, answer)).0, 7);
            assert_eq!(answered(8, |answer| call(good, zero, answer)).0, 7);
            assert_eq!(answered(8, |answer| call(good, [i64::MIN; 4], answer)).0, 6);
        }
    }

    #[test]
    fn equality_by_a_negative_factor() {
        assert_eq!(answered(8, |answer| equal([1, 2, 3, 4], [-2, -4, -6, -8], answer)), (0, bytes(&[1])));
        assert_eq!(answered(8, |answer| equal([1, 2, 3, 4], [1, 2, 3, 5], answer)), (0, bytes(&[0])));
    }

    #[test]
    fn lines_of_the_listing() {
        assert_eq!(answered(24, |answer| look_up(4, 0, [-1, 0, 0], answer)), (0, bytes(&[1, 96, 96])));
        assert_eq!(answered(24, |answer| look_up(4, 1, [2, -1, 0], answer)), (0, bytes(&[0, 96, 172])));
        assert_eq!(answered(24, |answer| look_up(4, 0, [0, 0, 0], answer)), (14, vec![0xEE; 24]));
    }

    #[test]
    fn negative_positions_in_twos_complement() {
        assert_eq!(answered(24, |answer| look_up(4, 0, [1, 1, 1], answer)), (0, bytes(&[0, -32, -32])));
    }

    #[test]
    fn look_up_asks_in_order() {
        let wrong_ray = [0, 536_870_912, 0];
        assert_eq!(answered(24, |answer| look_up(513, 2, wrong_ray, answer)).0, 1);
        assert_eq!(answered(24, |answer| look_up(u64::MAX, 0, [0; 3], answer)).0, 1);
        assert_eq!(answered(24, |answer| look_up(512, 2, wrong_ray, answer)).0, 4);
        assert_eq!(answered(24, |answer| look_up(512, u64::MAX, [0; 3], answer)).0, 4);
        assert_eq!(answered(24, |answer| look_up(512, 1, wrong_ray, answer)).0, 13);
        assert_eq!(answered(24, |answer| look_up(512, 1, [i64::MIN; 3], answer)).0, 13);
        assert_eq!(answered(24, |answer| look_up(512, 1, [0; 3], answer)).0, 14);
    }

    #[test]
    fn a_number_that_does_not_fit_is_not_written() {
        let whole = bytes(&[1, 1, 1, 1]);
        for length in 0..=40 {
            let (code, answer) = answered(length, |answer| fold([1, 1, 0, 0], [1, 0, 1, 0], answer));
            let written = (length / 8 * 8).min(32);
            assert_eq!(code, 0);
            assert_eq!(answer[..written], whole[..written]);
            assert!(answer[written..].iter().all(|&byte| byte == 0xEE));
        }
    }
}
