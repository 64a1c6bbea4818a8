//! The order of the parameters: an exchange of any two of one type changes what the program writes. For fold, equal and look_up,
//! the line that is made for this shows every exchange; for convert and score, the line of some conversion shows it.

use crate::calls::{Call, ALL};
use crate::cases::{self, Case};
use crate::run;
use reference::calls::{convert, ConvertArguments, ScoreArguments};

/// Two positions, the lower one first.
type Pair = (usize, usize);

/// Fails with a line for each two parameters whose exchange does not show.
fn all_show(call: &str, parameters: &[&str], shows: impl Fn(Pair) -> bool) {
    let pairs = (0..parameters.len()).flat_map(|second| (0..second).map(move |first| (first, second)));
    let hidden: Vec<String> = pairs
        .filter(|&pair| !shows(pair))
        .map(|(first, second)| format!("{call}: {} and {} can be exchanged", parameters[first], parameters[second]))
        .collect();
    assert!(hidden.is_empty(), "{}", hidden.join("\n"));
}

fn exchange<Parameter>(mut parameters: Vec<&mut Parameter>, (first, second): Pair) {
    let later = parameters.remove(second);
    std::mem::swap(parameters[first], later);
}

/// All but those whose frames are large.
fn small_cases() -> impl Iterator<Item = Case> {
    cases::all().filter(|case| case.source_size.max(case.target_size) <= 3)
}

/// Whether what a conversion returns, or the digest of its target, differs in some case.
fn convert_shows(exchange: impl Fn(&mut ConvertArguments)) -> bool {
    small_cases().any(|case| {
        let source = run::source(&case);
        let outcome = |arguments| {
            let mut target = run::target(&case);
            (convert(arguments, &mut target), run::digest(&target))
        };
        let arguments = run::convert_arguments(&case, &source);
        let mut exchanged = arguments;
        exchange(&mut exchanged);
        outcome(arguments) != outcome(exchanged)
    })
}

/// Whether what a score returns, or one of its sums, differs in some case.
fn score_shows(exchange: impl Fn(&mut ScoreArguments)) -> bool {
    small_cases().any(|case| {
        let (source, mut target) = (run::source(&case), run::target(&case));
        convert(run::convert_arguments(&case, &source), &mut target);
        let arguments = run::score_arguments(&case, &source, &target);
        let mut exchanged = arguments;
        exchange(&mut exchanged);
        run::scored(arguments) != run::scored(exchanged)
    })
}

#[test]
fn exchanges_in_convert() {
    let numbers = ["source_size", "target_size", "depth", "source_format", "target_format", "sampler"];
    all_show("convert", &numbers, |pair| {
        convert_shows(|call| {
            let ConvertArguments { source_size, target_size, depth, source_format, target_format, sampler, .. } = call;
            exchange(vec![source_size, target_size, depth, source_format, target_format, sampler], pair);
        })
    });
    all_show("convert", &["source_layout", "target_layout", "source"], |pair| {
        convert_shows(|call| exchange(vec![&mut call.source_layout, &mut call.target_layout, &mut call.source], pair))
    });
    all_show("convert", &["e0", "e1", "e2", "e3"], |(first, second)| convert_shows(|call| call.rotation.swap(first, second)));
}

#[test]
fn exchanges_in_score() {
    all_show("score", &["size", "depth", "format"], |pair| {
        score_shows(|call| exchange(vec![&mut call.size, &mut call.depth, &mut call.format], pair))
    });
    all_show("score", &["first_layout", "second_layout", "first", "second"], |pair| {
        score_shows(|call| {
            let ScoreArguments { first_layout, second_layout, first, second, .. } = call;
            exchange(vec![first_layout, second_layout, first, second], pair);
        })
    });
}

/// Whether the outcome differs from that of a call with the same turns.
fn turns_show(call: fn([[i64; 4]; 2]) -> Call, turns: [[i64; 4]; 2], (first, second): Pair) -> bool {
    let mut exchanged = turns;
    exchanged.as_flattened_mut().swap(first, second);
    call(turns).outcome() != call(exchanged).outcome()
}

#[test]
fn exchanges_in_the_line_of_fold() {
    let [.., Call::Fold(turns), _, _] = ALL else { panic!("no such line") };
    let numbers = ["first0", "first1", "first2", "first3", "later0", "later1", "later2", "later3"];
    all_show("fold", &numbers, |pair| turns_show(Call::Fold, turns, pair));
}

#[test]
fn exchanges_in_the_line_of_equal() {
    let [.., Call::Equal(turns), _] = ALL else { panic!("no such line") };
    let numbers = ["first0", "first1", "first2", "first3", "second0", "second1", "second2", "second3"];
    all_show("equal", &numbers, |pair| turns_show(Call::Equal, turns, pair));
}

#[test]
fn exchanges_in_the_line_of_look_up() {
    let [.., line @ Call::LookUp(cube, ray)] = ALL else { panic!("no such line") };
    let differs = |cube, ray| Call::LookUp(cube, ray).outcome() != line.outcome();
    all_show("look_up", &["size", "format"], |_| differs([cube[1], cube[0]], ray));
    all_show("look_up", &["x", "y", "z"], |(first, second)| {
        let mut exchanged = ray;
        exchanged.swap(first, second);
        differs(cube, exchanged)
    });
}

/// P9 against P10, and likewise in the line of fold. Equality is symmetric: an exchange of its two turns cannot show.
#[test]
fn fold_tells_the_first_turn_from_the_later() {
    let [Call::Fold(p9), Call::Fold(p10), _, Call::Fold(line), ..] = ALL else { panic!("no such lines") };
    assert_eq!([p9[1], p9[0]], p10);
    for [first, later] in [p9, line] {
        assert_ne!(Call::Fold([first, later]).outcome(), Call::Fold([later, first]).outcome());
    }
}
