use crate::number::push_number;
use crate::{large, outcome, plan, replay};
use std::path::Path;

fn outcome_of(text: &[u8]) -> Option<Vec<u8>> {
    Some(outcome::text(&replay::replay(&plan::read(text)?)))
}

/// Beside a plan that isn't replayed to an outcome stands the line of its fault: those are left out.
#[test]
fn outcomes_are_the_expected_ones() {
    let plans = Path::new(env!("CARGO_MANIFEST_DIR")).join("../../plans");
    let mut compared = 0;
    for file in std::fs::read_dir(plans).expect("the plans stand beside the crates") {
        let path = file.expect("it can be listed").path();
        if path.extension().is_none_or(|extension| extension != "plan") {
            continue;
        }
        let expected = std::fs::read(path.with_extension("expected")).expect("each plan has its text");
        if expected.starts_with(b"partial: refused") {
            continue;
        }
        let outcome = outcome_of(&std::fs::read(&path).expect("it can be read"));
        assert_eq!(outcome.as_deref(), Some(expected.as_slice()), "{}", path.display());
        compared += 1;
    }
    assert!(compared > 0);
}

#[test]
fn what_is_no_plan_is_refused() {
    for text in ["", "sizes 1 1 0 3\ninitial 5\nport\nsteps", "sizes 1 1 0 3\ninitial\nport\nsteps\n"] {
        assert!(outcome_of(text.as_bytes()).is_none());
    }
}

/// No large plan is longer than a plan may be, and the turns of each leave no call unfinished.
#[test]
fn large_plans_are_finished() {
    for text in [large::updates(), large::scans(), large::walk()] {
        assert!(text.len() <= 4_194_304);
        let outcome = outcome_of(&text).expect("it is a plan");
        let unfinished = outcome.split(|byte| *byte == b'\n').any(|line| line.ends_with(b" -"));
        assert!(!unfinished);
    }
}

#[test]
fn numbers_are_written_in_decimal() {
    for number in (0..=1_000).chain([9_999, 10_000, 123_456_789, u64::MAX - 1, u64::MAX]) {
        let mut text = b" ".to_vec();
        push_number(&mut text, number);
        assert_eq!(text, format!(" {number}").into_bytes());
    }
}
