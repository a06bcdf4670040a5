//! Judge, compile and evaluate: the product replies as the independent judge does.

use agreement::judging::{judging_agrees, Tally};

#[test]
fn judge_compile_and_evaluate_agree() {
    let mut tally = Tally::default();
    for seed in 0..1_500 {
        judging_agrees(seed, &mut tally);
    }
    for (rule, times) in tally.rules.iter().enumerate() {
        assert!(*times >= 40, "rule {rule} was shown too rarely: {tally:?}");
    }
    for kind in 1..=6 {
        assert!(
            tally.kinds[kind] >= 40,
            "kind {kind} was compiled too rarely: {tally:?}"
        );
    }
    assert!(tally.false_predicates >= 1000, "{tally:?}");
    assert!(tally.all_hold >= 1000, "{tally:?}");
}
