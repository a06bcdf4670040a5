//! ↔ against no arrowhead: the product tells no difference, whatever it is asked.

use agreement::alike::Tally;
use agreement::heads::heads_do_not_matter;

#[test]
fn heads_are_not_told_apart() {
    let mut tally = Tally::default();
    for seed in 0..1_000 {
        heads_do_not_matter(seed, &mut tally);
    }
    for (rule, times) in tally.rules.iter().enumerate() {
        assert!(*times >= 20, "rule {rule} was shown too rarely: {tally:?}");
    }
}
