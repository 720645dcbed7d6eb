//! What a run of calls is told that it has not come to.

use reference::script::reach::{faults, strange};
use reference::script::tally::Tally;

#[test]
fn every_matrix_is_asked_for() {
    let all = faults(&Tally::default());
    let matrices = [
        ("deal system", "Q"),
        ("first solver", "L"),
        ("first blinder", "M"),
        ("first blinder", "P"),
        ("next solver last", "W + V"),
        ("next blinder last, p = n", "kept P"),
        ("next blinder last, p = n", "dealt Q"),
    ];
    for (call, matrix) in matrices {
        assert!(all.contains(&format!("{call} was never refused as singular for {matrix}")));
    }
    assert!(all.contains(&"drop right was never accepted".to_string()));
    assert!(all.contains(&"is_prime never answered zero".to_string()));
}

#[test]
fn what_was_seen_is_not_asked_for() {
    let mut tally = Tally::default();
    tally.answers.insert(("first blinder".to_string(), "singular"), 1);
    // both at once tell nothing of P alone
    tally.matrices.extend([("M", 1), ("M and P", 1)]);
    let all = faults(&tally);
    assert!(!all.contains(&"first blinder was never refused as singular".to_string()));
    assert!(!all.contains(&"first blinder was never refused as singular for M".to_string()));
    assert!(all.contains(&"first blinder was never refused as singular for P".to_string()));
}

#[test]
fn what_cannot_be_is_strange() {
    let mut tally = Tally::default();
    tally.answers.insert(("first left".to_string(), "singular"), 1);
    assert_eq!(strange(&tally), ["first left was answered by singular, which the rules don't know of it"]);
}
