//! The comparison with a fixed seed, at a size that takes a second, and odd places.

use slots::{Operation, Ours, Pair, Refused, run};

#[test]
fn random_operations() {
    assert_eq!(run::random(7, 100_000), Ok(100_000));
}

#[test]
fn sweeps_from_every_position_with_every_count() {
    assert!(run::every_sweep(7, 8).is_ok());
}

#[test]
fn a_difference_is_seen() {
    let mut pair = Pair::new(3);
    pair.apply(Operation::Take { colour: 1 }).expect("the same");
    pair.ours.words[3] = 4;
    assert!(pair.apply(Operation::Take { colour: 1 }).is_err());
}

#[test]
fn buffers_too_short_are_refused_with_1_and_left_alone() {
    for cut in 1..10 {
        let mut ours = Ours::new(4);
        ours.words.truncate(ours.words.len() - cut);
        let before = ours.clone();
        assert_eq!(ours.take(1), Err(Refused(1)));
        assert_eq!(ours.sweep(1, 2, 0, 80), Err(Refused(1)));
        assert_eq!(ours.free(0, 0), Err(Refused(1)));
        assert_eq!(ours, before);
    }
}

#[test]
fn a_head_that_names_no_free_slot_makes_nothing() {
    let mut ours = Ours::new(2);
    ours.take(1).expect("room");
    ours.words[0] = 1;
    let before = ours.clone();
    assert_eq!(ours.take(1), Err(Refused(8)));
    assert_eq!(ours, before);
    ours.words[0] = 0;
    ours.take(1).expect("room");
    ours.words[0] = 1;
    assert_eq!(ours.take(1), Err(Refused(3)));
}
