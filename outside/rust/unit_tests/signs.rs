//! When it is known that no item is made and free: only if no return came since the look began.
use super::*;

/// Notes a look that began now.
fn look(signs: &Signs) {
    signs.none_found(signs.load_before());
}

fn is_known(signs: &Signs) -> bool {
    signs.load().has(NONE_MADE)
}

#[test]
fn the_first_look_is_watched_and_the_second_is_known() {
    let signs = Signs::default();
    assert!(!signs.load().has(Order::ANY.0));
    look(&signs);
    assert!(!is_known(&signs) && signs.load().has(Order::ANY.0) && signs.load().has(TOLD));
    look(&signs);
    assert!(is_known(&signs) && signs.load().has(Order::ANY.0));
}

#[test]
fn a_return_ends_what_is_known() {
    let signs = Signs::default();
    for _ in 0..3 {
        look(&signs);
        look(&signs);
        assert!(is_known(&signs));
        signs.made_came();
        assert!(!is_known(&signs) && !signs.load().has(Order::ANY.0) && !signs.load().has(TOLD));
    }
}

/// A look began, an item came back, and others watched or even knew since.
#[test]
fn a_look_before_a_return_says_nothing() {
    for others in 0..3 {
        for own in 0..2 {
            let signs = Signs::default();
            (0..own).for_each(|_| look(&signs));
            let begun = signs.load_before();
            look(&signs);
            signs.made_came();
            (0..others).for_each(|_| look(&signs));
            let before = (is_known(&signs), signs.load().has(Order::ANY.0));
            signs.none_found(begun);
            let is_same = (is_known(&signs), signs.load().has(Order::ANY.0)) == before;
            assert!(is_same, "{others} looks of others, {own} before");
        }
    }
}

#[test]
fn the_counts_are_apart() {
    let signs = Signs::default();
    for waiting in 1..5 {
        signs.enter();
        look(&signs);
        signs.made_came();
        assert_eq!(signs.load().waiting(), waiting);
        assert!(!signs.load().is_closed() && signs.load().has(TOLD));
        assert!(!signs.load().has(Order::ANY.0));
    }
    signs.close();
    assert_eq!((signs.load().waiting(), signs.load().is_closed()), (4, true));
    (0..4).for_each(|_| signs.leave());
    assert_eq!(signs.load().waiting(), 0);
    assert!(signs.load().is_closed() && signs.load().has(Order::ANY.0));
}
