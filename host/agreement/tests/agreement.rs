//! The comparison itself, with fewer calls than the program makes.

use agreement::many;
use agreement::report;
use agreement::run::{calls_of, run};
use agreement::sides::Library;

#[test]
fn the_library_and_the_reference_agree() {
    for seed in [2, 3] {
        let met = run(&Library, seed, 150_000)
            .unwrap_or_else(|failure| panic!("{}", report::failure(&Library, &failure)));
        print!("{}", report::tables(&met));
        assert!(report::complaints(&met).is_empty(), "{:#?}", report::complaints(&met));
    }
}

#[test]
fn bursts_and_serves_agree_with_single_calls() {
    for seed in [2, 3] {
        let met = many::run::run(&Library, seed, 60_000)
            .unwrap_or_else(|failure| panic!("{}", many::report::failure(&Library, &failure)));
        print!("{}", many::report::tables(&met));
        let complaints = many::report::complaints(&met);
        assert!(complaints.is_empty(), "{complaints:#?}");
    }
}

#[test]
fn a_case_is_the_same_each_time() {
    for number in 0..50 {
        assert_eq!(calls_of(5, number).2, calls_of(5, number).2);
        assert_eq!(many::run::calls_of(5, number).2, many::run::calls_of(5, number).2);
    }
    assert_ne!(calls_of(5, 1).1, calls_of(6, 1).1);
    assert_ne!(many::run::calls_of(5, 1).1, many::run::calls_of(6, 1).1);
}
