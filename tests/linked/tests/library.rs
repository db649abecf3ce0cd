//! The linked library against the separate implementation, on a few seeds; `linked N` does many.

#[cfg(library)]
#[test]
fn the_library_does_not_differ() {
    let tally = linked::compare_seeds(
        &linked::library::Library,
        0,
        40,
        |seed, place, case, how| {
            println!("seed {seed}, call {place}, {}: {how}", case.sort);
        },
    );
    assert!(tally.compared > 10_000);
    assert_eq!(tally.different, 0);
}

#[cfg(not(library))]
#[test]
#[ignore = "libembed.a was missing when this was built"]
fn the_library_does_not_differ() {}
