//! Compares the static library of the bench with the separate implementation: generated calls of
//! `bench_check_trace`, `bench_run`, `bench_stranded_after` and `bench_text`, right ones and damaged ones,
//! each made of both.
//!
//! A call differs if the answer, the numbers beside it or a word of the lent list differ, or if a word
//! that is only lent for reading or stands beside a lent list is no longer what it was.

pub mod bench;
pub mod call;
pub mod cases;
pub mod compare;
pub mod lent;
#[cfg(library)]
pub mod library;
pub mod tally;

use bench::Bench;
use cases::Case;
use compare::Compared;
use tally::Tally;

/// Compares all cases of these seeds; `tell` hears of each that differs, with its seed and place.
pub fn compare_seeds(
    bench: &dyn Bench,
    from: u64,
    count: u64,
    mut tell: impl FnMut(u64, usize, &Case, &str),
) -> Tally {
    let mut tally = Tally::default();
    for seed in from..from + count {
        for (place, case) in cases::of_seed(seed).iter().enumerate() {
            let Compared { told, difference } = compare::compare(bench, &case.call);
            tally.add(case, told, difference.is_some());
            if let Some(difference) = difference {
                tell(seed, place, case, &difference);
            }
        }
    }
    tally
}
