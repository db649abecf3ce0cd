//! The static library behind safe functions.

use crate::bench::{Bench, Tables};

/// The linked library.
pub struct Library;

extern "C" {
    fn bench_text(
        input: *const u8,
        input_len: usize,
        out: *mut u8,
        out_len: usize,
        bytes: *mut usize,
    ) -> usize;
    fn bench_run(
        wrapper: u32,
        tables: *const u32,
        tables_len: usize,
        lengths: *const u32,
        lengths_len: usize,
        steps: *const u32,
        steps_len: usize,
        out: *mut u32,
        out_len: usize,
        numbers: *mut [usize; 3],
    ) -> usize;
    fn bench_check_trace(
        wrapper: u32,
        tables: *const u32,
        tables_len: usize,
        lengths: *const u32,
        lengths_len: usize,
        steps: *const u32,
        steps_len: usize,
        labels: *const u32,
        labels_len: usize,
        place: *mut [usize; 2],
    ) -> usize;
    fn bench_stranded_after(
        wrapper: u32,
        tables: *const u32,
        tables_len: usize,
        lengths: *const u32,
        lengths_len: usize,
        steps: *const u32,
        steps_len: usize,
        side: u32,
        out: *mut u32,
        out_len: usize,
        numbers: *mut [usize; 3],
    ) -> usize;
}

impl Bench for Library {
    fn text(&self, input: &[u8], out: &mut [u8], bytes: &mut usize) -> usize {
        // Slices are what the header asks for: never null, as long as told, and apart from each other.
        unsafe {
            bench_text(
                input.as_ptr(),
                input.len(),
                out.as_mut_ptr(),
                out.len(),
                bytes,
            )
        }
    }

    fn run(
        &self,
        tables: Tables,
        steps: &[u32],
        out: &mut [u32],
        numbers: &mut [usize; 3],
    ) -> usize {
        // As above.
        unsafe {
            bench_run(
                tables.wrapper,
                tables.words.as_ptr(),
                tables.words.len(),
                tables.lengths.as_ptr(),
                tables.lengths.len(),
                steps.as_ptr(),
                steps.len(),
                out.as_mut_ptr(),
                out.len(),
                numbers,
            )
        }
    }

    fn check_trace(
        &self,
        tables: Tables,
        steps: &[u32],
        labels: &[u32],
        place: &mut [usize; 2],
    ) -> usize {
        // As above.
        unsafe {
            bench_check_trace(
                tables.wrapper,
                tables.words.as_ptr(),
                tables.words.len(),
                tables.lengths.as_ptr(),
                tables.lengths.len(),
                steps.as_ptr(),
                steps.len(),
                labels.as_ptr(),
                labels.len(),
                place,
            )
        }
    }

    fn stranded_after(
        &self,
        tables: Tables,
        steps: &[u32],
        side: u32,
        out: &mut [u32],
        numbers: &mut [usize; 3],
    ) -> usize {
        // As above.
        unsafe {
            bench_stranded_after(
                tables.wrapper,
                tables.words.as_ptr(),
                tables.words.len(),
                tables.lengths.as_ptr(),
                tables.lengths.len(),
                steps.as_ptr(),
                steps.len(),
                side,
                out.as_mut_ptr(),
                out.len(),
                numbers,
            )
        }
    }
}
