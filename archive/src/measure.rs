//! The functions of `libmeasure.a`: runs of steps from a fresh table on, for the benchmark.
//!
//! A step goes in as three numbers, and what it told comes out as five.

extern "C" {
    fn qm_last_result(count: u64, codes: *const u64, codes_len: usize) -> u64;
    fn qm_run(
        count: u64,
        codes: *const u64,
        codes_len: usize,
        told: *mut u64,
        told_len: usize,
    ) -> u64;
}

/// Does the steps with a call for each, and gives the last result; a refusal's result is 0.
#[inline]
pub fn last_result(count: u64, codes: &[u64]) -> u64 {
    // SAFETY: the pointer comes from a slice with its own length, which is only read.
    unsafe { qm_last_result(count, codes.as_ptr(), codes.len()) }
}

/// Does the steps in one call, as many as there is room to tell of, and gives how many were done.
#[inline]
pub fn run(count: u64, codes: &[u64], told: &mut [u64]) -> u64 {
    // SAFETY: both pointers come from slices with their own lengths. What is told is ours alone, so
    // the two do not overlap.
    unsafe { qm_run(count, codes.as_ptr(), codes.len(), told.as_mut_ptr(), told.len()) }
}
