//! Numbers below a given one, to be tried in its place.

/// Numbers below this one, the lowest first. A large one does not go down by
/// ones, which would take too many tries.
pub fn lower_numbers(number: u64) -> Vec<u64> {
    let mut lower = vec![0, 1, 2, 10];
    lower.extend([2, 4, 64, 4096].map(|part| number - number / part));
    if number <= 100 {
        lower.push(number.saturating_sub(1));
    }
    lower.retain(|low| *low < number);
    lower
}
