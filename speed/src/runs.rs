//! Steps of a table, in runs and by value.

use std::hint::black_box;

use quynhabet_archive::measure as proved;
use speed::table;

use crate::inputs::{steps, Random};
use crate::timing::{print_row, timed};

/// Runs as short as a script makes them, and longer: what a step costs depends on it.
pub fn time_steps(turns: usize, random: &mut Random) {
    for count in [2, 4, 8, 16] {
        for (length, name) in [(1024, "1,024"), (4000, "4,000"), (20_000, "20,000")] {
            let codes = steps(random, count, length);
            let name = format!("a step in a run of {name} on a table of {count}");
            time_run(turns, count, &codes, &name);
        }
        time_by_value(turns, count, &steps(random, count, 4000));
    }
}

fn time_run(turns: usize, count: u64, codes: &[u64], name: &str) {
    let room = codes.len() / 3 * 5;
    let mut told = [vec![0u64; room], vec![0u64; room]];
    let done = [proved::run(count, codes, &mut told[0]), table::run(count, codes, &mut told[1])];
    assert_eq!((done[0], &told[0]), (done[1], &told[1]));
    let [first, second] = &mut told;
    let times = timed(
        turns,
        codes.len() / 3,
        || {
            black_box(proved::run(count, black_box(codes), first));
        },
        || {
            black_box(table::run(count, black_box(codes), second));
        },
    );
    print_row(name, times);
}

fn time_by_value(turns: usize, count: u64, codes: &[u64]) {
    assert_eq!(proved::last_result(count, codes), table::last_result(count, codes));
    let times = timed(
        turns,
        codes.len() / 3,
        || {
            black_box(proved::last_result(count, black_box(codes)));
        },
        || {
            black_box(table::last_result(count, black_box(codes)));
        },
    );
    print_row(&format!("a step by value on a table of {count}, tested before each"), times);
}
