//! Whole scripts, by both programs started anew.

use std::io::Write;
use std::process::{Command, Stdio};

use crate::inputs::{script, Random};
use crate::timing::{print_row, timed};

/// What a program prints of a script.
fn run(program: &str, script: &str) -> Vec<u8> {
    let mut child = Command::new(program)
        .stdin(Stdio::piped())
        .stdout(Stdio::piped())
        .spawn()
        .expect("the program starts");
    let mut stdin = child.stdin.take().expect("it has an input");
    let bytes = script.as_bytes().to_vec();
    let writer = std::thread::spawn(move || stdin.write_all(&bytes));
    let output = child.wait_with_output().expect("it ends");
    writer.join().expect("the writer ends").expect("all is written");
    output.stdout
}

/// Scripts nearly as long as they may be.
pub fn time_scripts(turns: usize, random: &mut Random, bench: &str, by_hand: &str) {
    for count in [2, 4, 16] {
        let script = script(random, count, 65_000);
        assert!(run(bench, &script) == run(by_hand, &script), "both print the same");
        let times = timed(
            turns,
            script.lines().count(),
            || drop(run(bench, &script)),
            || drop(run(by_hand, &script)),
        );
        print_row(&format!("a script of 65,000 bytes on {count} stations, a line"), times);
    }
}
