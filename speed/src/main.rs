//! Times the proved code and the code by hand on the same input, turn by turn in one run, and
//! prints a table of ratios.

#![forbid(unsafe_code)]

mod calls;
mod inputs;
mod programs;
mod runs;
mod timing;

use inputs::Random;

fn main() {
    let words: Vec<String> = std::env::args().collect();
    let turns = words.get(3).and_then(|turns| turns.parse().ok());
    let ([_, bench, by_hand, _], Some(turns)) = (&words[..], turns) else {
        eprintln!("usage: speed PATH-OF-BENCH PATH-OF-BY-HAND TURNS");
        std::process::exit(2);
    };
    let mut random = Random(20_261_115);
    println!("| operation | proved, ns | by hand, ns | ratio |");
    println!("|---|---|---|---|");
    calls::time_records(turns, &mut random);
    calls::time_receiving(turns, &mut random);
    runs::time_steps(turns, &mut random);
    programs::time_scripts(turns, &mut random, bench, by_hand);
    println!(
        "\nThe least of {turns} turn(s) each, both in one run on the same input. Buffers were \
         written to before and not cleared between calls."
    );
}
