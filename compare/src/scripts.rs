//! Random scripts through both bench programs; the outputs must be equal
//! byte for byte.

use crate::bench::Bench;
use crate::budget::Budget;
use crate::counts::Counts;
use crate::generator;
use crate::outcome::Outcome;
use crate::random::Random;
use crate::script_shrink::shrink;

/// Compares until the budget is used up or a difference is found.
pub fn compare(
    first: &mut dyn Bench,
    second: &mut dyn Bench,
    seed: u64,
    mut budget: Budget,
) -> Outcome {
    let mut counts = Counts::default();
    while budget.goes_on() {
        let case = budget.cases;
        let (script, happened) = generator::script(Random::new(seed, case));
        match outputs(first, second, &script) {
            Err(error) => return Outcome::Failed(error),
            Ok((one, two)) if one != two => {
                return Outcome::Differs(shown(first, second, &script, seed, case));
            }
            Ok(_) => (),
        }
        counts.join(&happened);
        budget.count(script.iter().filter(|byte| **byte == 10).count().max(1) as u64);
    }
    Outcome::Same(format!("scripts: no difference in {}; {}", budget.so_far(), counts.told()))
}

type Outputs = (Vec<u8>, Vec<u8>);

fn outputs(
    first: &mut dyn Bench,
    second: &mut dyn Bench,
    script: &[u8],
) -> Result<Outputs, String> {
    Ok((first.run(script)?, second.run(script)?))
}

/// The shortest script found that shows a difference, and both outputs.
fn shown(
    first: &mut dyn Bench,
    second: &mut dyn Bench,
    script: &[u8],
    seed: u64,
    case: u64,
) -> String {
    let mut differs =
        |script: &[u8]| outputs(first, second, script).is_ok_and(|(one, two)| one != two);
    let short = shrink(script, &mut differs);
    let (one, two) = outputs(first, second, &short).unwrap_or_default();
    format!(
        "scripts: a difference, seed {seed} case {case}, from {} bytes to {}\n\
         -- script --\n{}\n-- first --\n{}-- second --\n{}",
        script.len(),
        short.len(),
        readable(&short),
        readable(&one),
        readable(&two)
    )
}

/// Bytes as text; line ends stay, other odd bytes are escaped.
fn readable(bytes: &[u8]) -> String {
    let mut text = String::new();
    for byte in bytes {
        match byte {
            b'\n' => text.push('\n'),
            _ => text.extend(std::ascii::escape_default(*byte).map(char::from)),
        }
    }
    text
}
