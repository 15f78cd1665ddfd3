//! Random scripts that press the rules: late, repeated and lost messages,
//! full pools, amounts at the limits, damaged lines.

use second::limits::MOST_BYTES;

use crate::counts::Counts;
use crate::odd_lines;
use crate::random::Random;
use crate::writer::Writer;

/// One random script and the counts of what happens in it.
pub fn script(random: Random) -> (Vec<u8>, Counts) {
    let mut writer = Writer::new(random);
    if writer.random.chance(4) {
        return (writer.bad_script(), Counts::default());
    }
    while writer.counts.lines < writer.kind.lines && writer.script.len() < MOST_BYTES - 4000 {
        writer.some_lines();
    }
    writer.end();
    (writer.script, writer.counts)
}

impl Writer {
    /// The last line may lack its end; there may be empty lines after it.
    fn end(&mut self) {
        match self.random.below(12) {
            0 | 1 => {
                self.script.pop();
            }
            2 => self.script.push(10),
            3 => self.script.extend_from_slice(b"\n\n"),
            4 => self.script.push(b' '),
            _ => (),
        }
    }

    /// A script with a bad first line, with nothing after the first, with
    /// nothing at all, or about as long as a script may be.
    fn bad_script(mut self) -> Vec<u8> {
        match self.random.below(8) {
            0 => return Vec::new(),
            1 => return self.script[..self.random.below(13) as usize % self.script.len()].to_vec(),
            2 | 3 => {
                let length =
                    self.random.pick(&[65_535, 65_536, 65_536, 65_537, 65_538, 70_000, 140_000]);
                while self.script.len() < length {
                    self.some_lines();
                }
                self.script.truncate(length);
                return self.script;
            }
            _ => (),
        }
        let mut script = odd_lines::first_line(&mut self.random);
        for _ in 0..self.random.below(4) {
            self.some_lines();
        }
        let head = self.script.iter().position(|byte| *byte == 10).unwrap_or(0);
        script.extend_from_slice(&self.script[head..]);
        script
    }
}
