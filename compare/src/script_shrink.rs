//! Makes a script that shows a difference as short as it can.

use crate::lower::lower_numbers;

/// Tries of a shorter script, at most.
const TRIES: u32 = 20_000;

/// Says whether a script still shows a difference.
pub type Differs<'a> = &'a mut dyn FnMut(&[u8]) -> bool;

struct Shrinking<'a> {
    lines: Vec<Vec<u8>>,
    differs: Differs<'a>,
    tries: u32,
}

/// Removes lines, lowers numbers and removes bytes while the difference
/// stays.
pub fn shrink(script: &[u8], differs: Differs) -> Vec<u8> {
    let lines = script.split(|byte| *byte == 10).map(<[u8]>::to_vec).collect();
    let mut shrinking = Shrinking { lines, differs, tries: 0 };
    while shrinking.tries < TRIES {
        let removed = shrinking.remove_lines();
        let renumbered = shrinking.remove_sends();
        let lowered = shrinking.lower_numbers();
        let bytes = shrinking.remove_bytes();
        if !(removed || renumbered || lowered || bytes) {
            break;
        }
    }
    shrinking.lines.join(&10)
}

impl Shrinking<'_> {
    /// Takes these lines instead if they still show a difference.
    fn take(&mut self, lines: Vec<Vec<u8>>) -> bool {
        self.tries += 1;
        let stays = self.tries <= TRIES && (self.differs)(&lines.join(&10));
        if stays {
            self.lines = lines;
        }
        stays
    }

    /// Runs of lines first, then ever fewer, from the end to the front.
    fn remove_lines(&mut self) -> bool {
        let mut any = false;
        let mut run = self.lines.len() / 2;
        while run >= 1 {
            let mut end = self.lines.len();
            while end > 0 {
                let start = end.saturating_sub(run);
                let mut fewer = self.lines.clone();
                fewer.drain(start..end);
                any |= self.take(fewer);
                end = start.min(self.lines.len());
            }
            run /= 2;
        }
        any
    }

    /// A send without which the later place numbers are one lower.
    fn remove_sends(&mut self) -> bool {
        let mut any = false;
        let mut at = 0;
        while at < self.lines.len() {
            if self.lines[at].starts_with(b"send ") {
                let place = self.lines[..at].iter().filter(|l| l.starts_with(b"send ")).count();
                let mut fewer = self.lines.clone();
                fewer.remove(at);
                for line in &mut fewer[at..] {
                    lower_place(line, place as u64);
                }
                if self.take(fewer) {
                    any = true;
                    continue;
                }
            }
            at += 1;
        }
        any
    }

    /// Each number as low as it goes.
    fn lower_numbers(&mut self) -> bool {
        let mut any = false;
        for at in 0..self.lines.len() {
            for word in 0..words(&self.lines[at]).len() {
                while self.lower_number(at, word) {
                    any = true;
                }
            }
        }
        any
    }

    fn lower_number(&mut self, at: usize, word: usize) -> bool {
        let Some(number) = number_at(&self.lines[at], word) else {
            return false;
        };
        lower_numbers(number).into_iter().any(|low| {
            let mut lines = self.lines.clone();
            set_word(&mut lines[at], word, low);
            self.take(lines)
        })
    }

    /// Single bytes, once the script is short.
    fn remove_bytes(&mut self) -> bool {
        let mut any = false;
        if self.lines.len() > 40 {
            return false;
        }
        for at in 0..self.lines.len() {
            let mut place = self.lines[at].len();
            while place > 0 {
                place -= 1;
                let mut lines = self.lines.clone();
                lines[at].remove(place);
                any |= self.take(lines);
                place = place.min(self.lines[at].len());
            }
        }
        any
    }
}

fn words(line: &[u8]) -> Vec<&[u8]> {
    line.split(|byte| *byte == b' ').collect()
}

fn number_at(line: &[u8], word: usize) -> Option<u64> {
    let word = words(line).get(word).copied()?;
    std::str::from_utf8(word).ok()?.parse().ok()
}

fn set_word(line: &mut Vec<u8>, word: usize, number: u64) {
    let text = number.to_string().into_bytes();
    let mut parts: Vec<Vec<u8>> = words(line).into_iter().map(<[u8]>::to_vec).collect();
    parts[word] = text;
    *line = parts.join(&b' ');
}

/// In a deliver or lose, a place above this one becomes one lower.
fn lower_place(line: &mut Vec<u8>, above: u64) {
    let named = line.starts_with(b"deliver ") || line.starts_with(b"lose ");
    match number_at(line, 1) {
        Some(place) if named && place > above => set_word(line, 1, place - 1),
        _ => (),
    }
}
