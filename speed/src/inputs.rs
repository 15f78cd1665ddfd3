//! Inputs from a seed, the same for both.

use std::fmt::Write;

use speed::numbers::sound;
use speed::record::{message_sound, write};

/// A small generator of numbers.
pub struct Random(pub u64);

impl Random {
    fn next(&mut self) -> u64 {
        self.0 = self.0.wrapping_add(0x9E37_79B9_7F4A_7C15);
        let mut z = self.0;
        z = (z ^ (z >> 30)).wrapping_mul(0xBF58_476D_1CE4_E5B9);
        z = (z ^ (z >> 27)).wrapping_mul(0x94D0_49BB_1331_11EB);
        z ^ (z >> 31)
    }

    fn below(&mut self, n: u64) -> u64 {
        self.next() % n
    }
}

fn message(random: &mut Random, from: u64, to: u64) -> [u64; 13] {
    let mut m = [0u64; 13];
    m[..5].copy_from_slice(&[
        from,
        to,
        random.below(1000),
        1 + random.below(1000),
        1 + random.below(1000),
    ]);
    if random.below(2) == 0 {
        let slot = [1, random.below(1000), random.below(m[4]), 1 + random.below(1000)];
        m[5..9].copy_from_slice(&slot);
    }
    if random.below(2) == 0 {
        let token = [1, random.below(m[3]), random.below(1000), random.below(1000)];
        m[9..13].copy_from_slice(&token);
    }
    assert!(message_sound(&m));
    m
}

fn bytes_of(m: &[u64; 13]) -> Vec<u8> {
    let mut out = [0u8; 68];
    let size = write(m, &mut out).result as usize;
    out[..size].to_vec()
}

/// Records of all sizes, each with its message.
pub fn records(random: &mut Random, n: usize) -> Vec<(Vec<u8>, [u64; 13])> {
    let all = (0..n).map(|_| {
        let from = random.below(16);
        let to = (from + 1 + random.below(15)) % 16;
        message(random, from, to)
    });
    all.map(|m| (bytes_of(&m), m)).collect()
}

/// Stations of a table of 16 with half of their cells held, each with a record for it.
pub fn stations(random: &mut Random, n: usize) -> Vec<([u64; 134], Vec<u8>)> {
    let mut all = Vec::new();
    for _ in 0..n {
        let (number, peer) = (random.below(16), random.below(15));
        let peer = if peer >= number { peer + 1 } else { peer };
        let s = station(random, number);
        let m = message(random, peer, number);
        all.push((s, bytes_of(&m)));
    }
    all
}

fn station(random: &mut Random, number: u64) -> [u64; 134] {
    let mut s = [0u64; 134];
    s[..6].copy_from_slice(&[number, 16, random.below(1000), 1000, 2000, 2000]);
    for k in (0..16).filter(|k| *k as u64 != number) {
        if random.below(2) == 0 {
            let slot = [1, random.below(1000), random.below(1000), 1 + random.below(100)];
            s[6 + 4 * k..10 + 4 * k].copy_from_slice(&slot);
        }
        if random.below(2) == 0 {
            let token = [1, random.below(1000), random.below(1000), random.below(100)];
            s[70 + 4 * k..74 + 4 * k].copy_from_slice(&token);
        }
    }
    assert!(sound(&s));
    s
}

/// Steps in a mix: mostly sends and deliveries, also late and repeated ones, adds, draws and
/// losses.
pub fn steps(random: &mut Random, count: u64, n: usize) -> Vec<u64> {
    let mut codes = Vec::new();
    for _ in 0..n {
        let from = random.below(count);
        let to = (from + 1 + random.below(count - 1)) % count;
        codes.extend(match random.below(10) {
            0 | 1 => [0, from, 1 + random.below(1000)],
            2 => [1, from, 1 + random.below(100)],
            3..=5 => [2, from, to],
            6..=8 => [3, random.below(64), 0],
            _ => [4, random.below(64), 0],
        });
    }
    codes
}

/// A script of such steps, of about so many bytes.
pub fn script(random: &mut Random, count: u64, size: usize) -> String {
    let mut script = format!("stations {count}\n");
    while script.len() + 20 < size {
        let code = steps(random, count, 1);
        match code[0] {
            0 => writeln!(script, "add {} {}", code[1], code[2]),
            1 => writeln!(script, "draw {} {}", code[1], code[2]),
            2 => writeln!(script, "send {} {}", code[1], code[2]),
            3 => writeln!(script, "deliver {}", code[1]),
            _ => writeln!(script, "lose {}", code[1]),
        }
        .expect("a string grows");
    }
    script
}
