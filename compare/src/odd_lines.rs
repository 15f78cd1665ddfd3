//! Lines that are damaged, first lines that are bad, numbers at the edges.

use crate::random::Random;

/// Numbers where something ends or a narrower number would wrap around.
pub const ODD_NUMBERS: [u64; 20] = [
    0,
    1,
    2,
    15,
    16,
    17,
    63,
    64,
    255,
    256,
    65_536,
    999_999_999,
    1_000_000_000,
    1_000_000_001,
    4_294_967_295,
    4_294_967_296,
    4_294_967_297,
    4_294_967_298,
    5_294_967_296,
    9_999_999_999,
];

/// First lines other than a plain good one; a few of them are good.
const FIRST_LINES: [&[u8]; 32] = [
    b"",
    b" ",
    b"stations",
    b"stations ",
    b"stations 0",
    b"stations 1",
    b"stations 17",
    b"stations 16",
    b"stations 02",
    b"stations 00",
    b"stations  2",
    b" stations 2",
    b"stations 2 ",
    b"stations 2 3",
    b"stations 2 x",
    b"Stations 2",
    b"STATIONS 2",
    b"station 2",
    b"stations2",
    b"stations\t2",
    b"stations 2\r",
    b"stations 2\0",
    b"stations +2",
    b"stations -2",
    b"stations 2.0",
    b"stations 4294967296",
    b"stations 4294967298",
    b"stations 9999999999",
    b"stations 10000000000",
    b"stations 0000000002",
    b"stations 258",
    b"add 0 10",
];

/// A first line that is likely bad.
pub fn first_line(random: &mut Random) -> Vec<u8> {
    random.pick(&FIRST_LINES).to_vec()
}

/// A line after damage. It never has a line end in it.
pub fn damaged(line: &[u8], random: &mut Random) -> Vec<u8> {
    let mut line = line.to_vec();
    let place = random.below(line.len() as u64 + 1) as usize;
    match random.below(14) {
        0 => line.clear(),
        1 => line.insert(0, b' '),
        2 => line.push(b' '),
        3 => line.push(b'\r'),
        4 => before_number(&mut line, b"0", random),
        5 => before_number(&mut line, b" ", random),
        6 => before_number(&mut line, b"+", random),
        7 => before_number(&mut line, b"0000000000", random),
        8 => line.extend_from_slice(random.pick(&[
            b" 0".as_slice(),
            b" 1",
            b" x",
            b"0000000000",
            b"\0",
        ])),
        9 => line.insert(place, random.pick(b" \t\r\x0b\x0c\x00\xff\xc2\xa0-.,;xX09")),
        10 => drop_byte(&mut line, place),
        11 => line.truncate(place),
        12 => line.make_ascii_uppercase(),
        _ => line = junk(random),
    }
    line
}

/// Puts bytes in front of one of the line's numbers.
fn before_number(line: &mut Vec<u8>, bytes: &[u8], random: &mut Random) {
    let starts: Vec<usize> = (1..line.len()).filter(|place| line[place - 1] == b' ').collect();
    if !starts.is_empty() {
        let place = random.pick(&starts);
        line.splice(place..place, bytes.iter().copied());
    }
}

fn drop_byte(line: &mut Vec<u8>, place: usize) {
    if place < line.len() {
        line.remove(place);
    }
}

/// Bytes of no meaning, now and then a great many.
fn junk(random: &mut Random) -> Vec<u8> {
    let length = if random.chance(5) { random.below(3000) } else { random.below(20) };
    let plain = random.chance(50);
    let mut bytes = Vec::new();
    for _ in 0..length {
        let byte = if plain { random.pick(b"ads eliv0129") } else { random.below(256) as u8 };
        bytes.push(if byte == 10 { b' ' } else { byte });
    }
    bytes
}
