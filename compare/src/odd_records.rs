//! Records and messages changed at random.

use second::limits::{LAST_CLOCK, MOST_VALUE};
use second::{record, Message, Station};

use crate::case::{read_and_receive, Call, Case};
use crate::flat::{self, FlatMessage, MESSAGE};
use crate::numbers::room;
use crate::random::Random;
use crate::{messages, numbers, stations};

/// A few records or messages, changed at random.
pub fn random_case(mut random: Random) -> Case {
    let station = stations::station(&mut random);
    let mut case = Case { station: flat::from_station(&station), calls: Vec::new() };
    for _ in 0..random.between(1, 6) {
        let message = odd_message(&station, &mut random);
        match random.below(4) {
            0 => {
                let message = broken_row(&message, &mut random);
                case.calls.push(Call::WriteGiven { message, room: room(&mut random) });
            }
            1 => case.calls.extend(read_and_receive(random_bytes(&mut random))),
            _ => case.calls.extend(read_and_receive(changed_fields(&message, &mut random))),
        }
    }
    case
}

/// A message for the station, now and then just not sound.
fn odd_message(station: &Station, random: &mut Random) -> Message {
    let mut message = messages::message_for(station, random);
    let (source, destination) = (message.source, message.destination);
    match (random.below(16), &mut message.slot, &mut message.token) {
        (0, Some(slot), _) => slot.quantity = random.pick(&[0, MOST_VALUE, MOST_VALUE + 1]),
        (1, Some(slot), _) => slot.destination = random.around(destination).min(LAST_CLOCK),
        (2, _, Some(token)) => token.quantity = random.pick(&[0, MOST_VALUE, MOST_VALUE + 1]),
        (3, _, Some(token)) => token.source = random.around(source).min(LAST_CLOCK),
        (4, _, _) => message.value = random.pick(&[0, MOST_VALUE, MOST_VALUE + 1, u64::MAX]),
        (5, _, _) => message.from = random.below(256),
        (6, _, _) => message.to = random.below(256),
        _ => (),
    }
    message
}

/// The message as numbers, now and then with one of them broken.
fn broken_row(message: &Message, random: &mut Random) -> FlatMessage {
    let mut row = flat::from_message(message);
    if random.chance(2) {
        row = [0; MESSAGE];
    }
    match random.below(6) {
        0 => row[random.below(13) as usize] = numbers::any_number(random),
        1 => row[random.pick(&[5, 9])] = random.below(3),
        _ => (),
    }
    row
}

/// A record whose fields are repeated, swapped, missing, wrong in length or
/// tag, or left as they are.
fn changed_fields(message: &Message, random: &mut Random) -> Vec<u8> {
    let mut fields = split_fields(&record::bytes_of(message));
    let one = random.below(fields.len() as u64) as usize;
    let other = random.below(fields.len() as u64) as usize;
    match random.below(12) {
        0 => fields.insert(other, fields[one].clone()),
        1 => fields.swap(one, other),
        2 => drop(fields.remove(one)),
        3 => fields[one][2] = random.around(u64::from(fields[one][2])) as u8,
        4 => fields[one][1] = random.pick(&[1, 128, 255]),
        5 => fields[one][0] = random.pick(&[0, 1, 2, 3, 4, 5, 6, 7, 255]),
        6 => fields[one].push(random.below(256) as u8),
        7 => drop(fields[one].pop()),
        8 => longer_field(&mut fields[one]),
        9 => fields.push(vec![random.pick(&[0, 5, 6, 7, 255]), 0, 0]),
        _ => (),
    }
    fields.concat()
}

/// One byte more in the body, and the length says so.
fn longer_field(field: &mut Vec<u8>) {
    field.push(0);
    field[2] += 1;
}

fn split_fields(mut bytes: &[u8]) -> Vec<Vec<u8>> {
    let mut fields = Vec::new();
    while bytes.len() > 2 {
        let (field, rest) = bytes.split_at(3 + usize::from(bytes[2]));
        fields.push(field.to_vec());
        bytes = rest;
    }
    fields
}

/// 0 to 100 bytes, any or mostly small.
fn random_bytes(random: &mut Random) -> Vec<u8> {
    let length = random.below(101);
    let small = random.chance(50);
    (0..length).map(|_| if small { random.below(9) } else { random.below(256) } as u8).collect()
}
