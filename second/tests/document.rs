//! What the document shows: its worked script, its cases at the edges, its
//! 30-byte record, and the ways it has been got wrong.

use second::limits::{LAST_CLOCK, MOST_VALUE};
use second::{record, script, Answer, Fault, Held, Message, Station, Table, Told};

const WORKED: &str = "stations 2/add 0 10/send 0 1/deliver 0/send 1 0/deliver 1/draw 0 7/\
    send 0 1/deliver 2/deliver 2/lose 2/send 0 0";

const WORKED_OUTPUT: &str = "1 0 10
2 0 0
3 0 0
4 0 1
5 0 0
6 15 0
7 0 2
8 0 5
9 0 0
10 0 0
11 3 0
station 0 value 5 source 1 destination 0
station 1 value 5 source 0 destination 1
on the way 0
total 10
";

const RECORD: [u8; 30] =
    [1, 0, 1, 0, 2, 0, 1, 1, 3, 0, 8, 0, 0, 0, 0, 0, 0, 0, 10, 4, 0, 8, 0, 0, 0, 0, 0, 0, 0, 0];

fn held(source: u64, destination: u64, quantity: u64) -> Held {
    Held { source, destination, quantity }
}

/// Station 1 of 2 with this value, and enough room below its clocks.
fn station(value: u64) -> Station {
    let (_, fresh) = Station::fresh(1, 2);
    Station { value, ..fresh }
}

/// A message from station 0 to station 1 that shows this value.
fn message(value: u64) -> Message {
    Message { from: 0, to: 1, value, ..Message::default() }
}

fn take(station: &mut Station, message: &Message) -> Told {
    let told = station.receive_message(message, Fault::None);
    assert_eq!(told.answer, Answer::Done);
    told
}

fn run(script: &str) -> String {
    let output = script::run(script.replace('/', "\n").as_bytes(), Fault::None);
    String::from_utf8(output).expect("the output is plain text")
}

#[test]
fn worked_script() {
    assert_eq!(run(WORKED), WORKED_OUTPUT);
    assert_eq!(run(&format!("{WORKED}/")), WORKED_OUTPUT);
}

/// A draw at station 1 with this value: answer, result, and the value left.
fn draw(value: u64, amount: u64) -> (u64, u64, u64) {
    let mut drawer = station(value);
    let told = drawer.draw(amount, Fault::None);
    (told.answer.number(), told.result, drawer.value)
}

#[test]
fn a_draw_is_all_or_none() {
    assert_eq!(draw(5, 5), (0, 5, 0));
    assert_eq!(draw(5, 6), (15, 0, 5));
    assert_eq!(draw(0, 1), (15, 0, 0));
}

#[test]
fn a_draw_looks_for_1_and_4_before_15() {
    assert_eq!(draw(5, 0), (4, 0, 5));
    assert_eq!(draw(5, 1_000_000_001), (4, 0, 5));
    assert_eq!(draw(5, 1_000_000_000), (15, 0, 5));
    assert_eq!(draw(MOST_VALUE + 1, 0), (1, 0, MOST_VALUE + 1));
    let mut unsound = Station { count: 17, ..station(5) };
    assert_eq!(unsound.draw(6, Fault::None), Told::refused(Answer::NotSound));
}

#[test]
fn a_table_looks_for_2_before_4_and_15() {
    let (_, mut table) = Table::fresh(2);
    for amount in [0, 1, 1_000_000_001] {
        assert_eq!(table.draw(2, amount, Fault::None), Told::refused(Answer::NotBelowCount));
    }
    assert_eq!(table.draw(1, 1, Fault::None), Told::refused(Answer::TooFew));
}

#[test]
fn edge_values_10_and_0_open_a_slot_of_5() {
    let mut poorer = station(0);
    let told = take(&mut poorer, &message(10));
    assert_eq!(told.report.rules_sum(), 4);
    assert_eq!((told.result, told.report.opened), (0, 5));
    assert_eq!(poorer.slots[0], Some(held(0, 0, 5)));
    assert_eq!(poorer.destination, 1);
}

#[test]
fn edge_values_1_and_0_open_no_slot() {
    let mut poorer = station(0);
    assert_eq!(take(&mut poorer, &message(1)), Told::done(0));
    assert_eq!(poorer, station(0));
}

#[test]
fn edge_values_3_and_5_open_no_slot() {
    let mut richer = station(5);
    assert_eq!(take(&mut richer, &message(3)), Told::done(0));
    assert_eq!(richer, station(5));
}

/// A message that shows value 0 and a slot (0,0) of 5.
fn asking() -> Message {
    Message { destination: 1, slot: Some(held(0, 0, 5)), ..message(0) }
}

#[test]
fn edge_slot_of_5_and_5_held_make_a_token_of_5() {
    let mut maker = station(5);
    let told = take(&mut maker, &asking());
    assert_eq!((told.report.rules_sum(), told.report.made), (16, 5));
    assert_eq!((maker.value, maker.source), (0, 1));
    assert_eq!(maker.tokens[0], Some(held(0, 0, 5)));
}

#[test]
fn edge_slot_of_5_and_0_held_make_a_token_of_0() {
    let mut maker = station(0);
    let told = take(&mut maker, &asking());
    assert_eq!((told.report.rules_sum(), told.report.made), (16, 0));
    assert_eq!((maker.value, maker.source), (0, 1));
    assert_eq!(maker.tokens[0], Some(held(0, 0, 0)));
}

#[test]
fn edge_the_same_slot_again_makes_no_token() {
    let mut maker = station(5);
    take(&mut maker, &asking());
    let once = maker.clone();
    assert_eq!(take(&mut maker, &asking()), Told::done(0));
    assert_eq!(maker, once);
}

#[test]
fn edge_the_same_token_again_leaves_the_value() {
    let mut poorer = station(0);
    take(&mut poorer, &message(10));
    let carrying = Message { source: 1, token: Some(held(0, 0, 5)), ..message(5) };
    let told = take(&mut poorer, &carrying);
    assert_eq!((told.result, told.report.rules_sum(), poorer.value), (5, 1, 5));
    assert_eq!(take(&mut poorer, &carrying), Told::done(0));
    assert_eq!(poorer.value, 5);
}

#[test]
fn edge_a_slot_is_dropped_and_none_opened() {
    let mut receiver = Station { destination: 1, ..station(4) };
    receiver.slots[0] = Some(held(0, 0, 3));
    let told = take(&mut receiver, &Message { source: 1, ..message(4) });
    assert_eq!(told.report.rules_sum(), 2);
    assert_eq!(receiver, Station { destination: 1, ..station(4) });
}

#[test]
fn edge_intake_at_its_limit() {
    let near = Station { intake: 999_999_999, ..station(0) };
    let mut filled = near.clone();
    assert_eq!(filled.add(1), Told::done(1));
    let mut refused = near.clone();
    assert_eq!(refused.add(2), Told::refused(Answer::IntakeLimit));
    assert_eq!(refused, near);
}

#[test]
fn edge_the_30_byte_record_and_a_31st_byte() {
    let mut longer = RECORD.to_vec();
    assert_eq!(record::read(&longer), (Told::done(30), message(10)));
    longer.push(0);
    assert_eq!(record::read(&longer), (Told::refused(Answer::NoRecord), Message::default()));
}

#[test]
fn the_30_byte_record_is_written() {
    let (_, mut sender) = Station::fresh(0, 2);
    sender.add(10);
    let mut out = [0xee; 33];
    assert_eq!(sender.write(1, &mut out), Told::done(30));
    assert_eq!(out[..30], RECORD);
    assert_eq!(out[30..], [0xee; 3]);
    assert_eq!(sender.write(1, &mut out[..29]), Told::refused(Answer::ShortBuffer));
    assert_eq!(sender.write(0, &mut []), Told::refused(Answer::SameStation));
    assert_eq!(sender.write(2, &mut []), Told::refused(Answer::NotBelowCount));
}

#[test]
fn wrong_a_second_fill_by_one_clock() {
    let mut receiver = Station { destination: 2, ..station(5) };
    receiver.slots[0] = Some(held(0, 1, 2));
    let late = Message { source: 1, token: Some(held(0, 0, 5)), ..message(5) };
    let told = receiver.clone().receive_message(&late, Fault::None);
    assert_eq!((told.result, told.report.rules_sum()), (0, 2));
    assert_eq!(receiver.receive_message(&late, Fault::FillByOneClock).result, 5);
}

#[test]
fn wrong_rule_4_without_a_look_at_the_slot() {
    let mut maker = Station { source: 1, ..station(0) };
    maker.tokens[0] = Some(held(0, 0, 5));
    let mut kept = maker.clone();
    assert_eq!(kept.receive_message(&asking(), Fault::None), Told::done(0));
    assert_eq!(kept.tokens[0], Some(held(0, 0, 5)));
    maker.receive_message(&asking(), Fault::Rule4WithoutSlot);
    assert_eq!(maker.tokens[0], None);
}

/// A station with source clock 1 and token (0,0) takes a message with this
/// destination clock and slot: the sum of the rules that acted, and whether
/// the token goes where rule 4 is narrow.
fn spent(destination: u64, slot: Option<Held>) -> (u64, bool) {
    let mut maker = Station { source: 1, ..station(9) };
    maker.tokens[0] = Some(held(0, 0, 5));
    let shown = Message { destination, slot, ..message(0) };
    let mut narrow = maker.clone();
    narrow.receive_message(&shown, Fault::NarrowRule4);
    (take(&mut maker, &shown).report.rules_sum(), narrow.tokens[0].is_none())
}

#[test]
fn a_token_goes_for_a_newer_slot() {
    assert_eq!(spent(2, Some(held(0, 1, 3))), (8, false));
    assert_eq!(spent(2, Some(held(1, 1, 3))), (8 + 16, false));
    assert_eq!(spent(1, Some(held(0, 0, 3))), (0, false));
    assert_eq!(spent(1, None), (8, true));
}

#[test]
fn clocks_at_their_end_open_and_make_nothing() {
    let mut receiver = Station { destination: LAST_CLOCK, ..station(0) };
    assert_eq!(take(&mut receiver, &message(10)), Told::done(0));
    let mut maker = Station { source: LAST_CLOCK, ..station(9) };
    let slot = Some(held(LAST_CLOCK, 0, 5));
    assert_eq!(take(&mut maker, &Message { slot, ..asking() }), Told::done(0));
    assert_eq!(maker.value, 9);
}

#[test]
fn a_fill_above_the_limit_is_refused() {
    let mut receiver = Station { destination: 1, ..station(MOST_VALUE) };
    receiver.slots[0] = Some(held(0, 0, 1));
    let before = receiver.clone();
    let carrying = Message { source: 1, token: Some(held(0, 0, 1)), ..message(0) };
    let told = receiver.receive_message(&carrying, Fault::None);
    assert_eq!(told, Told::refused(Answer::ValueLimit));
    assert_eq!(receiver, before);
}

#[test]
fn receiving_refuses_in_order() {
    let (_, mut receiver) = Station::fresh(1, 3);
    let mut told = |m: Message| receiver.receive_message(&m, Fault::None).answer;
    assert_eq!(told(Message { from: 1, to: 1, ..message(0) }), Answer::NoRecord);
    assert_eq!(told(Message { from: 3, ..message(0) }), Answer::NotBelowCount);
    assert_eq!(told(Message { to: 3, ..message(0) }), Answer::NotBelowCount);
    assert_eq!(told(Message { to: 2, ..message(0) }), Answer::ForAnother);
    let mut unsound = Station::default();
    assert_eq!(unsound.receive(&[], Fault::None).answer, Answer::NotSound);
}

#[test]
fn a_station_is_checked() {
    assert_eq!(station(7).check(), Told::done(0));
    let beyond = Station { number: 3, count: 3, ..Station::default() };
    assert_eq!(beyond.check(), Told::refused(Answer::NotSound));
    let mut holding = station(7);
    holding.slots[0] = Some(held(0, 0, 1));
    assert_eq!(holding.check(), Told::refused(Answer::NotSound));
    holding.destination = 1;
    assert_eq!(holding.check(), Told::done(0));
}

#[test]
fn first_lines() {
    for bad in
        ["", "/", "stations", "stations 02", "stations  2", "stations 2 ", "stations 10000000000"]
    {
        assert_eq!(run(bad), "0 12 0\n", "{bad}");
    }
    for count in ["0", "1", "17", "4294967298", "9999999999"] {
        assert_eq!(run(&format!("stations {count}/add 0 1")), "0 1 0\n", "{count}");
    }
    let long = format!("stations 2{}", "\n".repeat(65_526));
    assert!(script::run(long.as_bytes(), Fault::None).starts_with(b"1 12 0\n"));
    assert_eq!(run(&format!("{long}\n")), "0 13 0\n");
}

#[test]
fn step_lines() {
    let answers = |script: &str| -> Vec<String> {
        let steps = script.split('/').count() - 1;
        run(script)
            .lines()
            .take(steps)
            .map(|l| l.split(' ').nth(1).unwrap_or("").to_string())
            .collect()
    };
    let all = "stations 2/deliver 4294967296/add 4294967296 1/deliver 63/lose 0/add 0 0/\
        add 0 1000000001/add  0 1/add 0 01/add 0 10000000000/send 0 1 /deliver -1//send 0 2/\
        send 2 2";
    assert_eq!(answers(all).join(" "), "7 2 8 8 4 4 12 12 12 12 12 12 2 2");
    assert_eq!(run("stations 2//"), run("stations 2/x"));
    assert_eq!(run("stations 2/").lines().count(), 4);
}

#[test]
fn the_pool_fills_and_a_lost_place_is_used_again() {
    let (_, mut table) = Table::fresh(2);
    for place in 0..64 {
        assert_eq!(table.send(0, 1), Told::done(place));
    }
    assert_eq!(table.send(0, 1), Told::refused(Answer::PoolFull));
    assert_eq!(table.send(0, 0), Told::refused(Answer::SameStation));
    assert_eq!(table.lose(7), Told::done(0));
    assert_eq!(table.send(1, 0), Told::done(7));
}

#[test]
fn soundness_of_a_table() {
    let (_, fresh) = Table::fresh(3);
    assert!(fresh.is_sound());
    let mut other = fresh.clone();
    other.stations[3].value = MOST_VALUE + 1;
    assert!(other.is_sound(), "stations past the count are no part of the table");
    other.stations[2].count = 4;
    assert_eq!(other.on_the_way(), Told::refused(Answer::NotSound));
    let mut pooled = fresh;
    pooled.pool[63] = Some(Message { from: 3, to: 0, ..Message::default() });
    assert_eq!(pooled.lose(64), Told::refused(Answer::NotSound));
}
