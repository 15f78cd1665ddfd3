//! What is told, by its numbers: refusals, rules and reports.

use quynhabet_archive::Told;

use crate::refusal::done;
use crate::*;

#[test]
fn refusals_and_rules_have_their_numbers() {
    assert_eq!(Refusal::from_number(0), None);
    for number in 1..=15 {
        let refusal = Refusal::from_number(number).unwrap();
        assert_eq!(refusal.number(), number);
        assert_ne!(refusal, Refusal::Other(number));
    }
    assert_eq!(Refusal::from_number(11), Some(Refusal::ForAnother));
    assert_eq!(
        Refusal::NotSound.to_string(),
        "table or station lent is not sound, or a count is not 2 to 16"
    );
    assert_eq!(Rule::ALL.map(Rule::number), [1, 2, 3, 4, 5]);
}

#[test]
fn an_answer_that_is_not_known_is_a_refusal() {
    for number in [16, 20, u64::MAX] {
        let told = Told { answer: number, result: 0, rules: 0, opened: 0, made: 0 };
        let refusal = done(told).unwrap_err();
        assert_eq!((refusal, refusal.number()), (Refusal::Other(number), number));
        assert_eq!(refusal.to_string(), format!("refused with the unknown answer {number}"));
    }
}

#[test]
fn a_report_names_the_rules_that_acted() {
    let told = Told { answer: 0, result: 3, rules: 1 + 4 + 16, opened: 2, made: 0 };
    let report = Report::from_told(told);
    assert!(report.rules().eq([Rule::Fill, Rule::OpenSlot, Rule::MakeToken]));
    assert_eq!((report.filled(), report.opened(), report.made()), (Some(3), Some(2), Some(0)));
}

#[test]
fn a_report_passes_over_rules_that_are_not_known() {
    let told = Told { answer: 0, result: 0, rules: 2 + 32 + (1 << 63), opened: 0, made: 0 };
    assert!(Report::from_told(told).rules().eq([Rule::DropSlot]));
}
