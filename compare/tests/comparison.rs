//! The comparison finds each planted fault, and nothing where nothing is.

use compare::bench::Own;
use compare::budget::{Budget, Limit};
use compare::faults::{hidden_from_scripts, named};
use compare::flat::{FlatMessage, FlatStation};
use compare::outcome::Outcome;
use compare::side::{Side, ToldRow};
use compare::{calls, records, scripts, side};
use second::{Fault, Told};

fn by_scripts(fault: Fault) -> Outcome {
    let budget = Budget::new("test", Limit::Steps(20_000));
    scripts::compare(&mut Own { fault: Fault::None }, &mut Own { fault }, 7, budget)
}

#[test]
fn scripts_show_each_fault_that_is_not_hidden_from_them() {
    for fault in Fault::ALL {
        let shown = matches!(by_scripts(fault), Outcome::Differs(_));
        assert_eq!(shown, hidden_from_scripts(fault).is_none(), "{fault:?}");
    }
}

#[test]
fn scripts_show_no_difference_without_a_fault() {
    assert!(matches!(by_scripts(Fault::None), Outcome::Same(_)));
}

#[test]
fn faults_have_names() {
    assert_eq!(named("clockstands"), Some(Fault::ClockStands));
    assert_eq!(named("Rule5"), None);
}

fn by_calls(fault: Fault) -> Outcome {
    let budget = Budget::new("test", Limit::Steps(50_000));
    let (mut first, mut second) = (side::Own { fault: Fault::None }, side::Own { fault });
    calls::compare(&mut first, &mut second, 7, budget)
}

#[test]
fn calls_show_each_fault() {
    for fault in Fault::ALL {
        assert!(matches!(by_calls(fault), Outcome::Differs(_)), "{fault:?}");
    }
}

#[test]
fn calls_and_records_show_no_difference_without_a_fault() {
    assert!(matches!(by_calls(Fault::None), Outcome::Same(_)));
    let budget = Budget::new("test", Limit::Steps(200_000));
    let (mut first, mut second) =
        (side::Own { fault: Fault::None }, side::Own { fault: Fault::None });
    let outcome = records::compare(&mut first, &mut second, 7, budget);
    assert!(matches!(outcome, Outcome::Same(_)));
}

/// Finds every station sound, and else does as the second implementation.
struct Nods(side::Own);

impl Side for Nods {
    fn fresh(&mut self, number: u64, count: u64, station: &mut FlatStation) -> ToldRow {
        self.0.fresh(number, count, station)
    }

    fn check(&mut self, _: &FlatStation) -> ToldRow {
        Told::done(0).into()
    }

    fn add(&mut self, station: &mut FlatStation, amount: u64) -> ToldRow {
        self.0.add(station, amount)
    }

    fn draw(&mut self, station: &mut FlatStation, amount: u64) -> ToldRow {
        self.0.draw(station, amount)
    }

    fn write(&mut self, station: &FlatStation, to: u64, out: &mut [u8]) -> ToldRow {
        self.0.write(station, to, out)
    }

    fn receive(&mut self, station: &mut FlatStation, record: &[u8]) -> ToldRow {
        self.0.receive(station, record)
    }

    fn read(&mut self, record: &[u8], message: &mut FlatMessage) -> ToldRow {
        self.0.read(record, message)
    }

    fn write_given(&mut self, message: &FlatMessage, out: &mut [u8]) -> ToldRow {
        self.0.write_given(message, out)
    }
}

#[test]
fn calls_show_a_check_that_only_nods() {
    let own = || side::Own { fault: Fault::None };
    let budget = Budget::new("test", Limit::Steps(50_000));
    let Outcome::Differs(shown) = calls::compare(&mut Nods(own()), &mut own(), 7, budget) else {
        panic!("no difference was seen");
    };
    assert!(shown.contains("\nCheck\n"), "{shown}");
}
