//! What the comparison knows of the faults that can be planted.

use second::Fault;

/// Why no script shows the fault; None where one does.
pub fn hidden_from_scripts(fault: Fault) -> Option<&'static str> {
    (fault == Fault::NarrowRule4).then_some(
        "the token that stays is older than a slot of its receiver: it fills none and is not \
         on the way, so that values and clocks are the same, and a script prints no more",
    )
}

/// The fault of this name, as in the enum; the case of letters is free.
pub fn named(name: &str) -> Option<Fault> {
    let same = |fault: &Fault| format!("{fault:?}").eq_ignore_ascii_case(name);
    Fault::ALL.into_iter().chain([Fault::None]).find(same)
}
