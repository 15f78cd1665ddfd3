//! The faults that can be planted.

/// The document's "Ways it has been got wrong", and two that were right before
/// a request. One can be planted, to show that the comparison sees it.
#[derive(Clone, Copy, Debug, Default, PartialEq, Eq)]
pub enum Fault {
    /// The rules as the document has them.
    #[default]
    None,
    /// "A second fill because only the source clock was matched."
    FillByOneClock,
    /// "Rule 4 run without a look at the message's slot."
    Rule4WithoutSlot,
    /// "Rule 2 before rule 1: the slot goes and its token can never land."
    Rule2First,
    /// "Rule 3 with i's value from before the fill, which asks for too much."
    Rule3BeforeFill,
    /// "The source clock left standing when q is 0."
    ClockStands,
    /// Rule 4 as it was before request 2026-01: a message with a slot drops
    /// no token.
    NarrowRule4,
    /// A draw as it was before request 2026-07: where more is asked than is
    /// there it takes what is there.
    DrawsWhatIsThere,
}

impl Fault {
    /// The seven that can be planted.
    pub const ALL: [Fault; 7] = [
        Fault::FillByOneClock,
        Fault::Rule4WithoutSlot,
        Fault::Rule2First,
        Fault::Rule3BeforeFill,
        Fault::ClockStands,
        Fault::NarrowRule4,
        Fault::DrawsWhatIsThere,
    ];
}
