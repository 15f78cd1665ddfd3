//! What receiving a record did.

use quynhabet_archive::Told;

/// One of the five rules of receiving.
#[derive(Clone, Copy, Debug, PartialEq, Eq, Hash)]
pub enum Rule {
    /// Rule 1: the token of the record fits the station's slot, and its passes go to the value.
    Fill,
    /// Rule 2: the sender's source clock has passed the slot, and the slot goes.
    DropSlot,
    /// Rule 3: the sender has more by 2 or above, and a slot for half of that is opened.
    OpenSlot,
    /// Rule 4: the record's slot, or else its destination clock, has passed the token, which goes.
    DropToken,
    /// Rule 5: the record has a slot for the station as it stands, and a token for it is made.
    MakeToken,
}

impl Rule {
    /// All five, in their order.
    pub const ALL: [Rule; 5] =
        [Rule::Fill, Rule::DropSlot, Rule::OpenSlot, Rule::DropToken, Rule::MakeToken];

    /// The rule's number, 1 to 5.
    pub fn number(self) -> u64 {
        self as u64 + 1
    }
}

/// What receiving a record did: which rules acted, and with what quantities.
///
/// ```
/// use quynhabet::{Rule, Station};
///
/// let mut giver = Station::fresh(0, 2)?;
/// let mut taker = Station::fresh(1, 2)?;
/// giver.add(10)?;
/// let report = taker.receive(&giver.record_for(1)?)?;
/// assert!(report.acted(Rule::OpenSlot) && !report.acted(Rule::Fill));
/// assert_eq!((report.filled(), report.opened(), report.made()), (None, Some(5), None));
/// # Ok::<(), quynhabet::Refusal>(())
/// ```
#[derive(Clone, Copy, Debug, PartialEq, Eq)]
pub struct Report {
    rules: u64,
    filled: u64,
    opened: u64,
    made: u64,
}

impl Report {
    pub(crate) fn from_told(told: Told) -> Report {
        Report { rules: told.rules, filled: told.result, opened: told.opened, made: told.made }
    }

    /// Whether the rule acted.
    pub fn acted(&self, rule: Rule) -> bool {
        self.rules >> (rule.number() - 1) & 1 == 1
    }

    /// The rules that acted, in their order. Those that this package does not know are passed over.
    pub fn rules(&self) -> impl Iterator<Item = Rule> + '_ {
        Rule::ALL.into_iter().filter(|rule| self.acted(*rule))
    }

    /// The passes that were filled into the value, if rule 1 acted. It may be 0.
    pub fn filled(&self) -> Option<u64> {
        self.acted(Rule::Fill).then_some(self.filled)
    }

    /// The quantity of the slot opened, if rule 3 acted.
    pub fn opened(&self) -> Option<u64> {
        self.acted(Rule::OpenSlot).then_some(self.opened)
    }

    /// The quantity of the token made, if rule 5 acted. It may be 0.
    pub fn made(&self) -> Option<u64> {
        self.acted(Rule::MakeToken).then_some(self.made)
    }
}
