//! "The five rules of receiving. Station i takes message m from j. Each rule
//! sees what the earlier ones left."

use crate::answer::{Answer, Report, Told};
use crate::fault::Fault;
use crate::held::Held;
use crate::limits::{is_value, LAST_CLOCK};
use crate::message::Message;
use crate::station::Station;

/// A receiving under way: the later station and what is to be told.
struct Taking<'a> {
    station: Station,
    message: &'a Message,
    peer: usize,
    fault: Fault,
    value_before: u64,
    filled: u64,
    report: Report,
}

/// Lets the station take the message by the five rules. The station and the
/// message are sound, and the message is for this station. The only refusal
/// is 10, which changes nothing. Result: "the amount filled, or 0".
pub fn take(station: &mut Station, message: &Message, fault: Fault) -> Told {
    let mut taking = Taking {
        station: station.clone(),
        message,
        peer: message.from as usize,
        fault,
        value_before: station.value,
        filled: 0,
        report: Report::default(),
    };
    if fault == Fault::Rule2First {
        taking.drop_slot();
    }
    if let Err(answer) = taking.fill() {
        return Told::refused(answer);
    }
    if fault != Fault::Rule2First {
        taking.drop_slot();
    }
    taking.open_slot();
    taking.drop_token();
    taking.make_token();
    *station = taking.station;
    Told { answer: Answer::Done, result: taking.filled, report: taking.report }
}

/// "Take m's value less i's value; h is half of that difference, rounded
/// down, and 0 where it is negative."
pub fn half_difference(shown: u64, own: u64) -> u64 {
    shown.saturating_sub(own) / 2
}

impl Taking<'_> {
    /// Rule 1. "Fill. m has a token, i has a slot for j, and both their
    /// clocks agree pairwise: the token's quantity goes to i's value, the
    /// slot goes." Refused with 10 if the value would pass its limit.
    fn fill(&mut self) -> Result<(), Answer> {
        let (Some(token), Some(slot)) = (self.message.token, self.station.slots[self.peer]) else {
            return Ok(());
        };
        let agree = match self.fault {
            Fault::FillByOneClock => token.source == slot.source,
            _ => token.agrees(&slot),
        };
        if !agree {
            return Ok(());
        }
        let value = self.station.value + token.quantity;
        if !is_value(value) {
            return Err(Answer::ValueLimit);
        }
        self.station.value = value;
        self.station.slots[self.peer] = None;
        self.filled = token.quantity;
        self.report.rules[0] = true;
        Ok(())
    }

    /// Rule 2. "Drop slot. i still has a slot for j, and m's source clock is
    /// above the slot's: the slot goes."
    fn drop_slot(&mut self) {
        if let Some(slot) = self.station.slots[self.peer] {
            if self.message.source > slot.source {
                self.station.slots[self.peer] = None;
                self.report.rules[1] = true;
            }
        }
    }

    /// Rule 3. "Open slot. i has no slot for j. .. If h is at least 1 and i's
    /// destination clock is not at its end, a slot is opened with m's source
    /// clock, i's destination clock and h; i's destination clock goes up by
    /// 1."
    fn open_slot(&mut self) {
        if self.station.slots[self.peer].is_some() {
            return;
        }
        let own = match self.fault {
            Fault::Rule3BeforeFill => self.value_before,
            _ => self.station.value,
        };
        let half = half_difference(self.message.value, own);
        if half < 1 || self.station.destination == LAST_CLOCK {
            return;
        }
        self.station.slots[self.peer] = Some(Held {
            source: self.message.source,
            destination: self.station.destination,
            quantity: half,
        });
        self.station.destination += 1;
        self.report.rules[2] = true;
        self.report.opened = half;
    }

    /// Rule 4, with what request 2026-01 adds to it. "Drop token. i has a
    /// token for j, m has no slot, and m's destination clock is above the
    /// token's: the token goes." It goes also "when the message has a slot
    /// for us whose destination clock is above the token's".
    fn drop_token(&mut self) {
        let Some(token) = self.station.tokens[self.peer] else {
            return;
        };
        let spent = match self.message.slot {
            Some(slot) if self.fault != Fault::Rule4WithoutSlot => {
                self.fault != Fault::NarrowRule4 && slot.destination > token.destination
            }
            _ => self.message.destination > token.destination,
        };
        if spent {
            self.station.tokens[self.peer] = None;
            self.report.rules[3] = true;
        }
    }

    /// Rule 5. "Make token. m has a slot whose source clock equals i's, and
    /// i's source clock is not at its end: q is the smaller of i's value and
    /// the slot's quantity. i's value falls by q; i's token for j becomes the
    /// slot's two clocks with q, replacing any that stood there; i's source
    /// clock goes up by 1. q may be 0."
    fn make_token(&mut self) {
        let Some(slot) = self.message.slot else {
            return;
        };
        if slot.source != self.station.source || self.station.source == LAST_CLOCK {
            return;
        }
        let quantity = self.station.value.min(slot.quantity);
        self.station.value -= quantity;
        self.station.tokens[self.peer] = Some(Held { quantity, ..slot });
        if !(quantity == 0 && self.fault == Fault::ClockStands) {
            self.station.source += 1;
        }
        self.report.rules[4] = true;
        self.report.made = quantity;
    }
}
