//! The five rules, for a station that is numbers and for one that sits at a table.

use crate::limits::MOST_VALUE;

/// A slot or a token.
#[derive(Clone, Copy)]
pub struct Held {
    pub source: u32,
    pub destination: u32,
    pub quantity: u64,
}

impl Held {
    /// Whether a token fits a slot.
    #[inline]
    pub fn fits(&self, slot: &Held) -> bool {
        self.source == slot.source && self.destination == slot.destination
    }
}

/// What a station shows another.
#[derive(Clone, Copy)]
pub struct Message {
    pub from: usize,
    pub to: usize,
    pub value: u64,
    pub source: u32,
    pub destination: u32,
    pub slot: Option<Held>,
    pub token: Option<Held>,
}

/// What of a station the rules read and change when it takes a message of one peer. It is lent, so
/// that they work in place.
pub struct Side<'a> {
    pub value: &'a mut u64,
    pub source: &'a mut u32,
    pub destination: &'a mut u32,
    pub slot: &'a mut Option<Held>,
    pub token: &'a mut Option<Held>,
}

impl Side<'_> {
    /// The five rules: the amount filled, the rules that acted as a sum of 1, 2, 4, 8, 16, and the
    /// quantities of a slot opened and a token made; or the refusal 10.
    #[inline]
    pub fn take(mut self, m: &Message) -> Result<[u64; 4], u8> {
        let mut filled = 0;
        let mut rules = 0;
        if let (Some(t), Some(l)) = (m.token, *self.slot) {
            if t.fits(&l) {
                if *self.value + t.quantity > MOST_VALUE {
                    return Err(10);
                }
                *self.value += t.quantity;
                *self.slot = None;
                filled = t.quantity;
                rules |= 1;
            }
        }
        if self.slot.is_some_and(|l| l.source < m.source) {
            *self.slot = None;
            rules |= 2;
        }
        let opened = self.open_slot(m);
        rules |= u64::from(opened > 0) << 2;
        let shown = m.slot.map_or(m.destination, |l| l.destination);
        if self.token.is_some_and(|t| t.destination < shown) {
            *self.token = None;
            rules |= 8;
        }
        let made = self.make_token(m);
        rules |= u64::from(made.is_some()) << 4;
        Ok([filled, rules, opened, made.unwrap_or(0)])
    }

    #[inline]
    fn open_slot(&mut self, m: &Message) -> u64 {
        let half = m.value.saturating_sub(*self.value) / 2;
        if self.slot.is_none() && half >= 1 && *self.destination < u32::MAX {
            let destination = *self.destination;
            *self.slot = Some(Held { source: m.source, destination, quantity: half });
            *self.destination += 1;
            return half;
        }
        0
    }

    #[inline]
    fn make_token(&mut self, m: &Message) -> Option<u64> {
        let l = m.slot?;
        if l.source == *self.source && *self.source < u32::MAX {
            let q = l.quantity.min(*self.value);
            *self.value -= q;
            *self.token = Some(Held { quantity: q, ..l });
            *self.source += 1;
            return Some(q);
        }
        None
    }
}
