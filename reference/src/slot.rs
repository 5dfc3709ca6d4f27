//! What a node does in a slot, and on which channel: the reference for the slot decision.

use crate::refusal::OUT_OF_LIMITS;

/// One link of the schedule.
#[derive(Clone, Copy, Debug, Default, PartialEq, Eq)]
pub struct Link {
    pub timeslot: u16,
    pub offset: u16,
    pub options: u8,
}

/// Actions, and the option bits of a link that may transmit and of one that may receive.
pub use crate::header::{
    LISTEN, MOST_LINKS, OPTION_RECEIVE as RECEIVE_BIT, OPTION_TRANSMIT as TRANSMIT_BIT, SLEEP, TRANSMIT,
};

/// The answer: `number` is 0 or the refusal number; `place` counts the lent links from 0.
#[derive(Clone, Copy, Debug, PartialEq, Eq)]
pub struct Slot {
    pub number: u8,
    pub action: u8,
    pub channel: u8,
    pub place: usize,
}

pub const LARGEST_ASN: u64 = (1 << 40) - 1;

/// Default hopping sequence of the 2.4 GHz O-QPSK PHY.
pub const HOPPING_SEQUENCE: [u8; 16] = [16, 17, 23, 18, 26, 15, 25, 22, 19, 11, 12, 13, 24, 14, 20, 21];

/// Entry (ASN + channel offset) mod 16 of the hopping sequence, for every ASN that 64 bits hold.
pub fn channel(asn: u64, offset: u16) -> u8 {
    let sum = asn as u128 + offset as u128;
    HOPPING_SEQUENCE[(sum % 16) as usize]
}

/// What to do in the slot `asn`, where `waits` says that a frame waits to be sent.
pub fn decide(links: &[Link], size: u32, id: u32, asn: u64, waits: bool) -> Slot {
    let sleep = Slot { number: 0, action: SLEEP, channel: 0, place: 0 };
    let refused = Slot { number: OUT_OF_LIMITS, ..sleep };

    if size == 0 || links.is_empty() || links.len() > MOST_LINKS || id != 0 || asn > LARGEST_ASN {
        return refused;
    }
    if links.iter().any(|link| u32::from(link.timeslot) >= size) {
        return refused;
    }

    let now = asn % u64::from(size);
    let first = |bit: u8| links.iter().position(|link| u64::from(link.timeslot) == now && link.options & bit != 0);
    let on = |action: u8, place: usize| Slot { number: 0, action, channel: channel(asn, links[place].offset), place };

    if waits {
        if let Some(place) = first(TRANSMIT_BIT) {
            return on(TRANSMIT, place);
        }
    }
    match first(RECEIVE_BIT) {
        Some(place) => on(LISTEN, place),
        None => sleep,
    }
}
