//! Damage to beacons and acknowledgements: to their parts, so that faults of every kind meet, and to their bytes.

use crate::ack::TIME_CORRECTION;
use crate::beacons::{insert, random_bytes, random_joining, random_link};
use crate::frame::{
    Address, HEADER_TERMINATION_1, HEADER_TERMINATION_2, IETF, LONG_HOPPING, PAYLOAD_TERMINATION, SHORT_SLOTFRAME,
    SHORT_SYNCHRONIZATION, SHORT_TIMESLOT,
};
use crate::parts::{joining_bytes, link_bytes, Content, Element, Form, Parts};
use crate::random::Random;

/// Changes something in a beacon's parts. Most changes make it a frame to be refused.
pub fn break_parts(random: &mut Random, parts: &mut Parts) {
    match random.below(100) {
        0..4 => parts.control ^= 1 << random.below(16),
        4..7 => break_mode(random, parts),
        7..9 => parts.destination = Address::Short(random.pick(&[0xFFFE, 0xFEFF, 0xFF00, 0x00FF, 0])),
        9..27 => break_header(random, parts),
        27..37 => break_payload(random, parts),
        37..60 => add_known(random, parts),
        60..75 => replace_known(random, parts),
        75..83 => remove_known(random, parts),
        _ => {
            let mut elements = parts.elements();
            if !elements.is_empty() {
                let place = random.below(elements.len() as u64) as usize;
                break_element(random, elements[place]);
            }
        }
    }
}

/// Changes destination mode, version or source mode.
fn break_mode(random: &mut Random, parts: &mut Parts) {
    let place = random.pick(&[10, 12, 14]);
    parts.control = parts.control & !(0b11 << place) | (random.below(4) as u16) << place;
}

fn break_header(random: &mut Random, parts: &mut Parts) {
    let Some(last) = parts.header.last_mut() else {
        return;
    };
    match random.below(8) {
        0 => drop(parts.header.pop()),
        1 => last.id = HEADER_TERMINATION_2,
        2 => last.content = Content::Bytes(random_bytes(random, 3)),
        3 => {
            last.id = HEADER_TERMINATION_2;
            last.content = Content::Bytes(random_bytes(random, 2));
        }
        4 => last.stated = Some(random.below(0x80) as u16),
        5 => {
            // The list ends with the frame, perhaps within a descriptor.
            parts.header.pop();
            parts.payload.clear();
            let length = random.below(3) as usize;
            parts.tail = random_bytes(random, length);
        }
        6 => {
            parts.payload.clear();
            parts.tail.clear();
        }
        _ => {
            let place = random.below(parts.header.len() as u64) as usize;
            break_element(random, &mut parts.header[place]);
        }
    }
}

fn break_payload(random: &mut Random, parts: &mut Parts) {
    match random.below(6) {
        0 => insert(random, &mut parts.payload, Element::new(Form::Payload, IETF, Vec::new())),
        1 => {
            let length = random.below(3) as usize;
            let content = random_bytes(random, length);
            insert(random, &mut parts.payload, Element::new(Form::Payload, PAYLOAD_TERMINATION, content));
        }
        2 => insert(random, &mut parts.payload, Element::new(Form::Header, HEADER_TERMINATION_1, Vec::new())),
        3 => parts.tail.extend(random_bytes(random, 1)),
        _ => {
            if !parts.payload.is_empty() {
                let place = random.below(parts.payload.len() as u64) as usize;
                break_element(random, &mut parts.payload[place]);
            }
        }
    }
}

/// Changes an element's descriptor, or its content and the length together.
fn break_element(random: &mut Random, element: &mut Element) {
    match random.below(6) {
        0 => element.bit_15_inverted = !element.bit_15_inverted,
        1 => element.id = random.below(0x80) as u16,
        2 | 3 => {
            let mut bytes = Vec::new();
            element.put(&mut bytes, &mut Vec::new());
            let length = bytes.len().saturating_sub(2) as u16;
            element.stated = Some(match random.below(6) {
                0 => length.saturating_sub(1),
                1 => length + 1,
                2 => length + random.below(40) as u16,
                3 => length / 2,
                4 => 0,
                _ => random.below(0x800) as u16,
            });
        }
        _ => match &mut element.content {
            Content::Bytes(bytes) => bytes.resize(random.below(bytes.len() as u64 + 3) as usize, 0x5A),
            // One byte is too little for a descriptor.
            Content::Elements(elements) => elements.push(Element::new(Form::Bare, 0, random_bytes(random, 1))),
        },
    }
}

/// The known elements.
#[derive(Clone, Copy, PartialEq, Eq)]
enum Known {
    Synchronization,
    Timeslot,
    Hopping,
    Slotframe,
    Joining,
}

/// The slotframe and link element is drawn most, since it has most checks.
const KNOWN: [Known; 7] = [
    Known::Synchronization,
    Known::Timeslot,
    Known::Hopping,
    Known::Slotframe,
    Known::Slotframe,
    Known::Slotframe,
    Known::Joining,
];

impl Known {
    fn is(self, element: &Element) -> bool {
        match self {
            Known::Synchronization => element.is(Form::Short, SHORT_SYNCHRONIZATION),
            Known::Timeslot => element.is(Form::Short, SHORT_TIMESLOT),
            Known::Hopping => element.is(Form::Long, LONG_HOPPING),
            Known::Slotframe => element.is(Form::Short, SHORT_SLOTFRAME),
            Known::Joining => element.is_joining(),
        }
    }

    /// An element that each check of its content may find right or wrong.
    fn any(self, random: &mut Random) -> Element {
        match self {
            Known::Synchronization => {
                let length = random.pick(&[6, 6, 6, 6, 5, 7, 0, 12]);
                Element::new(Form::Short, SHORT_SYNCHRONIZATION, random_bytes(random, length))
            }
            Known::Timeslot => {
                let length = random.pick(&[1, 1, 1, 25, 27, 0, 2, 24, 26, 28]);
                let mut content = random_bytes(random, length);
                if let (Some(id), true) = (content.first_mut(), random.chance(40)) {
                    *id = 0;
                }
                Element::new(Form::Short, SHORT_TIMESLOT, content)
            }
            Known::Hopping => {
                let length = random.pick(&[1, 1, 1, 0, 2, 3, 20]);
                Element::new(Form::Long, LONG_HOPPING, random_bytes(random, length))
            }
            Known::Slotframe => Element::new(Form::Short, SHORT_SLOTFRAME, any_slotframe(random)),
            Known::Joining => {
                let mut content = joining_bytes(&random_joining(random));
                match random.below(3) {
                    0 => content.resize(random.between(1, 34) as usize, 0xA5),
                    1 => content[1] ^= random.pick(&[0x40, 0x80, 0x38]),
                    _ => {}
                }
                Element::new(Form::Payload, IETF, content)
            }
        }
    }
}

/// Content of a slotframe and link element.
fn any_slotframe(random: &mut Random) -> Vec<u8> {
    let size = random.pick(&[0, 1, 11, 11, 11, 101, 65535]);
    let count = random.pick(&[0, 1, 1, 1, 2, 3, 15, 16, 17, 17, 18, 51]);
    let mut content = vec![random.pick(&[1, 1, 1, 1, 1, 1, 0, 2, 255]), random.number() as u8];
    content.extend(u16::to_le_bytes(size));
    content.push(count);
    // More than 18 links never fit in a frame: 51 of them are only stated, where 5 times 51 is 255.
    for _ in 0..count.min(18) {
        let mut link = random_link(random, size.max(1));
        if random.chance(5) {
            link.timeslot = random.between(u64::from(size), 65535) as u16;
        }
        content.extend(link_bytes(&link));
    }
    match random.below(8) {
        0 => content.truncate(random.below(content.len() as u64) as usize),
        1 => content.extend(random_bytes(random, 1)),
        2 => content.truncate(5.max(content.len() - 5)),
        _ => {}
    }
    content
}

/// Adds a known element. It is in most cases there already.
fn add_known(random: &mut Random, parts: &mut Parts) {
    let known = random.pick(&KNOWN);
    let present = parts.elements().into_iter().find(|element| known.is(element)).cloned();
    let element = match present {
        Some(element) if random.chance(30) => element,
        _ => known.any(random),
    };
    if known == Known::Joining {
        insert(random, &mut parts.payload, element);
        return;
    }
    let mut groups = parts.groups();
    if !groups.is_empty() {
        let group = random.below(groups.len() as u64) as usize;
        insert(random, groups[group], element);
    }
}

fn replace_known(random: &mut Random, parts: &mut Parts) {
    let known = random.pick(&KNOWN);
    for element in parts.elements().into_iter().filter(|element| known.is(element)) {
        *element = known.any(random);
    }
}

fn remove_known(random: &mut Random, parts: &mut Parts) {
    let known = random.pick(&KNOWN);
    parts.payload.retain(|element| !known.is(element));
    for group in parts.groups() {
        group.retain(|element| !known.is(element));
    }
}

/// Changes something in an acknowledgement's parts. Most changes make it a frame to be refused.
pub fn break_ack_parts(random: &mut Random, parts: &mut Parts) {
    match random.below(100) {
        0..8 => parts.control ^= 1 << random.below(16),
        8..12 => break_mode(random, parts),
        12..15 => parts.control = parts.control & !0b111 | random.below(8) as u16,
        15..20 => {
            // The modes and PAN ID compression stay as they are.
            let address = if random.chance(50) { &mut parts.destination } else { &mut parts.source };
            *address = match *address {
                Address::Short(address) => Address::Extended(address.into()),
                Address::Extended(address) => Address::Short(address as u16),
            };
        }
        20..36 => break_header(random, parts),
        36..58 => {
            let element = any_correction(random);
            insert(random, &mut parts.header, element);
        }
        58..70 => {
            for element in parts.header.iter_mut().filter(|element| element.is(Form::Header, TIME_CORRECTION)) {
                *element = any_correction(random);
            }
        }
        70..78 => parts.header.retain(|element| !element.is(Form::Header, TIME_CORRECTION)),
        78..86 => {
            let id = random.pick(&[HEADER_TERMINATION_1, HEADER_TERMINATION_2]);
            let length = random.pick(&[0, 0, 1, 2]);
            let content = random_bytes(random, length);
            insert(random, &mut parts.header, Element::new(Form::Header, id, content));
        }
        86..90 => parts.tail.extend(random_bytes(random, 1)),
        _ => {
            if !parts.header.is_empty() {
                let place = random.below(parts.header.len() as u64) as usize;
                break_element(random, &mut parts.header[place]);
            }
        }
    }
}

/// A time correction whose length is often the right one.
fn any_correction(random: &mut Random) -> Element {
    let length = random.pick(&[2, 2, 2, 2, 0, 1, 3, 4, 34]);
    Element::new(Form::Header, TIME_CORRECTION, random_bytes(random, length))
}

/// Changes a frame's bytes in one place, or its length.
pub fn break_bytes(random: &mut Random, frame: &mut Vec<u8>, descriptors: &[usize]) {
    if frame.is_empty() {
        return;
    }
    let place = random.below(frame.len() as u64) as usize;
    match random.below(7) {
        0 => flip_bit(random, frame),
        1 => frame[place] = random.number() as u8,
        2 => frame.truncate(place),
        3 => drop(frame.remove(place)),
        4 => frame.insert(place, random.number() as u8),
        5 => {
            let length = random.between(1, 20) as usize;
            frame.extend(random_bytes(random, length));
        }
        _ => edit_length(random, frame, descriptors),
    }
}

/// The frame with one damage: a bit flip, a cut or another length in a descriptor.
pub fn damaged(random: &mut Random, frame: &[u8], descriptors: &[usize]) -> Vec<u8> {
    let mut frame = frame.to_vec();
    match random.below(3) {
        0 => flip_bit(random, &mut frame),
        1 => frame.truncate(random.below(frame.len() as u64) as usize),
        _ => edit_length(random, &mut frame, descriptors),
    }
    frame
}

/// Inverts one bit of a frame that is not empty.
fn flip_bit(random: &mut Random, frame: &mut [u8]) {
    let place = random.below(frame.len() as u64) as usize;
    frame[place] ^= 1 << random.below(8);
}

/// Changes the low bits of the length in one of the descriptors; there is at least one.
fn edit_length(random: &mut Random, frame: &mut [u8], descriptors: &[usize]) {
    let at = random.pick(descriptors);
    // The frame may have been cut before it.
    if let Some(byte) = frame.get_mut(at) {
        *byte = match random.below(4) {
            0 => byte.wrapping_add(1),
            1 => byte.wrapping_sub(1),
            _ => random.number() as u8,
        };
    }
}
