//! Random acknowledgements: every record that can be written, and frames in any form that reads as such a record.

use crate::ack::{
    Ack, Address, HEADER_TERMINATION_1, HEADER_TERMINATION_2, LARGEST_CORRECTION, LEAST_CORRECTION, LONGEST_FRAME,
    NOT_ACKNOWLEDGED, TIME_CORRECTION,
};
use crate::beacons::{insert, other_than, random_bytes, random_number, spend};
use crate::parts::{Element, Form, Parts};
use crate::random::Random;

/// What decides a frame's length.
#[derive(Clone, Copy, Debug, PartialEq, Eq)]
pub struct Shape {
    pub sequence: bool,
    pub extended_destination: bool,
    pub extended_source: bool,
}

impl Shape {
    pub fn all() -> [Shape; 8] {
        std::array::from_fn(|bits| Shape {
            sequence: bits & 1 != 0,
            extended_destination: bits & 2 != 0,
            extended_source: bits & 4 != 0,
        })
    }

    pub fn random(random: &mut Random) -> Shape {
        random.pick(&Shape::all())
    }

    /// The frame's length in the house form: the shortest one, and what each part adds.
    pub fn length(&self) -> usize {
        let longer = |extended: bool| if extended { 6 } else { 0 };
        12 + usize::from(self.sequence) + longer(self.extended_destination) + longer(self.extended_source)
    }

    /// A record of this shape within the limits. Values are from their whole ranges and often from the ends of these.
    pub fn ack(&self, random: &mut Random) -> Ack {
        Ack {
            sequence: self.sequence.then(|| random_number(random, 0xFF) as u8),
            pan: random_number(random, 0xFFFF) as u16,
            destination: random_address(random, self.extended_destination),
            source: random_address(random, self.extended_source),
            correction: random_correction(random),
            not_acknowledged: random.chance(50),
        }
    }
}

fn random_address(random: &mut Random, extended: bool) -> Address {
    match extended {
        false => Address::Short(random_number(random, 0xFFFF) as u16),
        true => Address::Extended(random_number(random, u64::MAX)),
    }
}

/// A correction within the limits.
fn random_correction(random: &mut Random) -> i32 {
    match random.below(4) {
        0 => random.pick(&[0, 1, -1]),
        _ => LEAST_CORRECTION + random_number(random, (LARGEST_CORRECTION - LEAST_CORRECTION) as u64) as i32,
    }
}

/// A record within the limits.
pub fn random_ack(random: &mut Random) -> Ack {
    Shape::random(random).ack(random)
}

/// The frame control field of an acknowledgement as it is written, with the sequence number suppressed or not.
pub fn control(ack: &Ack) -> u16 {
    let numbered = match (ack.destination, ack.source) {
        (Address::Short(_), Address::Short(_)) => 0xAA42,
        (Address::Short(_), Address::Extended(_)) => 0xEA42,
        (Address::Extended(_), Address::Short(_)) => 0xAE42,
        (Address::Extended(_), Address::Extended(_)) => 0xEE02,
    };
    numbered | if ack.sequence.is_none() { 0x0100 } else { 0 }
}

/// The bits of the frame control field that are ignored: pending, acknowledge request and the reserved one.
pub const IGNORED_IN_CONTROL: u16 = 0x00B0;

/// The bits of the time correction's content that are ignored.
pub const IGNORED_IN_CONTENT: u16 = 0x7000;

/// The content of the time correction, without bits that are ignored.
pub fn content(ack: &Ack) -> u16 {
    let correction = ack.correction.rem_euclid(0x1000) as u16;
    correction + if ack.not_acknowledged { NOT_ACKNOWLEDGED } else { 0 }
}

fn correction_element(content: u16) -> Element {
    Element::new(Form::Header, TIME_CORRECTION, content.to_le_bytes().to_vec())
}

/// An acknowledgement as it is written: the time correction alone, and no terminator.
pub fn house_form(ack: &Ack) -> Parts {
    Parts {
        control: control(ack),
        sequence: ack.sequence,
        pan: ack.pan,
        destination: ack.destination,
        source: ack.source,
        header: vec![correction_element(content(ack))],
        payload: Vec::new(),
        tail: Vec::new(),
    }
}

/// An acknowledgement, and its parts in a form that reads as the same record: elements that are skipped before and behind
/// the time correction, bits that are ignored, either terminator and bytes behind it. One in thirty has over 125 bytes.
pub fn free_form(random: &mut Random) -> (Ack, Parts) {
    let ack = random_ack(random);
    let mut parts = house_form(&ack);
    let length = match random.below(30) {
        0 => LONGEST_FRAME + random.between(1, 400) as usize,
        _ => LONGEST_FRAME,
    };
    let mut room = length - parts.bytes().len();

    parts.control |= random.number() as u16 & IGNORED_IN_CONTROL;
    parts.header = vec![correction_element(content(&ack) | random.number() as u16 & IGNORED_IN_CONTENT)];
    for _ in 0..random.pick(&[0, 1, 1, 2, 3]) {
        add_element(random, &mut parts, &mut room);
    }
    if room >= 2 && random.chance(60) {
        let id = random.pick(&[HEADER_TERMINATION_1, HEADER_TERMINATION_2]);
        parts.header.push(Element::new(Form::Header, id, Vec::new()));
        room -= 2;
        add_ignored(random, &mut parts, room);
    }
    (ack, parts)
}

/// Adds a header element that is skipped.
fn add_element(random: &mut Random, parts: &mut Parts, room: &mut usize) {
    const KNOWN: [u16; 3] = [TIME_CORRECTION, HEADER_TERMINATION_1, HEADER_TERMINATION_2];
    let Some(mut content) = spend(random, room) else {
        return;
    };
    content.truncate(0x7F);
    let id = other_than(random, 0xFF, &KNOWN);
    insert(random, &mut parts.header, Element::new(Form::Header, id, content));
}

/// Adds what is ignored behind a terminator: any bytes, or another time correction.
fn add_ignored(random: &mut Random, parts: &mut Parts, room: usize) {
    match random.below(3) {
        0 => {}
        1 if room >= 4 => parts.header.push(correction_element(random.number() as u16)),
        _ => {
            let length = random.below(room as u64 + 1) as usize;
            parts.tail = random_bytes(random, length);
        }
    }
}

/// An acknowledgement's parts in the house form or another.
pub fn any_form(random: &mut Random) -> Parts {
    match random.below(2) {
        0 => house_form(&random_ack(random)),
        _ => free_form(random).1,
    }
}

#[cfg(test)]
mod tests {
    use super::*;
    use crate::ack::{self, Check};
    use crate::ack_write::frame_length;
    use crate::coverage::Counts;
    use crate::parts::Content;

    /// The house form holds all of a record, so that reading gives it back, and has its shape's length.
    #[test]
    fn house_form_reads_back() {
        let mut random = Random::new(0xAC4);
        for shape in Shape::all() {
            for _ in 0..5_000 {
                let ack = shape.ack(&mut random);
                let frame = house_form(&ack).bytes();
                assert_eq!(ack::read(&frame), Ok(ack), "{frame:02X?}");
                assert_eq!((frame.len(), frame_length(&ack)), (shape.length(), shape.length()), "{frame:02X?}");
            }
        }
        let lengths = Shape::all().map(|shape| shape.length());
        assert_eq!((lengths.iter().min(), lengths.iter().max()), (Some(&12), Some(&25)));
    }

    /// What is done to the house form does not show in the record.
    #[test]
    fn free_form_reads_as_the_same_record() {
        let mut random = Random::new(0xF4EA);
        let mut counts = Counts::default();
        for _ in 0..20_000 {
            let (ack, parts) = free_form(&mut random);
            let frame = parts.bytes();
            let expected = if frame.len() > LONGEST_FRAME { Err(Check::FrameTooLong) } else { Ok(ack) };
            assert_eq!(ack::read(&frame), expected, "{parts:?}");
            if expected.is_ok() {
                count_features(&parts, &mut counts);
            }
        }
        counts.expect(
            "accepted frames with",
            200,
            &[
                "ignored bits of the frame control",
                "ignored bits of the time correction",
                "elements before the time correction",
                "elements behind the time correction",
                "no terminator",
                "header termination 1",
                "header termination 2",
                "bytes behind header termination 1",
                "bytes behind header termination 2",
                "a second time correction that is ignored",
            ],
        );
    }

    fn count_features(parts: &Parts, counts: &mut Counts) {
        let place = |id: u16| parts.header.iter().position(|element| element.id == id);
        let correction = place(TIME_CORRECTION).expect("a time correction");
        let ends = [(HEADER_TERMINATION_1, 1), (HEADER_TERMINATION_2, 2)];
        let end = ends.iter().find_map(|&(id, name)| Some((place(id)?, name)));
        let list = end.map_or(parts.header.len(), |(place, _)| place);
        let ignored = match &parts.header[correction].content {
            Content::Bytes(bytes) => bytes[1] & 0x70 != 0,
            Content::Elements(_) => unreachable!("a time correction has no elements"),
        };

        counts.add_if(parts.control & IGNORED_IN_CONTROL != 0, "ignored bits of the frame control");
        counts.add_if(ignored, "ignored bits of the time correction");
        counts.add_if(correction > 0, "elements before the time correction");
        counts.add_if(correction + 1 < list, "elements behind the time correction");
        counts.add_if(list + 1 < parts.header.len(), "a second time correction that is ignored");
        match end {
            None => counts.add("no terminator"),
            Some((_, name)) => {
                counts.add(format!("header termination {name}"));
                counts.add_if(!parts.tail.is_empty(), format!("bytes behind header termination {name}"));
            }
        }
    }
}
