//! The frames of the differential test of reading acknowledgements, always the same: worked ones, every truncation and bit
//! flip of samples, every value of a sample's two-byte words, every pair of addresses, acknowledgements in every form,
//! damaged ones, and beacons.

use crate::ack::{Ack, EXTENDED, SHORT};
use crate::acks::{any_form, content, free_form, house_form, random_ack, Shape, IGNORED_IN_CONTROL};
use crate::beacons::{self, random_bytes};
use crate::damage::{break_ack_parts, break_bytes};
use crate::frames::{flips, truncations, words};
use crate::mac::{ACKNOWLEDGEMENT, BEACON};
use crate::parts::Parts;
use crate::random::Random;
use crate::{ack_worked, worked};

/// What a frame was made for.
#[derive(Clone, Copy, Debug, PartialEq, Eq)]
pub enum Kind {
    /// Laid out by hand.
    Worked,
    /// A sample, or its first bytes.
    Truncation,
    /// A sample with one bit inverted.
    BitFlip,
    /// Each frame control field, with fields that fit it.
    Control,
    /// Each pair of addresses with PAN ID compression and without, and with any bits that are ignored.
    Addressing,
    /// A sample with another descriptor of one of its elements.
    Descriptor,
    /// Each content of the time correction.
    Content,
    /// An acknowledgement as it is written.
    HouseForm,
    /// An acknowledgement in another form that is accepted.
    FreeForm,
    /// An acknowledgement with damaged parts.
    FaultyParts,
    /// An acknowledgement with damaged bytes.
    FaultyBytes,
    /// The start of an acknowledgement, then random bytes.
    RandomRest,
    /// Random bytes.
    Random,
    /// A beacon, as it is or with the type of an acknowledgement; an acknowledgement with the type of a beacon.
    OtherKind,
}

impl Kind {
    pub const ALL: [Kind; 14] = [
        Kind::Worked,
        Kind::Truncation,
        Kind::BitFlip,
        Kind::Control,
        Kind::Addressing,
        Kind::Descriptor,
        Kind::Content,
        Kind::HouseForm,
        Kind::FreeForm,
        Kind::FaultyParts,
        Kind::FaultyBytes,
        Kind::RandomRest,
        Kind::Random,
        Kind::OtherKind,
    ];
}

/// What is called for each frame.
pub type Visit<'a> = dyn FnMut(Kind, &[u8]) + 'a;

/// Visits all frames. A sample's truncations follow each other from the whole frame down, so that in a buffer that is
/// used again each stands before the very bytes that were cut off.
pub fn visit_all(visit: &mut Visit) {
    let mut random = Random::new(0xACAC);
    visit_samples(&mut random, visit);
    visit_controls(&mut random, visit);
    visit_addressing(&mut random, visit);
    visit_elements(&mut random, visit);
    for _ in 0..100_000 {
        visit(Kind::HouseForm, &house_form(&random_ack(&mut random)).bytes());
    }
    for _ in 0..250_000 {
        visit(Kind::FreeForm, &free_form(&mut random).1.bytes());
    }
    visit_damaged(&mut random, visit);
    for _ in 0..50_000 {
        let length = random.below(160) as usize;
        visit(Kind::Random, &random_bytes(&mut random, length));
    }
    visit_beacons(&mut random, visit);
}

/// Worked frames and some in every form, with all their truncations and bit flips.
fn visit_samples(random: &mut Random, visit: &mut Visit) {
    let mut samples: Vec<Vec<u8>> = ack_worked::frames().into_iter().map(|worked| worked.frame).collect();
    for frame in &samples {
        visit(Kind::Worked, frame);
    }
    for shape in Shape::all() {
        for _ in 0..5 {
            samples.push(house_form(&shape.ack(random)).bytes());
            samples.push(free_form(random).1.bytes());
        }
    }
    for sample in &samples {
        truncations(sample, &mut |frame| visit(Kind::Truncation, frame));
        flips(sample, &mut |frame| visit(Kind::BitFlip, frame));
    }
}

/// A frame with this frame control field, and with the fields and addresses that it says there are.
fn with_control(random: &mut Random, control: u16, ack: &Ack) -> Vec<u8> {
    let mut frame = control.to_le_bytes().to_vec();
    if control & 1 << 8 == 0 {
        frame.push(random.number() as u8);
    }
    frame.extend(ack.pan.to_le_bytes());
    for mode in [control >> 10 & 0b11, control >> 14] {
        let length = match mode {
            SHORT => 2,
            EXTENDED => 8,
            _ => 0,
        };
        frame.extend(random_bytes(random, length));
    }
    frame.extend([0x02, 0x0F]);
    frame.extend(content(ack).to_le_bytes());
    frame
}

fn visit_controls(random: &mut Random, visit: &mut Visit) {
    for _ in 0..2 {
        for control in 0..=u16::MAX {
            let ack = random_ack(random);
            visit(Kind::Control, &with_control(random, control, &ack));
        }
    }
}

/// Type 2, version 2 and elements present, and each value of the bits that the addresses and the sequence number have.
fn visit_addressing(random: &mut Random, visit: &mut Visit) {
    for modes in [(SHORT, SHORT), (SHORT, EXTENDED), (EXTENDED, SHORT), (EXTENDED, EXTENDED)] {
        for compression in [0, 1] {
            for suppressed in [0, 1] {
                for _ in 0..4_000 {
                    let ignored = random.number() as u16 & IGNORED_IN_CONTROL;
                    let flags = ignored | compression << 6 | suppressed << 8 | 1 << 9;
                    let control = ACKNOWLEDGEMENT | flags | modes.0 << 10 | 2 << 12 | modes.1 << 14;
                    let ack = random_ack(random);
                    visit(Kind::Addressing, &with_control(random, control, &ack));
                }
            }
        }
    }
}

/// Each descriptor of a sample in another form, and each content of the time correction behind each pair of addresses.
fn visit_elements(random: &mut Random, visit: &mut Visit) {
    let sample = loop {
        let (frame, descriptors) = free_form(random).1.bytes_and_descriptors();
        if descriptors.len() == 3 {
            break (frame, descriptors);
        }
    };
    for at in sample.1 {
        words(&sample.0, at, &mut |frame| visit(Kind::Descriptor, frame));
    }
    for shape in Shape::all() {
        let frame = house_form(&shape.ack(random)).bytes();
        words(&frame, frame.len() - 2, &mut |frame| visit(Kind::Content, frame));
    }
}

fn visit_damaged(random: &mut Random, visit: &mut Visit) {
    for _ in 0..400_000 {
        let mut parts = any_form(random);
        for _ in 0..random.pick(&[1, 1, 1, 2, 2, 3]) {
            break_ack_parts(random, &mut parts);
        }
        visit(Kind::FaultyParts, &parts.bytes());
    }
    for _ in 0..200_000 {
        let (mut frame, descriptors) = any_form(random).bytes_and_descriptors();
        for _ in 0..random.pick(&[1, 1, 2]) {
            break_bytes(random, &mut frame, &descriptors);
        }
        visit(Kind::FaultyBytes, &frame);
    }
    for _ in 0..50_000 {
        let mut frame = any_form(random).bytes();
        frame.truncate(random.below(frame.len() as u64 + 1) as usize);
        let added = random.between(1, 40) as usize;
        frame.extend(random_bytes(random, added));
        visit(Kind::RandomRest, &frame);
    }
}

/// Beacons with a time correction in their header lists, and frames with the other kind's type.
fn visit_beacons(random: &mut Random, visit: &mut Visit) {
    for worked in worked::frames() {
        visit(Kind::OtherKind, &worked.frame);
    }
    let of_type = |mut parts: Parts, frame_type: u16| {
        parts.control = parts.control & !0b111 | frame_type;
        parts.bytes()
    };
    for _ in 0..15_000 {
        let mut beacon = beacons::any_form(random);
        visit(Kind::OtherKind, &beacon.bytes());
        beacon.header.insert(0, house_form(&random_ack(random)).header.remove(0));
        visit(Kind::OtherKind, &beacon.bytes());
        visit(Kind::OtherKind, &of_type(beacon, ACKNOWLEDGEMENT));
        visit(Kind::OtherKind, &of_type(any_form(random), BEACON));
    }
}

#[cfg(test)]
mod tests {
    use super::*;
    use crate::ack_coverage::ReadCoverage;
    use crate::{ack, frame};

    /// The reference alone: its frames reach every check often, and none is both kinds.
    #[test]
    fn frames_reach_every_check() {
        let mut coverage = ReadCoverage::default();
        visit_all(&mut |kind, frame| {
            let answer = ack::read(frame);
            coverage.add(kind, frame, &answer, &frame::read(frame));
        });
        coverage.expect(1000);
    }
}
