//! The frames of the differential test of reading, always the same: worked ones, every truncation and bit flip of
//! samples, every value of a sample's two-byte words, beacons in every form, and damaged ones.

use crate::beacons::{any_form, free_form, random_beacon, random_bytes};
use crate::damage::{break_bytes, break_parts};
use crate::frame::LONGEST_FRAME;
use crate::parts::house_form;
use crate::random::Random;
use crate::worked;

/// What a frame was made for.
#[derive(Clone, Copy, Debug, PartialEq, Eq)]
pub enum Kind {
    /// Laid out by hand.
    Worked,
    /// A sample, or its first bytes.
    Truncation,
    /// A sample with one bit inverted.
    BitFlip,
    /// A sample with another frame control field.
    Control,
    /// A sample with another descriptor of one of its elements.
    Descriptor,
    /// A beacon as it is written.
    HouseForm,
    /// A beacon in another form that is accepted.
    FreeForm,
    /// A beacon with damaged parts.
    FaultyParts,
    /// A beacon with damaged bytes.
    FaultyBytes,
    /// The start of a beacon, then random bytes.
    RandomRest,
    /// Random bytes.
    Random,
}

impl Kind {
    pub const ALL: [Kind; 11] = [
        Kind::Worked,
        Kind::Truncation,
        Kind::BitFlip,
        Kind::Control,
        Kind::Descriptor,
        Kind::HouseForm,
        Kind::FreeForm,
        Kind::FaultyParts,
        Kind::FaultyBytes,
        Kind::RandomRest,
        Kind::Random,
    ];
}

/// Visits all frames. A sample's truncations follow each other from the whole frame down, so that in a buffer that is
/// used again each stands before the very bytes that were cut off.
pub fn visit_all(visit: &mut dyn FnMut(Kind, &[u8])) {
    let mut random = Random::new(0xBEAC);
    let mut samples: Vec<Vec<u8>> = worked::frames().into_iter().map(|worked| worked.frame).collect();
    for frame in &samples {
        visit(Kind::Worked, frame);
    }
    for _ in 0..40 {
        samples.push(house_form(&random_beacon(&mut random, LONGEST_FRAME)).bytes());
        samples.push(free_form(&mut random).1.bytes());
    }
    for sample in &samples {
        truncations(sample, &mut |frame| visit(Kind::Truncation, frame));
        flips(sample, &mut |frame| visit(Kind::BitFlip, frame));
    }
    for parts in [house_form(&random_beacon(&mut random, 60)), free_form(&mut random).1] {
        let (frame, descriptors) = parts.bytes_and_descriptors();
        words(&frame, 0, &mut |frame| visit(Kind::Control, frame));
        for at in descriptors {
            words(&frame, at, &mut |frame| visit(Kind::Descriptor, frame));
        }
    }

    for _ in 0..200_000 {
        visit(Kind::HouseForm, &house_form(&random_beacon(&mut random, LONGEST_FRAME)).bytes());
    }
    for _ in 0..300_000 {
        visit(Kind::FreeForm, &free_form(&mut random).1.bytes());
    }
    for _ in 0..600_000 {
        visit(Kind::FaultyParts, &faulty_parts(&mut random));
    }
    for _ in 0..300_000 {
        visit(Kind::FaultyBytes, &faulty_bytes(&mut random));
    }
    for _ in 0..100_000 {
        let mut frame = any_form(&mut random).bytes();
        frame.truncate(random.below(frame.len() as u64 + 1) as usize);
        let added = random.between(1, 40) as usize;
        frame.extend(random_bytes(&mut random, added));
        visit(Kind::RandomRest, &frame);
    }
    for _ in 0..50_000 {
        let length = random.below(160) as usize;
        visit(Kind::Random, &random_bytes(&mut random, length));
    }
}

/// A beacon with damaged parts. Most are refused.
pub fn faulty_parts(random: &mut Random) -> Vec<u8> {
    let mut parts = any_form(random);
    for _ in 0..random.pick(&[1, 1, 1, 2, 2, 3]) {
        break_parts(random, &mut parts);
    }
    parts.bytes()
}

/// A beacon with damaged bytes. Most are refused.
pub fn faulty_bytes(random: &mut Random) -> Vec<u8> {
    let (mut frame, descriptors) = any_form(random).bytes_and_descriptors();
    for _ in 0..random.pick(&[1, 1, 2]) {
        break_bytes(random, &mut frame, &descriptors);
    }
    frame
}

/// The frame and all its beginnings, from the whole frame down.
pub fn truncations(frame: &[u8], visit: &mut dyn FnMut(&[u8])) {
    for length in (0..=frame.len()).rev() {
        visit(&frame[..length]);
    }
}

/// The frame with each of its bits inverted.
pub fn flips(frame: &[u8], visit: &mut dyn FnMut(&[u8])) {
    let mut frame = frame.to_vec();
    for place in 0..frame.len() {
        for bit in 0..8 {
            frame[place] ^= 1 << bit;
            visit(&frame);
            frame[place] ^= 1 << bit;
        }
    }
}

/// The frame with each of the 65536 values in the two bytes at a place.
pub fn words(frame: &[u8], at: usize, visit: &mut dyn FnMut(&[u8])) {
    let mut frame = frame.to_vec();
    for word in 0..=u16::MAX {
        frame[at..at + 2].copy_from_slice(&word.to_le_bytes());
        visit(&frame);
    }
}

#[cfg(test)]
mod tests {
    use super::*;
    use crate::coverage::FrameCoverage;
    use crate::interface::Reading;
    use crate::{direct, frame};

    /// The reference alone: its frames reach every check often, and the reader that fills C's record agrees with it.
    #[test]
    fn frames_reach_every_check() {
        let mut coverage = FrameCoverage::default();
        visit_all(&mut |kind, frame| {
            let answer = frame::read(frame);
            assert_eq!(direct::read(frame), Reading::of(&answer), "{kind:?} {frame:02X?}");
            coverage.add(kind, frame, &answer);
        });
        coverage.expect(1000);
    }
}
