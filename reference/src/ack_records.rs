//! The records of the differential test of writing acknowledgements, always the same: worked ones, records of every shape,
//! every correction with both marks, buffers of every length, every bit flip of samples, corrections outside the limits, and
//! C's records that are no record's. Each comes with the length of the buffer that it is to be written into.

use crate::ack::{Ack, LARGEST_CORRECTION, LEAST_CORRECTION};
use crate::ack_worked;
use crate::ack_write::{frame_length, Limit, Misfit};
use crate::acks::Shape;
use crate::interface as c;
use crate::interface::Numbers;
use crate::random::Random;
use crate::records::{flip, over, random_buffer, scatter, LONGEST_BUFFER};

/// What a record was made for.
#[derive(Clone, Copy, Debug, PartialEq, Eq)]
pub enum Kind {
    /// What a frame laid out by hand says.
    Worked,
    /// Within the limits, in each shape.
    Shape,
    /// Each correction within the limits, with both marks.
    Correction,
    /// Within the limits, with buffers of each length.
    Buffer,
    /// A record within the limits with one bit inverted.
    BitFlip,
    /// The correction is outside the limits.
    Limit,
    /// C's record is no record's, for one reason.
    Misfit,
    /// C's record is no record's, for two reasons, or the correction is outside the limits too.
    MisfitAndMore,
    /// Random numbers in some fields or in all.
    Random,
}

impl Kind {
    pub const ALL: [Kind; 9] = [
        Kind::Worked,
        Kind::Shape,
        Kind::Correction,
        Kind::Buffer,
        Kind::BitFlip,
        Kind::Limit,
        Kind::Misfit,
        Kind::MisfitAndMore,
        Kind::Random,
    ];
}

/// What is called for each record with its buffer's length.
pub type Visit<'a> = dyn FnMut(Kind, &c::Ack, usize) + 'a;

/// Visits all records.
pub fn visit_all(visit: &mut Visit) {
    let mut random = Random::new(0xAC317E);
    visit_worked(visit);
    for shape in Shape::all() {
        for _ in 0..12_500 {
            visit(Kind::Shape, &c::Ack::of(&shape.ack(&mut random)), random_buffer(&mut random, shape.length()));
        }
        visit_corrections(&mut random, shape, visit);
        visit_buffers(&mut random, shape, visit);
    }
    for _ in 0..400 {
        visit_bit_flips(&mut random, visit);
    }
    visit_broken_limits(&mut random, visit);
    visit_misfits(&mut random, visit);
    for _ in 0..150_000 {
        let (mut ack, length) = random_record(&mut random);
        let chosen = choose_fields(&mut random, &ack);
        scatter(&mut random, &mut ack, &chosen);
        visit(Kind::Random, &ack, random_buffer(&mut random, length));
    }
}

/// A record within the limits in C's form, and its frame's length.
fn random_record(random: &mut Random) -> (c::Ack, usize) {
    let shape = Shape::random(random);
    (c::Ack::of(&shape.ack(random)), shape.length())
}

fn visit_worked(visit: &mut Visit) {
    for worked in ack_worked::frames() {
        let Ok(ack) = worked.answer else {
            continue;
        };
        let length = frame_length(&ack);
        for buffer in (0..=length + 10).chain([LONGEST_BUFFER]) {
            visit(Kind::Worked, &c::Ack::of(&ack), buffer);
        }
    }
}

fn visit_corrections(random: &mut Random, shape: Shape, visit: &mut Visit) {
    for correction in LEAST_CORRECTION..=LARGEST_CORRECTION {
        for not_acknowledged in [false, true] {
            let ack = Ack { correction, not_acknowledged, ..shape.ack(random) };
            // Just enough, or a little more.
            let buffer = shape.length() + random.below(3) as usize;
            visit(Kind::Correction, &c::Ack::of(&ack), buffer);
        }
    }
}

fn visit_buffers(random: &mut Random, shape: Shape, visit: &mut Visit) {
    for _ in 0..200 {
        let ack = c::Ack::of(&shape.ack(random));
        for buffer in 0..=shape.length() + 10 {
            visit(Kind::Buffer, &ack, buffer);
        }
    }
}

/// How many bits a record has; a flag has one.
const BITS: usize = 4 + 8 + 16 + 2 * 64 + 32;

/// A record with each of its bits inverted.
fn visit_bit_flips(random: &mut Random, visit: &mut Visit) {
    let (record, length) = random_record(random);
    for bit in 0..BITS {
        let mut ack = record;
        flip(&mut ack, bit);
        visit(Kind::BitFlip, &ack, random_buffer(random, length));
    }
}

/// Changes a record so that it breaks a limit. Often it would be within the limits if the correction were cut to its low
/// bits.
fn break_limit(random: &mut Random, ack: &mut c::Ack, limit: Limit) {
    // With all bits inverted a number is one less than its negative, so that -2048 is 2047.
    let inside = if ack.correction < 0 { !ack.correction } else { ack.correction };
    let outside = over(random, inside as u64, LARGEST_CORRECTION as u64, i32::MAX as u64) as i32;
    ack.correction = match limit {
        Limit::LargestCorrection => outside,
        Limit::LeastCorrection => !outside,
    };
}

fn visit_broken_limits(random: &mut Random, visit: &mut Visit) {
    for limit in Limit::ALL {
        for _ in 0..30_000 {
            let (mut ack, length) = random_record(random);
            break_limit(random, &mut ack, limit);
            visit(Kind::Limit, &ack, random_buffer(random, length));
        }
    }
}

fn visit_misfits(random: &mut Random, visit: &mut Visit) {
    for misfit in Misfit::ALL {
        for _ in 0..25_000 {
            let (mut ack, length) = random_record(random);
            break_fit(random, &mut ack, misfit);
            visit(Kind::Misfit, &ack, random_buffer(random, length));
        }
    }
    for _ in 0..50_000 {
        let (mut ack, length) = random_record(random);
        if random.chance(50) {
            let limit = random.pick(&Limit::ALL);
            break_limit(random, &mut ack, limit);
        } else {
            let misfit = random.pick(&Misfit::ALL);
            break_fit(random, &mut ack, misfit);
        }
        let misfit = random.pick(&Misfit::ALL);
        break_fit(random, &mut ack, misfit);
        visit(Kind::MisfitAndMore, &ack, random_buffer(random, length));
    }
}

/// Changes C's record so that it is no record's. Often it would be one if a number were cut to its low bits.
fn break_fit(random: &mut Random, ack: &mut c::Ack, misfit: Misfit) {
    match misfit {
        Misfit::AbsentSequence => {
            ack.has_sequence_number = false;
            ack.sequence_number = random.between(1, 0xFF) as u8;
        }
        Misfit::ShortDestination => {
            ack.destination_is_extended = false;
            ack.destination = over(random, ack.destination, 0xFFFF, u64::MAX);
        }
        Misfit::ShortSource => {
            ack.source_is_extended = false;
            ack.source = over(random, ack.source, 0xFFFF, u64::MAX);
        }
    }
}

/// A few fields of a record by their places among its numbers, or none, which stands for all.
fn choose_fields(random: &mut Random, ack: &c::Ack) -> Vec<u64> {
    let fields = ack.numbers().len() as u64;
    let count = if random.chance(5) { 0 } else { random.between(1, 3) };
    (0..count).map(|_| random.below(fields)).collect()
}

#[cfg(test)]
mod tests {
    use super::*;
    use crate::ack;
    use crate::ack_coverage::WriteCoverage;
    use crate::acks::house_form;
    use crate::convert;

    /// The reference alone: its records reach every outcome often, and what it writes are the bytes of the house form,
    /// which read back as the record.
    #[test]
    fn records_reach_every_outcome() {
        let mut coverage = WriteCoverage::default();
        let mut random = Random::new(0x400A);
        visit_all(&mut |kind, ack, length| {
            let before: [u8; LONGEST_BUFFER] = [random.number() as u8; LONGEST_BUFFER];
            let mut buffer = before;
            let answer = convert::write_ack(ack, &mut buffer[..length]);
            let written = answer.unwrap_or(0);
            assert_eq!(buffer[written..], before[written..], "{kind:?}, buffer of {length}: {ack:?}");
            if answer.is_ok() {
                let record = Ack::from_c(ack).expect("what was written is a record");
                assert_eq!(buffer[..written], house_form(&record).bytes(), "{kind:?}: {ack:?}");
                assert_eq!(ack::read(&buffer[..written]), Ok(record), "{kind:?}: {ack:?}");
            }
            coverage.add(kind, ack, length, &answer);
        });
        coverage.expect(100);
    }

    /// Each bit of a record is inverted once, and nothing else.
    #[test]
    fn bits() {
        let mut seen = Vec::new();
        for bit in 0..BITS {
            let mut ack = c::Ack::default();
            flip(&mut ack, bit);
            assert_ne!(ack, c::Ack::default(), "bit {bit}");
            assert!(!seen.contains(&ack), "bit {bit}");
            seen.push(ack);
            flip(&mut ack, bit);
            assert_eq!(ack, c::Ack::default(), "bit {bit}");
        }
        let mut ack = c::Ack::default();
        flip(&mut ack, BITS);
        assert_eq!(ack, c::Ack::default(), "no more bits");
    }
}
