//! The pairs of frames of the differential test of comparing, always the same: two forms of one record, records of which
//! one was made of the other by one change or by several, two that have nothing in common, and refused frames on either
//! side and on both.

use crate::beacons::{any_form, form_of, free_form, random_beacon};
use crate::damage::damaged;
use crate::frame::{self, Beacon, LONGEST_FRAME};
use crate::frames::{faulty_bytes, faulty_parts};
use crate::interface as c;
use crate::parts::house_form;
use crate::random::Random;
use crate::records::{scatter, Shape};
use crate::slot::MOST_LINKS;
use crate::write::{frame_length, Record};

/// What a pair was made for.
#[derive(Clone, Copy, Debug, PartialEq, Eq)]
pub enum Kind {
    /// One record, mostly in two forms.
    Equal,
    /// Records whose C forms differ in one number.
    OneChange,
    /// Records of which one was made of the other by several such changes.
    SeveralChanges,
    /// Two records, each drawn by itself.
    Unrelated,
    FirstRefused,
    SecondRefused,
    BothRefused,
}

impl Kind {
    pub const ALL: [Kind; 7] = [
        Kind::Equal,
        Kind::OneChange,
        Kind::SeveralChanges,
        Kind::Unrelated,
        Kind::FirstRefused,
        Kind::SecondRefused,
        Kind::BothRefused,
    ];

    /// How many pairs of this kind there are.
    fn count(self) -> usize {
        match self {
            Kind::OneChange => 1000 * PLACES,
            Kind::Equal => 60_000,
            Kind::SeveralChanges => 53_000,
            _ => 25_000,
        }
    }
}

/// How many numbers C's form of a record has.
pub const PLACES: usize = 97;

/// Visits all pairs.
pub fn visit_all(visit: &mut dyn FnMut(Kind, &[u8], &[u8])) {
    let mut random = Random::new(0x9A125);
    for kind in Kind::ALL {
        for turn in 0..kind.count() {
            let (first, second) = pair(&mut random, kind, turn);
            visit(kind, &first, &second);
        }
    }
}

/// A pair of this kind. Of those with one change each of the places has its turn.
pub fn pair(random: &mut Random, kind: Kind, turn: usize) -> (Vec<u8>, Vec<u8>) {
    let (first, second) = match kind {
        Kind::Equal => {
            let (beacon, _) = free_form(random);
            (beacon.clone(), beacon)
        }
        Kind::OneChange => one_change(random, (turn % PLACES) as u64),
        Kind::SeveralChanges => several_changes(random),
        Kind::Unrelated => (random_beacon(random, LONGEST_FRAME), random_beacon(random, LONGEST_FRAME)),
        Kind::FirstRefused => {
            let (accepted, refused) = one_refused(random);
            return (refused, accepted);
        }
        Kind::SecondRefused => return one_refused(random),
        Kind::BothRefused => return (refused(random), refused(random)),
    };
    let (first, second) = (frame_of(random, &first), frame_of(random, &second));
    if random.chance(50) {
        (second, first)
    } else {
        (first, second)
    }
}

/// A frame of a record, as it is written or in another form.
fn frame_of(random: &mut Random, beacon: &Beacon) -> Vec<u8> {
    loop {
        let parts = if random.chance(20) { house_form(beacon) } else { form_of(random, beacon) };
        let frame = parts.bytes();
        if frame.len() <= LONGEST_FRAME {
            return frame;
        }
    }
}

/// The beacon of a record that can be written.
fn beacon_of(record: &Record) -> Option<Beacon> {
    record.to_beacon().filter(|_| frame_length(record) <= LONGEST_FRAME)
}

/// A record that can be written. Each number of links comes often.
fn random_record(random: &mut Random) -> Beacon {
    loop {
        let shape = Shape { links: random.between(1, MOST_LINKS as u64) as usize, ..Shape::random(random) };
        if shape.length() <= LONGEST_FRAME {
            return shape.record(random).to_beacon().expect("a shape's record is within the limits");
        }
    }
}

/// The record with another number in one place of C's form; none if that cannot be written, or is the same.
fn changed(random: &mut Random, beacon: &Beacon, place: u64) -> Option<Beacon> {
    let mut form = c::Beacon::of(beacon);
    scatter(random, &mut form, &[place]);
    let changed = Record::from_c(&form).ok().as_ref().and_then(beacon_of);
    changed.filter(|changed| changed != beacon)
}

fn one_change(random: &mut Random, place: u64) -> (Beacon, Beacon) {
    loop {
        let beacon = random_record(random);
        if let Some(changed) = changed(random, &beacon, place) {
            return (beacon, changed);
        }
    }
}

fn several_changes(random: &mut Random) -> (Beacon, Beacon) {
    let beacon = random_record(random);
    let mut last = beacon.clone();
    let mut changes = random.between(2, 8);
    while changes > 0 {
        let place = random.below(PLACES as u64);
        if let Some(changed) = changed(random, &last, place) {
            last = changed;
            changes -= 1;
        }
    }
    (beacon, last)
}

fn refused(random: &mut Random) -> Vec<u8> {
    loop {
        let frame = if random.chance(70) { faulty_parts(random) } else { faulty_bytes(random) };
        if frame::read(&frame).is_err() {
            return frame;
        }
    }
}

/// An accepted frame and a refused one, which is often the same with one damage.
fn one_refused(random: &mut Random) -> (Vec<u8>, Vec<u8>) {
    loop {
        let (frame, descriptors) = any_form(random).bytes_and_descriptors();
        let other = if random.chance(30) { damaged(random, &frame, &descriptors) } else { refused(random) };
        if frame::read(&frame).is_ok() && frame::read(&other).is_err() {
            return (frame, other);
        }
    }
}

#[cfg(test)]
mod tests {
    use super::*;
    use crate::convert;
    use crate::coverage::PairCoverage;
    use crate::fields::{compare, contents, Difference, FIELDS};
    use crate::interface::Numbers;

    /// The reference alone: its pairs are what they were made for and reach everything often, the other way round the
    /// contents are exchanged, and a field of C's record has the same content.
    #[test]
    fn pairs_reach_everything() {
        assert_eq!(c::Beacon::default().numbers().len(), PLACES);
        let mut coverage = PairCoverage::default();
        visit_all(&mut |kind, first, second| {
            let comparison = compare(first, second);
            let as_meant = match (kind, &comparison) {
                (Kind::Equal, Ok(differences)) => differences.is_empty(),
                (Kind::OneChange, Ok(differences)) => !differences.is_empty(),
                (Kind::SeveralChanges | Kind::Unrelated, Ok(_)) => true,
                (Kind::FirstRefused, Err([1..=8, 0])) => true,
                (Kind::SecondRefused, Err([0, 1..=8])) => true,
                (Kind::BothRefused, Err([1..=8, 1..=8])) => true,
                _ => false,
            };
            assert!(as_meant, "{kind:?}: {comparison:?}: {first:02X?} {second:02X?}");
            let exchanged = compare(second, first).map_err(|[second, first]| [first, second]).map(|differences| {
                let exchange = |Difference { field, first, second }| Difference { field, first: second, second: first };
                differences.into_iter().map(exchange).collect()
            });
            assert_eq!(exchanged, comparison, "{kind:?}: {first:02X?} {second:02X?}");
            if let Ok(beacon) = frame::read(first) {
                let form = c::Beacon::of(&beacon);
                let found: Vec<c::Content> = (0..FIELDS).map(|index| convert::field(&form, index)).collect();
                let expected: Vec<c::Content> = contents(&beacon).iter().map(c::Content::of).collect();
                assert_eq!(found, expected, "{kind:?}: {first:02X?}");
            }
            coverage.add(kind, first, second, &comparison);
        });
        coverage.expect(100);
    }
}
