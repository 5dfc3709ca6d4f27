//! Comparing beacons: the fields that the static library lists against those of the reference, on the pairs of frames
//! that `pairs` makes, and on the records that `records` makes, which may be none.

use reference::convert;
use reference::coverage::{Counts, PairCoverage};
use reference::fields::{compare, contents, Difference, FIELDS};
use reference::frame;
use reference::header::{
    CONTENT_ABSENT, CONTENT_NUMBER, CONTENT_SHORT, FIELD_HOPPING_SEQUENCE_ID, FIELD_LINK_COUNT, FIELD_PAN_ID,
    FIELD_SOURCE, FIELD_TEMPLATE_ID,
};
use reference::interface::{Beacon, Content};
use reference::library;
use reference::pairs;
use reference::random::Random;
use reference::records;
use reference::worked;
use reference::write::{Limit, Misfit, Record};

/// What the library has in each field of a record.
fn fields(beacon: &Beacon) -> Vec<Content> {
    (0..FIELDS).map(|index| library::field(beacon, index)).collect()
}

/// The fields that differ between two frames, listed through the library; the numbers of both if one is refused.
fn listed(first: &[u8], second: &[u8]) -> Result<Vec<(usize, Content, Content)>, [u8; 2]> {
    let (first, second) = (library::read(first), library::read(second));
    if first.number != 0 || second.number != 0 {
        return Err([first.number, second.number]);
    }
    let pairs = fields(&first.beacon).into_iter().zip(fields(&second.beacon)).enumerate();
    Ok(pairs.filter(|(_, (one, other))| one != other).map(|(index, (one, other))| (index, one, other)).collect())
}

#[test]
fn library_compares_as_the_reference() {
    /// What is met less often would be a matter of luck.
    const LEAST: usize = 100;

    let mut coverage = PairCoverage::default();
    let mut pairs = 0;
    pairs::visit_all(&mut |kind, first, second| {
        let comparison = compare(first, second);
        let in_c = |Difference { field, first, second }: &Difference| (*field, Content::of(first), Content::of(second));
        let expected = comparison.clone().map(|list| list.iter().map(in_c).collect());
        assert_eq!(listed(first, second), expected, "pair {pairs}, {kind:?}: {first:02X?} {second:02X?}");
        // Also what does not differ is what the reference has.
        if let Ok(beacon) = frame::read(first) {
            let expected: Vec<Content> = contents(&beacon).iter().map(Content::of).collect();
            assert_eq!(fields(&library::read(first).beacon), expected, "pair {pairs}, {kind:?}: {first:02X?}");
        }
        coverage.add(kind, first, second, &comparison);
        pairs += 1;
    });
    println!("{pairs} pairs");
    assert!(pairs >= 310_000);
    coverage.expect(LEAST);
}

/// Every field of C's record within the limits and outside, also of one that is no record's, and what stands behind the
/// last field.
#[test]
fn library_has_the_fields_of_the_reference() {
    /// A limit that is met less often would be a matter of luck.
    const LEAST: usize = 300;

    let mut random = Random::new(0xF1E1D);
    let mut counts = Counts::default();
    let mut tried = 0;
    records::visit_all(&mut |kind, beacon, _| {
        // All of them would take long.
        if !random.chance(10) {
            return;
        }
        for index in (0..FIELDS + 2).chain([usize::MAX]) {
            let (found, expected) = (library::field(beacon, index), convert::field(beacon, index));
            assert_eq!(found, expected, "field {index}, {kind:?}: {beacon:?}");
            assert!(index < FIELDS || found == Content::default(), "field {index}: {found:?}");
        }
        match Record::from_c(beacon) {
            Err(misfit) => counts.add(format!("{misfit:?}")),
            Ok(record) => {
                let broken = record.broken_limits();
                counts.add_if(broken.is_empty(), "none");
                broken.iter().for_each(|limit| counts.add(format!("{limit:?}")));
            }
        }
        tried += 1;
    });
    println!("{tried} records");
    assert!(tried >= 140_000);
    let limits = Limit::ALL.iter().map(|limit| format!("{limit:?}"));
    let misfits = Misfit::ALL.iter().map(|misfit| format!("{misfit:?}"));
    counts.expect("limits broken", LEAST, &limits.chain(misfits).chain(["none".into()]).collect::<Vec<_>>());
}

/// The blank record has neither a sequence number nor timings, links or joining information; all else is 0.
#[test]
fn fields_of_the_blank_record() {
    for (index, found) in fields(&Beacon::default()).into_iter().enumerate() {
        let kind = match index {
            FIELD_SOURCE => CONTENT_SHORT,
            FIELD_PAN_ID..=FIELD_TEMPLATE_ID | FIELD_HOPPING_SEQUENCE_ID..=FIELD_LINK_COUNT => CONTENT_NUMBER,
            _ => CONTENT_ABSENT,
        };
        assert_eq!(found, Content { kind, ..Content::default() }, "field {index}");
    }
}

/// Places that are a field's in their low 8, 16 or 32 bits.
#[test]
fn no_field_behind_the_last() {
    let beacon = library::read(&worked::bytes(worked::MINIMAL)).beacon;
    for index in [77, 78, 127, 128, 255, 256, 257, 65536, 65537, 1 << 32, (1 << 32) + 1, 1 << 63, usize::MAX] {
        assert_eq!(library::field(&beacon, index), Content::default(), "field {index}");
    }
}
