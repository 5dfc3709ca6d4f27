//! Benchmark of writing: the library and the reference on the same records, in one run, each into a buffer of 125 bytes.
//!
//! The library writes from C's record; so does the reference, which makes its own record of it first, and it also writes
//! from its own record.

use reference::beacons::random_beacon;
use reference::frame::{Address, LONGEST_FRAME};
use reference::interface as c;
use reference::measure::{check_frames, compare, write_records, Side, CHUNK};
use reference::parts::house_form;
use reference::random::Random;
use reference::slot::MOST_LINKS;
use reference::write::{write, Record};
use reference::{convert, library};
use std::collections::HashSet;

const RECORDS: usize = 100_000;

fn by_reference(beacon: &c::Beacon, buffer: &mut [u8]) -> c::Written {
    c::Written::of(&convert::write(beacon, buffer))
}

fn by_reference_alone(record: &Record, buffer: &mut [u8]) -> c::Written {
    c::Written::of(&write(record, buffer))
}

/// The same records in both forms, and their frames.
#[derive(Default)]
struct Load {
    beacons: Vec<c::Beacon>,
    records: Vec<Record>,
    frames: Vec<Vec<u8>>,
}

/// Different records within the limits, in every form of at most 125 bytes.
fn load(random: &mut Random) -> Load {
    let mut seen = HashSet::new();
    let mut load = Load::default();
    while load.records.len() < RECORDS {
        let beacon = random_beacon(random, LONGEST_FRAME);
        let frame = house_form(&beacon).bytes();
        if seen.insert(frame.clone()) {
            load.beacons.push(c::Beacon::of(&beacon));
            load.records.push(Record::from_beacon(&beacon));
            load.frames.push(frame);
        }
    }
    load
}

fn main() {
    let load = load(&mut Random::new(0x3417E));
    let count = |rule: fn(&Record) -> bool| load.records.iter().filter(|record| rule(record)).count();
    println!("{RECORDS} different records, {} bytes", load.frames.iter().map(Vec::len).sum::<usize>());
    println!("  {} with a sequence number", count(|record| record.sequence.is_some()));
    println!("  {} with an extended source", count(|record| matches!(record.source, Address::Extended(_))));
    println!("  {} with timings", count(|record| record.timed));
    println!("  {} with joining information", count(|record| record.joining.present));
    println!("  {} links", load.records.iter().map(|record| usize::from(record.count)).sum::<usize>());
    for links in 1..=MOST_LINKS {
        assert!(load.records.iter().any(|record| usize::from(record.count) == links), "no record has {links} links");
    }

    check_frames("library", library::write, &load.beacons, &load.frames);
    check_frames("reference, C's record", by_reference, &load.beacons, &load.frames);
    check_frames("reference, its own record", by_reference_alone, &load.records, &load.frames);
    let mut sides = [
        Side { name: "library", run: &mut |cases| write_records(library::write, &load.beacons[cases]) },
        Side {
            name: "reference, its own record",
            run: &mut |cases| write_records(by_reference_alone, &load.records[cases]),
        },
        Side {
            name: "reference, from C's record",
            run: &mut |cases| write_records(by_reference, &load.beacons[cases]),
        },
    ];
    compare("records", "record", RECORDS, CHUNK, &mut sides);
}
