//! Benchmark of reading: the library and three readers in Rust on the same frames, in one run.
//!
//! The Rust readers: the reference, whose answer is its own record; the reference, with its record then converted to C's;
//! and a reader that fills C's record as it goes.

use reference::beacons::random_beacon;
use reference::damage::damaged;
use reference::frame::{self, Address, Beacon, LONGEST_FRAME};
use reference::interface::Reading;
use reference::measure::{compare, read_frames, Load, Side, CHUNK};
use reference::parts::house_form;
use reference::random::Random;
use reference::slot::MOST_LINKS;
use reference::{convert, direct, library};
use std::collections::HashSet;

const FRAMES: usize = 100_000;

/// Different beacons in every form that can be written, and the same beacons damaged.
fn loads(random: &mut Random) -> (Vec<Beacon>, Load, Load) {
    let mut seen = HashSet::new();
    let (mut beacons, mut whole, mut broken) = (Vec::new(), Load::default(), Load::default());
    while beacons.len() < FRAMES {
        let beacon = random_beacon(random, LONGEST_FRAME);
        let (frame, descriptors) = house_form(&beacon).bytes_and_descriptors();
        if seen.insert(frame.clone()) {
            whole.push(&frame);
            broken.push(&damaged(random, &frame, &descriptors));
            beacons.push(beacon);
        }
    }
    (beacons, whole, broken)
}

/// All readers must give the same answer; counts the numbers.
fn check(load: &Load) -> [usize; 9] {
    let mut numbers = [0; 9];
    for frame in load.frames(0..FRAMES) {
        let expected = convert::read(frame);
        assert_eq!(library::read(frame), expected, "{frame:02X?}");
        assert_eq!(direct::read(frame), expected, "{frame:02X?}");
        numbers[usize::from(expected.number)] += 1;
    }
    numbers
}

fn bench(title: &str, load: &Load) {
    let mut sides = [
        Side { name: "library", run: &mut |cases| read_frames(library::read as fn(&[u8]) -> Reading, load, cases) },
        Side { name: "reference, its own record", run: &mut |cases| read_frames(frame::read, load, cases) },
        Side { name: "reference, converted to C's record", run: &mut |cases| read_frames(convert::read, load, cases) },
        Side { name: "reader that fills C's record", run: &mut |cases| read_frames(direct::read, load, cases) },
    ];
    compare(title, "frame", FRAMES, CHUNK, &mut sides);
}

fn main() {
    let (beacons, whole, broken) = loads(&mut Random::new(0xBE4D));
    let count = |rule: fn(&Beacon) -> bool| beacons.iter().filter(|beacon| rule(beacon)).count();
    println!("{FRAMES} different beacons, {} bytes", whole.bytes.len());
    println!("  {} with a sequence number", count(|beacon| beacon.sequence.is_some()));
    println!("  {} with an extended source", count(|beacon| matches!(beacon.source, Address::Extended(_))));
    println!("  {} with timings", count(|beacon| beacon.timings.is_some()));
    println!("  {} with joining information", count(|beacon| beacon.joining.is_some()));
    println!("  {} links", beacons.iter().map(|beacon| beacon.count).sum::<usize>());
    for links in 1..=MOST_LINKS {
        assert!(beacons.iter().any(|beacon| beacon.count == links), "no beacon has {links} links");
    }

    let numbers = check(&whole);
    assert_eq!(numbers[0], FRAMES, "a beacon was refused");
    let numbers = check(&broken);
    println!("the same, each damaged once: by number from 0 on {numbers:?}");

    bench("beacons", &whole);
    bench("damaged", &broken);
}
