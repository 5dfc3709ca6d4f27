//! Benchmark of acknowledgements: the library and the reference on the same frames, then on the same records, in one run.
//!
//! The reference reads into its own record, and into that with a conversion to C's; it writes from its own record, and from
//! C's, of which it makes its own first.

use reference::ack::{self, Ack, Address};
use reference::ack_write::write;
use reference::acks::{free_form, house_form, random_ack, Shape};
use reference::damage::damaged;
use reference::interface as c;
use reference::measure::{check_frames, compare, read_frames, write_records, Load, Side, CHUNK};
use reference::random::Random;
use reference::{convert, library};
use std::collections::HashSet;

const ACKS: usize = 100_000;

fn by_reference(ack: &c::Ack, buffer: &mut [u8]) -> c::Written {
    c::Written::of(&convert::write_ack(ack, buffer))
}

fn by_reference_alone(ack: &Ack, buffer: &mut [u8]) -> c::Written {
    c::Written::of(&write(ack, buffer))
}

/// Different records in every form that can be written, their frames, and those damaged; and frames in other forms.
#[derive(Default)]
struct Loads {
    acks: Vec<Ack>,
    whole: Load,
    broken: Load,
    other: Load,
}

fn loads(random: &mut Random) -> Loads {
    let mut seen = HashSet::new();
    let mut loads = Loads::default();
    while loads.acks.len() < ACKS {
        let ack = random_ack(random);
        let (frame, descriptors) = house_form(&ack).bytes_and_descriptors();
        let other = free_form(random).1.bytes();
        if ack::read(&other).is_ok() && seen.insert(frame.clone()) {
            loads.whole.push(&frame);
            loads.broken.push(&damaged(random, &frame, &descriptors));
            loads.other.push(&other);
            loads.acks.push(ack);
        }
    }
    loads
}

/// Both readers must give the same answer; counts the numbers.
fn check(load: &Load) -> [usize; 8] {
    let mut numbers = [0; 8];
    for frame in load.frames(0..ACKS) {
        let expected = convert::read_ack(frame);
        assert_eq!(library::read_ack(frame), expected, "{frame:02X?}");
        numbers[usize::from(expected.number)] += 1;
    }
    numbers
}

fn bench_reading(title: &str, load: &Load) {
    let mut sides = [
        Side {
            name: "library",
            run: &mut |cases| read_frames(library::read_ack as fn(&[u8]) -> c::AckReading, load, cases),
        },
        Side { name: "reference, its own record", run: &mut |cases| read_frames(ack::read, load, cases) },
        Side {
            name: "reference, converted to C's record",
            run: &mut |cases| read_frames(convert::read_ack, load, cases),
        },
    ];
    compare(title, "frame", ACKS, CHUNK, &mut sides);
}

fn bench_writing(acks: &[Ack], whole: &Load) {
    let records: Vec<c::Ack> = acks.iter().map(c::Ack::of).collect();
    let frames: Vec<Vec<u8>> = whole.frames(0..ACKS).map(<[u8]>::to_vec).collect();
    check_frames("library", library::write_ack, &records, &frames);
    check_frames("reference, C's record", by_reference, &records, &frames);
    check_frames("reference, its own record", by_reference_alone, acks, &frames);
    let mut sides = [
        Side { name: "library", run: &mut |cases| write_records(library::write_ack, &records[cases]) },
        Side { name: "reference, its own record", run: &mut |cases| write_records(by_reference_alone, &acks[cases]) },
        Side { name: "reference, from C's record", run: &mut |cases| write_records(by_reference, &records[cases]) },
    ];
    compare("records", "record", ACKS, CHUNK, &mut sides);
}

fn main() {
    let Loads { acks, whole, broken, other } = loads(&mut Random::new(0xBEAC4));
    let count = |rule: fn(&Ack) -> bool| acks.iter().filter(|ack| rule(ack)).count();
    println!("{ACKS} different acknowledgements, {} bytes", whole.bytes.len());
    println!("  {} with a sequence number", count(|ack| ack.sequence.is_some()));
    println!("  {} with an extended destination", count(|ack| matches!(ack.destination, Address::Extended(_))));
    println!("  {} with an extended source", count(|ack| matches!(ack.source, Address::Extended(_))));
    println!("  {} with a correction below 0", count(|ack| ack.correction < 0));
    println!("  {} not acknowledged", count(|ack| ack.not_acknowledged));
    for shape in Shape::all() {
        assert!(whole.frames(0..ACKS).any(|frame| frame.len() == shape.length()), "no frame is like {shape:?}");
    }

    assert_eq!(check(&whole)[0], ACKS, "an acknowledgement was refused");
    println!("the same, each damaged once: by number from 0 on {:?}", check(&broken));
    assert_eq!(check(&other)[0], ACKS, "an acknowledgement was refused");
    println!("as many in other forms, {} bytes", other.bytes.len());

    bench_reading("acknowledgements", &whole);
    bench_reading("other forms", &other);
    bench_reading("damaged", &broken);
    bench_writing(&acks, &whole);
}
