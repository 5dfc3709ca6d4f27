//! Writing beacons: the static library against the reference, on the records that `records` makes and on worked ones.

use reference::convert;
use reference::coverage::WriteCoverage;
use reference::frame;
use reference::interface::{Beacon, Numbers, Written};
use reference::lent::{Answer, Memory, FILL};
use reference::library;
use reference::random::Random;
use reference::records::visit_all;
use reference::worked;
use reference::write::{frame_length, Record};
use std::ptr::null_mut;

/// Lets the library write a record into the memory's buffer.
fn write(beacon: &Beacon, memory: &Memory) -> Answer {
    // SAFETY: the buffer has so many bytes there.
    memory.lend(|buffer, length| unsafe { library::tesolvagna_beacon_write(buffer, length, *beacon) })
}

/// What the library reads in a frame that it wrote.
fn read_back(frame: &[u8]) -> Beacon {
    let reading = library::read(frame);
    assert_eq!(reading.number, 0, "a frame that was written is refused: {frame:02X?}");
    reading.beacon
}

#[test]
fn library_writes_as_the_reference() {
    /// An outcome that is met less often would be a matter of luck.
    const LEAST: usize = 300;

    let mut random = Random::new(0x400D);
    let mut coverage = WriteCoverage::default();
    let (mut records, mut frames) = (0, 0);
    visit_all(&mut |kind, beacon, buffer| {
        let memory = Memory::random(&mut random, buffer);
        let mut verdict = Ok(0);
        let expected = memory.lend_slice(|buffer| {
            verdict = convert::write(beacon, buffer);
            Written::of(&verdict)
        });
        let answer = write(beacon, &memory);
        assert_eq!(answer, expected, "record {records}, {kind:?}, {verdict:?}, buffer of {buffer} bytes: {beacon:?}");
        // Whatever the reference does: nothing but the frame is written, and of a refused record nothing.
        if let Some(frame) = memory.frame(&answer) {
            let record = read_back(frame);
            assert!(record.same(beacon), "record {records}, {kind:?}, read back: {record:?}: {frame:02X?}");
            assert_eq!(write(&record, &memory), answer, "record {records}, {kind:?}, written again: {beacon:?}");
            frames += 1;
        }
        coverage.add(kind, beacon, buffer, &verdict);
        records += 1;
    });
    println!("{records} records, {frames} frames read back and written again");
    assert!(records >= 1_464_732 && frames >= 325_000);
    coverage.expect(LEAST);
}

/// The frames here are laid out by hand. Their records are written in no more bytes and read back; frames that are in
/// the form in which beacons are written come out as they stand.
#[test]
fn library_writes_worked_frames() {
    let house_form = ["minimal beacon", "RFC 8180 A.1", "RFC 8180 A.2 with the length corrected, 50 bytes"];
    let mut same = 0;
    for worked in worked::frames() {
        let Ok(beacon) = &worked.answer else {
            continue;
        };
        let record = Beacon::of(beacon);
        let mut buffer = vec![FILL; worked.frame.len()];
        let written = library::write(&record, &mut buffer);
        assert_eq!(written.number, 0, "{}", worked.name);
        assert_eq!(frame::read(&buffer[..written.length]).as_ref(), Ok(beacon), "{}", worked.name);
        assert!(read_back(&buffer[..written.length]).same(&record), "{}", worked.name);
        if house_form.contains(&worked.name) {
            assert_eq!(buffer, worked.frame, "{}", worked.name);
            same += 1;
        }
    }
    assert_eq!(same, house_form.len());
}

/// Buffers whose length is 0, or too little for the frame, in its low 8, 16 or 20 bits.
#[test]
fn long_buffers() {
    let minimal = worked::bytes(worked::MINIMAL);
    let beacon = read_back(&minimal);
    for length in [256, 257, 256 + 37, 2048, 65536, 65536 + 37, 1 << 20] {
        let mut buffer = vec![FILL; length];
        assert_eq!(library::write(&beacon, &mut buffer), Written { number: 0, length: 38 }, "buffer of {length} bytes");
        assert_eq!(buffer[..38], minimal, "buffer of {length} bytes");
        assert!(buffer[38..].iter().all(|byte| *byte == FILL), "buffer of {length} bytes");
    }
}

/// The empty buffer in both forms: a pointer that points to no byte, and NULL.
#[test]
fn no_buffer() {
    let minimal = read_back(&worked::bytes(worked::MINIMAL));
    // Sixteen links and timings are too long, buffer or not.
    let mut long = minimal;
    long.slotframe.link_count = 16;
    long.timeslot.has_timings = true;
    assert_eq!(frame_length(&Record::from_c(&long).expect("a record")), 137);
    for (beacon, number) in [(minimal, 9), (Beacon::default(), 8), (long, 1)] {
        let refused = Written { number, length: 0 };
        assert_eq!(library::write(&beacon, &mut []), refused);
        // SAFETY: with the length 0 a pointer may be null.
        assert_eq!(unsafe { library::tesolvagna_beacon_write(null_mut(), 0, beacon) }, refused);
    }
}
