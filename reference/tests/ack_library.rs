//! Reading and writing acknowledgements: the static library against the reference, on the frames that `ack_frames` makes,
//! on the records that `ack_records` makes, and on worked ones.

use reference::ack;
use reference::ack_coverage::{ReadCoverage, WriteCoverage};
use reference::ack_frames;
use reference::ack_records;
use reference::ack_worked;
use reference::convert;
use reference::frame;
use reference::interface::{Ack, AckReading, Numbers, Reading, Written};
use reference::lent::{Answer, Memory, Receiver, FILL};
use reference::library;
use reference::random::Random;
use reference::worked;
use std::ptr::{null, null_mut};

/// Lets the library read a frame in the receive buffer, as an acknowledgement and as a beacon.
fn read(receiver: &mut Receiver, frame: &[u8]) -> (AckReading, Reading) {
    receiver.receive(frame, |bytes, length| {
        // SAFETY: the frame has so many bytes there.
        unsafe { (library::tesolvagna_ack_read(bytes, length), library::tesolvagna_beacon_read(bytes, length)) }
    })
}

/// Panics unless a reading is as expected bit for bit, and that of a refusal all 0.
fn expect(name: impl Fn() -> String, frame: &[u8], found: &AckReading, expected: &AckReading) {
    assert!(found.same(expected), "{}: {found:?} for {expected:?}: {frame:02X?}", name());
    let blank = found.ack.same(&Ack::default());
    assert!(blank || found.number == 0, "{}: refused, but not blank: {found:?}: {frame:02X?}", name());
}

/// No frame is accepted as an acknowledgement and as a beacon.
#[test]
fn library_reads_as_the_reference() {
    /// A check that is met less often would be a matter of luck.
    const LEAST: usize = 1000;

    let mut receiver = Receiver::default();
    let mut coverage = ReadCoverage::default();
    let mut frames = 0;
    ack_frames::visit_all(&mut |kind, frame| {
        let (answer, as_beacon) = (ack::read(frame), frame::read(frame));
        let (found, beacon) = read(&mut receiver, frame);
        expect(|| format!("frame {frames}, {kind:?}"), frame, &found, &AckReading::of(&answer));
        assert!(beacon.same(&Reading::of(&as_beacon)), "frame {frames}, {kind:?}: {beacon:?}: {frame:02X?}");
        assert!(found.number != 0 || beacon.number != 0, "frame {frames}, {kind:?}, is both kinds: {frame:02X?}");
        coverage.add(kind, frame, &answer, &as_beacon);
        frames += 1;
    });
    println!("{frames} frames");
    assert!(frames >= 2_075_109);
    coverage.expect(LEAST);
}

/// The answers here are those written beside the frames, not the reference's.
#[test]
fn library_reads_worked_frames() {
    let mut receiver = Receiver::default();
    let worked = ack_worked::frames();
    assert!(worked.len() >= 113, "{} frames", worked.len());
    for worked in worked {
        let (found, _) = read(&mut receiver, &worked.frame);
        expect(|| worked.name.into(), &worked.frame, &found, &AckReading::of(&worked.answer));
    }
}

/// Lengths just over the limit, and lengths that are the shortest frame's in their low 7, 8, 11, 16 or 20 bits.
#[test]
fn long_frames_are_refused() {
    let shortest = worked::bytes(ack_worked::SHORTEST);
    let mut receiver = Receiver::default();
    for more in [126 - 12, 127 - 12, 128, 256, 2048, 65536, 1 << 20] {
        let mut frame = shortest.clone();
        frame.resize(shortest.len() + more, 0);
        let refused = AckReading { number: 1, ack: Ack::default() };
        expect(|| format!("{} bytes", frame.len()), &shortest, &read(&mut receiver, &frame).0, &refused);
    }
}

/// The empty frame in both forms: a pointer that points to no byte, and NULL.
#[test]
fn no_bytes_are_refused() {
    let refused = AckReading { number: 2, ack: Ack::default() };
    assert!(library::read_ack(&[]).same(&refused));
    // SAFETY: with the length 0 a pointer may be null.
    let reading = unsafe { library::tesolvagna_ack_read(null(), 0) };
    assert!(reading.same(&refused), "{reading:?}");
}

/// Lets the library write a record into the memory's buffer.
fn write(ack: &Ack, memory: &Memory) -> Answer {
    // SAFETY: the buffer has so many bytes there.
    memory.lend(|buffer, length| unsafe { library::tesolvagna_ack_write(buffer, length, *ack) })
}

/// What the library reads in a frame that it wrote.
fn read_back(frame: &[u8]) -> Ack {
    let reading = library::read_ack(frame);
    assert_eq!(reading.number, 0, "a frame that was written is refused: {frame:02X?}");
    reading.ack
}

#[test]
fn library_writes_as_the_reference() {
    /// An outcome that is met less often would be a matter of luck.
    const LEAST: usize = 1000;

    let mut random = Random::new(0x400E);
    let mut coverage = WriteCoverage::default();
    let (mut records, mut frames) = (0, 0);
    ack_records::visit_all(&mut |kind, ack, buffer| {
        let memory = Memory::random(&mut random, buffer);
        let mut verdict = Ok(0);
        let expected = memory.lend_slice(|buffer| {
            verdict = convert::write_ack(ack, buffer);
            Written::of(&verdict)
        });
        let answer = write(ack, &memory);
        assert_eq!(answer, expected, "record {records}, {kind:?}, {verdict:?}, buffer of {buffer} bytes: {ack:?}");
        // Whatever the reference does: nothing but the frame is written, and of a refused record nothing.
        if let Some(frame) = memory.frame(&answer) {
            let record = read_back(frame);
            assert!(record.same(ack), "record {records}, {kind:?}, read back: {record:?}: {frame:02X?}");
            assert_ne!(library::read(frame).number, 0, "record {records}, {kind:?}, is a beacon: {frame:02X?}");
            frames += 1;
        }
        coverage.add(kind, ack, buffer, &verdict);
        records += 1;
    });
    println!("{records} records, {frames} frames read back");
    assert!(records >= 623_806 && frames >= 250_000);
    coverage.expect(LEAST);
}

/// The frames here are laid out by hand. Their records are written in no more bytes and read back; frames that are in
/// the form in which acknowledgements are written come out as they stand.
#[test]
fn library_writes_worked_frames() {
    let mut same = Vec::new();
    for worked in ack_worked::frames() {
        let Ok(ack) = &worked.answer else {
            continue;
        };
        let record = Ack::of(ack);
        let mut buffer = vec![FILL; worked.frame.len()];
        let written = library::write_ack(&record, &mut buffer);
        assert_eq!(written.number, 0, "{}", worked.name);
        assert_eq!(ack::read(&buffer[..written.length]).as_ref(), Ok(ack), "{}", worked.name);
        assert!(read_back(&buffer[..written.length]).same(&record), "{}", worked.name);
        if buffer == worked.frame {
            same.push(worked.name);
        }
    }
    for name in ["shortest", "RFC 8180 A.3", "extended destination", "extended source", "both extended, 25 bytes"] {
        assert!(same.contains(&name), "{name}");
    }
}

/// Buffers whose length is 0, or too little for the frame, in its low 8, 16 or 20 bits.
#[test]
fn long_buffers() {
    let shortest = worked::bytes(ack_worked::SHORTEST);
    let ack = read_back(&shortest);
    for length in [256, 257, 256 + 11, 2048, 65536, 65536 + 11, 1 << 20] {
        let mut buffer = vec![FILL; length];
        let written = library::write_ack(&ack, &mut buffer);
        assert_eq!(written, Written { number: 0, length: 12 }, "buffer of {length} bytes");
        assert_eq!(buffer[..12], shortest, "buffer of {length} bytes");
        assert!(buffer[12..].iter().all(|byte| *byte == FILL), "buffer of {length} bytes");
    }
}

/// The empty buffer in both forms: a pointer that points to no byte, and NULL.
#[test]
fn no_buffer() {
    let outside = Ack { correction: 2048, ..Ack::default() };
    for (ack, number) in [(Ack::default(), 9), (outside, 8)] {
        let refused = Written { number, length: 0 };
        assert_eq!(library::write_ack(&ack, &mut []), refused);
        // SAFETY: with the length 0 a pointer may be null.
        assert_eq!(unsafe { library::tesolvagna_ack_write(null_mut(), 0, ack) }, refused);
    }
}
