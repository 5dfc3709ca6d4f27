//! Acknowledgements: the reference on frames and records laid out by hand, and on what reading gives. Needs no static
//! library.

use reference::ack::{self, Ack, Address, Check};
use reference::ack_frames;
use reference::ack_worked;
use reference::ack_write::{frame_length, write, Limit, Misfit, Refusal};
use reference::convert;
use reference::coverage::Counts;
use reference::frame;
use reference::interface as c;
use reference::worked;

/// What a buffer holds before.
const FILL: u8 = 0x55;

/// No frame is longer.
const LONGEST: usize = 25;

#[test]
fn worked_frames() {
    for worked in ack_worked::frames() {
        assert_eq!(ack::read(&worked.frame), worked.answer, "{}", worked.name);
        assert!(worked.answer.is_err() || frame::read(&worked.frame).is_err(), "{}: a beacon too", worked.name);
    }
}

/// The worked frames say of each check what it refuses, and no name stands for two of them.
#[test]
fn worked_frames_cover_the_checks() {
    let worked = ack_worked::frames();
    for check in Check::OF_ACKS {
        assert!(worked.iter().any(|worked| worked.answer == Err(*check)), "no worked frame for {check:?}");
    }
    let mut names: Vec<&str> = worked.iter().map(|worked| worked.name).collect();
    names.sort_unstable();
    names.dedup();
    assert_eq!(names.len(), worked.len(), "a name stands twice");
}

/// The refusal numbers themselves, where a frame could be refused for two faults or seem to have one.
#[test]
fn numbers_of_worked_frames() {
    let numbers = [
        ("126 bytes of no frame type", 1),
        ("one byte of another type", 2),
        ("frame type before security", 3),
        ("frame version before security", 3),
        ("security before addressing", 4),
        ("both extended with compression", 5),
        ("both short without compression", 5),
        ("extended destination without compression", 5),
        ("extended source without compression", 5),
        ("compression before fields cut", 5),
        ("sequence number instead of a source byte", 2),
        ("destination FF FF", 0),
        ("one byte after the time correction", 2),
        ("past the frame before bit 15", 2),
        ("past the frame before the length", 2),
        ("bit 15 in the time correction", 6),
        ("header termination 1 with a length", 6),
        ("header termination 2 with a length", 6),
        ("header termination 1 past the frame", 2),
        ("header termination 1, then garbage", 0),
        ("header termination 2, then garbage", 0),
        ("time correction behind header termination 1", 7),
        ("a terminator's fault before a missing time correction", 6),
        ("nothing after the source", 7),
        ("time correction of 3 bytes", 6),
        ("time correction twice", 7),
        ("second time correction of 3 bytes", 6),
        ("second time correction past the frame", 2),
        ("second one before a byte left over", 7),
        ("every bit", 0),
    ];
    let worked = ack_worked::frames();
    for (name, number) in numbers {
        let worked = worked.iter().find(|worked| worked.name == name);
        let frame = &worked.unwrap_or_else(|| panic!("no worked frame is named {name}")).frame;
        assert_eq!(convert::read_ack(frame).number, number, "{name}");
    }
}

/// C's record, field by field; the record of a refused frame is all 0.
#[test]
fn record_in_the_form_of_c() {
    let frame = worked::bytes(
        "42 AE                    frame control: extended destination
         5C                       sequence number
         CD AB                    PAN ID
         2A 00 00 FE FF 00 00 02  destination
         07 00                    source
         02 0F                    time correction
         00 F8                    -2048 microseconds, not acknowledged, ignored bits",
    );
    let ack = c::Ack {
        has_sequence_number: true,
        sequence_number: 0x5C,
        pan_id: 0xABCD,
        destination_is_extended: true,
        destination: 0x0200_00FF_FE00_002A,
        source_is_extended: false,
        source: 7,
        correction: -2048,
        not_acknowledged: true,
    };
    assert_eq!(convert::read_ack(&frame), c::AckReading { number: 0, ack });
    assert_eq!(convert::read_ack(&frame[..18]), c::AckReading { number: 2, ack: c::Ack::default() });
}

/// The frame that is written into a buffer with some bytes to spare, which stay.
fn written(ack: &Ack) -> Result<Vec<u8>, Refusal> {
    let mut buffer = [FILL; LONGEST + 20];
    let answer = write(ack, &mut buffer);
    let length = answer.unwrap_or(0);
    assert!(buffer[length..].iter().all(|byte| *byte == FILL), "{ack:?}");
    answer.map(|length| buffer[..length].to_vec())
}

fn shortest() -> Ack {
    ack::read(&worked::bytes(ack_worked::SHORTEST)).expect("it is accepted")
}

/// Worked frames that are in the form in which acknowledgements are written come out as they stand.
#[test]
fn worked_records() {
    let house_form = [
        "shortest",
        "RFC 8180 A.3",
        "RFC 8180 A.3, not acknowledged",
        "sequence number 0",
        "extended destination",
        "extended source",
        "both extended, 25 bytes",
        "destination FF FF",
        "every field 0xFF",
        "correction 2047",
        "correction -2048",
        "correction -1, not acknowledged",
    ];
    let worked = ack_worked::frames();
    for name in house_form {
        let worked = worked.iter().find(|worked| worked.name == name).expect(name);
        let ack = worked.answer.expect(name);
        assert_eq!(written(&ack), Ok(worked.frame.clone()), "{name}");
        assert_eq!(frame_length(&ack), worked.frame.len(), "{name}");
    }
}

/// The first correction outside the limits on either side, and the last one inside.
#[test]
fn limits() {
    for (correction, bytes) in [(2047, [0xFF, 0x07]), (-2048, [0x00, 0x08]), (0, [0, 0]), (-1, [0xFF, 0x0F])] {
        let frame = written(&Ack { correction, ..shortest() }).expect("it is inside");
        assert_eq!(frame[10..], bytes, "{correction}");
    }
    // Others would be inside if they were cut to 12 or 16 bits.
    let least = [-2049, -4096, -65536, i32::MIN];
    let largest = [2048, 4095, 4096, 65535, 65536, i32::MAX];
    let cases = least.map(|correction| (correction, Limit::LeastCorrection)).into_iter();
    for (correction, limit) in cases.chain(largest.map(|correction| (correction, Limit::LargestCorrection))) {
        assert_eq!(written(&Ack { correction, ..shortest() }), Err(Refusal::Limit(limit)), "{correction}");
    }
}

/// A buffer of the frame's length is enough, and a limit comes before the buffer.
#[test]
fn lengths_and_buffers() {
    let extended = Address::Extended(u64::MAX);
    let acks = [
        (12, shortest()),
        (13, Ack { sequence: Some(0), ..shortest() }),
        (18, Ack { destination: extended, ..shortest() }),
        (18, Ack { source: extended, ..shortest() }),
        (25, Ack { sequence: Some(0), destination: extended, source: extended, ..shortest() }),
    ];
    for (needed, ack) in acks {
        let outside = Ack { correction: 2048, ..ack };
        for length in 0..40 {
            let mut buffer = vec![FILL; length];
            let expected = if length < needed { Err(Refusal::BufferTooShort) } else { Ok(needed) };
            assert_eq!(write(&ack, &mut buffer), expected, "{ack:?} in {length} bytes");
            assert!(buffer[expected.unwrap_or(0)..].iter().all(|byte| *byte == FILL), "{ack:?} in {length} bytes");
            let limit = Err(Refusal::Limit(Limit::LargestCorrection));
            assert_eq!(write(&outside, &mut buffer), limit, "{ack:?} in {length} bytes");
        }
    }
    let refusals = [
        Refusal::Misfit(Misfit::ShortSource),
        Refusal::Limit(Limit::LeastCorrection),
        Refusal::FrameTooLong,
        Refusal::BufferTooShort,
    ];
    assert_eq!(refusals.map(Refusal::number), [8, 8, 1, 9]);
}

/// C's form holds a record, or is no record's.
#[test]
fn records_in_the_form_of_c() {
    let both = Ack {
        sequence: Some(0x5C),
        destination: Address::Extended(1 << 16),
        source: Address::Extended(u64::MAX),
        ..shortest()
    };
    assert_eq!(Ack::from_c(&c::Ack::of(&both)), Ok(both));
    let refused = |change: fn(&mut c::Ack), misfit: Misfit| {
        let mut ack = c::Ack::of(&both);
        change(&mut ack);
        let mut buffer = [FILL; LONGEST];
        assert_eq!(convert::write_ack(&ack, &mut buffer), Err(Refusal::Misfit(misfit)), "{ack:?}");
        assert_eq!(buffer, [FILL; LONGEST]);
    };
    refused(|ack| ack.has_sequence_number = false, Misfit::AbsentSequence);
    refused(|ack| ack.destination_is_extended = false, Misfit::ShortDestination);
    refused(|ack| ack.source_is_extended = false, Misfit::ShortSource);
    refused(|ack| (ack.source_is_extended, ack.source) = (false, 65536), Misfit::ShortSource);

    // The blank record can be written.
    let zero = Address::Short(0);
    let blank = Ack { sequence: None, pan: 0, destination: zero, source: zero, correction: 0, not_acknowledged: false };
    assert_eq!(Ack::from_c(&c::Ack::default()), Ok(blank));
    assert_eq!(written(&blank), Ok(worked::bytes("42 AB 00*6 02 0F 00 00")));
    let short = c::Ack { destination: 65535, source: 65535, ..c::Ack::default() };
    let expected = Ack { destination: Address::Short(65535), source: Address::Short(65535), ..blank };
    assert_eq!(Ack::from_c(&short), Ok(expected));
}

/// Whatever reading accepts is within the limits, is written in no more bytes, and reads as the same again.
#[test]
fn what_is_read_can_be_written() {
    let mut counts = Counts::default();
    ack_frames::visit_all(&mut |kind, frame| {
        let Ok(ack) = ack::read(frame) else {
            return;
        };
        let mut buffer = vec![FILL; frame.len()];
        let length = write(&ack, &mut buffer).unwrap_or_else(|refusal| panic!("{kind:?}, {refusal:?}: {frame:02X?}"));
        assert_eq!(ack::read(&buffer[..length]), Ok(ack), "{kind:?}: {frame:02X?}");
        counts.add(match (length == frame.len(), buffer == frame) {
            (true, true) => "the same frame",
            (true, false) => "another frame of the same length",
            (false, _) => "a shorter frame",
        });
    });
    counts.expect("written again", 1000, &["the same frame", "another frame of the same length", "a shorter frame"]);
}
