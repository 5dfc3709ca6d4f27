//! Reading beacons: the static library against the reference, on the frames that `frames` makes and on worked ones.

use reference::convert;
use reference::coverage::FrameCoverage;
use reference::frame;
use reference::frames::visit_all;
use reference::interface::{Beacon, Numbers, Reading, Span};
use reference::lent::Receiver;
use reference::library;
use reference::worked;
use std::ptr::null;

/// Lets the library read a frame in the receive buffer and look for its network ID there.
fn read(receiver: &mut Receiver, frame: &[u8]) -> (Reading, Span) {
    receiver.receive(frame, |bytes, length| {
        // SAFETY: the frame has so many bytes there.
        unsafe {
            (library::tesolvagna_beacon_read(bytes, length), library::tesolvagna_beacon_network_id(bytes, length))
        }
    })
}

/// Panics unless reading and network ID are as expected bit for bit, and those of a refusal all 0.
fn expect(name: impl Fn() -> String, frame: &[u8], found: &(Reading, Span), expected: &(Reading, Span)) {
    let same = found.0.same(&expected.0) && found.1.same(&expected.1);
    assert!(same, "{}: {found:?} for {expected:?}: {frame:02X?}", name());
    let blank = found.0.beacon.same(&Beacon::default()) && found.1.same(&Span::default());
    assert!(blank || found.0.number == 0, "{}: refused, but not blank: {found:?}: {frame:02X?}", name());
}

#[test]
fn library_reads_as_the_reference() {
    /// A check that is met less often would be a matter of luck.
    const LEAST: usize = 1000;

    let mut receiver = Receiver::default();
    let mut coverage = FrameCoverage::default();
    let mut frames = 0;
    visit_all(&mut |kind, frame| {
        let answer = frame::read(frame);
        let expected = (Reading::of(&answer), convert::network_id(frame));
        let found = read(&mut receiver, frame);
        expect(|| format!("frame {frames}, {kind:?}"), frame, &found, &expected);
        coverage.add(kind, frame, &answer);
        frames += 1;
    });
    println!("{frames} frames");
    assert!(frames >= 2_922_859);
    coverage.expect(LEAST);
}

/// The answers here are those written beside the frames, not the reference's.
#[test]
fn library_reads_worked_frames() {
    let mut receiver = Receiver::default();
    for worked in worked::frames() {
        let expected = Reading::of(&worked.answer);
        let length = usize::from(expected.beacon.joining.network_id_length);
        let (reading, network) = read(&mut receiver, &worked.frame);
        assert!(reading.same(&expected), "{}: {reading:?}", worked.name);
        assert_eq!(network.length, length, "{}", worked.name);
        assert!(length > 0 || network.offset == 0, "{}: the empty part at the start", worked.name);
        let part = &worked.frame[network.offset..network.offset + network.length];
        assert_eq!(part, &expected.beacon.joining.network_id[..length], "{}", worked.name);
    }
}

/// Lengths just over the limit, and lengths that are the minimal beacon's in their low 7, 8, 11, 16 or 20 bits.
#[test]
fn long_frames_are_refused() {
    let minimal = worked::bytes(worked::MINIMAL);
    let mut receiver = Receiver::default();
    for more in [126 - 38, 127 - 38, 128, 256, 2048, 65536, 1 << 20] {
        let mut frame = minimal.clone();
        frame.resize(minimal.len() + more, 0);
        let expected = (Reading { number: 1, beacon: Beacon::default() }, Span::default());
        expect(|| format!("{} bytes", frame.len()), &minimal, &read(&mut receiver, &frame), &expected);
    }
}

/// The empty frame in both forms: a pointer that points to no byte, and NULL.
#[test]
fn no_bytes_are_refused() {
    let refused = Reading { number: 2, beacon: Beacon::default() };
    assert!(library::read(&[]).same(&refused));
    assert!(library::network_id(&[]).same(&Span::default()));
    // SAFETY: with the length 0 a pointer may be null.
    let (reading, network) =
        unsafe { (library::tesolvagna_beacon_read(null(), 0), library::tesolvagna_beacon_network_id(null(), 0)) };
    assert!(reading.same(&refused) && network.same(&Span::default()), "{reading:?}, {network:?}");
}
