//! Writing beacons: the reference on records laid out by hand, and on what reading gives. Needs no static library.

use reference::convert;
use reference::coverage::Counts;
use reference::frame::{self, Address, LONGEST_FRAME};
use reference::frames;
use reference::interface as c;
use reference::slot::Link;
use reference::worked;
use reference::write::{frame_length, write, Joining, Limit, Misfit, Record, Refusal};
use std::fs;
use std::path::Path;

/// What a buffer holds before.
const FILL: u8 = 0x55;

/// Links from the first place on.
fn links(given: &[(u16, u16, u8)]) -> [Link; 16] {
    let mut links = [Link::default(); 16];
    for (link, &(timeslot, offset, options)) in links.iter_mut().zip(given) {
        *link = Link { timeslot, offset, options };
    }
    links
}

/// The record of the minimal beacon.
fn minimal() -> Record {
    Record {
        sequence: None,
        pan: 0x1234,
        source: Address::Short(7),
        asn: 256,
        join_metric: 2,
        template: 0,
        timed: false,
        timings: [0; 12],
        hopping: 0,
        handle: 0,
        size: 11,
        count: 1,
        links: links(&[(0, 0, 0x0F)]),
        joining: Joining::default(),
    }
}

/// The record of the example with everything in it.
fn joining() -> Record {
    Record {
        sequence: Some(0x5C),
        pan: 0xABCD,
        source: Address::Extended(0x0200_00FF_FE00_002A),
        asn: 0x01_0203_0405,
        join_metric: 3,
        template: 1,
        timed: true,
        timings: [1800, 128, 2120, 1020, 800, 1000, 2200, 400, 192, 2400, 70_000, 120_000],
        hopping: 0,
        handle: 6,
        size: 101,
        count: 2,
        links: links(&[(0, 0, 0x0F), (7, 2, 0x02)]),
        joining: Joining {
            present: true,
            router: true,
            proxied: true,
            proxy_priority: 16,
            rank_priority: 0x203,
            pan_priority: 4,
            proxy: 0x0200_00FF_FE00_0001,
            network_length: 8,
            network: *b"studio-1\0\0\0\0\0\0\0\0",
        },
    }
}

/// The longest frame: last timings of 3 bytes, seven links, and all that joining information can hold.
fn longest() -> Record {
    Record {
        template: 1,
        timed: true,
        timings: [0, 0, 0, 0, 0, 0, 0, 0, 0, 0, 0, 65536],
        count: 7,
        links: links(&[(1, 2, 3); 7]),
        joining: Joining { network_length: 16, network: [0xAA; 16], ..joining().joining },
        ..minimal()
    }
}

fn example(name: &str) -> Vec<u8> {
    let path = Path::new(env!("CARGO_MANIFEST_DIR")).join("../examples").join(format!("{name}.frame"));
    fs::read(&path).unwrap_or_else(|error| panic!("{}: {error}", path.display()))
}

/// The frame that is written into a buffer with some bytes to spare, which stay.
fn written(record: &Record) -> Result<Vec<u8>, Refusal> {
    let mut buffer = [FILL; LONGEST_FRAME + 20];
    let answer = write(record, &mut buffer);
    let length = answer.unwrap_or(0);
    assert!(buffer[length..].iter().all(|byte| *byte == FILL), "{record:?}");
    answer.map(|length| buffer[..length].to_vec())
}

#[test]
fn worked_records() {
    let minimal_frame = worked::bytes(worked::MINIMAL);
    assert_eq!(minimal_frame.len(), 38);
    assert_eq!(written(&minimal()), Ok(minimal_frame));
    assert_eq!(written(&joining()), Ok(example("joining")));

    // RFC 8180, appendix A.1 and, with the group's length corrected, A.2.
    let first = Record { asn: 0x01_0203_0405, join_metric: 0, size: 101, ..minimal() };
    let second = Record {
        template: 1,
        timed: true,
        timings: [2700, 128, 3180, 1680, 1200, 1500, 3300, 600, 192, 2400, 4256, 15000],
        ..first.clone()
    };
    let frames = worked::frames();
    let published = |name: &str| match frames.iter().find(|worked| worked.name == name) {
        Some(worked) => Ok(worked.frame.clone()),
        None => panic!("no worked frame is named {name}"),
    };
    assert_eq!(written(&first), published("RFC 8180 A.1"));
    assert_eq!(written(&second), published("RFC 8180 A.2 with the length corrected, 50 bytes"));
}

/// The bytes of one field at a time, beside the minimal beacon's.
#[test]
fn fields() {
    let timed = |eleventh, twelfth| Record {
        template: 9,
        timed: true,
        timings: [1, 2, 3, 4, 5, 6, 7, 8, 9, 0xFFFF, eleventh, twelfth],
        ..minimal()
    };
    let joined = |joining: Joining| Record { joining: Joining { present: true, ..joining }, ..minimal() };
    let network = *b"0123456789ABCDEF";
    // Each with its frame's length and a part of the frame, from a place on.
    let fields = [
        ("control, short", minimal(), 38, 0, "40 AB 34 12 FF FF 07 00 00 3F 1A 88"),
        ("sequence number 0", Record { sequence: Some(0), ..minimal() }, 39, 0, "40 AA 00 34 12 FF FF 07 00 00 3F"),
        (
            "extended source",
            Record { source: Address::Extended(0xF102_0304_0506_0708), ..minimal() },
            44,
            0,
            "40 EB 34 12 FF FF 08 07 06 05 04 03 02 F1 00 3F",
        ),
        ("largest ASN", Record { asn: (1 << 40) - 1, join_metric: 0, ..minimal() }, 38, 12, "06 1A FF*5 00"),
        ("hopping ID", Record { hopping: 200, ..minimal() }, 38, 23, "01 C8 C8"),
        (
            "timings of 2 bytes",
            timed(0x800B, 0xFFFF),
            62,
            10,
            "32 88 06 1A 00 01 00 00 00 02 19 1C 09 \
             01 00 02 00 03 00 04 00 05 00 06 00 07 00 08 00 09 00 FF FF 0B 80 FF FF 01 C8",
        ),
        ("eleventh over 2 bytes", timed(0x1_0000, 5), 64, 43, "00 00 01 05 00 00 01 C8"),
        ("twelfth over 2 bytes", timed(5, 0xFF_FFFF), 64, 43, "05 00 00 FF FF FF 01 C8"),
        (
            "two links",
            Record { handle: 3, size: 0x201, count: 2, links: links(&[(1, 2, 3), (0x200, 5, 6)]), ..minimal() },
            43,
            26,
            "0F 1B 01 03 01 02 02 01 00 02 00 03 00 02 05 00 06",
        ),
        ("empty joining information", joined(Joining::default()), 45, 38, "05 A8 02 00 00 00 00"),
        ("R", joined(Joining { router: true, ..Joining::default() }), 45, 38, "05 A8 02 80 00 00 00"),
        ("P, address 0", joined(Joining { proxied: true, ..Joining::default() }), 53, 38, "0D A8 02 40 00*11"),
        (
            "largest priorities",
            joined(Joining { proxy_priority: 127, rank_priority: 4095, pan_priority: 255, ..Joining::default() }),
            45,
            38,
            "05 A8 02 07 FF FF FF",
        ),
        (
            "priorities of one bit",
            joined(Joining { proxy_priority: 1, rank_priority: 256, pan_priority: 1, ..Joining::default() }),
            45,
            38,
            "05 A8 02 00 11 00 01",
        ),
        (
            "address and network ID",
            joined(Joining {
                proxied: true,
                proxy: 0x0102_0304_0506_0708,
                network_length: 16,
                network,
                ..Joining::default()
            }),
            69,
            38,
            "1D A8 02 40 00 00 00 01 02 03 04 05 06 07 08 30 31 32 33 34 35 36 37 38 39 41 42 43 44 45 46",
        ),
        (
            "network ID of a zero byte",
            joined(Joining { network_length: 1, ..Joining::default() }),
            46,
            38,
            "06 A8 02 00*5",
        ),
    ];
    for (name, record, length, place, part) in fields {
        let part = worked::bytes(part);
        let frame = written(&record).unwrap_or_else(|refusal| panic!("{name}: {refusal:?}"));
        assert_eq!(frame.len(), length, "{name}: {frame:02X?}");
        assert_eq!(frame[place..place + part.len()], part, "{name}: {frame:02X?}");
        assert_eq!(frame::read(&frame).ok(), record.to_beacon(), "{name}");
    }
}

/// Each limit alone, at the first number outside it, and the last number inside.
#[test]
fn limits() {
    type Change = fn(&mut Record);
    let absent: Change = |record| record.joining = Joining::default();
    let alone: Change = |record| (record.template, record.timed, record.timings) = (0, false, [0; 12]);
    let unchanged: Change = |_| {};
    // The change that makes the record of the example outside, after one that leaves it inside.
    let limits: &[(Limit, Change, Change)] = &[
        (Limit::Asn, |record| record.asn = (1 << 40) - 1, |record| record.asn = 1 << 40),
        (Limit::Asn, unchanged, |record| record.asn |= 1 << 63),
        (Limit::TemplateAlone, alone, |record| record.template = 1),
        (Limit::FirstTimings, |record| record.timings[0] = 65535, |record| record.timings[0] = 65536),
        (Limit::FirstTimings, |record| record.timings[9] = 65535, |record| record.timings[9] = 65536),
        (Limit::LastTimings, |record| record.timings[10] = 0xFF_FFFF, |record| record.timings[10] = 0x100_0000),
        (Limit::LastTimings, |record| record.timings[11] = 0xFF_FFFF, |record| record.timings[11] = 0x100_0000),
        (Limit::UnusedTimings, alone, |record| record.timings[0] = 1),
        (Limit::UnusedTimings, alone, |record| record.timings[11] = 1),
        (
            Limit::NoLinks,
            |record| (record.count, record.links) = (1, links(&[(0, 0, 0)])),
            |record| (record.count, record.links) = (0, links(&[])),
        ),
        (
            Limit::TooManyLinks,
            // The example would be too long with so many.
            |record| *record = Record { count: 16, ..minimal() },
            |record| record.count = 17,
        ),
        (Limit::TooManyLinks, unchanged, |record| record.count = 255),
        (Limit::LinkTimeslot, |record| record.links[0].timeslot = 100, |record| record.links[0].timeslot = 101),
        (Limit::LinkTimeslot, |record| record.links[1].timeslot = 100, |record| record.links[1].timeslot = 65535),
        (Limit::UnusedLinks, unchanged, |record| record.links[2].timeslot = 1),
        (Limit::UnusedLinks, unchanged, |record| record.links[15].offset = 1),
        (Limit::UnusedLinks, unchanged, |record| record.links[15].options = 1),
        (Limit::UnusedLinks, unchanged, |record| record.count = 1),
        (
            Limit::ProxyPriority,
            |record| record.joining.proxy_priority = 127,
            |record| record.joining.proxy_priority = 128,
        ),
        (
            Limit::RankPriority,
            |record| record.joining.rank_priority = 4095,
            |record| record.joining.rank_priority = 4096,
        ),
        (
            Limit::UnusedAddress,
            |record| (record.joining.proxied, record.joining.proxy) = (false, 0),
            |record| record.joining.proxy = 1,
        ),
        (Limit::UnusedAddress, unchanged, |record| record.joining.proxied = false),
        (
            Limit::NetworkLength,
            |record| record.joining.network_length = 16,
            |record| record.joining.network_length = 17,
        ),
        (Limit::UnusedNetwork, unchanged, |record| record.joining.network[8] = 1),
        (Limit::UnusedNetwork, unchanged, |record| record.joining.network[15] = 1),
        (Limit::UnusedNetwork, unchanged, |record| record.joining.network_length = 7),
        (Limit::AbsentJoining, unchanged, |record| record.joining.present = false),
        (Limit::AbsentJoining, absent, |record| record.joining.router = true),
        (Limit::AbsentJoining, absent, |record| record.joining.proxied = true),
        (Limit::AbsentJoining, absent, |record| record.joining.proxy_priority = 1),
        (Limit::AbsentJoining, absent, |record| record.joining.rank_priority = 1),
        (Limit::AbsentJoining, absent, |record| record.joining.pan_priority = 1),
        (Limit::AbsentJoining, absent, |record| record.joining.network_length = 1),
    ];
    for (place, (limit, inside, outside)) in limits.iter().enumerate() {
        let mut record = joining();
        inside(&mut record);
        assert_eq!(written(&record).map(|frame| frame.len()), Ok(frame_length(&record)), "{place}, {limit:?}, inside");
        outside(&mut record);
        assert_eq!(record.broken_limits(), [*limit], "{place}");
        assert_eq!(written(&record), Err(Refusal::Limit(*limit)), "{place}");
        assert_eq!(record.to_beacon(), None, "{place}, {limit:?}");
    }
    // No timeslot is below size 0.
    let record = Record { size: 0, ..minimal() };
    assert_eq!(record.broken_limits(), [Limit::SlotframeSize, Limit::LinkTimeslot]);
    assert_eq!(written(&record), Err(Refusal::Limit(Limit::SlotframeSize)));
    for limit in Limit::ALL {
        let met = limits.iter().any(|(met, _, _)| met == limit);
        assert!(met || *limit == Limit::SlotframeSize, "no record for {limit:?}");
    }
}

/// 125 bytes are written and 126 are not; a buffer of the frame's length is enough.
#[test]
fn lengths_and_buffers() {
    let in_buffer = |record: &Record, length: usize| {
        let mut buffer = vec![FILL; length];
        let answer = write(record, &mut buffer);
        let written = answer.unwrap_or(0);
        assert!(buffer[written..].iter().all(|byte| *byte == FILL), "{answer:?} in {length} bytes");
        answer
    };
    let too_long = Record { sequence: Some(0), ..longest() };
    let broken = Record { asn: 1 << 40, ..too_long.clone() };
    assert_eq!(frame_length(&longest()), 125);
    assert_eq!(frame_length(&too_long), 126);
    for length in 0..200 {
        let fits = |needed: usize| if length < needed { Err(Refusal::BufferTooShort) } else { Ok(needed) };
        assert_eq!(in_buffer(&minimal(), length), fits(38));
        assert_eq!(in_buffer(&joining(), length), fits(99));
        assert_eq!(in_buffer(&longest(), length), fits(125));
        assert_eq!(in_buffer(&too_long, length), Err(Refusal::FrameTooLong), "{length}");
        assert_eq!(in_buffer(&broken, length), Err(Refusal::Limit(Limit::Asn)), "{length}");
    }
    // Sixteen links and timings: within every limit, and too long.
    let sixteen = Record { template: 1, timed: true, timings: [1; 12], count: 16, ..minimal() };
    assert_eq!((frame_length(&sixteen), sixteen.broken_limits()), (137, vec![]));
    assert_eq!(written(&sixteen), Err(Refusal::FrameTooLong));
    let numbers =
        [Refusal::Limit(Limit::Asn), Refusal::Misfit(Misfit::Options), Refusal::FrameTooLong, Refusal::BufferTooShort];
    assert_eq!(numbers.map(Refusal::number), [8, 8, 1, 9]);
}

/// C's form holds a record, or is no record's.
#[test]
fn records_in_the_form_of_c() {
    let read = convert::read(&example("joining"));
    assert_eq!((read.number, read.beacon), (0, c::Beacon::of_record(&joining())));
    assert_eq!(Record::from_c(&read.beacon), Ok(joining()));

    let changed = |change: fn(&mut c::Beacon)| {
        let mut beacon = read.beacon;
        change(&mut beacon);
        beacon
    };
    let refused = |change: fn(&mut c::Beacon), misfit: Misfit| {
        let beacon = changed(change);
        let mut buffer = [FILL; LONGEST_FRAME];
        assert_eq!(convert::write(&beacon, &mut buffer), Err(Refusal::Misfit(misfit)), "{beacon:?}");
        assert_eq!(buffer, [FILL; LONGEST_FRAME]);
    };
    refused(|beacon| beacon.has_sequence_number = false, Misfit::AbsentSequence);
    refused(|beacon| (beacon.has_sequence_number, beacon.sequence_number) = (false, 1), Misfit::AbsentSequence);
    refused(|beacon| beacon.source_is_extended = false, Misfit::ShortSource);
    refused(|beacon| (beacon.source_is_extended, beacon.source) = (false, 65536), Misfit::ShortSource);
    refused(|beacon| beacon.slotframe.links[0].options = 256, Misfit::Options);
    refused(|beacon| beacon.slotframe.links[1].options = 0xFF00, Misfit::Options);
    refused(|beacon| beacon.slotframe.links[15].options = 0x8000, Misfit::Options);

    let without = changed(|beacon| (beacon.has_sequence_number, beacon.sequence_number) = (false, 0));
    assert_eq!(Record::from_c(&without), Ok(Record { sequence: None, ..joining() }));
    let short = changed(|beacon| (beacon.source_is_extended, beacon.source) = (false, 65535));
    assert_eq!(Record::from_c(&short), Ok(Record { source: Address::Short(65535), ..joining() }));
    // 18 links in eight bits would be 2 in four.
    let many = changed(|beacon| beacon.slotframe.link_count = 18);
    let mut buffer = [FILL; LONGEST_FRAME];
    assert_eq!(convert::write(&many, &mut buffer), Err(Refusal::Limit(Limit::TooManyLinks)));
    let blank = c::Beacon::default();
    assert_eq!(convert::write(&blank, &mut buffer), Err(Refusal::Limit(Limit::SlotframeSize)));
}

/// Whatever reading accepts is within the limits, is written in no more bytes, and reads as the same again.
#[test]
fn what_is_read_can_be_written() {
    let mut counts = Counts::default();
    frames::visit_all(&mut |kind, frame| {
        let Ok(beacon) = frame::read(frame) else {
            return;
        };
        let record = Record::from_beacon(&beacon);
        let mut buffer = vec![FILL; frame.len()];
        let length =
            write(&record, &mut buffer).unwrap_or_else(|refusal| panic!("{kind:?}, {refusal:?}: {frame:02X?}"));
        assert_eq!(frame::read(&buffer[..length]).as_ref(), Ok(&beacon), "{kind:?}: {frame:02X?}");
        assert_eq!(record.to_beacon(), Some(beacon), "{kind:?}: {frame:02X?}");
        counts.add(match (length == frame.len(), buffer == frame) {
            (true, true) => "the same frame",
            (true, false) => "another frame of the same length",
            (false, _) => "a shorter frame",
        });
    });
    counts.expect("written again", 1000, &["the same frame", "another frame of the same length", "a shorter frame"]);
}
