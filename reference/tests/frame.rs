//! Reading beacons: the reference on frames laid out by hand, and the example frames. Needs no static library.

use reference::frame::{self, Address, Beacon, Check, JoiningInformation};
use reference::interface as c;
use reference::slot::Link;
use reference::{convert, direct, worked};
use std::fs;
use std::path::Path;

/// The network ID that a record holds.
fn network_of(answer: &Result<Beacon, Check>) -> &[u8] {
    match answer {
        Ok(Beacon { joining: Some(joining), .. }) => &joining.network[..joining.network_length],
        _ => &[],
    }
}

#[test]
fn worked_frames() {
    for worked in worked::frames() {
        assert_eq!(frame::read(&worked.frame), worked.answer, "{}", worked.name);

        let network = frame::network_id(&worked.frame);
        assert_eq!(network, network_of(&worked.answer), "{}", worked.name);
        if network.is_empty() {
            assert_eq!(network.as_ptr(), worked.frame.as_ptr(), "{}: the empty part at the start", worked.name);
        }

        assert_eq!(direct::read(&worked.frame), c::Reading::of(&worked.answer), "{}", worked.name);
    }
}

/// The worked frames say of each check what it refuses, and no name stands for two of them.
#[test]
fn worked_frames_cover_the_checks() {
    let worked = worked::frames();
    for check in Check::OF_BEACONS {
        assert!(worked.iter().any(|worked| worked.answer == Err(*check)), "no worked frame for {check:?}");
    }
    let mut names: Vec<&str> = worked.iter().map(|worked| worked.name).collect();
    names.sort_unstable();
    names.dedup();
    assert_eq!(names.len(), worked.len(), "a name stands twice");
}

/// C's record, field by field, for a frame that has everything.
#[test]
fn record_in_the_form_of_c() {
    let link = |timeslot, channel_offset, options| c::Link { timeslot, channel_offset, options };
    let mut links = [c::Link::default(); 16];
    (links[0], links[1]) = (link(0, 0, 0x0F), link(7, 2, 0x02));
    let beacon = c::Beacon {
        has_sequence_number: true,
        sequence_number: 0x5C,
        pan_id: 0xABCD,
        source_is_extended: true,
        source: 0x0200_00FF_FE00_002A,
        synchronization: c::Synchronization { asn: 0x01_0203_0405, join_metric: 3 },
        timeslot: c::Timeslot { template_id: 1, has_timings: true, timings: JOINING_TIMINGS },
        hopping_sequence_id: 0,
        slotframe: c::Slotframe { handle: 6, size: 101, link_count: 2, links },
        joining: c::Joining {
            present: true,
            router: true,
            proxied: true,
            proxy_priority: 16,
            rank_priority: 0x203,
            pan_priority: 4,
            proxy_address: 0x0200_00FF_FE00_0001,
            network_id_length: 8,
            network_id: *b"studio-1\0\0\0\0\0\0\0\0",
        },
    };
    assert_eq!(convert::read(&example("joining")), c::Reading { number: 0, beacon });
}

const JOINING_TIMINGS: [u32; 12] = [1800, 128, 2120, 1020, 800, 1000, 2200, 400, 192, 2400, 70_000, 120_000];

fn example_file(name: &str) -> Vec<u8> {
    let path = Path::new(env!("CARGO_MANIFEST_DIR")).join("../examples").join(name);
    fs::read(&path).unwrap_or_else(|error| panic!("{}: {error}", path.display()))
}

fn example(name: &str) -> Vec<u8> {
    example_file(&format!("{name}.frame"))
}

/// The text beside an example frame gives each field's place, bytes and meaning: places and bytes are the frame's.
#[test]
fn example_texts() {
    for name in ["minimal", "joining"] {
        let text = String::from_utf8(example_file(&format!("{name}.txt"))).expect("the text is UTF-8");
        let mut bytes = Vec::new();
        for line in text.lines().filter(|line| !line.starts_with('#')) {
            let columns: Vec<&str> = line.split("  ").map(str::trim).filter(|column| !column.is_empty()).collect();
            let [place, field, _meaning] = columns[..] else {
                panic!("{name}: not three columns: {line}");
            };
            assert_eq!(place.parse(), Ok(bytes.len()), "{name}: {line}");
            bytes.extend(worked::bytes(field));
        }
        assert_eq!(bytes, example(name), "{name}");
    }
}

#[test]
fn example_frames() {
    assert_eq!(example("minimal"), worked::bytes(worked::MINIMAL));

    let mut links = [Link::default(); 16];
    links[0] = Link { timeslot: 0, offset: 0, options: 0x0F };
    links[1] = Link { timeslot: 7, offset: 2, options: 0x02 };
    let joining = Beacon {
        sequence: Some(0x5C),
        pan: 0xABCD,
        source: Address::Extended(0x0200_00FF_FE00_002A),
        asn: 0x01_0203_0405,
        join_metric: 3,
        template: 1,
        timings: Some(JOINING_TIMINGS),
        hopping: 0,
        handle: 6,
        size: 101,
        count: 2,
        links,
        joining: Some(JoiningInformation {
            router: true,
            proxy: Some(0x0200_00FF_FE00_0001),
            proxy_priority: 16,
            rank_priority: 0x203,
            pan_priority: 4,
            network: *b"studio-1\0\0\0\0\0\0\0\0",
            network_length: 8,
        }),
    };
    assert_eq!(frame::read(&example("joining")), Ok(joining));
    assert_eq!(frame::network_id(&example("joining")), b"studio-1");
}
