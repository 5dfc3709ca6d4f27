//! Worked values through the C interface, in which fields and parameters of one type differ: no contract can say in which
//! order they lie for C, so that these tests have to. `exchanges.sh` exchanges them two by two, and each time one of these
//! tests must fail.

use reference::header::{
    CALL_ADVERTISE, CALL_EVALUATE, CALL_FORGET, CALL_REPORT, CONTENT_ABSENT, CONTENT_EXTENDED, CONTENT_NUMBER,
    CONTENT_OCTETS, CONTENT_SHORT, DONE, FIELDS, FIELD_JOINING_P, FIELD_JOINING_R, FIELD_NETWORK_ID,
    FIELD_PROXY_ADDRESS, FIELD_SEQUENCE_NUMBER, FIELD_SOURCE, FIELD_TIMINGS, LISTEN, OUT_OF_LIMITS, SLEEP, TABLE_FULL,
    TIMING_ACK_WAIT, TIMING_CCA, TIMING_CCA_OFFSET, TIMING_MAX_ACK, TIMING_MAX_TX, TIMING_RX_ACK_DELAY,
    TIMING_RX_OFFSET, TIMING_RX_TX, TIMING_RX_WAIT, TIMING_TIMESLOT_LENGTH, TIMING_TX_ACK_DELAY, TIMING_TX_OFFSET,
    TRANSMIT, UNKNOWN_NEIGHBOUR,
};
use reference::interface::{
    Ack, AckReading, Beacon, Content, Evaluation, Joining, Link, Metric, Neighbour, Numbers, Reading, Replay, Slot,
    Slotframe, Span, Synchronization, Table, TableAnswer, Timeslot, Written,
};
use reference::library;
use reference::worked;

/// A frame laid out by hand, its record, and where its network ID stands.
struct Example {
    name: &'static str,
    frame: Vec<u8>,
    beacon: Beacon,
    network_id: Span,
}

fn links(given: &[(u16, u16, u16)]) -> [Link; 16] {
    let mut links = [Link::default(); 16];
    for (link, &(timeslot, channel_offset, options)) in links.iter_mut().zip(given) {
        *link = Link { timeslot, channel_offset, options };
    }
    links
}

/// The first has everything, with a different value in each field. The other two have flags that differ from each other:
/// of a sequence number and an extended source, of R and P.
fn examples() -> [Example; 3] {
    [
        Example {
            name: "everything",
            frame: worked::bytes(
                "40 EA                    frame control: sequence number, extended source
                 5C                       sequence number
                 CD AB                    PAN ID
                 FF FF                    destination
                 2A 00 00 FE FF 00 00 02  source
                 00 3F                    header termination 1
                 39 88                    MLME group, 57 bytes
                 06 1A                    synchronization
                 05 04 03 02 01           ASN
                 1D                       join metric
                 1B 1C                    timeslot, 27 bytes
                 07                       template ID
                 01 00 02 00 03 00 04 00  timings
                 05 00 06 00 07 00 08 00  timings
                 09 00 0A 00              timings
                 0B 00 01 0C 00 02        timings of 3 bytes
                 01 C8                    channel hopping
                 08                       hopping sequence ID
                 0F 1B                    slotframe and link, 15 bytes
                 01                       slotframes
                 06                       slotframe handle
                 65 00                    slotframe size
                 02                       links
                 09 00 0A 00 0B           timeslot, channel offset, options
                 0C 00 0D 00 0E           timeslot, channel offset, options
                 10 A8 02                 IETF group, 16 bytes, joining information
                 C1 02 03 04              R, P, proxy priority 16, rank priority 0x203, PAN priority 4
                 F1 02 03 04 05 06 07 08  address
                 AA 00 BB                 network ID",
            ),
            beacon: Beacon {
                has_sequence_number: true,
                sequence_number: 0x5C,
                pan_id: 0xABCD,
                source_is_extended: true,
                source: 0x0200_00FF_FE00_002A,
                synchronization: Synchronization { asn: 0x01_0203_0405, join_metric: 29 },
                timeslot: Timeslot {
                    template_id: 7,
                    has_timings: true,
                    timings: [1, 2, 3, 4, 5, 6, 7, 8, 9, 10, 0x1000B, 0x2000C],
                },
                hopping_sequence_id: 8,
                slotframe: Slotframe {
                    handle: 6,
                    size: 101,
                    link_count: 2,
                    links: links(&[(9, 10, 11), (12, 13, 14)]),
                },
                joining: Joining {
                    present: true,
                    router: true,
                    proxied: true,
                    proxy_priority: 16,
                    rank_priority: 0x203,
                    pan_priority: 4,
                    proxy_address: 0xF102_0304_0506_0708,
                    network_id_length: 3,
                    network_id: [0xAA, 0, 0xBB, 0, 0, 0, 0, 0, 0, 0, 0, 0, 0, 0, 0, 0],
                },
            },
            network_id: Span { offset: 91, length: 3 },
        },
        Example {
            name: "sequence number, short source, R without P",
            frame: worked::bytes(
                "40 AA                    frame control: sequence number, short source
                 5C                       sequence number
                 CD AB FF FF 07 00        PAN ID, destination, source
                 00 3F                    header termination 1
                 1A 88                    MLME group, 26 bytes
                 06 1A 00 01 00 00 00 02  synchronization
                 01 1C 00                 timeslot, template ID alone
                 01 C8 08                 channel hopping
                 0A 1B 01 06 65 00 01     slotframe and link
                 09 00 0A 00 0B           link
                 08 A8 02                 IETF group, 8 bytes, joining information
                 81 02 03 04              R, proxy priority 16, rank priority 0x203, PAN priority 4
                 AA 00 BB                 network ID",
            ),
            beacon: Beacon {
                has_sequence_number: true,
                sequence_number: 0x5C,
                pan_id: 0xABCD,
                source_is_extended: false,
                source: 7,
                synchronization: Synchronization { asn: 256, join_metric: 2 },
                timeslot: Timeslot { template_id: 0, has_timings: false, timings: [0; 12] },
                hopping_sequence_id: 8,
                slotframe: Slotframe { handle: 6, size: 101, link_count: 1, links: links(&[(9, 10, 11)]) },
                joining: Joining {
                    present: true,
                    router: true,
                    proxied: false,
                    proxy_priority: 16,
                    rank_priority: 0x203,
                    pan_priority: 4,
                    proxy_address: 0,
                    network_id_length: 3,
                    network_id: [0xAA, 0, 0xBB, 0, 0, 0, 0, 0, 0, 0, 0, 0, 0, 0, 0, 0],
                },
            },
            network_id: Span { offset: 46, length: 3 },
        },
        Example {
            name: "no sequence number, extended source, P without R",
            frame: worked::bytes(
                "40 EB                    frame control: extended source
                 CD AB FF FF              PAN ID, destination
                 2A 00 00 FE FF 00 00 02  source
                 00 3F                    header termination 1
                 1A 88                    MLME group, 26 bytes
                 06 1A 00 01 00 00 00 02  synchronization
                 01 1C 00                 timeslot, template ID alone
                 01 C8 08                 channel hopping
                 0A 1B 01 06 65 00 01     slotframe and link
                 09 00 0A 00 0B           link
                 0D A8 02                 IETF group, 13 bytes, joining information
                 41 02 03 04              P, proxy priority 16, rank priority 0x203, PAN priority 4
                 F1 02 03 04 05 06 07 08  address",
            ),
            beacon: Beacon {
                has_sequence_number: false,
                sequence_number: 0,
                pan_id: 0xABCD,
                source_is_extended: true,
                source: 0x0200_00FF_FE00_002A,
                synchronization: Synchronization { asn: 256, join_metric: 2 },
                timeslot: Timeslot { template_id: 0, has_timings: false, timings: [0; 12] },
                hopping_sequence_id: 8,
                slotframe: Slotframe { handle: 6, size: 101, link_count: 1, links: links(&[(9, 10, 11)]) },
                joining: Joining {
                    present: true,
                    router: false,
                    proxied: true,
                    proxy_priority: 16,
                    rank_priority: 0x203,
                    pan_priority: 4,
                    proxy_address: 0xF102_0304_0506_0708,
                    network_id_length: 0,
                    network_id: [0; 16],
                },
            },
            network_id: Span { offset: 0, length: 0 },
        },
    ]
}

#[test]
fn frames_are_read() {
    for Example { name, frame, beacon, .. } in examples() {
        let reading = library::read(&frame);
        assert!(reading.same(&Reading { number: DONE, beacon }), "{name}: {reading:?}");
    }
}

/// All but the number is 0.
#[test]
fn cut_frames_are_refused() {
    for Example { name, frame, .. } in examples() {
        let reading = library::read(&frame[..frame.len() - 1]);
        assert!(reading.same(&Reading { number: 2, beacon: Beacon::default() }), "{name}: {reading:?}");
    }
}

#[test]
fn network_ids_are_found() {
    for Example { name, frame, network_id, .. } in examples() {
        assert_eq!(library::network_id(&frame), network_id, "{name}");
    }
}

#[test]
fn records_are_written() {
    for Example { name, frame, beacon, .. } in examples() {
        let mut buffer = vec![0x55; frame.len() + 3];
        let written = library::write(&beacon, &mut buffer);
        assert_eq!(written, Written { number: DONE, length: frame.len() }, "{name}");
        assert_eq!(buffer, [&frame[..], &[0x55; 3]].concat(), "{name}");
    }
}

/// Each field of the first record outside its limits alone, and the last value inside.
#[test]
fn fields_outside_their_limits_are_refused() {
    type Change = fn(&mut Beacon);
    let cases: &[(&str, Change, Change)] = &[
        ("sequence number", |b| b.sequence_number = 0xFF, |b| b.has_sequence_number = false),
        ("source", |b| b.source = u64::MAX, |b| b.source_is_extended = false),
        ("ASN", |b| b.synchronization.asn = (1 << 40) - 1, |b| b.synchronization.asn = 1 << 40),
        ("first timing", |b| b.timeslot.timings[0] = 65535, |b| b.timeslot.timings[0] = 65536),
        ("tenth timing", |b| b.timeslot.timings[9] = 65535, |b| b.timeslot.timings[9] = 65536),
        ("eleventh timing", |b| b.timeslot.timings[10] = 0xFF_FFFF, |b| b.timeslot.timings[10] = 0x100_0000),
        ("twelfth timing", |b| b.timeslot.timings[11] = 0xFF_FFFF, |b| b.timeslot.timings[11] = 0x100_0000),
        ("timings", |b| b.timeslot.template_id = 0xFF, |b| b.timeslot.has_timings = false),
        ("slotframe size", |b| b.slotframe.size = 13, |b| b.slotframe.size = 12),
        ("no links", |_| {}, |b| b.slotframe.link_count = 0),
        ("links", |b| b.slotframe.link_count = 7, |b| b.slotframe.link_count = 17),
        ("unused link", |_| {}, |b| b.slotframe.link_count = 1),
        ("timeslot", |b| b.slotframe.links[1].timeslot = 100, |b| b.slotframe.links[1].timeslot = 101),
        ("options", |b| b.slotframe.links[1].options = 255, |b| b.slotframe.links[1].options = 256),
        ("joining information", |b| b.joining.pan_priority = 255, |b| b.joining.present = false),
        ("proxy priority", |b| b.joining.proxy_priority = 127, |b| b.joining.proxy_priority = 128),
        ("rank priority", |b| b.joining.rank_priority = 4095, |b| b.joining.rank_priority = 4096),
        ("proxy address", |b| b.joining.router = false, |b| b.joining.proxied = false),
        ("network ID", |b| b.joining.network_id_length = 16, |b| b.joining.network_id_length = 17),
        ("unused byte", |b| b.joining.network_id[2] = 1, |b| b.joining.network_id_length = 2),
    ];
    let [Example { beacon, .. }, ..] = examples();
    for (name, inside, outside) in cases {
        let mut record = beacon;
        let mut buffer = [0x55; 125];
        inside(&mut record);
        assert_eq!(library::write(&record, &mut buffer).number, DONE, "{name}, inside");
        outside(&mut record);
        let mut buffer = [0x55; 125];
        let written = library::write(&record, &mut buffer);
        assert_eq!((written, buffer), (Written { number: OUT_OF_LIMITS, length: 0 }, [0x55; 125]), "{name}, outside");
    }
}

/// All fields of the first record, each with its content, and those of the other two that are not there.
#[test]
fn fields_have_their_contents() {
    let content = |kind, number| Content { kind, number, ..Content::default() };
    let number = |number| content(CONTENT_NUMBER, number);
    let [Example { beacon, .. }, Example { beacon: second, .. }, Example { beacon: third, .. }] = examples();
    let mut expected = vec![number(0x5C), number(0xABCD), content(CONTENT_EXTENDED, 0x0200_00FF_FE00_002A)];
    expected.extend([0x01_0203_0405, 29, 7].map(number));
    expected.extend([1, 2, 3, 4, 5, 6, 7, 8, 9, 10, 0x1000B, 0x2000C].map(number));
    expected.extend([8, 6, 101, 2].map(number));
    expected.extend([9, 10, 11, 12, 13, 14].map(number));
    expected.extend([Content::default(); 42]);
    expected.extend([1, 1, 16, 0x203, 4].map(number));
    expected.push(content(CONTENT_EXTENDED, 0xF102_0304_0506_0708));
    expected.push(Content { length: 3, octets: beacon.joining.network_id, ..content(CONTENT_OCTETS, 0) });
    expected.push(Content::default());
    let found: Vec<Content> = (0..=FIELDS).map(|index| library::field(&beacon, index)).collect();
    assert_eq!(found, expected);

    for (beacon, index, expected) in [
        (second, FIELD_SOURCE, content(CONTENT_SHORT, 7)),
        (second, FIELD_JOINING_P, number(0)),
        (second, FIELD_PROXY_ADDRESS, content(CONTENT_ABSENT, 0)),
        (third, FIELD_SEQUENCE_NUMBER, content(CONTENT_ABSENT, 0)),
        (third, FIELD_TIMINGS, content(CONTENT_ABSENT, 0)),
        (third, FIELD_JOINING_R, number(0)),
        (third, FIELD_NETWORK_ID, content(CONTENT_OCTETS, 0)),
        (Beacon::default(), FIELD_NETWORK_ID, content(CONTENT_ABSENT, 0)),
    ] {
        assert_eq!(library::field(&beacon, index), expected, "field {index}");
    }
}

/// RFC 8180, A.2: the timings with their names, the group's length corrected.
#[test]
fn timings_have_the_names_of_the_standard() {
    let frames = worked::frames();
    let published = frames.iter().find(|frame| frame.name == "RFC 8180 A.2 with the length corrected, 50 bytes");
    let reading = library::read(&published.expect("a worked frame").frame);
    let named = [
        (TIMING_CCA_OFFSET, 2700),
        (TIMING_CCA, 128),
        (TIMING_TX_OFFSET, 3180),
        (TIMING_RX_OFFSET, 1680),
        (TIMING_RX_ACK_DELAY, 1200),
        (TIMING_TX_ACK_DELAY, 1500),
        (TIMING_RX_WAIT, 3300),
        (TIMING_ACK_WAIT, 600),
        (TIMING_RX_TX, 192),
        (TIMING_MAX_ACK, 2400),
        (TIMING_MAX_TX, 4256),
        (TIMING_TIMESLOT_LENGTH, 15000),
    ];
    assert!(reading.number == DONE && reading.beacon.timeslot.has_timings);
    for (timing, value) in named {
        assert_eq!(reading.beacon.timeslot.timings[timing], value, "timing {timing}");
    }
}

/// An acknowledgement laid out by hand, and its record.
struct AckExample {
    name: &'static str,
    frame: Vec<u8>,
    ack: Ack,
}

/// Each pair of addresses. No two flags are the same in all of them.
fn acks() -> [AckExample; 4] {
    let (short_destination, short_source) = (0x1234, 7);
    let (destination, source) = (0xF102_0304_0506_0708, 0x0200_00FF_FE00_002A);
    [
        AckExample {
            name: "both short, sequence number",
            frame: worked::bytes("42 AA 5C CD AB  fields\n 34 12 07 00  addresses\n 02 0F 9C 0F  correction"),
            ack: Ack {
                has_sequence_number: true,
                sequence_number: 0x5C,
                pan_id: 0xABCD,
                destination_is_extended: false,
                destination: short_destination,
                source_is_extended: false,
                source: short_source,
                correction: -100,
                not_acknowledged: false,
            },
        },
        AckExample {
            name: "extended source, not acknowledged",
            frame: worked::bytes(
                "42 EB CD AB 34 12        frame control, PAN ID, destination
                 2A 00 00 FE FF 00 00 02  source
                 02 0F FF 87              time correction",
            ),
            ack: Ack {
                has_sequence_number: false,
                sequence_number: 0,
                pan_id: 0xABCD,
                destination_is_extended: false,
                destination: short_destination,
                source_is_extended: true,
                source,
                correction: 2047,
                not_acknowledged: true,
            },
        },
        AckExample {
            name: "extended destination, not acknowledged",
            frame: worked::bytes(
                "42 AF CD AB              frame control, PAN ID
                 08 07 06 05 04 03 02 F1  destination
                 07 00                    source
                 02 0F 00 88              time correction",
            ),
            ack: Ack {
                has_sequence_number: false,
                sequence_number: 0,
                pan_id: 0xABCD,
                destination_is_extended: true,
                destination,
                source_is_extended: false,
                source: short_source,
                correction: -2048,
                not_acknowledged: true,
            },
        },
        AckExample {
            name: "both extended, sequence number, not acknowledged",
            frame: worked::bytes(
                "02 EE 5C CD AB           frame control, sequence number, PAN ID
                 08 07 06 05 04 03 02 F1  destination
                 2A 00 00 FE FF 00 00 02  source
                 02 0F 05 80              time correction",
            ),
            ack: Ack {
                has_sequence_number: true,
                sequence_number: 0x5C,
                pan_id: 0xABCD,
                destination_is_extended: true,
                destination,
                source_is_extended: true,
                source,
                correction: 5,
                not_acknowledged: true,
            },
        },
    ]
}

#[test]
fn acks_are_read() {
    for AckExample { name, frame, ack } in acks() {
        let reading = library::read_ack(&frame);
        assert!(reading.same(&AckReading { number: DONE, ack }), "{name}: {reading:?}");
    }
}

/// All but the number is 0.
#[test]
fn cut_acks_are_refused() {
    for AckExample { name, frame, .. } in acks() {
        let reading = library::read_ack(&frame[..frame.len() - 1]);
        assert!(reading.same(&AckReading { number: 2, ack: Ack::default() }), "{name}: {reading:?}");
    }
}

#[test]
fn acks_are_written() {
    for AckExample { name, frame, ack } in acks() {
        let mut buffer = vec![0x55; frame.len() + 3];
        let written = library::write_ack(&ack, &mut buffer);
        assert_eq!(written, Written { number: DONE, length: frame.len() }, "{name}");
        assert_eq!(buffer, [&frame[..], &[0x55; 3]].concat(), "{name}");
    }
}

/// Each field of the last record outside its limits alone, and the last value inside.
#[test]
fn fields_of_acks_outside_their_limits_are_refused() {
    type Change = fn(&mut Ack);
    let cases: &[(&str, Change, Change)] = &[
        ("sequence number", |a| a.sequence_number = 0xFF, |a| a.has_sequence_number = false),
        ("destination", |a| a.destination = u64::MAX, |a| a.destination_is_extended = false),
        ("source", |a| a.source = u64::MAX, |a| a.source_is_extended = false),
        ("least correction", |a| a.correction = -2048, |a| a.correction = -2049),
        ("largest correction", |a| a.correction = 2047, |a| a.correction = 2048),
    ];
    let [.., AckExample { ack, .. }] = acks();
    for (name, inside, outside) in cases {
        let mut record = ack;
        inside(&mut record);
        assert_eq!(library::write_ack(&record, &mut [0x55; 25]).number, DONE, "{name}, inside");
        outside(&mut record);
        let mut buffer = [0x55; 25];
        let written = library::write_ack(&record, &mut buffer);
        assert_eq!((written, buffer), (Written { number: OUT_OF_LIMITS, length: 0 }, [0x55; 25]), "{name}, outside");
    }
}

/// A table with these neighbours in its first places.
fn table(neighbours: &[Neighbour], parent: Option<u64>) -> Table {
    let mut table = Table { has_parent: parent.is_some(), parent: parent.unwrap_or(0), ..Table::default() };
    table.neighbours[..neighbours.len()].copy_from_slice(neighbours);
    table
}

fn neighbour(id: u64, rank: u16, attempts: u16, acknowledged: u16) -> Neighbour {
    Neighbour { id, rank, attempts, acknowledged, in_use: true }
}

#[test]
fn calls_change_the_table() {
    let done = |table: Table| TableAnswer { number: DONE, table };
    let given = table(&[neighbour(7, 300, 0, 0)], None);
    let added = table(&[neighbour(7, 300, 0, 0), neighbour(9, 600, 0, 0)], None);
    let reported = table(&[neighbour(7, 300, 0, 0), neighbour(9, 600, 3, 1)], None);
    let failed = table(&[neighbour(7, 300, 0, 0), neighbour(9, 600, 5, 1)], None);
    assert_eq!(library::init(), table(&[], None));
    assert_eq!(library::advertise(&library::init(), 7, 300), done(given));
    assert_eq!(library::advertise(&given, 9, 600), done(added));
    assert_eq!(library::report(&added, 9, 3, true), done(reported));
    assert_eq!(library::report(&reported, 9, 2, false), done(failed));
    let held = Table { has_parent: true, parent: 9, ..failed };
    assert_eq!(library::forget(&held, 9), done(given), "the held parent");
    assert_eq!(library::forget(&held, 7), done(table(&[Neighbour::default(), failed.neighbours[1]], Some(9))));
}

#[test]
fn calls_refuse() {
    let given = table(&[neighbour(7, 300, 5, 2)], Some(7));
    let refused = |number: u8, table: Table| TableAnswer { number, table };
    assert_eq!(library::report(&given, 9, 3, true), refused(UNKNOWN_NEIGHBOUR, given));
    assert_eq!(library::report(&given, 7, 5, true), refused(OUT_OF_LIMITS, given));
    assert_eq!(library::forget(&given, 9), refused(UNKNOWN_NEIGHBOUR, given));
    let mut full = given;
    full.neighbours = std::array::from_fn(|place| neighbour(7 + place as u64, 300, 5, 2));
    assert_eq!(library::advertise(&full, 6, 300), refused(TABLE_FULL, full));

    // More acknowledged than attempts.
    let broken = table(&[neighbour(7, 300, 2, 5)], Some(7));
    assert_eq!(library::advertise(&broken, 7, 300), refused(OUT_OF_LIMITS, broken));
    let evaluation =
        Evaluation { number: OUT_OF_LIMITS, changed: false, rank: 65535, has_parent: true, parent: 7, table: broken };
    assert_eq!(library::evaluate(&broken), evaluation);
}

/// The own rank is the rank and 256 * (3 * attempts - 2 * acknowledged) / acknowledged.
#[test]
fn evaluations_choose_the_parent() {
    let neighbours = [neighbour(7, 2000, 5, 3), neighbour(9, 600, 4, 2), neighbour(8, 100, 1, 1)];
    // Costs 2768 and 1624; the last one's rank is too low.
    let cases = [
        ("first parent", &neighbours[..], None, true, 1624, Some(9)),
        ("changed, gain of 1144", &neighbours[..], Some(7), true, 1624, Some(9)),
        ("kept", &neighbours[..], Some(9), false, 1624, Some(9)),
        ("the only one", &neighbours[..1], Some(7), false, 2768, Some(7)),
        ("dropped", &neighbours[2..], Some(8), true, 65535, None),
        ("none", &neighbours[2..], None, false, 65535, None),
    ];
    for (name, neighbours, held, changed, rank, parent) in cases {
        let expected = Evaluation {
            number: DONE,
            changed,
            rank,
            has_parent: parent.is_some(),
            parent: parent.unwrap_or(0),
            table: table(neighbours, parent),
        };
        let evaluation = library::evaluate(&table(neighbours, held));
        assert!(evaluation.same(&expected), "{name}: {evaluation:?}");
    }
}

/// Three evaluations, of which the second changes the parent: its cost rose from 1256 to 1409, 641 over the other's.
#[test]
fn logs_are_counted() {
    let given = table(&[neighbour(7, 1000, 1, 1), neighbour(9, 512, 1, 1), neighbour(5, 300, 0, 0)], Some(7));
    let kinds = [CALL_EVALUATE, CALL_ADVERTISE, CALL_EVALUATE, CALL_REPORT, CALL_EVALUATE, CALL_FORGET];
    let ids = [0, 7, 0, 5, 0, 7];
    let values = [0, 1153, 0, 4, 0, 0];
    let flags = [0, 0, 0, 1, 0, 0];
    let expected = Replay {
        number: DONE,
        applies: true,
        evaluations: 3,
        changes: 1,
        rises: 153,
        first_cost: 1256,
        last_cost: 768,
        table: table(&[Neighbour::default(), neighbour(9, 512, 1, 1), neighbour(5, 300, 4, 1)], Some(9)),
    };
    let replay = library::replay_lists(&given, &kinds, &ids, &values, &flags);
    assert!(replay.same(&expected), "{replay:?}");

    // A parent that is not eligible on entry: the claim does not apply.
    let given = table(&[neighbour(7, 100, 1, 1)], Some(7));
    let expected = Replay {
        number: DONE,
        applies: false,
        evaluations: 2,
        changes: 1,
        rises: 0,
        first_cost: 356,
        last_cost: 0,
        table: table(&[neighbour(7, 100, 1, 1)], None),
    };
    let replay = library::replay_lists(&given, &[CALL_EVALUATE; 2], &[0; 2], &[0; 2], &[0; 2]);
    assert!(replay.same(&expected), "{replay:?}");
    let refused = Replay { number: OUT_OF_LIMITS, table: given, ..Replay::default() };
    let replay = library::replay_lists(&given, &[CALL_EVALUATE, 4], &[0; 2], &[0; 2], &[0; 2]);
    assert!(replay.same(&refused), "{replay:?}");
}

/// Slot 10 of a slotframe of 7 is timeslot 3; with the channel offset 5 the channel is entry 15 of the sequence. The minimal
/// schedule of RFC 8180 has a shared cell in slot 0, to transmit and receive.
#[test]
fn slots_are_decided() {
    const LAST: u64 = (1 << 40) - 1;
    let schedule = &links(&[(4, 0, 3), (3, 9, 0xFC), (3, 5, 2), (3, 6, 1)])[..4];
    let mixed = &links(&[(5, 1, 4), (3, 2, 2), (3, 65535, 1), (3, 4, 3)])[..4];
    let minimal = &[Link { timeslot: 0, channel_offset: 0, options: 15 }; 17];
    let slot = |number: u8, action: u8, channel: u8, index: u8| Slot { number, action, channel, index };
    let (asleep, refused) = (slot(DONE, SLEEP, 0, 0), slot(OUT_OF_LIMITS, SLEEP, 0, 0));
    let cases = [
        ("none waits", schedule, 7, 0, 10, false, slot(DONE, LISTEN, 21, 2)),
        ("a frame waits", schedule, 7, 0, 10, true, slot(DONE, TRANSMIT, 16, 3)),
        ("another slot", schedule, 7, 0, 11, true, slot(DONE, TRANSMIT, 13, 0)),
        ("no link's slot", schedule, 7, 0, 12, true, asleep),
        ("hopping sequence 7 in a slotframe of 0", schedule, 0, 7, 10, true, refused),
        ("minimal, another slot", &minimal[..1], 11, 0, 256, true, asleep),
        ("minimal, a frame waits", &minimal[..1], 11, 0, 264, true, slot(DONE, TRANSMIT, 19, 0)),
        ("minimal, none waits", &minimal[..1], 11, 0, 264, false, slot(DONE, LISTEN, 19, 0)),
        ("minimal, the last ASN", &minimal[..1], 101, 0, LAST, false, asleep),
        ("mixed, a frame waits", mixed, 7, 0, 24, true, slot(DONE, TRANSMIT, 22, 2)),
        ("mixed, none waits", mixed, 7, 0, 24, false, slot(DONE, LISTEN, 12, 1)),
        ("mixed, none may transmit", &mixed[..2], 7, 0, 24, true, slot(DONE, LISTEN, 12, 1)),
        ("mixed, neither may be done", mixed, 7, 0, 26, true, asleep),
        ("a slotframe of 0", &minimal[..1], 0, 0, 264, true, refused),
        ("no links", &minimal[..0], 11, 0, 264, true, refused),
        ("16 links", &minimal[..16], 11, 0, 264, true, slot(DONE, TRANSMIT, 19, 0)),
        ("17 links", minimal, 11, 0, 264, true, refused),
        ("timeslot 5 in a slotframe of 5", mixed, 5, 0, 24, true, refused),
        ("hopping sequence 1", &minimal[..1], 11, 1, 264, true, refused),
        ("an ASN of six bytes", &minimal[..1], 11, 0, LAST + 1, true, refused),
    ];
    for (name, schedule, size, sequence_id, asn, waits, expected) in cases {
        assert_eq!(library::decide(schedule, size, sequence_id, asn, waits), expected, "{name}");
    }
}

/// Of ASN and channel offset only the sum counts, so that no value tells them apart; an ASN has more bits.
#[test]
fn channels() {
    for (asn, channel_offset, channel) in [(11, 0, 13), (0, 11, 13), ((1 << 40) - 1, 1, 16), ((1 << 40) + 9, 2, 13)] {
        assert_eq!(library::channel(asn, channel_offset), channel, "ASN {asn}, channel offset {channel_offset}");
    }
}

#[test]
fn increments() {
    assert_eq!(library::increment(8, 7), 366);
    assert_eq!(library::increment(7, 8), 160);
    assert_eq!(library::increment(0, 0), 768);
    assert_eq!(library::increment(1, 0), 0);
}

#[test]
fn join_metrics() {
    assert_eq!(library::join_metric(2816), Metric { number: DONE, metric: 10 });
    assert_eq!(library::join_metric(255), Metric { number: OUT_OF_LIMITS, metric: 0 });
}
