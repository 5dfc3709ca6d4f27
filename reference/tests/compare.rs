//! Comparing beacons: the reference on pairs of frames laid out by hand. Needs no static library.

use reference::fields::{compare, contents, text, Content, Difference, FIELDS, NAMES};
use reference::frame::{self, Address};
use reference::header;
use reference::worked::{self, bytes};

/// The parts of the minimal beacon.
const FIELDS_OF_MINIMAL: &str = "40 AB 34 12 FF FF 07 00  frame control, PAN ID, destination, source";
const SYNCHRONIZATION: &str = "06 1A 00 01 00 00 00 02  synchronization: ASN 256, join metric 2";
const TIMESLOT: &str = "01 1C 00  timeslot: template ID alone";
const HOPPING: &str = "01 C8 00  channel hopping";
const SLOTFRAME: &str = "0A 1B 01 00 0B 00 01 00 00 00 00 0F  slotframe and link: handle 0, size 11, one link";

/// The numbers of the first ten timings, from 1 on.
const TEN_TIMINGS: &str = "01 00 02 00 03 00 04 00 05 00 06 00 07 00 08 00 09 00 0A 00  ten timings";

/// A frame of fields, of sub-elements in one MLME group and of what stands behind it.
fn frame(fields: &str, group: &[&str], behind: &[&str]) -> Vec<u8> {
    let group = bytes(&group.join("\n"));
    let mut frame = bytes(fields);
    frame.extend([0x00, 0x3F, group.len() as u8, 0x88]);
    frame.extend(group);
    frame.extend(bytes(&behind.join("\n")));
    frame
}

fn minimal() -> Vec<u8> {
    with_fields(FIELDS_OF_MINIMAL)
}

/// The minimal beacon with other fields.
fn with_fields(fields: &str) -> Vec<u8> {
    frame(fields, &[SYNCHRONIZATION, TIMESLOT, HOPPING, SLOTFRAME], &[])
}

/// The minimal beacon with another timeslot.
fn with_timeslot(timeslot: &[&str]) -> Vec<u8> {
    frame(FIELDS_OF_MINIMAL, &[SYNCHRONIZATION, &timeslot.join("\n"), HOPPING, SLOTFRAME], &[])
}

/// The minimal beacon with another slotframe.
fn with_slotframe(slotframe: &str) -> Vec<u8> {
    frame(FIELDS_OF_MINIMAL, &[SYNCHRONIZATION, TIMESLOT, HOPPING, slotframe], &[])
}

/// The minimal beacon with joining information.
fn with_joining(lines: &[&str]) -> Vec<u8> {
    frame(FIELDS_OF_MINIMAL, &[SYNCHRONIZATION, TIMESLOT, HOPPING, SLOTFRAME], lines)
}

/// Panics unless two frames give this text, and the other way round the text with the contents exchanged.
fn expect(name: &str, first: &[u8], second: &[u8], lines: &[&str]) {
    let text_of = |lines: Vec<String>| lines.into_iter().map(|line| line + "\n").collect::<String>();
    let exchanged = |line: &&str| match line.split(' ').collect::<Vec<_>>()[..] {
        [name, first, second] => format!("{name} {second} {first}"),
        _ => panic!("{line}"),
    };
    assert_eq!(text(&compare(first, second)), text_of(lines.iter().map(|line| line.to_string()).collect()), "{name}");
    assert_eq!(text(&compare(second, first)), text_of(lines.iter().map(exchanged).collect()), "{name}, exchanged");
}

#[test]
fn header_and_synchronization() {
    let with_sequence =
        |number: &str| with_fields(&format!("40 AA {number} 34 12 FF FF 07 00  with a sequence number"));
    let extended = |source: &str| with_fields(&format!("40 EB 34 12 FF FF {source}  extended source"));
    expect("sequence number 0", &minimal(), &with_sequence("00"), &["sequence-number absent 0"]);
    expect("sequence numbers", &with_sequence("00"), &with_sequence("FF"), &["sequence-number 0 255"]);
    expect("PAN ID", &minimal(), &with_fields("40 AB 34 13 FF FF 07 00  fields"), &["pan-id 4660 4916"]);
    expect(
        "short sources",
        &minimal(),
        &with_fields("40 AB 34 12 FF FF 0F AB  fields"),
        &["source short:0007 short:ab0f"],
    );
    expect(
        "one number as a short and as an extended source",
        &minimal(),
        &extended("07 00 00 00 00 00 00 00"),
        &["source short:0007 extended:0000000000000007"],
    );
    expect(
        "extended sources",
        &extended("07 00 00 00 00 00 00 00"),
        &extended("08 07 06 05 04 03 02 F1"),
        &["source extended:0000000000000007 extended:f102030405060708"],
    );
    let largest = "06 1A FF FF FF FF FF FF  synchronization";
    expect(
        "largest ASN and join metric",
        &minimal(),
        &frame(FIELDS_OF_MINIMAL, &[largest, TIMESLOT, HOPPING, SLOTFRAME], &[]),
        &["asn 256 1099511627775", "join-metric 2 255"],
    );
}

#[test]
fn timeslot_and_hopping() {
    expect(
        "no timings, and timings that are all 0",
        &minimal(),
        &with_timeslot(&["19 1C 00*25  timeslot, 25 bytes"]),
        &[
            "timing-cca-offset absent 0",
            "timing-cca absent 0",
            "timing-tx-offset absent 0",
            "timing-rx-offset absent 0",
            "timing-rx-ack-delay absent 0",
            "timing-tx-ack-delay absent 0",
            "timing-rx-wait absent 0",
            "timing-ack-wait absent 0",
            "timing-rx-tx absent 0",
            "timing-max-ack absent 0",
            "timing-max-tx absent 0",
            "timing-timeslot-length absent 0",
        ],
    );
    expect(
        "template ID and timings",
        &with_timeslot(&["19 1C 00*25  timeslot, 25 bytes"]),
        &with_timeslot(&["1B 1C 07  timeslot, 27 bytes", TEN_TIMINGS, "00 00 01 FF FF FF  timings of 3 bytes"]),
        &[
            "template-id 0 7",
            "timing-cca-offset 0 1",
            "timing-cca 0 2",
            "timing-tx-offset 0 3",
            "timing-rx-offset 0 4",
            "timing-rx-ack-delay 0 5",
            "timing-tx-ack-delay 0 6",
            "timing-rx-wait 0 7",
            "timing-ack-wait 0 8",
            "timing-rx-tx 0 9",
            "timing-max-ack 0 10",
            "timing-max-tx 0 65536",
            "timing-timeslot-length 0 16777215",
        ],
    );
    expect(
        "hopping sequence ID",
        &minimal(),
        &frame(FIELDS_OF_MINIMAL, &[SYNCHRONIZATION, TIMESLOT, "01 C8 C8  channel hopping", SLOTFRAME], &[]),
        &["hopping-sequence-id 0 200"],
    );
}

#[test]
fn slotframe_and_links() {
    expect(
        "handle, size and link",
        &minimal(),
        &with_slotframe("0A 1B 01 FE FF FF 01 FE FF 0A 00 FF  slotframe and link"),
        &[
            "slotframe-handle 0 254",
            "slotframe-size 11 65535",
            "link-0-timeslot 0 65534",
            "link-0-channel-offset 0 10",
            "link-0-options 15 255",
        ],
    );
    expect(
        "number of links, those behind are all 0",
        &minimal(),
        &with_slotframe("14 1B 01 00 0B 00 03 00 00 00 00 0F 00*10  slotframe, three links"),
        &[
            "link-count 1 3",
            "link-1-timeslot absent 0",
            "link-1-channel-offset absent 0",
            "link-1-options absent 0",
            "link-2-timeslot absent 0",
            "link-2-channel-offset absent 0",
            "link-2-options absent 0",
        ],
    );
    let fifteen = with_slotframe("50 1B 01 00 0B 00 0F 00*75  slotframe, 15 links");
    let sixteen = with_slotframe("55 1B 01 00 0B 00 10 00*55 00*4 80 00*20  slotframe, 16 links");
    expect(
        "the last link",
        &fifteen,
        &sixteen,
        &[
            "link-count 15 16",
            "link-11-options 0 128",
            "link-15-timeslot absent 0",
            "link-15-channel-offset absent 0",
            "link-15-options absent 0",
        ],
    );
}

#[test]
fn joining_information() {
    let shortest = with_joining(&["05 A8 02 00 00 00 00  joining information"]);
    expect(
        "none, and one that is all 0 with a network ID of no bytes",
        &minimal(),
        &shortest,
        &[
            "joining-r absent 0",
            "joining-p absent 0",
            "proxy-priority absent 0",
            "rank-priority absent 0",
            "pan-priority absent 0",
            "network-id absent 0:",
        ],
    );
    expect(
        "R and priorities",
        &shortest,
        &with_joining(&["05 A8 02 87 FF FF FF  joining information"]),
        &["joining-r 0 1", "proxy-priority 0 127", "rank-priority 0 4095", "pan-priority 0 255"],
    );
    expect(
        "P with the address 0",
        &shortest,
        &with_joining(&["0D A8 02 40 00 00 00 00*8  joining information"]),
        &["joining-p 0 1", "proxy-address absent extended:0000000000000000"],
    );
    expect(
        "addresses",
        &with_joining(&["0D A8 02 40 00 00 00 00*8  joining information"]),
        &with_joining(&["0D A8 02 40 00 00 00 F1 02 03 04 05 06 07 08  joining information"]),
        &["proxy-address extended:0000000000000000 extended:f102030405060708"],
    );
    let one = with_joining(&["06 A8 02 00 00 00 00 00  joining information"]);
    let two = with_joining(&["07 A8 02 00 00 00 00 00 00  joining information"]);
    let sixteen = with_joining(&["15 A8 02 00 00 00 00  joining information", "0A*15 FF  network ID"]);
    expect("network IDs 00 and 00 00", &one, &two, &["network-id 1:00 2:0000"]);
    expect("network IDs of no bytes and of one", &shortest, &one, &["network-id 0: 1:00"]);
    expect("network ID of 16 bytes", &two, &sixteen, &["network-id 2:0000 16:0a0a0a0a0a0a0a0a0a0a0a0a0a0a0aff"]);
}

/// Frames that differ, and say the same.
#[test]
fn equal_records() {
    let narrow = with_timeslot(&["19 1C 07  timeslot, 25 bytes", TEN_TIMINGS, "0B 00 0C 00  timings of 2 bytes"]);
    let wide = with_timeslot(&["1B 1C 07  timeslot, 27 bytes", TEN_TIMINGS, "0B 00 00 0C 00 00  timings of 3 bytes"]);
    expect("timings in 25 and in 27 bytes", &narrow, &wide, &[]);
    expect("timings of 25 bytes against themselves", &narrow, &narrow, &[]);
    expect("ignored bits of frame control", &minimal(), &with_fields("F0 AB 34 12 FF FF 07 00  fields"), &[]);
    expect(
        "other order",
        &minimal(),
        &frame(FIELDS_OF_MINIMAL, &[SLOTFRAME, HOPPING, TIMESLOT, SYNCHRONIZATION], &[]),
        &[],
    );
    expect(
        "skipped elements and bytes behind the list",
        &minimal(),
        &frame(
            FIELDS_OF_MINIMAL,
            &["02 7F FF FF  not known", SYNCHRONIZATION, TIMESLOT, HOPPING, SLOTFRAME],
            &["01 90 FF  group 2", "00 F8  payload termination", "FF  ignored"],
        ),
        &[],
    );
    expect(
        "reserved bits of joining information",
        &with_joining(&["05 A8 02 00 00 00 00  joining information"]),
        &with_joining(&["05 A8 02 38 00 00 00  joining information"]),
        &[],
    );
}

/// The worked frames against the minimal beacon: a refused one has its number, on its side; those that say the same have
/// no difference.
#[test]
fn worked_frames() {
    let minimal = minimal();
    let record = frame::read(&minimal).expect("the minimal beacon is accepted");
    let (mut refused, mut same, mut other) = (0, 0, 0);
    for worked in worked::frames() {
        let comparisons = (compare(&minimal, &worked.frame), compare(&worked.frame, &minimal));
        match worked.answer {
            Err(check) => {
                let number = check.number();
                assert_eq!(comparisons, (Err([0, number]), Err([number, 0])), "{}", worked.name);
                assert_eq!(text(&comparisons.0), format!("refused 0 {number}\n"), "{}", worked.name);
                assert_eq!(text(&comparisons.1), format!("refused {number} 0\n"), "{}", worked.name);
                refused += 1;
            }
            Ok(answer) if answer == record => {
                assert_eq!(comparisons, (Ok(vec![]), Ok(vec![])), "{}", worked.name);
                same += 1;
            }
            Ok(_) => {
                assert!(comparisons.0.is_ok_and(|differences| !differences.is_empty()), "{}", worked.name);
                other += 1;
            }
        }
    }
    println!("{refused} refused, {same} the same, {other} other");
    assert!(refused >= 80 && same >= 10 && other >= 20, "{refused} refused, {same} the same, {other} other");
}

#[test]
fn two_refused_frames() {
    let long = vec![0; 126];
    let cut = &minimal()[..37];
    assert_eq!(compare(&long, cut), Err([1, 2]));
    assert_eq!(text(&compare(&long, cut)), "refused 1 2\n");
    assert_eq!(text(&compare(&[], &bytes("48 AB  security"))), "refused 2 4\n");
    assert_eq!(text(&compare(&bytes("48 AB  security"), &[])), "refused 4 2\n");
}

/// The list itself, with one content of each kind.
#[test]
fn contents_of_a_list() {
    let first = with_joining(&["06 A8 02 00 00 00 00 AA  joining information"]);
    let second = with_fields("40 EB 34 13 FF FF 07 00 00 00 00 00 00 00  fields");
    let found = compare(&first, &second).expect("both are accepted");
    let number = Content::Number;
    let expected = [
        (1, number(4660), number(4916)),
        (2, Content::Address(Address::Short(7)), Content::Address(Address::Extended(7))),
        (70, number(0), Content::Absent),
        (71, number(0), Content::Absent),
        (72, number(0), Content::Absent),
        (73, number(0), Content::Absent),
        (74, number(0), Content::Absent),
        (76, Content::Octets(vec![0xAA]), Content::Absent),
    ];
    assert_eq!(found, expected.map(|(field, first, second)| Difference { field, first, second }));
}

/// The header's names of the fields, and of the timings, stand for the fields of these names.
#[test]
fn places_of_the_fields() {
    let timing = |timing: usize| header::FIELD_TIMINGS + timing;
    let places = [
        (header::FIELD_SEQUENCE_NUMBER, "sequence-number"),
        (header::FIELD_PAN_ID, "pan-id"),
        (header::FIELD_SOURCE, "source"),
        (header::FIELD_ASN, "asn"),
        (header::FIELD_JOIN_METRIC, "join-metric"),
        (header::FIELD_TEMPLATE_ID, "template-id"),
        (timing(header::TIMING_CCA_OFFSET), "timing-cca-offset"),
        (timing(header::TIMING_CCA), "timing-cca"),
        (timing(header::TIMING_TX_OFFSET), "timing-tx-offset"),
        (timing(header::TIMING_RX_OFFSET), "timing-rx-offset"),
        (timing(header::TIMING_RX_ACK_DELAY), "timing-rx-ack-delay"),
        (timing(header::TIMING_TX_ACK_DELAY), "timing-tx-ack-delay"),
        (timing(header::TIMING_RX_WAIT), "timing-rx-wait"),
        (timing(header::TIMING_ACK_WAIT), "timing-ack-wait"),
        (timing(header::TIMING_RX_TX), "timing-rx-tx"),
        (timing(header::TIMING_MAX_ACK), "timing-max-ack"),
        (timing(header::TIMING_MAX_TX), "timing-max-tx"),
        (timing(header::TIMING_TIMESLOT_LENGTH), "timing-timeslot-length"),
        (header::FIELD_HOPPING_SEQUENCE_ID, "hopping-sequence-id"),
        (header::FIELD_SLOTFRAME_HANDLE, "slotframe-handle"),
        (header::FIELD_SLOTFRAME_SIZE, "slotframe-size"),
        (header::FIELD_LINK_COUNT, "link-count"),
        (header::FIELD_LINKS, "link-0-timeslot"),
        (header::FIELD_LINKS + 1, "link-0-channel-offset"),
        (header::FIELD_LINKS + 2, "link-0-options"),
        (header::FIELD_LINKS + 3 * 9, "link-9-timeslot"),
        (header::FIELD_LINKS + 3 * 10 + 1, "link-10-channel-offset"),
        (header::FIELD_LINKS + 3 * 15 + 2, "link-15-options"),
        (header::FIELD_JOINING_R, "joining-r"),
        (header::FIELD_JOINING_P, "joining-p"),
        (header::FIELD_PROXY_PRIORITY, "proxy-priority"),
        (header::FIELD_RANK_PRIORITY, "rank-priority"),
        (header::FIELD_PAN_PRIORITY, "pan-priority"),
        (header::FIELD_PROXY_ADDRESS, "proxy-address"),
        (header::FIELD_NETWORK_ID, "network-id"),
    ];
    for (place, name) in places {
        assert_eq!(NAMES[place], name);
    }
    let minimal = frame::read(&minimal()).expect("the minimal beacon is accepted");
    assert_eq!((NAMES.len(), contents(&minimal).len(), FIELDS), (77, 77, 77));
}
