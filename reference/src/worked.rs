//! Frames laid out by hand, one field per line, each with the answer that the rules give. They put every check on its
//! own, and the order of the checks where a frame has two faults.
//!
//! A line has a field's bytes in hexadecimal, two spaces or more, and what the field is; `00*3` is a byte three times.

use crate::frame::{Address, Beacon, Check, JoiningInformation};
use crate::slot::{Link, MOST_LINKS};

/// A frame and what reading it gives, a beacon's record if nothing else is said.
#[derive(Clone, Debug)]
pub struct Worked<R = Beacon> {
    pub name: &'static str,
    pub frame: Vec<u8>,
    pub answer: Result<R, Check>,
}

/// The bytes of the lines of a text.
pub fn bytes(text: &str) -> Vec<u8> {
    let mut bytes = Vec::new();
    for line in text.lines().map(str::trim).filter(|line| !line.is_empty()) {
        let column = line.split("  ").next().expect("a line has a first column");
        for item in column.split(' ') {
            let (byte, times) = item.split_once('*').unwrap_or((item, "1"));
            let byte = u8::from_str_radix(byte, 16).unwrap_or_else(|error| panic!("{line:?}: {error}"));
            let times = times.parse().unwrap_or_else(|error| panic!("{line:?}: {error}"));
            bytes.extend(std::iter::repeat_n(byte, times));
        }
    }
    bytes
}

pub fn accepted<R>(name: &'static str, lines: &[&str], record: R) -> Worked<R> {
    Worked { name, frame: bytes(&lines.join("\n")), answer: Ok(record) }
}

pub fn refused<R>(name: &'static str, lines: &[&str], check: Check) -> Worked<R> {
    Worked { name, frame: bytes(&lines.join("\n")), answer: Err(check) }
}

pub fn frames() -> Vec<Worked> {
    [
        whole_frames(),
        published_frames(),
        control_and_fields(),
        header_lists(),
        payload_lists(),
        sub_elements(),
        slotframes(),
        joining_information(),
        missing_elements(),
    ]
    .concat()
}

/// The beacon of a minimal network: one shared cell in a slotframe of 11.
pub const MINIMAL: &str = "
    40 AB           frame control: short addresses, sequence number suppressed
    34 12           PAN ID
    FF FF           destination: broadcast
    07 00           source: short 7
    00 3F           header termination 1
    1A 88           MLME group, 26 bytes
    06 1A           synchronization, 6 bytes
    00 01 00 00 00  ASN 256
    02              join metric
    01 1C           timeslot, 1 byte
    00              template ID
    01 C8           channel hopping, 1 byte
    00              hopping sequence ID
    0A 1B           slotframe and link, 10 bytes
    01              slotframes
    00              slotframe handle
    0B 00           slotframe size 11
    01              links
    00 00           timeslot
    00 00           channel offset
    0F              options
";

/// The same in parts. The sub-elements have 8, 3, 3 and 12 bytes.
const FIELDS: &str = "
    40 AB  frame control
    34 12  PAN ID
    FF FF  destination
    07 00  source
";
const PAYLOAD_FOLLOWS: &str = "00 3F  header termination 1";
const GROUP: &str = "1A 88  MLME group, 26 bytes";
const SYNCHRONIZATION: &str = "
    06 1A           synchronization, 6 bytes
    00 01 00 00 00  ASN 256
    02              join metric
";
const TIMESLOT: &str = "
    01 1C  timeslot, 1 byte
    00     template ID
";
const HOPPING: &str = "
    01 C8  channel hopping, 1 byte
    00     hopping sequence ID
";
const SLOTFRAME: &str = "
    0A 1B           slotframe and link, 10 bytes
    01 00 0B 00 01  one slotframe, handle 0, size 11, one link
    00 00 00 00 0F  link
";

/// The same with several fields in a line.
const START: &str = "
    40 AB 34 12 FF FF 07 00  fields
    00 3F                    header termination 1
";
const WHOLE_GROUP: &str = "
    1A 88                    MLME group, 26 bytes
    06 1A 00 01 00 00 00 02  synchronization
    01 1C 00                 timeslot
    01 C8 00                 channel hopping
    0A 1B 01 00 0B 00 01     slotframe
    00 00 00 00 0F           link
";

fn minimal() -> Beacon {
    Beacon {
        sequence: None,
        pan: 0x1234,
        source: Address::Short(7),
        asn: 256,
        join_metric: 2,
        template: 0,
        timings: None,
        hopping: 0,
        handle: 0,
        size: 11,
        count: 1,
        links: links(&[(0, 0, 0x0F)]),
        joining: None,
    }
}

fn links(given: &[(u16, u16, u8)]) -> [Link; MOST_LINKS] {
    let mut links = [Link::default(); MOST_LINKS];
    for (link, &(timeslot, offset, options)) in links.iter_mut().zip(given) {
        *link = Link { timeslot, offset, options };
    }
    links
}

fn network(id: &[u8]) -> ([u8; 16], usize) {
    let mut padded = [0; 16];
    padded[..id.len()].copy_from_slice(id);
    (padded, id.len())
}

/// The minimal beacon and what is left of it when it is cut or made longer.
fn whole_frames() -> Vec<Worked> {
    let without_last = MINIMAL.replace("    0F              options\n", "");
    vec![
        accepted("minimal beacon", &[MINIMAL], minimal()),
        refused("minimal beacon without its last byte", &[&without_last], Check::GroupPastFrame),
        refused("empty", &[], Check::UnderTwoBytes),
        refused("one byte", &["40  of the frame control"], Check::UnderTwoBytes),
        accepted("125 bytes", &[MINIMAL, "55 90  group 2, 85 bytes", "5A*85  its content"], minimal()),
        refused("126 bytes", &[MINIMAL, "56 90  group 2, 86 bytes", "5A*86  its content"], Check::FrameTooLong),
        refused("126 bytes of no frame type", &["FF*126  anything"], Check::FrameTooLong),
        refused("294 bytes, 38 more than 256", &[MINIMAL, "00*256  anything"], Check::FrameTooLong),
    ]
}

/// RFC 8180, appendix A.1 and A.2. The RFC shows the elements only, with names in place of ASN and join metric: the
/// fields before them and those values are chosen here.
fn published_frames() -> Vec<Worked> {
    const A1: &str = "
        00 3F           header termination 1
        1A 88           MLME group, 26 bytes
        06 1A           synchronization, 6 bytes
        05 04 03 02 01  ASN
        00              join metric
        01 1C           timeslot, 1 byte
        00              template ID: default
        01 C8           channel hopping, 1 byte
        00              hopping sequence ID: default
        0A 1B           slotframe and link, 10 bytes
        01              slotframes
        00              slotframe handle
        65 00           slotframe size 101
        01              links
        00 00           timeslot
        00 00           channel offset
        0F              options: transmit, receive, shared, timekeeping
    ";
    // The RFC breaks off after the slotframe and link element's length; the element is completed as in A.1.
    const A2_IN_THE_GROUP: &str = "
        06 1A           synchronization, 6 bytes
        05 04 03 02 01  ASN
        00              join metric
        19 1C           timeslot, 25 bytes
        01              template ID: not the default
        8C 0A           CCA offset 2700
        80 00           CCA 128
        6C 0C           transmit offset 3180
        90 06           receive offset 1680
        B0 04           receive acknowledgement delay 1200
        DC 05           transmit acknowledgement delay 1500
        E4 0C           receive wait 3300
        58 02           acknowledgement wait 600
        C0 00           turnaround 192
        60 09           longest acknowledgement 2400
        A0 10           longest frame 4256
        98 3A           timeslot length 15000
        01 C8           channel hopping, 1 byte
        00              hopping sequence ID: default
        0A 1B           slotframe and link, 10 bytes
        01              slotframes
        00              slotframe handle
        65 00           slotframe size 101
        01              links
        00 00           timeslot
        00 00           channel offset
        0F              options
    ";
    let first = Beacon { asn: 0x01_0203_0405, join_metric: 0, size: 101, ..minimal() };
    let second = Beacon {
        template: 1,
        timings: Some([2700, 128, 3180, 1680, 1200, 1500, 3300, 600, 192, 2400, 4256, 15000]),
        ..first.clone()
    };
    vec![
        accepted("RFC 8180 A.1", &[FIELDS, A1], first),
        // The printed bytes give the group A.1's length, which ends inside the timeslot element.
        refused(
            "RFC 8180 A.2 as printed, 26 bytes",
            &[FIELDS, PAYLOAD_FOLLOWS, "1A 88  MLME group, 26 bytes", A2_IN_THE_GROUP],
            Check::SubElementPastGroup,
        ),
        // The figure beside them says 53, three more than there are.
        refused(
            "RFC 8180 A.2 with its figure's length, 53 bytes",
            &[FIELDS, PAYLOAD_FOLLOWS, "35 88  MLME group, 53 bytes", A2_IN_THE_GROUP],
            Check::GroupPastFrame,
        ),
        accepted(
            "RFC 8180 A.2 with the length corrected, 50 bytes",
            &[FIELDS, PAYLOAD_FOLLOWS, "32 88  MLME group, 50 bytes", A2_IN_THE_GROUP],
            second,
        ),
    ]
}

fn control_and_fields() -> Vec<Worked> {
    const ADDRESSES: &str = "
        34 12  PAN ID
        FF FF  destination
        07 00  source
    ";
    let with_control = |name, control, check| refused(name, &[control, ADDRESSES, PAYLOAD_FOLLOWS, WHOLE_GROUP], check);
    vec![
        with_control("frame type 1", "41 AB  type 1", Check::FrameType),
        with_control("frame type 4", "44 AB  type 4", Check::FrameType),
        with_control("frame version 1", "40 9B  version 1", Check::FrameVersion),
        with_control("frame version 3", "40 BB  version 3", Check::FrameVersion),
        with_control("security", "48 AB  security bit", Check::Security),
        with_control("frame type before security", "49 AB  type 1, security bit", Check::FrameType),
        with_control("frame version before security", "48 9B  version 1, security bit", Check::FrameVersion),
        with_control("security before addressing", "08 AB  security bit, no compression", Check::Security),
        with_control("no destination", "40 A3  destination mode 0", Check::DestinationMode),
        with_control("destination mode 1", "40 A7  destination mode 1", Check::DestinationMode),
        with_control("extended destination", "40 AF  destination mode 3", Check::DestinationMode),
        with_control("no source", "40 2B  source mode 0", Check::SourceMode),
        with_control("source mode 1", "40 6B  source mode 1", Check::SourceMode),
        with_control("no PAN ID compression", "00 AB  compression 0", Check::PanIdCompression),
        with_control("no elements", "40 A9  elements present 0", Check::ElementsPresent),
        accepted(
            "bits that are ignored",
            &["F0 AB  pending, acknowledge request and the reserved bit set", ADDRESSES, PAYLOAD_FOLLOWS, WHOLE_GROUP],
            minimal(),
        ),
        refused("frame control alone", &["40 AB  frame control"], Check::FieldsCut),
        refused("addressing before fields cut", &["40 A9  elements present 0"], Check::ElementsPresent),
        refused(
            "source cut",
            &["40 AB  frame control", "34 12 FF FF  PAN ID, destination", "07  of the source"],
            Check::FieldsCut,
        ),
        refused(
            "extended source cut",
            &["40 EB  frame control", "34 12 FF FF  PAN ID, destination", "08 07 06 05 04 03 02  of the source"],
            Check::FieldsCut,
        ),
        refused(
            "sequence number instead of a source byte",
            &["40 AA  frame control", "05  sequence number", "34 12 FF FF  PAN ID, destination", "07  of the source"],
            Check::FieldsCut,
        ),
        refused(
            "source cut before another destination",
            &["40 AB  frame control", "34 12 FF FE  PAN ID, destination", "07  of the source"],
            Check::FieldsCut,
        ),
        refused(
            "another destination, first byte",
            &["40 AB  frame control", "34 12 FE FF 07 00  addresses", PAYLOAD_FOLLOWS, WHOLE_GROUP],
            Check::Destination,
        ),
        refused(
            "another destination, second byte",
            &["40 AB  frame control", "34 12 FF FE 07 00  addresses", PAYLOAD_FOLLOWS, WHOLE_GROUP],
            Check::Destination,
        ),
        refused(
            "another destination before a header descriptor cut",
            &["40 AB  frame control", "34 12 FF FE 07 00  addresses", "00  of a descriptor"],
            Check::Destination,
        ),
        accepted(
            "sequence number",
            &["40 AA  sequence number not suppressed", "05  sequence number", ADDRESSES, PAYLOAD_FOLLOWS, WHOLE_GROUP],
            Beacon { sequence: Some(5), ..minimal() },
        ),
        accepted(
            "sequence number 0",
            &["40 AA  sequence number not suppressed", "00  sequence number", ADDRESSES, PAYLOAD_FOLLOWS, WHOLE_GROUP],
            Beacon { sequence: Some(0), ..minimal() },
        ),
        accepted(
            "extended source",
            &[
                "40 EB  source mode 3",
                "34 12 FF FF  PAN ID, destination",
                "08 07 06 05 04 03 02 F1  source",
                PAYLOAD_FOLLOWS,
                WHOLE_GROUP,
            ],
            Beacon { source: Address::Extended(0xF102_0304_0506_0708), ..minimal() },
        ),
    ]
}

fn header_lists() -> Vec<Worked> {
    vec![
        refused("nothing after the source", &[FIELDS], Check::SynchronizationMissing),
        refused("one byte after the source", &[FIELDS, "00  of a descriptor"], Check::HeaderDescriptorCut),
        refused(
            "header element past the frame",
            &[FIELDS, "02 0F  time correction, 2 bytes", "00  one of them"],
            Check::HeaderElementPastFrame,
        ),
        refused(
            "header element of 127 bytes",
            &[FIELDS, "7F 0F  time correction, 127 bytes", PAYLOAD_FOLLOWS, WHOLE_GROUP],
            Check::HeaderElementPastFrame,
        ),
        refused(
            "past the frame before bit 15",
            &[FIELDS, "02 8F  bit 15 set, 2 bytes", "00  one of them"],
            Check::HeaderElementPastFrame,
        ),
        refused("bit 15", &[FIELDS, "00 8F  bit 15 set", PAYLOAD_FOLLOWS, WHOLE_GROUP], Check::HeaderBit15),
        refused("bit 15 in header termination 1", &[FIELDS, "00 BF  bit 15 set", WHOLE_GROUP], Check::HeaderBit15),
        // The group's descriptor then stands in the header list, with 26 in its low seven bits.
        refused("header termination 1 left out", &[FIELDS, WHOLE_GROUP], Check::HeaderBit15),
        refused(
            "header termination 1 with a length",
            &[FIELDS, "01 3F  header termination 1, 1 byte", "00  content", WHOLE_GROUP],
            Check::HeaderTermination1WithLength,
        ),
        refused(
            "header termination 1 past the frame",
            &[FIELDS, "01 3F  header termination 1, 1 byte"],
            Check::HeaderElementPastFrame,
        ),
        refused(
            "header termination 2 with a length",
            &[FIELDS, "81 3F  header termination 2, 1 byte", "00  content"],
            Check::HeaderTermination2WithLength,
        ),
        refused(
            "header termination 2 past the frame",
            &[FIELDS, "81 3F  header termination 2, 1 byte"],
            Check::HeaderElementPastFrame,
        ),
        refused(
            "header termination 2 before a payload list",
            &[FIELDS, "80 3F  header termination 2", WHOLE_GROUP],
            Check::SynchronizationMissing,
        ),
        refused(
            "header termination 2 before one byte",
            &[FIELDS, "80 3F  header termination 2", "FF  ignored"],
            Check::SynchronizationMissing,
        ),
        refused("nothing after header termination 1", &[FIELDS, PAYLOAD_FOLLOWS], Check::SynchronizationMissing),
        refused(
            "header list that ends with an element",
            &[FIELDS, "02 0F  time correction, 2 bytes", "00 00  content"],
            Check::SynchronizationMissing,
        ),
        accepted(
            "header elements that are skipped",
            &[
                FIELDS,
                "02 0F  time correction, 2 bytes",
                "00 3F  content that looks like header termination 1",
                "00 00  ID 0, 0 bytes",
                "80 7F  ID 0xFF, 0 bytes",
                "01 7F  ID 0xFE, 1 byte",
                "AA     content",
                PAYLOAD_FOLLOWS,
                WHOLE_GROUP,
            ],
            minimal(),
        ),
    ]
}

fn payload_lists() -> Vec<Worked> {
    let minimal_then = |name, lines: &[&str], check| refused(name, &[&[MINIMAL], lines].concat(), check);
    let minimal_and = |name, lines: &[&str]| accepted(name, &[&[MINIMAL], lines].concat(), minimal());
    vec![
        minimal_then("one byte after the group", &["00  of a descriptor"], Check::PayloadDescriptorCut),
        minimal_then("group past the frame", &["01 90  group 2, 1 byte"], Check::GroupPastFrame),
        minimal_then("group of 256 bytes", &["00 91  group 2, 256 bytes"], Check::GroupPastFrame),
        minimal_then("bit 15 clear", &["00 00  bit 15 clear"], Check::PayloadBit15),
        minimal_then("bit 15 clear in group 15", &["00 78  bit 15 clear"], Check::PayloadBit15),
        minimal_then("group past the frame before bit 15", &["01 00  bit 15 clear, 1 byte"], Check::GroupPastFrame),
        // Its length has eleven bits here, of which three are set.
        minimal_then("second header termination 1", &["00 3F  0x700 bytes"], Check::GroupPastFrame),
        minimal_then(
            "payload termination with a length",
            &["01 F8  payload termination, 1 byte", "00  content"],
            Check::PayloadTerminationWithLength,
        ),
        minimal_then(
            "payload termination past the frame",
            &["01 F8  payload termination, 1 byte"],
            Check::GroupPastFrame,
        ),
        minimal_and("payload termination", &["00 F8  payload termination"]),
        minimal_and(
            "bytes after payload termination",
            &["00 F8  payload termination", "08 88  MLME group, 8 bytes", SYNCHRONIZATION, "FF  ignored"],
        ),
        refused(
            "payload termination first",
            &[START, "00 F8  payload termination", GROUP, SYNCHRONIZATION, TIMESLOT, HOPPING, SLOTFRAME],
            Check::SynchronizationMissing,
        ),
        refused(
            "group past the frame before a fault in it",
            &[START, "1A 88  MLME group, 26 bytes", "05 1A 00 00 00 00 00  synchronization, 5 bytes"],
            Check::GroupPastFrame,
        ),
        minimal_and("empty MLME group", &["00 88  MLME group, 0 bytes"]),
        // As many as a frame has room for.
        minimal_and("43 empty MLME groups", &["00 88  MLME group, 0 bytes"; 43]),
        refused(
            "57 empty MLME groups alone",
            &[&[START][..], &["00 88  MLME group, 0 bytes"; 57]].concat(),
            Check::SynchronizationMissing,
        ),
        accepted(
            "a group for each sub-element",
            &[
                START,
                "0C 88  MLME group, 12 bytes",
                SLOTFRAME,
                "00 88  MLME group, 0 bytes",
                "03 88  MLME group, 3 bytes",
                HOPPING,
                "03 88  MLME group, 3 bytes",
                TIMESLOT,
                "08 88  MLME group, 8 bytes",
                SYNCHRONIZATION,
            ],
            minimal(),
        ),
        minimal_then("sub-element in a second group", &["03 88  MLME group, 3 bytes", TIMESLOT], Check::TimeslotTwice),
        accepted(
            "groups that are skipped",
            &[
                START,
                "00 80                    group 0, 0 bytes",
                "08 90                    group 2, 8 bytes",
                "06 1A 09 09 09 09 09 09  looks like synchronization",
                GROUP,
                SYNCHRONIZATION,
                TIMESLOT,
                HOPPING,
                SLOTFRAME,
                "05 F0                    group 14, 5 bytes",
                "02 FF FF FF FF           content",
            ],
            minimal(),
        ),
        minimal_and(
            "IETF subtypes that are skipped",
            &[
                "01 A8  IETF group, 1 byte",
                "01     subtype",
                "05 A8  IETF group, 5 bytes",
                "03     subtype",
                "00*4   content",
                "05 A8  IETF group, 5 bytes",
                "03     subtype",
                "00*4   content",
            ],
        ),
        minimal_then("empty IETF group", &["00 A8  IETF group, 0 bytes"], Check::IetfEmpty),
    ]
}

/// Frames of one MLME group.
fn sub_elements() -> Vec<Worked> {
    const OTHER_GROUP: &str = "
        04 90        group 2, 4 bytes
        00 00 00 00  content
    ";
    let start = |name, lines: &[&str], check| refused(name, &[&[START], lines].concat(), check);
    let read = |name, lines: &[&str], beacon| accepted(name, &[&[START], lines].concat(), beacon);
    let timings = [1, 256, 3, 4, 5, 6, 7, 8, 9, 0xFFFF];
    let with_last = |eleventh, twelfth| {
        let mut all = [0; 12];
        all[..10].copy_from_slice(&timings);
        (all[10], all[11]) = (eleventh, twelfth);
        Some(all)
    };
    const TEN_TIMINGS: &str = "
        01 00 00 01 03 00 04 00 05 00  five timings
        06 00 07 00 08 00 09 00 FF FF  five timings
    ";
    vec![
        start(
            "one byte left in the group, the frame goes on",
            &["1B 88  MLME group, 27 bytes", SYNCHRONIZATION, TIMESLOT, HOPPING, SLOTFRAME, "00  left", OTHER_GROUP],
            Check::SubElementDescriptorCut,
        ),
        start(
            "sub-element past its group, the frame goes on",
            &["19 88  MLME group, 25 bytes", SYNCHRONIZATION, TIMESLOT, HOPPING, SLOTFRAME, OTHER_GROUP],
            Check::SubElementPastGroup,
        ),
        start(
            "long sub-element past its group",
            &["03 88  MLME group, 3 bytes", "01 CC  channel hopping, 0x401 bytes", "00  content", OTHER_GROUP],
            Check::SubElementPastGroup,
        ),
        read(
            "sub-elements that are skipped",
            &[
                "25 88     MLME group, 37 bytes",
                "01 09     short ID 9, 1 byte",
                "00        content",
                SYNCHRONIZATION,
                TIMESLOT,
                "00 D0     long ID 0xA, 0 bytes",
                HOPPING,
                "02 D8     long ID 0xB, 2 bytes",
                "FF FF     content",
                SLOTFRAME,
                "00 7F     short ID 0x7F, 0 bytes",
            ],
            minimal(),
        ),
        read("sub-elements in another order", &[GROUP, SLOTFRAME, HOPPING, TIMESLOT, SYNCHRONIZATION], minimal()),
        read(
            "largest ASN and join metric",
            &[GROUP, "06 1A FF FF FF FF FF FF  synchronization", TIMESLOT, HOPPING, SLOTFRAME],
            Beacon { asn: (1 << 40) - 1, join_metric: 255, ..minimal() },
        ),
        start(
            "synchronization of 5 bytes",
            &["07 88  MLME group", "05 1A 00*5  synchronization"],
            Check::SynchronizationLength,
        ),
        start(
            "synchronization of 7 bytes",
            &["09 88  MLME group", "07 1A 00*7  synchronization"],
            Check::SynchronizationLength,
        ),
        start(
            "synchronization twice",
            &["10 88  MLME group", SYNCHRONIZATION, SYNCHRONIZATION],
            Check::SynchronizationTwice,
        ),
        start(
            "second synchronization of 5 bytes",
            &["0F 88  MLME group", SYNCHRONIZATION, "05 1A 00*5  synchronization"],
            Check::SynchronizationLength,
        ),
        start("timeslot of 0 bytes", &["02 88  MLME group", "00 1C  timeslot"], Check::TimeslotLength),
        start("timeslot of 2 bytes", &["04 88  MLME group", "02 1C 00*2  timeslot"], Check::TimeslotLength),
        start("timeslot of 26 bytes", &["1C 88  MLME group", "1A 1C 00*26  timeslot"], Check::TimeslotLength),
        start("timeslot of 28 bytes", &["1E 88  MLME group", "1C 1C 00*28  timeslot"], Check::TimeslotLength),
        start("template ID 1 alone", &["03 88  MLME group", "01 1C 01  timeslot"], Check::TimeslotTemplate),
        start("timeslot twice", &["06 88  MLME group", TIMESLOT, TIMESLOT], Check::TimeslotTwice),
        start(
            "second timeslot with template ID 1 alone",
            &["06 88  MLME group", TIMESLOT, "01 1C 01  timeslot"],
            Check::TimeslotTwice,
        ),
        start(
            "second timeslot of 2 bytes",
            &["07 88  MLME group", TIMESLOT, "02 1C 00*2  timeslot"],
            Check::TimeslotLength,
        ),
        read(
            "timings of 2 bytes",
            &[
                "32 88  MLME group, 50 bytes",
                SYNCHRONIZATION,
                "19 1C  timeslot, 25 bytes",
                "FF     template ID",
                TEN_TIMINGS,
                "0B 80  eleventh timing",
                "FF FF  twelfth timing",
                HOPPING,
                SLOTFRAME,
            ],
            Beacon { template: 255, timings: with_last(0x800B, 0xFFFF), ..minimal() },
        ),
        read(
            "last two timings of 3 bytes",
            &[
                "34 88     MLME group, 52 bytes",
                SYNCHRONIZATION,
                "1B 1C     timeslot, 27 bytes",
                "00        template ID",
                TEN_TIMINGS,
                "0B 0A 01  eleventh timing",
                "FF FF FE  twelfth timing",
                HOPPING,
                SLOTFRAME,
            ],
            Beacon { timings: with_last(0x010A0B, 0xFEFFFF), ..minimal() },
        ),
        read(
            "last two timings of 3 bytes that fit in 2",
            &[
                "34 88     MLME group, 52 bytes",
                SYNCHRONIZATION,
                "1B 1C     timeslot, 27 bytes",
                "01        template ID",
                TEN_TIMINGS,
                "0B 80 00  eleventh timing",
                "FF FF 00  twelfth timing",
                HOPPING,
                SLOTFRAME,
            ],
            Beacon { template: 1, timings: with_last(0x800B, 0xFFFF), ..minimal() },
        ),
        start("channel hopping of 0 bytes", &["02 88  MLME group", "00 C8  channel hopping"], Check::HoppingEmpty),
        start("channel hopping twice", &["06 88  MLME group", HOPPING, HOPPING], Check::HoppingTwice),
        start("channel hopping of 2 bytes", &["04 88  MLME group", "02 C8 00*2  hopping"], Check::HoppingTooLong),
        start(
            "channel hopping of 64 bytes",
            &["42 88  MLME group", "40 C8 00*64  channel hopping"],
            Check::HoppingTooLong,
        ),
        start(
            "second channel hopping of 0 bytes",
            &["05 88  MLME group", HOPPING, "00 C8  channel hopping"],
            Check::HoppingEmpty,
        ),
        start(
            "second channel hopping of 2 bytes",
            &["07 88  MLME group", HOPPING, "02 C8 00*2  channel hopping"],
            Check::HoppingTwice,
        ),
        read(
            "hopping sequence ID 200",
            &[GROUP, SYNCHRONIZATION, TIMESLOT, "01 C8 C8  channel hopping", SLOTFRAME],
            Beacon { hopping: 200, ..minimal() },
        ),
    ]
}

/// The slotframe and link element, whose order of checks is its own.
fn slotframes() -> Vec<Worked> {
    let start = |name, lines: &[&str], check| refused(name, &[&[START], lines].concat(), check);
    let read = |name, lines: &[&str], beacon| accepted(name, &[&[START], lines].concat(), beacon);
    vec![
        start("4 bytes", &["06 88  MLME group", "04 1B 01 00 0B 00  slotframe"], Check::SlotframeUnderFiveBytes),
        start(
            "4 bytes before two slotframes",
            &["06 88  MLME group", "04 1B 02 00 0B 00  slotframe"],
            Check::SlotframeUnderFiveBytes,
        ),
        start("0 slotframes", &["07 88  MLME group", "05 1B 00 00 0B 00 00  slotframe"], Check::SlotframeCount),
        start(
            "two slotframes before the length",
            &["0B 88  MLME group", "09 1B 02 00 0B 00 01 00*4  slotframe"],
            Check::SlotframeCount,
        ),
        start(
            "second one of two slotframes",
            &["18 88  MLME group", SLOTFRAME, "0A 1B 02 00 0B 00 01 00*5  slotframe"],
            Check::SlotframeCount,
        ),
        start(
            "one byte short of its link",
            &["0B 88  MLME group", "09 1B 01 00 0B 00 01 00*4  slotframe"],
            Check::SlotframeLength,
        ),
        start(
            "one byte more than its link",
            &["0D 88  MLME group", "0B 1B 01 00 0B 00 01 00*6  slotframe"],
            Check::SlotframeLength,
        ),
        start(
            "length before size 0",
            &["0D 88  MLME group", "0B 1B 01 00 00 00 01 00*6  slotframe"],
            Check::SlotframeLength,
        ),
        start("slotframe twice", &["18 88  MLME group", SLOTFRAME, SLOTFRAME], Check::SlotframeTwice),
        start(
            "second one with a link missing",
            &["13 88  MLME group", SLOTFRAME, "05 1B 01 00 0B 00 01  slotframe"],
            Check::SlotframeLength,
        ),
        start(
            "second one of size 0",
            &["18 88  MLME group", SLOTFRAME, "0A 1B 01 00 00 00 01 00*5  slotframe"],
            Check::SlotframeTwice,
        ),
        start(
            "second one without links",
            &["13 88  MLME group", SLOTFRAME, "05 1B 01 00 0B 00 00  slotframe"],
            Check::SlotframeTwice,
        ),
        start("size 0", &["0C 88  MLME group", "0A 1B 01 00 00 00 01 00*5  slotframe"], Check::SlotframeSize),
        start("no links", &["07 88  MLME group", "05 1B 01 00 0B 00 00  slotframe"], Check::NoLinks),
        start("17 links", &["5C 88  MLME group", "5A 1B 01 00 0B 00 11 00*85  slotframe"], Check::TooManyLinks),
        start(
            "17 links, one left out",
            &["57 88  MLME group", "55 1B 01 00 0B 00 11 00*80  slotframe"],
            Check::SlotframeLength,
        ),
        start(
            "timeslot equal to the size",
            &["0C 88  MLME group", "0A 1B 01 00 0B 00 01  slotframe", "0B 00 00 00 0F  link"],
            Check::LinkTimeslot,
        ),
        start(
            "second link's timeslot over the size",
            &["11 88  MLME group", "0F 1B 01 00 0B 00 02  slotframe", "00*5  link", "00 01 00 00 0F  link"],
            Check::LinkTimeslot,
        ),
        read(
            "16 links",
            &[
                "65 88  MLME group, 101 bytes",
                SYNCHRONIZATION,
                TIMESLOT,
                HOPPING,
                "55 1B           slotframe and link, 85 bytes",
                "01 FE FF FF 10  one slotframe, handle 254, size 65535, 16 links",
                "FE FF FF FF FF  link: last timeslot, all option bits",
                "00 01 02 03 04  link",
                "00 01 02 03 04  link: the same again",
                "00*60           twelve links",
                "01 00 00 00 80  link",
            ],
            Beacon {
                handle: 254,
                size: 65535,
                count: 16,
                links: {
                    let mut links = links(&[(65534, 65535, 255), (256, 770, 4), (256, 770, 4)]);
                    links[15] = Link { timeslot: 1, offset: 0, options: 0x80 };
                    links
                },
                ..minimal()
            },
        ),
        read(
            "size 1",
            &[GROUP, SYNCHRONIZATION, TIMESLOT, HOPPING, "0A 1B 01 07 01 00 01 00*5  slotframe"],
            Beacon { handle: 7, size: 1, links: links(&[(0, 0, 0)]), ..minimal() },
        ),
    ]
}

/// The minimal beacon with IETF groups of subtype 2 behind it.
fn joining_information() -> Vec<Worked> {
    let then = |name, lines: &[&str], check| refused(name, &[&[MINIMAL], lines].concat(), check);
    let and = |name, lines: &[&str], joining| {
        accepted(name, &[&[MINIMAL], lines].concat(), Beacon { joining: Some(joining), ..minimal() })
    };
    let (no_network, _) = network(&[]);
    let zero = JoiningInformation {
        router: false,
        proxy: None,
        proxy_priority: 0,
        rank_priority: 0,
        pan_priority: 0,
        network: no_network,
        network_length: 0,
    };
    let with_network = |id: &[u8], joining: &JoiningInformation| {
        let (network, network_length) = network(id);
        JoiningInformation { network, network_length, ..joining.clone() }
    };
    vec![
        and(
            "shortest",
            &["05 A8 02  IETF group, joining information", "00 00 00 00  flags and priorities"],
            zero.clone(),
        ),
        and(
            "R flag",
            &["05 A8 02  IETF group, joining information", "80 00 00 00  flags and priorities"],
            JoiningInformation { router: true, ..zero.clone() },
        ),
        and(
            "reserved bits",
            &["05 A8 02  IETF group, joining information", "38 00 00 00  flags and priorities"],
            zero.clone(),
        ),
        and(
            "proxy priority",
            &["05 A8 02  IETF group, joining information", "07 F0 00 00  flags and priorities"],
            JoiningInformation { proxy_priority: 127, ..zero.clone() },
        ),
        and(
            "rank priority",
            &["05 A8 02  IETF group, joining information", "00 0F FF 00  flags and priorities"],
            JoiningInformation { rank_priority: 4095, ..zero.clone() },
        ),
        and(
            "PAN priority",
            &["05 A8 02  IETF group, joining information", "00 00 00 FF  flags and priorities"],
            JoiningInformation { pan_priority: 255, ..zero.clone() },
        ),
        and(
            "address and network ID",
            &[
                "10 A8 02                 IETF group, 16 bytes, joining information",
                "C1 02 03 04              R, P, proxy priority 16, rank priority 0x203, PAN priority 4",
                "F1 02 03 04 05 06 07 08  address",
                "AA 00 BB                 network ID",
            ],
            with_network(
                &[0xAA, 0, 0xBB],
                &JoiningInformation {
                    router: true,
                    proxy: Some(0xF102_0304_0506_0708),
                    proxy_priority: 16,
                    rank_priority: 0x203,
                    pan_priority: 4,
                    ..zero.clone()
                },
            ),
        ),
        and(
            "network ID of one zero byte",
            &["06 A8 02  IETF group", "00 00 00 00  flags and priorities", "00  network ID"],
            with_network(&[0], &zero),
        ),
        and(
            "network ID of 16 bytes",
            &["15 A8 02  IETF group", "00 00 00 00  flags and priorities", "11*15 99  network ID"],
            with_network(&[[0x11; 15].as_slice(), &[0x99]].concat(), &zero),
        ),
        and(
            "address without network ID",
            &["0D A8 02  IETF group", "40 00 00 00  P", "00*7 01  address"],
            JoiningInformation { proxy: Some(1), ..zero.clone() },
        ),
        and(
            "address and 16 bytes of network ID",
            &["1D A8 02  IETF group", "40 00 00 00  P", "00*8  address", "11*15 99  network ID"],
            with_network(
                &[[0x11; 15].as_slice(), &[0x99]].concat(),
                &JoiningInformation { proxy: Some(0), ..zero.clone() },
            ),
        ),
        accepted(
            "before the MLME group, with bytes after payload termination",
            &[
                FIELDS,
                PAYLOAD_FOLLOWS,
                "06 A8 02     IETF group, joining information",
                "00 00 00 00  flags and priorities",
                "77           network ID",
                GROUP,
                SYNCHRONIZATION,
                TIMESLOT,
                HOPPING,
                SLOTFRAME,
                "00 F8        payload termination",
                "05 A8 02     ignored",
            ],
            Beacon { joining: Some(with_network(&[0x77], &zero)), ..minimal() },
        ),
        then("subtype alone", &["01 A8 02  IETF group"], Check::JoiningTooShort),
        then("3 bytes", &["04 A8 02  IETF group", "00 00 00  of flags and priorities"], Check::JoiningTooShort),
        then(
            "network ID of 17 bytes",
            &["16 A8 02  IETF group", "00*4  flags", "11*17  network ID"],
            Check::JoiningTooLong,
        ),
        then("address left out", &["05 A8 02  IETF group", "40 00 00 00  P"], Check::JoiningAddressCut),
        then(
            "address of 7 bytes",
            &["0C A8 02  IETF group", "40 00 00 00  P", "00*7  of an address"],
            Check::JoiningAddressCut,
        ),
        then(
            "address and 17 bytes of network ID",
            &["1E A8 02  IETF group", "40 00 00 00  P", "00*8  address", "11*17  network ID"],
            Check::JoiningTooLong,
        ),
        then(
            "joining information twice",
            &["05 A8 02 00*4  IETF group", "05 A8 02 00*4  IETF group"],
            Check::JoiningTwice,
        ),
        then(
            "second joining information of 3 bytes",
            &["05 A8 02 00*4  IETF group", "04 A8 02 00*3  IETF group"],
            Check::JoiningTooShort,
        ),
        then(
            "joining information past the frame",
            &["05 A8 02  IETF group", "00 00 00  of flags and priorities"],
            Check::GroupPastFrame,
        ),
    ]
}

fn missing_elements() -> Vec<Worked> {
    let start = |name, lines: &[&str], check| refused(name, &[&[START], lines].concat(), check);
    vec![
        start(
            "no synchronization",
            &["12 88  MLME group", TIMESLOT, HOPPING, SLOTFRAME],
            Check::SynchronizationMissing,
        ),
        start("no timeslot", &["17 88  MLME group", SYNCHRONIZATION, HOPPING, SLOTFRAME], Check::TimeslotMissing),
        start(
            "no channel hopping",
            &["17 88  MLME group", SYNCHRONIZATION, TIMESLOT, SLOTFRAME],
            Check::HoppingMissing,
        ),
        start("no slotframe", &["0E 88  MLME group", SYNCHRONIZATION, TIMESLOT, HOPPING], Check::SlotframeMissing),
        start(
            "joining information alone",
            &["06 A8 02 00 00 00 00 77  IETF group, joining information"],
            Check::SynchronizationMissing,
        ),
        start(
            "a later fault before a missing element",
            &["0E 88  MLME group", SYNCHRONIZATION, TIMESLOT, HOPPING, "00 A8  IETF group, 0 bytes"],
            Check::IetfEmpty,
        ),
        start(
            "a limit before a missing element",
            &["03 88  MLME group", "01 1C 01  timeslot"],
            Check::TimeslotTemplate,
        ),
    ]
}
