//! Acknowledgements laid out by hand, one field per line, each with the answer that the rules give. They put every check
//! on its own, and the order of the checks where a frame has two faults. A line is as in `worked`.

use crate::ack::{Ack, Address, Check};
use crate::worked::{accepted, refused, Worked};

pub fn frames() -> Vec<Worked<Ack>> {
    [
        whole_frames(),
        published_frames(),
        controls(),
        addresses(),
        largest_fields(),
        cut_fields(),
        header_lists(),
        ends_of_the_list(),
        corrections(),
        contents(),
    ]
    .concat()
}

/// An acknowledgement between short addresses, without a sequence number.
pub const SHORTEST: &str = "
    42 AB  frame control: short addresses, sequence number suppressed
    34 12  PAN ID
    08 00  destination: short 8
    07 00  source: short 7
    02 0F  time correction, 2 bytes
    05 00  5 microseconds
";

/// The same in parts.
const ADDRESSES: &str = "
    34 12  PAN ID
    08 00  destination
    07 00  source
";
const FIELDS: &str = "
    42 AB                    frame control
    34 12 08 00 07 00        PAN ID, destination, source
";
const CORRECTION: &str = "
    02 0F  time correction, 2 bytes
    05 00  5 microseconds
";

fn shortest() -> Ack {
    Ack {
        sequence: None,
        pan: 0x1234,
        destination: Address::Short(8),
        source: Address::Short(7),
        correction: 5,
        not_acknowledged: false,
    }
}

/// The shortest acknowledgement and what is left of it when it is cut or made longer.
fn whole_frames() -> Vec<Worked<Ack>> {
    let without_last = SHORTEST.replace("    05 00  5 microseconds\n", "    05  of the correction\n");
    vec![
        accepted("shortest", &[SHORTEST], shortest()),
        refused("shortest without its last byte", &[&without_last], Check::HeaderElementPastFrame),
        refused("empty", &[], Check::UnderTwoBytes),
        refused("one byte", &["42  of the frame control"], Check::UnderTwoBytes),
        refused("one byte of another type", &["40  of the frame control"], Check::UnderTwoBytes),
        accepted("125 bytes", &[SHORTEST, "6F 00  ID 0, 111 bytes", "5A*111  its content"], shortest()),
        refused("126 bytes", &[SHORTEST, "70 00  ID 0, 112 bytes", "5A*112  its content"], Check::FrameTooLong),
        accepted(
            "125 bytes, most of them behind the list",
            &[SHORTEST, "00 3F  header termination 1", "FF*111  ignored"],
            shortest(),
        ),
        refused(
            "126 bytes, most of them behind the list",
            &[SHORTEST, "00 3F  header termination 1", "FF*112  ignored"],
            Check::FrameTooLong,
        ),
        refused("126 bytes of no frame type", &["FF*126  anything"], Check::FrameTooLong),
        refused("268 bytes, 12 more than 256", &[SHORTEST, "00*256  anything"], Check::FrameTooLong),
    ]
}

/// RFC 8180, appendix A.3. The RFC shows the element only, with names in place of the correction's two bytes: those and the
/// fields before them are chosen here.
fn published_frames() -> Vec<Worked<Ack>> {
    const A3: &str = "02 0F  time correction, 2 bytes";
    const NUMBERED: &str = "
        42 AA  frame control: short addresses
        5C     sequence number
        CD AB  PAN ID
        01 00  destination
        FE FF  source
    ";
    let ack = Ack {
        sequence: Some(0x5C),
        pan: 0xABCD,
        destination: Address::Short(1),
        source: Address::Short(0xFFFE),
        correction: -100,
        not_acknowledged: false,
    };
    vec![
        accepted("RFC 8180 A.3", &[NUMBERED, A3, "9C 0F  -100 microseconds"], ack),
        accepted(
            "RFC 8180 A.3, not acknowledged",
            &[NUMBERED, A3, "9C 8F  -100 microseconds, not acknowledged"],
            Ack { not_acknowledged: true, ..ack },
        ),
    ]
}

fn controls() -> Vec<Worked<Ack>> {
    let with = |name, control, check| refused(name, &[control, ADDRESSES, CORRECTION], check);
    vec![
        with("frame type 0, a beacon's", "40 AB  type 0", Check::FrameType),
        with("frame type 1", "41 AB  type 1", Check::FrameType),
        with("frame type 3", "43 AB  type 3", Check::FrameType),
        with("frame type 6", "46 AB  type 6", Check::FrameType),
        with("frame version 0", "42 8B  version 0", Check::FrameVersion),
        with("frame version 1", "42 9B  version 1", Check::FrameVersion),
        with("frame version 3", "42 BB  version 3", Check::FrameVersion),
        with("security", "4A AB  security bit", Check::Security),
        with("frame type before security", "49 AB  type 1, security bit", Check::FrameType),
        with("frame version before security", "4A 9B  version 1, security bit", Check::FrameVersion),
        with("security before addressing", "0A AB  security bit, no compression", Check::Security),
        with("no destination", "42 A3  destination mode 0", Check::DestinationMode),
        with("destination mode 1", "42 A7  destination mode 1", Check::DestinationMode),
        with("no source", "42 2B  source mode 0", Check::SourceMode),
        with("source mode 1", "42 6B  source mode 1", Check::SourceMode),
        with("no elements", "42 A9  elements present 0", Check::ElementsPresent),
        accepted(
            "bits that are ignored",
            &["F2 AB  pending, acknowledge request and the reserved bit set", ADDRESSES, CORRECTION],
            shortest(),
        ),
        accepted(
            "sequence number 0",
            &["42 AA  sequence number not suppressed", "00  sequence number", ADDRESSES, CORRECTION],
            Ack { sequence: Some(0), ..shortest() },
        ),
        accepted(
            "sequence number 255",
            &["42 AA  sequence number not suppressed", "FF  sequence number", ADDRESSES, CORRECTION],
            Ack { sequence: Some(255), ..shortest() },
        ),
    ]
}

/// Each pair of addresses with PAN ID compression and without.
fn addresses() -> Vec<Worked<Ack>> {
    const EXTENDED_DESTINATION: &str = "34 12  PAN ID\n 08 07 06 05 04 03 02 F1  destination";
    const SHORT_DESTINATION: &str = "34 12  PAN ID\n 08 00  destination";
    const EXTENDED_SOURCE: &str = "18 17 16 15 14 13 12 E1  source";
    const SHORT_SOURCE: &str = "07 00  source";
    let destination = Address::Extended(0xF102_0304_0506_0708);
    let source = Address::Extended(0xE112_1314_1516_1718);
    vec![
        refused("both short without compression", &["02 AB", ADDRESSES, CORRECTION], Check::PanIdCompression),
        accepted(
            "extended destination",
            &["42 AF", EXTENDED_DESTINATION, SHORT_SOURCE, CORRECTION],
            Ack { destination, ..shortest() },
        ),
        refused(
            "extended destination without compression",
            &["02 AF", EXTENDED_DESTINATION, SHORT_SOURCE, CORRECTION],
            Check::PanIdCompression,
        ),
        accepted(
            "extended source",
            &["42 EB", SHORT_DESTINATION, EXTENDED_SOURCE, CORRECTION],
            Ack { source, ..shortest() },
        ),
        refused(
            "extended source without compression",
            &["02 EB", SHORT_DESTINATION, EXTENDED_SOURCE, CORRECTION],
            Check::PanIdCompression,
        ),
        accepted(
            "both extended, 25 bytes",
            &["02 EE", "5C  sequence number", EXTENDED_DESTINATION, EXTENDED_SOURCE, CORRECTION],
            Ack { sequence: Some(0x5C), destination, source, ..shortest() },
        ),
        refused(
            "both extended with compression",
            &["42 EE", "5C  sequence number", EXTENDED_DESTINATION, EXTENDED_SOURCE, CORRECTION],
            Check::PanIdCompression,
        ),
    ]
}

/// Addresses and other fields that are all ones: none is refused for its value.
fn largest_fields() -> Vec<Worked<Ack>> {
    vec![
        accepted(
            "destination FF FF",
            &["42 AB", "34 12 FF FF 07 00  addresses", CORRECTION],
            Ack { destination: Address::Short(0xFFFF), ..shortest() },
        ),
        accepted(
            "every field 0xFF",
            &["42 AA", "FF*7  sequence number, PAN ID, addresses", CORRECTION],
            Ack {
                sequence: Some(0xFF),
                pan: 0xFFFF,
                destination: Address::Short(0xFFFF),
                source: Address::Short(0xFFFF),
                ..shortest()
            },
        ),
    ]
}

fn cut_fields() -> Vec<Worked<Ack>> {
    let cut = |name, lines: &[&str]| refused(name, lines, Check::FieldsCut);
    vec![
        cut("frame control alone", &["42 AB"]),
        refused("addressing before fields cut", &["42 A9  elements present 0"], Check::ElementsPresent),
        refused("compression before fields cut", &["02 AB  compression 0"], Check::PanIdCompression),
        cut("sequence number missing", &["42 AA"]),
        cut("PAN ID missing", &["42 AA", "5C  sequence number"]),
        cut("PAN ID cut", &["42 AB", "34  of the PAN ID"]),
        cut("destination missing", &["42 AB", "34 12  PAN ID"]),
        cut("destination cut", &["42 AB", "34 12  PAN ID", "08  of the destination"]),
        cut("extended destination cut", &["42 AF", "34 12  PAN ID", "08 07 06 05 04 03 02  of the destination"]),
        cut("source missing", &["42 AB", "34 12 08 00  PAN ID, destination"]),
        cut("source cut", &["42 AB", "34 12 08 00  PAN ID, destination", "07  of the source"]),
        cut("extended source cut", &["42 EB", "34 12 08 00  PAN ID, destination", "18*7  of the source"]),
        cut("both extended, source cut", &["02 EF", "34 12  PAN ID", "08*8  destination", "18*7  of the source"]),
        cut(
            "sequence number instead of a source byte",
            &["42 AA", "5C  sequence number", "34 12 08 00  PAN ID, destination", "07  of the source"],
        ),
        refused("nothing after the source", &[FIELDS], Check::CorrectionMissing),
    ]
}

fn header_lists() -> Vec<Worked<Ack>> {
    let then = |name, lines: &[&str], check| refused(name, &[&[FIELDS], lines].concat(), check);
    vec![
        then("one byte after the source", &["02  of a descriptor"], Check::HeaderDescriptorCut),
        then("one byte after the time correction", &[CORRECTION, "00  left over"], Check::HeaderDescriptorCut),
        then("header element past the frame", &[CORRECTION, "01 00  ID 0, 1 byte"], Check::HeaderElementPastFrame),
        then("header element of 127 bytes", &["7F 00  ID 0, 127 bytes", CORRECTION], Check::HeaderElementPastFrame),
        then("past the frame before bit 15", &["03 80  bit 15 set, 3 bytes", "00 00"], Check::HeaderElementPastFrame),
        then("bit 15", &["00 80  ID 0, bit 15 set", CORRECTION], Check::HeaderBit15),
        then("bit 15 behind the time correction", &[CORRECTION, "00 80  ID 0, bit 15 set"], Check::HeaderBit15),
        then("bit 15 in the time correction", &["02 8F  bit 15 set", "05 00"], Check::HeaderBit15),
        then("bit 15 in header termination 1", &[CORRECTION, "00 BF  bit 15 set"], Check::HeaderBit15),
        then("bit 15 in header termination 2", &[CORRECTION, "80 BF  bit 15 set"], Check::HeaderBit15),
        // A group's descriptor stands in the header list, with 1 in its low seven bits.
        then("payload element", &[CORRECTION, "01 88  MLME group, 1 byte", "00"], Check::HeaderBit15),
        accepted(
            "header elements that are skipped",
            &[
                FIELDS,
                "02 00  ID 0, 2 bytes",
                "02 0F  content that looks like a time correction",
                "80 7F  ID 0xFF, 0 bytes",
                "01 7F  ID 0xFE, 1 byte",
                "AA     content",
                CORRECTION,
                "82 0F  ID 0x1F, 2 bytes",
                "00 3F  content that looks like header termination 1",
                "82 0E  ID 0x1D, 2 bytes",
                "80 3F  content that looks like header termination 2",
            ],
            shortest(),
        ),
        // One bit beside the time correction's.
        then("ID 0x1F alone", &["82 0F 05 00"], Check::CorrectionMissing),
        then("ID 0x0E alone", &["02 07 05 00"], Check::CorrectionMissing),
        then("ID 0x3E alone", &["02 1F 05 00"], Check::CorrectionMissing),
        then("ID 0x9E alone", &["02 4F 05 00"], Check::CorrectionMissing),
    ]
}

/// Both terminators, what stands behind them, and faults of theirs.
fn ends_of_the_list() -> Vec<Worked<Ack>> {
    let then = |name, lines: &[&str], check| refused(name, &[&[FIELDS], lines].concat(), check);
    let read = |name, lines: &[&str]| accepted(name, &[&[FIELDS, CORRECTION], lines].concat(), shortest());
    const FIRST: &str = "00 3F  header termination 1";
    const SECOND: &str = "80 3F  header termination 2";
    const PAYLOAD: &str = "1A 88  MLME group, 26 bytes\n 06 1A 00 01 00 00 00 02  synchronization";
    vec![
        read("header termination 1", &[FIRST]),
        read("header termination 2", &[SECOND]),
        read("header termination 1, then garbage", &[FIRST, "FF*5  ignored"]),
        read("header termination 2, then garbage", &[SECOND, "FF*5  ignored"]),
        read("header termination 1, then one byte", &[FIRST, "00  ignored"]),
        read("header termination 2, then one byte", &[SECOND, "00  ignored"]),
        read("payload elements that are cut", &[FIRST, PAYLOAD]),
        read("second time correction behind header termination 1", &[FIRST, CORRECTION]),
        read("second time correction behind header termination 2", &[SECOND, CORRECTION]),
        then("time correction behind header termination 1", &[FIRST, CORRECTION], Check::CorrectionMissing),
        then("time correction behind header termination 2", &[SECOND, CORRECTION], Check::CorrectionMissing),
        then(
            "header termination 1 with a length",
            &[CORRECTION, "01 3F  1 byte", "00  content"],
            Check::HeaderTermination1WithLength,
        ),
        then(
            "header termination 2 with a length",
            &[CORRECTION, "81 3F  1 byte", "00  content"],
            Check::HeaderTermination2WithLength,
        ),
        then("header termination 1 past the frame", &[CORRECTION, "01 3F  1 byte"], Check::HeaderElementPastFrame),
        then("header termination 2 past the frame", &[CORRECTION, "81 3F  1 byte"], Check::HeaderElementPastFrame),
        then(
            "a terminator's fault before a missing time correction",
            &["81 3F  header termination 2, 1 byte", "00  content"],
            Check::HeaderTermination2WithLength,
        ),
    ]
}

/// The length of the time correction, and a second one.
fn corrections() -> Vec<Worked<Ack>> {
    let then = |name, lines: &[&str], check| refused(name, &[&[FIELDS], lines].concat(), check);
    vec![
        then("time correction of 0 bytes", &["00 0F"], Check::CorrectionLength),
        then("time correction of 1 byte", &["01 0F 05"], Check::CorrectionLength),
        then("time correction of 3 bytes", &["03 0F 05 00 00"], Check::CorrectionLength),
        then("time correction of 66 bytes", &["42 0F 00*66"], Check::CorrectionLength),
        then("past the frame before the length", &["03 0F 05 00"], Check::HeaderElementPastFrame),
        then("bit 15 before the length", &["03 8F 05 00 00"], Check::HeaderBit15),
        then("time correction twice", &[CORRECTION, CORRECTION], Check::CorrectionTwice),
        then("second one after another element", &[CORRECTION, "00 00", CORRECTION], Check::CorrectionTwice),
        then("second time correction of 3 bytes", &[CORRECTION, "03 0F 05 00 00"], Check::CorrectionLength),
        then("second time correction of 0 bytes", &[CORRECTION, "00 0F"], Check::CorrectionLength),
        then("second time correction past the frame", &[CORRECTION, "02 0F 05"], Check::HeaderElementPastFrame),
        then("second one before a byte left over", &[CORRECTION, CORRECTION, "00"], Check::CorrectionTwice),
        then("first one of 1 byte before a good one", &["01 0F 05", CORRECTION], Check::CorrectionLength),
    ]
}

/// What the time correction's 16 bits say.
fn contents() -> Vec<Worked<Ack>> {
    let says = |name, word, correction, not_acknowledged| {
        accepted(name, &[FIELDS, "02 0F", word], Ack { correction, not_acknowledged, ..shortest() })
    };
    vec![
        says("correction 0", "00 00", 0, false),
        says("correction 1", "01 00", 1, false),
        says("correction 256", "00 01", 256, false),
        says("correction 2047", "FF 07", 2047, false),
        says("correction -2048", "00 08", -2048, false),
        says("correction -2047", "01 08", -2047, false),
        says("correction -1", "FF 0F", -1, false),
        says("not acknowledged", "00 80", 0, true),
        says("correction -1, not acknowledged", "FF 8F", -1, true),
        says("ignored bits", "00 70", 0, false),
        says("ignored bits, correction 2047, not acknowledged", "FF F7", 2047, true),
        says("every bit", "FF FF", -1, true),
    ]
}
