//! The ack program, run on acknowledgements.

use reference::frame::Address;
use reference::program::Program;
use reference::worked;

const ACK: Program = Program {
    name: "ack",
    example: &["examples/ack.frame"],
    answer: "seq absent pan 4660 destination short 7 source short 1 correction -10 acknowledged yes\n",
};

/// The acknowledgement of most tests.
const SHORTEST: &str = "
    42 AB  frame control: short addresses, sequence number suppressed
    34 12  PAN ID
    07 00  destination: short 7
    01 00  source: short 1
    02 0F  correction, 2 bytes
    F6 0F  -10, acknowledged
";

/// What an acknowledgement says.
#[derive(Clone, Copy, Debug)]
struct Said {
    sequence: Option<u8>,
    pan: u16,
    destination: Address,
    source: Address,
    correction: i16,
    nack: bool,
}

impl Said {
    /// Frame control: type 2, elements present, version 2, and what the fields ask for. PAN ID compression is 0 where both addresses are
    /// extended.
    fn control(self) -> u16 {
        let mode = |address| if matches!(address, Address::Short(_)) { 2 } else { 3 };
        let (destination, source) = (mode(self.destination), mode(self.source));
        let compression = u16::from(destination == 2 || source == 2);
        let suppressed = u16::from(self.sequence.is_none());
        2 | compression << 6 | suppressed << 8 | 1 << 9 | destination << 10 | 2 << 12 | source << 14
    }

    /// The frame, with one header element: the correction.
    fn frame(self) -> Vec<u8> {
        let mut frame = self.control().to_le_bytes().to_vec();
        frame.extend(self.sequence);
        frame.extend(self.pan.to_le_bytes());
        for address in [self.destination, self.source] {
            match address {
                Address::Short(number) => frame.extend(number.to_le_bytes()),
                Address::Extended(number) => frame.extend(number.to_le_bytes()),
            }
        }
        let word = (self.correction as u16 & 0x0FFF) | u16::from(self.nack) << 15;
        frame.extend([0x02, 0x0F]);
        frame.extend(word.to_le_bytes());
        frame
    }

    fn line(self) -> String {
        let address = |address| match address {
            Address::Short(number) => format!("short {number}"),
            Address::Extended(number) => format!("extended {number}"),
        };
        format!(
            "seq {} pan {} destination {} source {} correction {} acknowledged {}\n",
            self.sequence.map_or("absent".into(), |number| number.to_string()),
            self.pan,
            address(self.destination),
            address(self.source),
            self.correction,
            if self.nack { "no" } else { "yes" }
        )
    }
}

#[test]
fn an_accepted_frame() {
    let shortest = worked::bytes(SHORTEST);
    assert_eq!(ACK.run(&[&shortest]), ACK.answer);
    let said = Said {
        sequence: None,
        pan: 0x1234,
        destination: Address::Short(7),
        source: Address::Short(1),
        correction: -10,
        nack: false,
    };
    assert_eq!((said.frame(), said.line()), (shortest, ACK.answer.to_string()));
}

/// Every form of the fields, at the ends of their ranges.
#[test]
fn all_forms_of_the_line() {
    let addresses = [Address::Short(0), Address::Short(u16::MAX), Address::Extended(9), Address::Extended(u64::MAX)];
    let mut tried = 0;
    for (place, correction) in [0, 1, -1, 10, -10, 2047, -2048].into_iter().enumerate() {
        for sequence in [None, Some(0), Some(255)] {
            for destination in addresses {
                for source in addresses {
                    let (pan, nack) = ([0, 7, u16::MAX][tried % 3], tried % 2 == place % 2);
                    let said = Said { sequence, pan, destination, source, correction, nack };
                    assert_eq!(ACK.run(&[&said.frame()]), said.line(), "{said:?}");
                    tried += 1;
                }
            }
        }
    }
    assert_eq!(tried, 336);
}

/// Each refusal that a frame can get.
#[test]
fn each_refusal() {
    let refused = [
        (1, "00*126  a frame of 126 bytes"),
        (2, "42  half of frame control"),
        (2, "42 AB 34 12 07  half of a destination"),
        (2, "42 AB 34 12 07 00 01 00 02 0F F6  half of a correction"),
        (3, "40 AB  a beacon"),
        (3, "42 9B  version 1"),
        (4, "4A AB  with security"),
        (5, "02 AB  without PAN ID compression"),
        (5, "42 EF  two extended addresses with PAN ID compression"),
        (5, "42 A3  without a destination"),
        (5, "42 2B  without a source"),
        (5, "42 A9  without elements"),
        (6, "42 AB 34 12 07 00 01 00 01 0F 00  a correction of one byte"),
        (7, "42 AB 34 12 07 00 01 00  without a correction"),
        (7, "42 AB 34 12 07 00 01 00 02 0F F6 0F 02 0F F6 0F  with two corrections"),
    ];
    for (number, text) in refused {
        assert_eq!(ACK.run(&[&worked::bytes(text)]), format!("refused {number}\n"), "{text}");
    }
}

#[test]
fn every_cut_of_an_acknowledgement() {
    let shortest = worked::bytes(SHORTEST);
    for length in 0..shortest.len() {
        // Without its elements the frame is whole, but has no correction.
        let number = if length == 8 { 7 } else { 2 };
        assert_eq!(ACK.run(&[&shortest[..length]]), format!("refused {number}\n"), "{length} bytes");
    }
}

#[test]
fn lengths_around_the_longest_frame() {
    let mut long = worked::bytes(SHORTEST);
    // The header list ends; what follows does not matter.
    long.extend([0x80, 0x3F]);
    long.resize(100_000, 0xA5);
    assert_eq!(ACK.run(&[&long[..125]]), ACK.answer);
    for length in [126, 127, 300, 100_000] {
        assert_eq!(ACK.run(&[&long[..length]]), "refused 1\n", "{length} bytes");
    }
}

#[test]
fn input_that_comes_in_pieces() {
    let shortest = worked::bytes(SHORTEST);
    for at in [1, 8, 11] {
        let (first, second) = shortest.split_at(at);
        assert_eq!(ACK.run(&[first, second]), ACK.answer, "in two at {at}");
    }
}

#[test]
fn the_example_as_text() {
    ACK.has_its_example_as_text();
}

#[test]
fn a_file_by_name() {
    ACK.reads_files_by_name();
}

#[test]
fn files_that_cannot_be_read() {
    ACK.tells_which_file_cannot_be_read();
}

#[test]
fn unknown_arguments() {
    ACK.tells_unknown_arguments();
}

#[test]
fn standard_input_that_cannot_be_read() {
    ACK.tells_that_standard_input_cannot_be_read();
}

#[test]
fn a_terminal() {
    ACK.hints_at_a_terminal();
}

#[test]
fn output_that_cannot_be_written() {
    ACK.tells_that_standard_output_cannot_be_written();
}
