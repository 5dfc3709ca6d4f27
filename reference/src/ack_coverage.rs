//! Counts of what random acknowledgements reached, so that a test fails when its cases miss something.

use crate::ack::{Ack, Address, Check, LARGEST_CORRECTION, LEAST_CORRECTION, LONGEST_FRAME};
use crate::ack_frames;
use crate::ack_records;
use crate::ack_write::{frame_length, Limit, Misfit, Refusal};
use crate::acks::Shape;
use crate::coverage::{buffer_name, Counts, BUFFER_NAMES};
use crate::frame::Beacon;
use crate::interface as c;
use std::collections::BTreeSet;

/// The corrections within the limits with the mark that goes with each.
type Contents = BTreeSet<(i32, bool)>;

/// How many there are.
const CONTENTS: usize = 2 * 4096;

/// What frames that were read reached.
#[derive(Clone, Debug, Default)]
pub struct ReadCoverage {
    kinds: Counts,
    numbers: Counts,
    checks: Counts,
    addressing: Counts,
    records: Counts,
    readers: Counts,
    contents: Contents,
}

impl ReadCoverage {
    /// Counts a frame and the reference's answers to it, as an acknowledgement and as a beacon.
    pub fn add(
        &mut self,
        kind: ack_frames::Kind,
        frame: &[u8],
        answer: &Result<Ack, Check>,
        beacon: &Result<Beacon, Check>,
    ) {
        let number = answer.map_or_else(Check::number, |_| 0);
        self.kinds.add(format!("{kind:?}"));
        self.numbers.add(number.to_string());
        match answer {
            Ok(ack) => {
                self.records.add_if(frame.len() == LONGEST_FRAME, "longest frame");
                count_record(&mut self.records, ack);
                self.contents.insert((ack.correction, ack.not_acknowledged));
            }
            Err(check) => self.checks.add(format!("{check:?}")),
        }
        if kind == ack_frames::Kind::Addressing {
            self.addressing.add(format!("{}: {number}", addressing_name(frame)));
        }
        self.readers.add(match (answer, beacon) {
            (Ok(_), Ok(_)) => "accepted as both",
            (Ok(_), Err(_)) => "an acknowledgement",
            (Err(_), Ok(_)) => "a beacon",
            (Err(_), Err(_)) => "neither",
        });
    }

    /// Panics unless there was every kind of frame, and every number, check, pair of addresses and form of the record was
    /// met at least `least` times, every correction with both marks, and no frame was both an acknowledgement and a beacon.
    pub fn expect(&self, least: usize) {
        self.kinds.expect("frames", 1, &ack_frames::Kind::ALL.map(|kind| format!("{kind:?}")));
        self.numbers.expect("numbers", least, &[0, 1, 2, 3, 4, 5, 6, 7].map(|number| number.to_string()));
        let checks: Vec<String> = Check::OF_ACKS.iter().map(|check| format!("{check:?}")).collect();
        self.checks.expect("checks", least, &checks);
        self.addressing.expect(
            "addressing and the number that it gives",
            least,
            &[
                "modes 2 and 2, compression 0: 5",
                "modes 2 and 2, compression 1: 0",
                "modes 2 and 3, compression 0: 5",
                "modes 2 and 3, compression 1: 0",
                "modes 3 and 2, compression 0: 5",
                "modes 3 and 2, compression 1: 0",
                "modes 3 and 3, compression 0: 0",
                "modes 3 and 3, compression 1: 5",
            ],
        );
        self.records.expect("records read", least, &[&["longest frame"][..], &RECORD_NAMES].concat());
        self.readers.expect("accepted as", least, &["an acknowledgement", "a beacon", "neither"]);
        assert_eq!(self.contents.len(), CONTENTS, "corrections with both marks");
    }
}

/// The modes of destination and source and the PAN ID compression that a frame has.
fn addressing_name(frame: &[u8]) -> String {
    let [low, high, ..] = *frame else {
        return "none".into();
    };
    format!("modes {} and {}, compression {}", high >> 2 & 0b11, high >> 6, low >> 6 & 1)
}

/// Counts a record.
fn count_record(counts: &mut Counts, ack: &Ack) {
    counts.add(match ack.sequence {
        None => "no sequence number",
        Some(0) => "sequence number 0",
        Some(_) => "sequence number",
    });
    counts.add(match (ack.destination, ack.source) {
        (Address::Short(_), Address::Short(_)) => "both short",
        (Address::Short(_), Address::Extended(_)) => "extended source",
        (Address::Extended(_), Address::Short(_)) => "extended destination",
        (Address::Extended(_), Address::Extended(_)) => "both extended",
    });
    counts.add_if(ack.destination == Address::Short(0xFFFF), "destination FF FF");
    counts.add(match ack.correction {
        LEAST_CORRECTION => "least correction",
        ..0 => "correction below 0",
        0 => "correction 0",
        LARGEST_CORRECTION => "largest correction",
        _ => "correction over 0",
    });
    counts.add(if ack.not_acknowledged { "not acknowledged" } else { "acknowledged" });
}

/// The names that it gives.
const RECORD_NAMES: [&str; 15] = [
    "no sequence number",
    "sequence number 0",
    "sequence number",
    "both short",
    "extended source",
    "extended destination",
    "both extended",
    "destination FF FF",
    "least correction",
    "correction below 0",
    "correction 0",
    "largest correction",
    "correction over 0",
    "not acknowledged",
    "acknowledged",
];

/// What records that were to be written reached.
#[derive(Clone, Debug, Default)]
pub struct WriteCoverage {
    kinds: Counts,
    numbers: Counts,
    refusals: Counts,
    orders: Counts,
    buffers: Counts,
    records: Counts,
    lengths: BTreeSet<usize>,
    contents: Contents,
}

impl WriteCoverage {
    /// Counts a record, the length of its buffer and the reference's answer.
    pub fn add(&mut self, kind: ack_records::Kind, ack: &c::Ack, buffer: usize, answer: &Result<usize, Refusal>) {
        self.kinds.add(format!("{kind:?}"));
        self.numbers.add(answer.map_or_else(Refusal::number, |_| 0).to_string());
        if let Err(refusal) = answer {
            self.refusals.add(format!("{refusal:?}"));
        }
        if let Ok(record) = Ack::from_c(ack) {
            self.add_record(&record, buffer, answer);
        }
    }

    fn add_record(&mut self, ack: &Ack, buffer: usize, answer: &Result<usize, Refusal>) {
        let length = frame_length(ack);
        self.lengths.insert(length);
        match answer {
            Err(Refusal::Misfit(_) | Refusal::FrameTooLong) => unreachable!("it is a record, and not too long"),
            Err(Refusal::Limit(_)) => self.orders.add(match buffer < length {
                true => "8 for a buffer too short",
                false => "8 for a buffer long enough",
            }),
            Err(Refusal::BufferTooShort) => self.buffers.add(buffer_name(buffer, length)),
            Ok(_) => {
                self.buffers.add(buffer_name(buffer, length));
                count_record(&mut self.records, ack);
                self.contents.insert((ack.correction, ack.not_acknowledged));
            }
        }
    }

    /// Panics unless there was every kind of record, every number, refusal, buffer and form of the record was met at least
    /// `least` times, and every length of a frame and every correction with both marks.
    pub fn expect(&self, least: usize) {
        self.kinds.expect("records", 1, &ack_records::Kind::ALL.map(|kind| format!("{kind:?}")));
        self.numbers.expect("numbers", least, &[0, 8, 9].map(|number| number.to_string()));
        let limits = Limit::ALL.map(Refusal::Limit).into_iter();
        let misfits = Misfit::ALL.map(Refusal::Misfit);
        let refusals: Vec<String> =
            limits.chain(misfits).chain([Refusal::BufferTooShort]).map(|refusal| format!("{refusal:?}")).collect();
        self.refusals.expect("first fault", least, &refusals);
        self.orders.expect("order of faults", least, &["8 for a buffer too short", "8 for a buffer long enough"]);
        self.buffers.expect("buffers", least, &BUFFER_NAMES);
        self.records.expect("records written", least, &RECORD_NAMES);
        assert_eq!(self.lengths, Shape::all().iter().map(Shape::length).collect(), "lengths of frames");
        assert_eq!(self.contents.len(), CONTENTS, "corrections with both marks");
    }
}
