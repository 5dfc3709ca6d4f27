//! Frames by the grammar of the accepted ones (`crates/eb_grammar_spec/specs/Grammar.antt`): every choice that it leaves is made
//! at random, and the name of each constructor that was used is noted. The bytes are put down one behind the other, apart from
//! `parts`, so that the two ways to a frame do not share a mistake.

use crate::beacons::{random_beacon, random_bytes};
use crate::frame::{
    Address, Beacon, JoiningInformation, EXTENDED, HEADER_TERMINATION_1, HEADER_TERMINATION_2, IETF, JOINING,
    LONGEST_FRAME, LONG_HOPPING, MLME, PAYLOAD_TERMINATION, P_FLAG, R_FLAG, SHORT, SHORT_SLOTFRAME,
    SHORT_SYNCHRONIZATION, SHORT_TIMESLOT,
};
use crate::random::Random;

/// The grammar's constructors, in its order.
pub const CONSTRUCTORS: [&str; 25] = [
    "numbered",
    "suppressed",
    "short_address",
    "extended_address",
    "fixed_fields",
    "header_end",
    "header_element",
    "short_id",
    "long_id",
    "group_end",
    "sub_element",
    "mlme",
    "ietf_element",
    "other_group",
    "bytes_end",
    "payload_end",
    "payload_element",
    "id_alone",
    "timed_25",
    "timed_27",
    "no_links",
    "one_link",
    "slotframe",
    "absent",
    "joining",
];

/// The most unknown elements of each list.
const MOST_UNKNOWN: u64 = 4;

/// A frame, the record that it says, and the constructors that it was made by.
#[derive(Clone, Debug)]
pub struct Derivation {
    pub frame: Vec<u8>,
    pub beacon: Beacon,
    pub used: Vec<&'static str>,
}

/// A random record, said by a random frame of the grammar.
pub fn derive(random: &mut Random) -> Derivation {
    let beacon = random_beacon(random, LONGEST_FRAME);
    loop {
        let mut maker = Maker { random, used: Vec::new() };
        let frame = maker.frame(&beacon);
        let used = maker.used;
        if frame.len() <= LONGEST_FRAME {
            return Derivation { frame, beacon, used };
        }
    }
}

struct Maker<'a> {
    random: &'a mut Random,
    used: Vec<&'static str>,
}

impl Maker<'_> {
    fn by(&mut self, constructor: &'static str) {
        self.used.push(constructor);
    }

    /// How many unknown elements a list gets: often none, so that full frames come too.
    fn unknown(&mut self) -> u64 {
        if self.random.chance(60) {
            0
        } else {
            self.random.between(1, MOST_UNKNOWN)
        }
    }

    /// The content of an unknown element.
    fn content(&mut self) -> Vec<u8> {
        let length = self.random.below(6) as usize;
        random_bytes(self.random, length)
    }

    /// A number from 0 to `largest` that is none of these.
    fn other_than(&mut self, largest: u16, known: &[u16]) -> u16 {
        loop {
            let number = self.random.between(0, u64::from(largest)) as u16;
            if !known.contains(&number) {
                return number;
            }
        }
    }

    fn frame(&mut self, beacon: &Beacon) -> Vec<u8> {
        let mut frame = self.fixed_fields(beacon);
        for _ in 0..self.unknown() {
            self.by("header_element");
            let id = self.other_than(0xFF, &[HEADER_TERMINATION_1, HEADER_TERMINATION_2]);
            let content = self.content();
            frame.extend(described(7, id, false, &content));
        }
        self.by("header_end");
        frame.extend(described(7, HEADER_TERMINATION_1, false, &[]));
        frame.extend(self.payload(beacon));
        frame
    }

    fn fixed_fields(&mut self, beacon: &Beacon) -> Vec<u8> {
        self.by("fixed_fields");
        let ignored = self.random.number() as u16 & (1 << 4 | 1 << 5 | 1 << 7);
        let suppressed = u16::from(beacon.sequence.is_none());
        let mode = match beacon.source {
            Address::Short(_) => SHORT,
            Address::Extended(_) => EXTENDED,
        };
        let control = ignored | 1 << 6 | suppressed << 8 | 1 << 9 | SHORT << 10 | 2 << 12 | mode << 14;
        let mut fields = control.to_le_bytes().to_vec();
        match beacon.sequence {
            Some(number) => {
                self.by("numbered");
                fields.push(number);
            }
            None => self.by("suppressed"),
        }
        fields.extend(beacon.pan.to_le_bytes());
        fields.extend([0xFF, 0xFF]);
        match beacon.source {
            Address::Short(number) => {
                self.by("short_address");
                fields.extend(number.to_le_bytes());
            }
            Address::Extended(number) => {
                self.by("extended_address");
                fields.extend(number.to_le_bytes());
            }
        }
        fields
    }

    /// The payload list: MLME groups, joining information and unknown elements in any order, and one of its two ends.
    fn payload(&mut self, beacon: &Beacon) -> Vec<u8> {
        let mut elements = self.groups(beacon);
        match &beacon.joining {
            Some(joining) => {
                self.by("joining");
                self.by("ietf_element");
                elements.push((IETF, self.joining(joining)));
            }
            None => self.by("absent"),
        }
        for _ in 0..self.unknown() {
            if self.random.chance(50) {
                self.by("ietf_element");
                let mut content = vec![self.other_than(0xFF, &[u16::from(JOINING)]) as u8];
                content.extend(self.content());
                elements.push((IETF, content));
            } else {
                self.by("other_group");
                let group = self.other_than(15, &[MLME, IETF, PAYLOAD_TERMINATION]);
                elements.push((group, self.content()));
            }
        }
        shuffle(self.random, &mut elements);
        let mut list = Vec::new();
        for (group, content) in elements {
            self.by("payload_element");
            list.extend(described(11, group, true, &content));
        }
        if self.random.chance(50) {
            self.by("bytes_end");
        } else {
            self.by("payload_end");
            list.extend(described(11, PAYLOAD_TERMINATION, true, &[]));
            list.extend(self.content());
        }
        list
    }

    /// One to three MLME groups, which hold the required sub-elements and unknown ones in any order.
    fn groups(&mut self, beacon: &Beacon) -> Vec<(u16, Vec<u8>)> {
        let mut synchronization = beacon.asn.to_le_bytes()[..5].to_vec();
        synchronization.push(beacon.join_metric);
        let mut elements = vec![
            self.sub_element(SHORT_SYNCHRONIZATION, false, &synchronization),
            self.timeslot(beacon),
            self.sub_element(LONG_HOPPING, true, &[beacon.hopping]),
            self.slotframe(beacon),
        ];
        for _ in 0..self.unknown() {
            let content = self.content();
            let element = if self.random.chance(50) {
                let id = self.other_than(0x7F, &[SHORT_SYNCHRONIZATION, SHORT_SLOTFRAME, SHORT_TIMESLOT]);
                self.sub_element(id, false, &content)
            } else {
                let id = self.other_than(0xF, &[LONG_HOPPING]);
                self.sub_element(id, true, &content)
            };
            elements.push(element);
        }
        shuffle(self.random, &mut elements);
        let count = if self.random.chance(60) { 1 } else { self.random.between(1, 3) as usize };
        let mut groups = vec![(MLME, Vec::new()); count];
        for element in elements {
            let group = self.random.below(count as u64) as usize;
            groups[group].1.extend(element);
        }
        for _ in 0..count {
            self.by("mlme");
            self.by("group_end");
        }
        groups
    }

    fn sub_element(&mut self, id: u16, long: bool, content: &[u8]) -> Vec<u8> {
        self.by("sub_element");
        self.by(if long { "long_id" } else { "short_id" });
        described(if long { 11 } else { 8 }, id, long, content)
    }

    fn timeslot(&mut self, beacon: &Beacon) -> Vec<u8> {
        let mut content = vec![beacon.template];
        match beacon.timings {
            None => self.by("id_alone"),
            Some(timings) => {
                let wide = timings[10..].iter().any(|&timing| timing > 0xFFFF) || self.random.chance(50);
                self.by(if wide { "timed_27" } else { "timed_25" });
                for (place, timing) in timings.iter().enumerate() {
                    let width = if wide && place >= 10 { 3 } else { 2 };
                    content.extend(&timing.to_le_bytes()[..width]);
                }
            }
        }
        self.sub_element(SHORT_TIMESLOT, false, &content)
    }

    fn slotframe(&mut self, beacon: &Beacon) -> Vec<u8> {
        self.by("slotframe");
        let mut content = vec![1, beacon.handle];
        content.extend(beacon.size.to_le_bytes());
        content.push(beacon.count as u8);
        for link in &beacon.links[..beacon.count] {
            self.by("one_link");
            content.extend(link.timeslot.to_le_bytes());
            content.extend(link.offset.to_le_bytes());
            content.push(link.options);
        }
        self.by("no_links");
        self.sub_element(SHORT_SLOTFRAME, false, &content)
    }

    /// Joining information behind its group's descriptor, with any reserved bits.
    fn joining(&mut self, joining: &JoiningInformation) -> Vec<u8> {
        let reserved = (self.random.below(8) as u32) << 27;
        let flags = if joining.router { R_FLAG } else { 0 } | if joining.proxy.is_some() { P_FLAG } else { 0 };
        let priorities = u32::from(joining.proxy_priority) << 20
            | u32::from(joining.rank_priority) << 8
            | u32::from(joining.pan_priority);
        let mut content = vec![JOINING];
        content.extend((flags | reserved | priorities).to_be_bytes());
        if let Some(address) = joining.proxy {
            content.extend(address.to_be_bytes());
        }
        content.extend(&joining.network[..joining.network_length]);
        content
    }
}

/// An element: the two bytes of its descriptor, with the length below bit `split` and the ID from there on, and its content.
fn described(split: u16, id: u16, bit_15: bool, content: &[u8]) -> Vec<u8> {
    let descriptor = content.len() as u16 | id << split | u16::from(bit_15) << 15;
    let mut element = descriptor.to_le_bytes().to_vec();
    element.extend(content);
    element
}

fn shuffle<T>(random: &mut Random, entries: &mut [T]) {
    for last in (1..entries.len()).rev() {
        entries.swap(last, random.below(last as u64 + 1) as usize);
    }
}

#[cfg(test)]
mod tests {
    use super::{derive, CONSTRUCTORS};
    use crate::coverage::Counts;
    use crate::frame;
    use crate::random::Random;
    use std::fs;

    #[test]
    fn reference_reads_the_record_that_was_said() {
        let mut random = Random::new(15);
        let mut counts = Counts::default();
        for _ in 0..100_000 {
            let derivation = derive(&mut random);
            assert_eq!(frame::read(&derivation.frame), Ok(derivation.beacon), "{:02X?}", derivation.frame);
            derivation.used.iter().for_each(|&name| counts.add(name));
        }
        counts.expect("constructors", 1000, &CONSTRUCTORS);
    }

    /// The list above is the grammar's own.
    #[test]
    fn every_constructor_is_listed() {
        let path = concat!(env!("CARGO_MANIFEST_DIR"), "/../crates/eb_grammar_spec/specs/Grammar.antt");
        let text = fs::read_to_string(path).expect("the grammar can be read");
        let mut inside = false;
        let mut found = Vec::new();
        for line in text.lines() {
            if !line.starts_with(' ') {
                inside = line.starts_with("pub data ");
            }
            let entry = line.strip_prefix("  ").filter(|entry| inside && !entry.starts_with([' ', '-']));
            found.extend(entry.and_then(|entry| entry.split_once(" : ")).map(|(name, _)| name));
        }
        assert_eq!(found, CONSTRUCTORS);
    }
}
