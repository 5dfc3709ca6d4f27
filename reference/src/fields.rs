//! The fields of a beacon's record, each with a name and a content, and how two beacons differ: the reference for
//! comparing.

use crate::frame::{self, Address, Beacon, Check, TIMINGS};
use crate::slot::MOST_LINKS;
use std::fmt;
use std::iter::repeat_n;
use std::sync::LazyLock;

/// How many fields a record has.
pub use crate::header::FIELDS;

/// How many of them are of joining information.
const JOINING_FIELDS: usize = 7;

/// What a record has in a field.
#[derive(Clone, Debug, PartialEq, Eq)]
pub enum Content {
    Absent,
    Number(u64),
    Address(Address),
    Octets(Vec<u8>),
}

impl fmt::Display for Content {
    fn fmt(&self, text: &mut fmt::Formatter) -> fmt::Result {
        match self {
            Content::Absent => write!(text, "absent"),
            Content::Number(number) => write!(text, "{number}"),
            Content::Address(Address::Short(address)) => write!(text, "short:{address:04x}"),
            Content::Address(Address::Extended(address)) => write!(text, "extended:{address:016x}"),
            Content::Octets(octets) => {
                write!(text, "{}:", octets.len())?;
                octets.iter().try_for_each(|octet| write!(text, "{octet:02x}"))
            }
        }
    }
}

/// The names of the fields, in their order.
pub static NAMES: LazyLock<Vec<String>> = LazyLock::new(|| {
    let before_the_links = [
        "sequence-number",
        "pan-id",
        "source",
        "asn",
        "join-metric",
        "template-id",
        "timing-cca-offset",
        "timing-cca",
        "timing-tx-offset",
        "timing-rx-offset",
        "timing-rx-ack-delay",
        "timing-tx-ack-delay",
        "timing-rx-wait",
        "timing-ack-wait",
        "timing-rx-tx",
        "timing-max-ack",
        "timing-max-tx",
        "timing-timeslot-length",
        "hopping-sequence-id",
        "slotframe-handle",
        "slotframe-size",
        "link-count",
    ];
    let of_a_link = |place| ["timeslot", "channel-offset", "options"].map(|of| format!("link-{place}-{of}"));
    let behind_the_links =
        ["joining-r", "joining-p", "proxy-priority", "rank-priority", "pan-priority", "proxy-address", "network-id"];
    let links = (0..MOST_LINKS).flat_map(of_a_link);
    before_the_links.map(String::from).into_iter().chain(links).chain(behind_the_links.map(String::from)).collect()
});

/// The contents of a record's fields, in the order of the names.
pub fn contents(beacon: &Beacon) -> Vec<Content> {
    let mut contents = vec![
        beacon.sequence.map_or(Content::Absent, number),
        number(beacon.pan),
        Content::Address(beacon.source),
        number(beacon.asn),
        number(beacon.join_metric),
        number(beacon.template),
    ];
    match beacon.timings {
        None => contents.extend(repeat_n(Content::Absent, TIMINGS)),
        Some(timings) => contents.extend(timings.map(number)),
    }
    contents.extend([number(beacon.hopping), number(beacon.handle), number(beacon.size), number(beacon.count as u64)]);
    for (place, link) in beacon.links.iter().enumerate() {
        match place < beacon.count {
            false => contents.extend(repeat_n(Content::Absent, 3)),
            true => contents.extend([number(link.timeslot), number(link.offset), number(link.options)]),
        }
    }
    match &beacon.joining {
        None => contents.extend(repeat_n(Content::Absent, JOINING_FIELDS)),
        Some(joining) => contents.extend([
            number(joining.router),
            number(joining.proxy.is_some()),
            number(joining.proxy_priority),
            number(joining.rank_priority),
            number(joining.pan_priority),
            joining.proxy.map_or(Content::Absent, |proxy| Content::Address(Address::Extended(proxy))),
            Content::Octets(joining.network[..joining.network_length].to_vec()),
        ]),
    }
    contents
}

fn number(number: impl Into<u64>) -> Content {
    Content::Number(number.into())
}

/// A field that differs: its place among the fields, and both contents.
#[derive(Clone, Debug, PartialEq, Eq)]
pub struct Difference {
    pub field: usize,
    pub first: Content,
    pub second: Content,
}

/// The fields that differ, in their order; the numbers of both frames if one is refused, 0 for one that reads.
pub type Comparison = Result<Vec<Difference>, [u8; 2]>;

/// Compares two frames.
pub fn compare(first: &[u8], second: &[u8]) -> Comparison {
    match (frame::read(first), frame::read(second)) {
        (Ok(first), Ok(second)) => Ok(differences(&first, &second)),
        (first, second) => Err([first, second].map(|answer| answer.map_or_else(Check::number, |_| 0))),
    }
}

fn differences(first: &Beacon, second: &Beacon) -> Vec<Difference> {
    let pairs = contents(first).into_iter().zip(contents(second)).enumerate();
    pairs
        .filter(|(_, (first, second))| first != second)
        .map(|(field, (first, second))| Difference { field, first, second })
        .collect()
}

/// A comparison as lines: one for each field that differs, or one for a refusal.
pub fn text(comparison: &Comparison) -> String {
    match comparison {
        Err([first, second]) => format!("refused {first} {second}\n"),
        Ok(differences) => differences
            .iter()
            .map(|Difference { field, first, second }| format!("{} {first} {second}\n", NAMES[*field]))
            .collect(),
    }
}
