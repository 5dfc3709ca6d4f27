//! Random beacons: every record that can be written, and frames in any form that reads as such a record.

use crate::frame::{
    Address, Beacon, JoiningInformation, HEADER_TERMINATION_1, HEADER_TERMINATION_2, IETF, JOINING, LONGEST_FRAME,
    LONGEST_NETWORK_ID, LONG_HOPPING, MLME, PAYLOAD_TERMINATION, SHORT_SLOTFRAME, SHORT_SYNCHRONIZATION,
    SHORT_TIMESLOT, TIMINGS,
};
use crate::parts::{house_form, Content, Element, Form, Parts};
use crate::random::Random;
use crate::slot::{Link, LARGEST_ASN, MOST_LINKS};
use crate::worked;
use std::sync::LazyLock;

/// A record of at most `longest` bytes in the house form; `longest` is at least 38. Values are from their whole ranges
/// and often from the ends of these.
pub fn random_beacon(random: &mut Random, longest: usize) -> Beacon {
    loop {
        let size = match random.below(4) {
            0 => random.pick(&[1, 2, 65535]),
            1 => random.pick(&[11, 101]),
            _ => random.between(1, 65535) as u16,
        };
        let mut links = [Link::default(); MOST_LINKS];
        links[0] = random_link(random, size);
        let timings = random_timings(random);
        let mut beacon = Beacon {
            sequence: random.chance(50).then(|| random_number(random, 0xFF) as u8),
            pan: random_number(random, 0xFFFF) as u16,
            source: match random.below(2) {
                0 => Address::Short(random_number(random, 0xFFFF) as u16),
                _ => Address::Extended(random_number(random, u64::MAX)),
            },
            asn: random_number(random, LARGEST_ASN),
            join_metric: random_number(random, 0xFF) as u8,
            template: if timings.is_some() { random_number(random, 0xFF) as u8 } else { 0 },
            timings,
            hopping: if random.chance(50) { 0 } else { random_number(random, 0xFF) as u8 },
            handle: random_number(random, 0xFF) as u8,
            size,
            count: 1,
            links,
            joining: random.chance(60).then(|| random_joining(random)),
        };
        let length = house_form(&beacon).bytes().len();
        if length > longest {
            continue;
        }
        let most = MOST_LINKS.min(1 + (longest - length) / 5);
        beacon.count = random.between(1, most as u64) as usize;
        for place in 1..beacon.count {
            beacon.links[place] = random_link(random, size);
        }
        return beacon;
    }
}

/// A number from 0 to `largest`; both ends come often.
pub fn random_number(random: &mut Random, largest: u64) -> u64 {
    match random.below(8) {
        0 => 0,
        1 => largest,
        _ => random.between(0, largest),
    }
}

/// A link whose timeslot is below the size, which is at least 1.
pub fn random_link(random: &mut Random, size: u16) -> Link {
    Link {
        timeslot: random_number(random, u64::from(size) - 1) as u16,
        offset: random_number(random, 0xFFFF) as u16,
        options: random_number(random, 0xFF) as u8,
    }
}

/// None, twelve that fit in 2 bytes, or twelve of which one or both of the last two do not.
fn random_timings(random: &mut Random) -> Option<[u32; TIMINGS]> {
    let mut timings = [(); TIMINGS].map(|()| random_number(random, 0xFFFF) as u32);
    match random.below(3) {
        0 => return None,
        1 => {}
        _ => {
            let wide = random.pick(&[10, 11]);
            timings[wide] = random.between(1 << 16, (1 << 24) - 1) as u32;
            if random.chance(50) {
                timings[21 - wide] = random_number(random, (1 << 24) - 1) as u32;
            }
        }
    }
    Some(timings)
}

pub fn random_joining(random: &mut Random) -> JoiningInformation {
    let network_length = random.below(LONGEST_NETWORK_ID as u64 + 1) as usize;
    let mut network = [0; LONGEST_NETWORK_ID];
    network[..network_length].copy_from_slice(&random_bytes(random, network_length));
    JoiningInformation {
        router: random.chance(50),
        proxy: random.chance(50).then(|| random_number(random, u64::MAX)),
        proxy_priority: random_number(random, 0x7F) as u8,
        rank_priority: random_number(random, 0xFFF) as u16,
        pan_priority: random_number(random, 0xFF) as u8,
        network,
        network_length,
    }
}

static MINIMAL: LazyLock<Vec<u8>> = LazyLock::new(|| worked::bytes(worked::MINIMAL));

/// Random bytes, or bytes that look like a part of a frame, or one byte again and again.
pub fn random_bytes(random: &mut Random, length: usize) -> Vec<u8> {
    match random.below(8) {
        0 => vec![random.pick(&[0, 0xFF]); length],
        1 => {
            let start = random.below(MINIMAL.len() as u64) as usize;
            MINIMAL.iter().copied().cycle().skip(start).take(length).collect()
        }
        _ => (0..length).map(|_| random.number() as u8).collect(),
    }
}

/// A beacon with room for other parts in its frame or without, and its parts in another form.
pub fn free_form(random: &mut Random) -> (Beacon, Parts) {
    let longest = random.pick(&[50, 70, 90, 110, LONGEST_FRAME]);
    let beacon = random_beacon(random, longest);
    let parts = form_of(random, &beacon);
    (beacon, parts)
}

/// The parts of a beacon in a form that reads as the same record: elements in another order and in several groups,
/// elements that are skipped, bits that are ignored, bytes after the payload list. One in thirty has over 125 bytes.
pub fn form_of(random: &mut Random, beacon: &Beacon) -> Parts {
    let mut parts = house_form(beacon);
    let length = match random.below(30) {
        0 => LONGEST_FRAME + random.between(1, 400) as usize,
        _ => LONGEST_FRAME,
    };
    let mut room = length - parts.bytes().len();

    // Pending, acknowledge request and the reserved bit.
    parts.control |= random.number() as u16 & 0x00B0;
    if random.chance(30) {
        widen_timings(&mut parts, &mut room);
    }
    for element in &mut parts.payload {
        if let (true, Content::Bytes(bytes)) = (element.is_joining(), &mut element.content) {
            // The reserved bits.
            bytes[1] |= random.number() as u8 & 0x38;
        }
    }

    if random.chance(60) {
        parts.groups().into_iter().for_each(|group| shuffle(random, group));
    }
    for _ in 0..random.pick(&[0, 0, 1, 2]) {
        split_group(random, &mut parts, &mut room);
    }
    for _ in 0..random.pick(&[0, 0, 1, 2, 3]) {
        add_sub_element(random, &mut parts, &mut room);
    }
    for _ in 0..random.pick(&[0, 0, 1, 2]) {
        add_group(random, &mut parts, &mut room);
    }
    if random.chance(50) {
        shuffle(random, &mut parts.payload);
    }
    for _ in 0..random.pick(&[0, 0, 1, 2]) {
        add_header_element(random, &mut parts, &mut room);
    }
    if room >= 2 && random.chance(40) {
        parts.payload.push(Element::new(Form::Payload, PAYLOAD_TERMINATION, Vec::new()));
        room -= 2;
        if random.chance(50) {
            let length = random.below(room as u64 + 1) as usize;
            parts.tail = random_bytes(random, length);
        }
    }
    parts
}

/// A beacon's parts in the house form or another.
pub fn any_form(random: &mut Random) -> Parts {
    match random.below(2) {
        0 => {
            let longest = random.pick(&[45, 60, 80, LONGEST_FRAME]);
            house_form(&random_beacon(random, longest))
        }
        _ => free_form(random).1,
    }
}

/// Takes the room for an element with a content: of a few bytes, none, or as many as there is room for.
pub fn spend(random: &mut Random, room: &mut usize) -> Option<Vec<u8>> {
    let most = room.checked_sub(2)?;
    let length = match random.below(10) {
        0 => most,
        1 => 0,
        _ => random.below(most.min(12) as u64 + 1) as usize,
    };
    *room -= 2 + length;
    Some(random_bytes(random, length))
}

/// An ID up to `largest` that is none of the known ones; it is often one bit away from one of them.
pub fn other_than(random: &mut Random, largest: u16, known: &[u16]) -> u16 {
    loop {
        let id = match random.below(3) {
            0 => random.pick(known) ^ 1 << random.below(8),
            _ => random.between(0, u64::from(largest)) as u16,
        };
        if id <= largest && !known.contains(&id) {
            return id;
        }
    }
}

fn shuffle(random: &mut Random, elements: &mut [Element]) {
    for place in 1..elements.len() {
        elements.swap(place, random.below(place as u64 + 1) as usize);
    }
}

/// Puts an element somewhere into a list.
pub fn insert(random: &mut Random, elements: &mut Vec<Element>, element: Element) {
    let place = random.below(elements.len() as u64 + 1) as usize;
    elements.insert(place, element);
}

/// Gives timings of 25 bytes the form of 27.
fn widen_timings(parts: &mut Parts, room: &mut usize) {
    for element in parts.elements() {
        if let (true, Content::Bytes(bytes)) = (element.is(Form::Short, SHORT_TIMESLOT), &mut element.content) {
            if bytes.len() == 25 && *room >= 2 {
                bytes.insert(23, 0);
                bytes.push(0);
                *room -= 2;
            }
        }
    }
}

/// Moves the last sub-elements of an MLME group, or none or all of them, into a group of their own.
fn split_group(random: &mut Random, parts: &mut Parts, room: &mut usize) {
    let place = parts.payload.iter().position(|element| element.is(Form::Payload, MLME));
    let Some(element) = place.map(|place| &mut parts.payload[place]) else {
        return;
    };
    if let (Content::Elements(elements), true) = (&mut element.content, *room >= 2) {
        let rest = elements.split_off(random.below(elements.len() as u64 + 1) as usize);
        insert(random, &mut parts.payload, Element::group(rest));
        *room -= 2;
    }
}

/// Adds a sub-element that is not known.
fn add_sub_element(random: &mut Random, parts: &mut Parts, room: &mut usize) {
    const SHORT_KNOWN: [u16; 3] = [SHORT_SYNCHRONIZATION, SHORT_SLOTFRAME, SHORT_TIMESLOT];
    let Some(content) = spend(random, room) else {
        return;
    };
    let element = match random.below(2) {
        // Known IDs of the one form are unknown in the other.
        0 if random.chance(20) => Element::new(Form::Short, LONG_HOPPING, content),
        0 => Element::new(Form::Short, other_than(random, 0x7F, &SHORT_KNOWN), content),
        _ => Element::new(Form::Long, other_than(random, 0xF, &[LONG_HOPPING]), content),
    };
    let mut groups = parts.groups();
    let group = random.below(groups.len() as u64) as usize;
    insert(random, groups[group], element);
}

/// Adds a group that is skipped, an IETF group of another subtype, or an empty MLME group.
fn add_group(random: &mut Random, parts: &mut Parts, room: &mut usize) {
    const KNOWN: [u16; 3] = [MLME, IETF, PAYLOAD_TERMINATION];
    let Some(mut content) = spend(random, room) else {
        return;
    };
    let element = match (random.below(3), content.first_mut()) {
        (0, Some(subtype)) => {
            *subtype = other_than(random, 0xFF, &[u16::from(JOINING)]) as u8;
            Element::new(Form::Payload, IETF, content)
        }
        (1, _) => Element::group(Vec::new()),
        _ => Element::new(Form::Payload, other_than(random, 0xF, &KNOWN), content),
    };
    insert(random, &mut parts.payload, element);
}

/// Adds a header element that is skipped.
fn add_header_element(random: &mut Random, parts: &mut Parts, room: &mut usize) {
    let Some(mut content) = spend(random, room) else {
        return;
    };
    content.truncate(0x7F);
    let id = other_than(random, 0xFF, &[HEADER_TERMINATION_1, HEADER_TERMINATION_2]);
    // Before the terminator.
    let place = random.below(parts.header.len() as u64) as usize;
    parts.header.insert(place, Element::new(Form::Header, id, content));
}

#[cfg(test)]
mod tests {
    use super::*;
    use crate::coverage::Counts;
    use crate::frame::{self, Check};

    /// The house form holds all of a record, so that reading gives it back.
    #[test]
    fn house_form_reads_back() {
        let mut random = Random::new(0x401);
        for _ in 0..20_000 {
            let beacon = random_beacon(&mut random, LONGEST_FRAME);
            let frame = house_form(&beacon).bytes();
            assert_eq!(frame::read(&frame), Ok(beacon), "{frame:02X?}");
        }
    }

    /// What is done to the house form does not show in the record.
    #[test]
    fn free_form_reads_as_the_same_record() {
        let mut random = Random::new(0xF4EE);
        let mut counts = Counts::default();
        for _ in 0..20_000 {
            let (beacon, parts) = free_form(&mut random);
            let frame = parts.bytes();
            let expected = if frame.len() > LONGEST_FRAME { Err(Check::FrameTooLong) } else { Ok(beacon) };
            assert_eq!(frame::read(&frame), expected, "{parts:?}");
            if expected.is_ok() {
                count_features(&parts, &mut counts);
            }
        }
        counts.expect(
            "accepted frames with",
            200,
            &[
                "ignored bits of the frame control",
                "header elements that are skipped",
                "several MLME groups",
                "an empty MLME group",
                "sub-elements in another order",
                "short sub-elements that are skipped",
                "long sub-elements that are skipped",
                "timings of 27 bytes that fit in 25",
                "groups that are skipped",
                "IETF subtypes that are skipped",
                "reserved bits of joining information",
                "joining information before an MLME group",
                "a payload terminator",
                "bytes after the payload terminator",
            ],
        );
    }

    fn count_features(parts: &Parts, counts: &mut Counts) {
        let groups: Vec<&Vec<Element>> = parts
            .payload
            .iter()
            .filter_map(|element| match &element.content {
                Content::Elements(elements) => Some(elements),
                Content::Bytes(_) => None,
            })
            .collect();
        let sub_elements: Vec<&Element> = groups.iter().flat_map(|group| group.iter()).collect();
        let place = |id: u16| sub_elements.iter().position(|element| element.id == id && element.form == Form::Short);
        let short_known = [SHORT_SYNCHRONIZATION, SHORT_SLOTFRAME, SHORT_TIMESLOT];
        let known = |element: &&Element| match element.form {
            Form::Short => short_known.contains(&element.id),
            _ => element.id == LONG_HOPPING,
        };
        let skipped = |form: Form| sub_elements.iter().any(|element| element.form == form && !known(element));
        let bytes = |element: &Element| match &element.content {
            Content::Bytes(bytes) => bytes.clone(),
            Content::Elements(_) => Vec::new(),
        };
        let last_place = |rule: &dyn Fn(&Element) -> bool| parts.payload.iter().rposition(rule);
        let joining = last_place(&|element| element.is_joining());
        let narrow = |bytes: &[u8]| bytes.len() == 27 && bytes[23] == 0 && bytes[26] == 0;

        counts.add_if(parts.control & 0x00B0 != 0, "ignored bits of the frame control");
        counts.add_if(parts.header.len() > 1, "header elements that are skipped");
        counts.add_if(groups.len() > 1, "several MLME groups");
        counts.add_if(groups.iter().any(|group| group.is_empty()), "an empty MLME group");
        counts.add_if(place(SHORT_SLOTFRAME) < place(SHORT_SYNCHRONIZATION), "sub-elements in another order");
        counts.add_if(skipped(Form::Short), "short sub-elements that are skipped");
        counts.add_if(skipped(Form::Long), "long sub-elements that are skipped");
        counts.add_if(
            sub_elements.iter().any(|element| element.is(Form::Short, SHORT_TIMESLOT) && narrow(&bytes(element))),
            "timings of 27 bytes that fit in 25",
        );
        counts.add_if(
            parts.payload.iter().any(|element| ![MLME, IETF, PAYLOAD_TERMINATION].contains(&element.id)),
            "groups that are skipped",
        );
        counts.add_if(
            parts.payload.iter().any(|element| element.is(Form::Payload, IETF) && !element.is_joining()),
            "IETF subtypes that are skipped",
        );
        counts.add_if(
            joining.is_some_and(|place| bytes(&parts.payload[place])[1] & 0x38 != 0),
            "reserved bits of joining information",
        );
        counts.add_if(
            joining.is_some() && joining < last_place(&|element| element.is(Form::Payload, MLME)),
            "joining information before an MLME group",
        );
        counts.add_if(last_place(&|element| element.id == PAYLOAD_TERMINATION).is_some(), "a payload terminator");
        counts.add_if(!parts.tail.is_empty(), "bytes after the payload terminator");
    }
}
