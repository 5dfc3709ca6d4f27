//! Frames in parts, to be put together, rearranged and damaged before they become bytes; and a beacon's parts in the
//! form in which beacons are written.

use crate::frame::{
    Address, Beacon, JoiningInformation, BROADCAST, EXTENDED, HEADER_TERMINATION_1, IETF, JOINING, LONGEST_FRAME,
    LONG_HOPPING, MLME, P_FLAG, R_FLAG, SHORT, SHORT_SLOTFRAME, SHORT_SYNCHRONIZATION, SHORT_TIMESLOT,
};
use crate::slot::Link;

#[derive(Clone, Debug)]
pub struct Parts {
    pub control: u16,
    pub sequence: Option<u8>,
    pub pan: u16,
    pub destination: Address,
    pub source: Address,
    /// Both lists hold their terminator, if there is one.
    pub header: Vec<Element>,
    pub payload: Vec<Element>,
    /// Bytes after both lists.
    pub tail: Vec<u8>,
}

/// An element of one of the lists. Its descriptor is made when it is put into bytes.
#[derive(Clone, Debug)]
pub struct Element {
    pub form: Form,
    pub id: u16,
    pub content: Content,
    /// A length that the descriptor gives in place of the content's.
    pub stated: Option<u16>,
    pub bit_15_inverted: bool,
}

#[derive(Clone, Copy, Debug, PartialEq, Eq)]
pub enum Form {
    Header,
    Payload,
    Short,
    Long,
    /// Bytes without a descriptor.
    Bare,
}

#[derive(Clone, Debug)]
pub enum Content {
    Bytes(Vec<u8>),
    Elements(Vec<Element>),
}

impl Element {
    pub fn new(form: Form, id: u16, content: Vec<u8>) -> Element {
        Element { form, id, content: Content::Bytes(content), stated: None, bit_15_inverted: false }
    }

    /// An MLME group.
    pub fn group(elements: Vec<Element>) -> Element {
        Element { content: Content::Elements(elements), ..Element::new(Form::Payload, MLME, Vec::new()) }
    }

    pub fn is(&self, form: Form, id: u16) -> bool {
        self.form == form && self.id == id
    }

    pub fn is_joining(&self) -> bool {
        self.is(Form::Payload, IETF) && matches!(&self.content, Content::Bytes(bytes) if bytes.starts_with(&[JOINING]))
    }

    /// Appends the element to a frame; notes where it puts descriptors.
    pub fn put(&self, frame: &mut Vec<u8>, descriptors: &mut Vec<usize>) {
        let start = frame.len();
        if self.form != Form::Bare {
            descriptors.push(start);
            frame.extend([0, 0]);
        }
        let content_start = frame.len();
        match &self.content {
            Content::Bytes(bytes) => frame.extend(bytes),
            Content::Elements(elements) => elements.iter().for_each(|element| element.put(frame, descriptors)),
        }
        let length = self.stated.unwrap_or((frame.len() - content_start) as u16);
        let descriptor = match self.form {
            Form::Header => length & 0x7F | self.id << 7,
            Form::Payload | Form::Long => length & 0x7FF | self.id << 11 | 1 << 15,
            Form::Short => length & 0xFF | self.id << 8,
            Form::Bare => return,
        };
        let descriptor = descriptor ^ u16::from(self.bit_15_inverted) << 15;
        frame[start..content_start].copy_from_slice(&descriptor.to_le_bytes());
    }
}

impl Parts {
    pub fn bytes(&self) -> Vec<u8> {
        self.bytes_and_descriptors().0
    }

    /// The frame, and where in it the descriptors stand.
    pub fn bytes_and_descriptors(&self) -> (Vec<u8>, Vec<usize>) {
        let mut frame = Vec::with_capacity(2 * LONGEST_FRAME);
        let mut descriptors = Vec::new();
        frame.extend(self.control.to_le_bytes());
        frame.extend(self.sequence);
        frame.extend(self.pan.to_le_bytes());
        for address in [self.destination, self.source] {
            match address {
                Address::Short(address) => frame.extend(address.to_le_bytes()),
                Address::Extended(address) => frame.extend(address.to_le_bytes()),
            }
        }
        for element in self.header.iter().chain(&self.payload) {
            element.put(&mut frame, &mut descriptors);
        }
        frame.extend(&self.tail);
        (frame, descriptors)
    }

    /// The elements of both lists, with the sub-elements of a group in place of the group.
    pub fn elements(&mut self) -> Vec<&mut Element> {
        let mut found = Vec::new();
        for element in self.header.iter_mut().chain(&mut self.payload) {
            if let Content::Bytes(_) = element.content {
                found.push(element);
            } else if let Content::Elements(elements) = &mut element.content {
                found.extend(elements);
            }
        }
        found
    }

    /// The sub-elements of each MLME group.
    pub fn groups(&mut self) -> Vec<&mut Vec<Element>> {
        let lists = self.payload.iter_mut().map(|element| match &mut element.content {
            Content::Elements(elements) => Some(elements),
            Content::Bytes(_) => None,
        });
        lists.flatten().collect()
    }
}

/// A beacon as it is written: the four sub-elements in one group, then joining information, and no payload terminator.
pub fn house_form(beacon: &Beacon) -> Parts {
    let source_mode = match beacon.source {
        Address::Short(_) => SHORT,
        Address::Extended(_) => EXTENDED,
    };
    let suppressed = u16::from(beacon.sequence.is_none());
    // PAN ID compression, sequence number suppressed, elements present, destination mode, version 2, source mode.
    let control = 1 << 6 | suppressed << 8 | 1 << 9 | SHORT << 10 | 2 << 12 | source_mode << 14;

    let mut synchronization = beacon.asn.to_le_bytes()[..5].to_vec();
    synchronization.push(beacon.join_metric);
    let mut slotframe = vec![1, beacon.handle];
    slotframe.extend(beacon.size.to_le_bytes());
    slotframe.push(beacon.count as u8);
    slotframe.extend(beacon.links[..beacon.count].iter().flat_map(link_bytes));
    let mut payload = vec![Element::group(vec![
        Element::new(Form::Short, SHORT_SYNCHRONIZATION, synchronization),
        Element::new(Form::Short, SHORT_TIMESLOT, timeslot_bytes(beacon)),
        Element::new(Form::Long, LONG_HOPPING, vec![beacon.hopping]),
        Element::new(Form::Short, SHORT_SLOTFRAME, slotframe),
    ])];
    if let Some(joining) = &beacon.joining {
        payload.push(Element::new(Form::Payload, IETF, joining_bytes(joining)));
    }
    Parts {
        control,
        sequence: beacon.sequence,
        pan: beacon.pan,
        destination: Address::Short(BROADCAST),
        source: beacon.source,
        header: vec![Element::new(Form::Header, HEADER_TERMINATION_1, Vec::new())],
        payload,
        tail: Vec::new(),
    }
}

pub fn link_bytes(link: &Link) -> [u8; 5] {
    let [slot_low, slot_high] = link.timeslot.to_le_bytes();
    let [offset_low, offset_high] = link.offset.to_le_bytes();
    [slot_low, slot_high, offset_low, offset_high, link.options]
}

fn timeslot_bytes(beacon: &Beacon) -> Vec<u8> {
    let mut bytes = vec![beacon.template];
    if let Some(timings) = &beacon.timings {
        let last_width = if timings[10..].iter().all(|timing| *timing < 1 << 16) { 2 } else { 3 };
        for (place, timing) in timings.iter().enumerate() {
            let width = if place < 10 { 2 } else { last_width };
            bytes.extend(&timing.to_le_bytes()[..width]);
        }
    }
    bytes
}

/// The content of joining information, its subtype included.
pub fn joining_bytes(joining: &JoiningInformation) -> Vec<u8> {
    let mut word = u32::from(joining.proxy_priority) << 20
        | u32::from(joining.rank_priority) << 8
        | u32::from(joining.pan_priority);
    if joining.router {
        word |= R_FLAG;
    }
    if joining.proxy.is_some() {
        word |= P_FLAG;
    }
    let mut bytes = vec![JOINING];
    bytes.extend(word.to_be_bytes());
    bytes.extend(joining.proxy.into_iter().flat_map(u64::to_be_bytes));
    bytes.extend(&joining.network[..joining.network_length]);
    bytes
}
