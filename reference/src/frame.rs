//! Reading Enhanced Beacon frames (IEEE 802.15.4-2015, with the settings of RFC 8180): the reference for the reader.
//!
//! Reading has two halves. The first goes through the frame, makes every check in its order and keeps the content of
//! each known element; the second decodes what was kept, where nothing can go wrong any more.

use crate::mac::{address, field, frame_control, header_list, Control, Fields, BEACON, BIT_15};
use crate::slot::{Link, MOST_LINKS};

pub use crate::header::{NETWORK_ID_BYTES as LONGEST_NETWORK_ID, TIMINGS};
pub use crate::mac::{Address, Check, EXTENDED, HEADER_TERMINATION_1, HEADER_TERMINATION_2, LONGEST_FRAME, SHORT};

/// The destination of every beacon.
pub const BROADCAST: u16 = 0xFFFF;

/// Group IDs of the payload list; the IETF's is from RFC 8137.
pub const MLME: u16 = 1;
pub const IETF: u16 = 5;
pub const PAYLOAD_TERMINATION: u16 = 15;

/// The sub-elements of the MLME group that are known: three of the short form, one of the long form.
pub const SHORT_SYNCHRONIZATION: u16 = 0x1A;
pub const SHORT_SLOTFRAME: u16 = 0x1B;
pub const SHORT_TIMESLOT: u16 = 0x1C;
pub const LONG_HOPPING: u16 = 0x9;

/// The IETF subtype of joining information, from RFC 9032.
pub const JOINING: u8 = 2;

/// The flags of joining information stand in one number with the priorities, most significant byte first: R 31, P 30,
/// reserved and ignored 27 to 29, proxy priority 20 to 26, rank priority 8 to 19, PAN priority 0 to 7.
pub const R_FLAG: u32 = 1 << 31;
pub const P_FLAG: u32 = 1 << 30;

/// What a beacon says. Links from `count` on are zero.
#[derive(Clone, Debug, PartialEq, Eq)]
pub struct Beacon {
    pub sequence: Option<u8>,
    pub pan: u16,
    pub source: Address,
    pub asn: u64,
    pub join_metric: u8,
    pub template: u8,
    pub timings: Option<[u32; TIMINGS]>,
    pub hopping: u8,
    pub handle: u8,
    pub size: u16,
    pub count: usize,
    pub links: [Link; MOST_LINKS],
    pub joining: Option<JoiningInformation>,
}

/// Joining information; `router` is its R flag, and its P flag says that there is a `proxy`, the join proxy's address.
/// Bytes of the network ID from `network_length` on are zero.
#[derive(Clone, Debug, Default, PartialEq, Eq)]
pub struct JoiningInformation {
    pub router: bool,
    pub proxy: Option<u64>,
    pub proxy_priority: u8,
    pub rank_priority: u16,
    pub pan_priority: u8,
    pub network: [u8; LONGEST_NETWORK_ID],
    pub network_length: usize,
}

/// The frame's record, or the first check that it fails.
pub fn read(frame: &[u8]) -> Result<Beacon, Check> {
    let contents = examine(frame)?;
    let [a, b, c, d, e, join_metric] = *contents.synchronization;
    let mut links = [Link::default(); MOST_LINKS];
    for (link, bytes) in links.iter_mut().zip(contents.slotframe.links) {
        *link = decode_link(bytes);
    }
    Ok(Beacon {
        sequence: contents.fields.sequence,
        pan: contents.fields.pan,
        source: contents.fields.source,
        asn: u64::from_le_bytes([a, b, c, d, e, 0, 0, 0]),
        join_metric,
        template: contents.timeslot[0],
        timings: decode_timings(&contents.timeslot[1..]),
        hopping: contents.hopping,
        handle: contents.slotframe.handle,
        size: contents.slotframe.size,
        count: contents.slotframe.links.len(),
        links,
        joining: contents.joining.map(decode_joining),
    })
}

/// The network ID as part of the frame; the empty part at its start if the frame is refused or says none.
pub fn network_id(frame: &[u8]) -> &[u8] {
    match examine(frame) {
        Ok(Contents { joining: Some(Joining { network, .. }), .. }) if !network.is_empty() => network,
        _ => &frame[..0],
    }
}

/// A frame that passed every check: its fields, and its elements where they stand.
struct Contents<'a> {
    fields: Fields,
    synchronization: &'a [u8; 6],
    /// Template ID, then the timings.
    timeslot: &'a [u8],
    hopping: u8,
    slotframe: Slotframe<'a>,
    joining: Option<Joining<'a>>,
}

#[derive(Clone, Copy)]
struct Slotframe<'a> {
    handle: u8,
    size: u16,
    links: &'a [[u8; 5]],
}

#[derive(Clone, Copy)]
struct Joining<'a> {
    /// Flags and priorities.
    word: u32,
    proxy: Option<u64>,
    network: &'a [u8],
}

/// Makes every check, in the order that decides which of several faults a frame is refused for.
fn examine(frame: &[u8]) -> Result<Contents<'_>, Check> {
    let (fields, list) = fixed_fields(frame)?;
    // No header element is known.
    let payload = header_list(list, |_, _| Ok(()))?;
    let mut elements = Elements::default();
    elements.payload_list(payload)?;
    Ok(Contents {
        fields,
        synchronization: elements.synchronization.ok_or(Check::SynchronizationMissing)?,
        timeslot: elements.timeslot.ok_or(Check::TimeslotMissing)?,
        hopping: elements.hopping.ok_or(Check::HoppingMissing)?,
        slotframe: elements.slotframe.ok_or(Check::SlotframeMissing)?,
        joining: elements.joining,
    })
}

/// Reads what stands before the header list; gives that list too.
fn fixed_fields(frame: &[u8]) -> Result<(Fields, &[u8]), Check> {
    let (control, mut rest) = frame_control(frame)?;
    let control = Control::read(control, BEACON, &[SHORT])?;
    // All fields must be there before the value of any is looked at.
    let sequence = control.sequence(&mut rest)?;
    let pan = u16::from_le_bytes(field(&mut rest)?);
    let destination = u16::from_le_bytes(field(&mut rest)?);
    let source = address(control.source_mode, &mut rest)?;
    if destination != BROADCAST {
        return Err(Check::Destination);
    }
    Ok((Fields { sequence, pan, destination: Address::Short(BROADCAST), source }, rest))
}

/// The known elements met so far; each has passed all checks of its own.
#[derive(Default)]
struct Elements<'a> {
    synchronization: Option<&'a [u8; 6]>,
    timeslot: Option<&'a [u8]>,
    hopping: Option<u8>,
    slotframe: Option<Slotframe<'a>>,
    joining: Option<Joining<'a>>,
}

impl<'a> Elements<'a> {
    fn payload_list(&mut self, mut list: &'a [u8]) -> Result<(), Check> {
        while !list.is_empty() {
            let Some((descriptor, rest)) = list.split_first_chunk() else {
                return Err(Check::PayloadDescriptorCut);
            };
            let descriptor = u16::from_le_bytes(*descriptor);
            let length = usize::from(descriptor & 0x7FF);
            let id = descriptor >> 11 & 0xF;
            let Some((group, rest)) = rest.split_at_checked(length) else {
                return Err(Check::GroupPastFrame);
            };
            if descriptor & BIT_15 == 0 {
                return Err(Check::PayloadBit15);
            }
            match id {
                MLME => self.mlme_group(group)?,
                IETF => self.ietf_group(group)?,
                PAYLOAD_TERMINATION if length != 0 => return Err(Check::PayloadTerminationWithLength),
                PAYLOAD_TERMINATION => return Ok(()),
                _ => {}
            }
            list = rest;
        }
        Ok(())
    }

    fn mlme_group(&mut self, mut group: &'a [u8]) -> Result<(), Check> {
        while !group.is_empty() {
            let Some((descriptor, rest)) = group.split_first_chunk() else {
                return Err(Check::SubElementDescriptorCut);
            };
            let descriptor = u16::from_le_bytes(*descriptor);
            let long = descriptor & BIT_15 != 0;
            let (length, id) = match long {
                false => (descriptor & 0xFF, descriptor >> 8 & 0x7F),
                true => (descriptor & 0x7FF, descriptor >> 11 & 0xF),
            };
            let Some((content, rest)) = rest.split_at_checked(usize::from(length)) else {
                return Err(Check::SubElementPastGroup);
            };
            match (long, id) {
                (false, SHORT_SYNCHRONIZATION) => self.synchronization(content)?,
                (false, SHORT_TIMESLOT) => self.timeslot(content)?,
                (true, LONG_HOPPING) => self.hopping(content)?,
                (false, SHORT_SLOTFRAME) => self.slotframe(content)?,
                _ => {}
            }
            group = rest;
        }
        Ok(())
    }

    fn synchronization(&mut self, content: &'a [u8]) -> Result<(), Check> {
        let Ok(content) = content.try_into() else {
            return Err(Check::SynchronizationLength);
        };
        if self.synchronization.is_some() {
            return Err(Check::SynchronizationTwice);
        }
        self.synchronization = Some(content);
        Ok(())
    }

    fn timeslot(&mut self, content: &'a [u8]) -> Result<(), Check> {
        if !matches!(content.len(), 1 | 25 | 27) {
            return Err(Check::TimeslotLength);
        }
        if self.timeslot.is_some() {
            return Err(Check::TimeslotTwice);
        }
        if content.len() == 1 && content[0] != 0 {
            return Err(Check::TimeslotTemplate);
        }
        self.timeslot = Some(content);
        Ok(())
    }

    fn hopping(&mut self, content: &'a [u8]) -> Result<(), Check> {
        let Some((&sequence, more)) = content.split_first() else {
            return Err(Check::HoppingEmpty);
        };
        if self.hopping.is_some() {
            return Err(Check::HoppingTwice);
        }
        if !more.is_empty() {
            return Err(Check::HoppingTooLong);
        }
        self.hopping = Some(sequence);
        Ok(())
    }

    /// Here the number of slotframes is looked at before the length, since the length's rule is for one slotframe.
    fn slotframe(&mut self, content: &'a [u8]) -> Result<(), Check> {
        let Some((&[slotframes, handle, size_low, size_high, count], links)) = content.split_first_chunk() else {
            return Err(Check::SlotframeUnderFiveBytes);
        };
        if slotframes != 1 {
            return Err(Check::SlotframeCount);
        }
        if links.len() != 5 * usize::from(count) {
            return Err(Check::SlotframeLength);
        }
        if self.slotframe.is_some() {
            return Err(Check::SlotframeTwice);
        }
        let size = u16::from_le_bytes([size_low, size_high]);
        let (links, _) = links.as_chunks();
        if size == 0 {
            return Err(Check::SlotframeSize);
        }
        if links.is_empty() {
            return Err(Check::NoLinks);
        }
        if links.len() > MOST_LINKS {
            return Err(Check::TooManyLinks);
        }
        if links.iter().any(|link| decode_link(link).timeslot >= size) {
            return Err(Check::LinkTimeslot);
        }
        self.slotframe = Some(Slotframe { handle, size, links });
        Ok(())
    }

    fn ietf_group(&mut self, group: &'a [u8]) -> Result<(), Check> {
        match group {
            [] => Err(Check::IetfEmpty),
            [JOINING, content @ ..] => self.joining(content),
            _ => Ok(()),
        }
    }

    fn joining(&mut self, content: &'a [u8]) -> Result<(), Check> {
        let Some((word, rest)) = content.split_first_chunk() else {
            return Err(Check::JoiningTooShort);
        };
        let word = u32::from_be_bytes(*word);
        let (proxy, network) = match (word & P_FLAG != 0, rest.split_first_chunk()) {
            (false, _) => (None, rest),
            (true, Some((address, rest))) => (Some(u64::from_be_bytes(*address)), rest),
            (true, None) => return Err(Check::JoiningAddressCut),
        };
        if network.len() > LONGEST_NETWORK_ID {
            return Err(Check::JoiningTooLong);
        }
        if self.joining.is_some() {
            return Err(Check::JoiningTwice);
        }
        self.joining = Some(Joining { word, proxy, network });
        Ok(())
    }
}

fn decode_link(&[slot_low, slot_high, offset_low, offset_high, options]: &[u8; 5]) -> Link {
    Link {
        timeslot: u16::from_le_bytes([slot_low, slot_high]),
        offset: u16::from_le_bytes([offset_low, offset_high]),
        options,
    }
}

/// The timings after a template ID: none, or twelve of two bytes, of which the last two may have three.
fn decode_timings(bytes: &[u8]) -> Option<[u32; TIMINGS]> {
    let (first, last) = bytes.split_at_checked(20)?;
    let mut timings = [0; TIMINGS];
    for (timing, bytes) in timings.iter_mut().zip(first.as_chunks().0) {
        *timing = u16::from_le_bytes(*bytes).into();
    }
    [timings[10], timings[11]] = match *last {
        [a, b, c, d] => [u32::from_le_bytes([a, b, 0, 0]), u32::from_le_bytes([c, d, 0, 0])],
        [a, b, c, d, e, f] => [u32::from_le_bytes([a, b, c, 0]), u32::from_le_bytes([d, e, f, 0])],
        _ => return None,
    };
    Some(timings)
}

fn decode_joining(Joining { word, proxy, network }: Joining) -> JoiningInformation {
    let mut padded = [0; LONGEST_NETWORK_ID];
    padded[..network.len()].copy_from_slice(network);
    JoiningInformation {
        router: word & R_FLAG != 0,
        proxy,
        proxy_priority: (word >> 20 & 0x7F) as u8,
        rank_priority: (word >> 8 & 0xFFF) as u16,
        pan_priority: (word & 0xFF) as u8,
        network: padded,
        network_length: network.len(),
    }
}
