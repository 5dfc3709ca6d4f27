//! A reader that fills C's record as it goes: a second reading of the rules, and a yardstick for speed. It does what the
//! library's reader does, with no record of its own in between.

use crate::frame::{LONGEST_FRAME, LONGEST_NETWORK_ID};
use crate::interface::{Beacon, Link, Reading};
use crate::refusal::{ADDRESSING, CUT, FRAME_TOO_LONG, MISSING_OR_TWICE, OUT_OF_LIMITS, SECURED, SHAPE, WRONG_TYPE};
use crate::slot::MOST_LINKS;

/// Reads a frame, each field when it is met.
pub fn read(frame: &[u8]) -> Reading {
    let mut beacon = Beacon::default();
    match fill(frame, &mut beacon) {
        Ok(()) => Reading { number: 0, beacon },
        Err(number) => Reading { number, beacon: Beacon::default() },
    }
}

/// Bits that stand for the known elements, to note which were met.
const SYNCHRONIZATION_MET: u8 = 1;
const TIMESLOT_MET: u8 = 2;
const HOPPING_MET: u8 = 4;
const SLOTFRAME_MET: u8 = 8;
const JOINING_MET: u8 = 16;
const REQUIRED: u8 = SYNCHRONIZATION_MET | TIMESLOT_MET | HOPPING_MET | SLOTFRAME_MET;

fn fill(frame: &[u8], out: &mut Beacon) -> Result<(), u8> {
    if frame.len() > LONGEST_FRAME {
        return Err(FRAME_TOO_LONG);
    }
    if frame.len() < 2 {
        return Err(CUT);
    }
    let control = le16(frame, 0);
    // Type 0, version 2.
    if control & 0x3007 != 0x2000 {
        return Err(WRONG_TYPE);
    }
    if control & 0x0008 != 0 {
        return Err(SECURED);
    }
    // Compression, elements present, destination mode 2, source mode 2 or 3.
    if control & 0x8E40 != 0x8A40 {
        return Err(ADDRESSING);
    }
    let has_sequence = control & 0x0100 == 0;
    let extended = control & 0x4000 != 0;
    let pan = if has_sequence { 3 } else { 2 };
    let source = pan + 4;
    let list = source + if extended { 8 } else { 2 };
    if list > frame.len() {
        return Err(CUT);
    }
    if le16(frame, pan + 2) != 0xFFFF {
        return Err(ADDRESSING);
    }
    if has_sequence {
        out.has_sequence_number = true;
        out.sequence_number = frame[2];
    }
    out.pan_id = le16(frame, pan);
    out.source_is_extended = extended;
    out.source = if extended { le64(frame, source) } else { le16(frame, source).into() };

    let met = match payload_start(frame, list)? {
        Some(start) => fill_payload(frame, start, out)?,
        None => 0,
    };
    if met & REQUIRED == REQUIRED {
        Ok(())
    } else {
        Err(MISSING_OR_TWICE)
    }
}

/// Goes through the header list; gives the place of the payload list, if one follows.
fn payload_start(frame: &[u8], mut at: usize) -> Result<Option<usize>, u8> {
    while at < frame.len() {
        if at + 2 > frame.len() {
            return Err(CUT);
        }
        let word = le16(frame, at);
        let length = usize::from(word & 0x7F);
        at += 2 + length;
        if at > frame.len() {
            return Err(CUT);
        }
        // Bit 15 belongs to no ID, so a word with it set ends neither way.
        match word >> 7 {
            0x100.. => return Err(SHAPE),
            0x7E if length == 0 => return Ok(Some(at)),
            0x7F if length == 0 => return Ok(None),
            0x7E | 0x7F => return Err(SHAPE),
            _ => {}
        }
    }
    Ok(None)
}

fn fill_payload(frame: &[u8], mut at: usize, out: &mut Beacon) -> Result<u8, u8> {
    let mut met = 0;
    while at < frame.len() {
        if at + 2 > frame.len() {
            return Err(CUT);
        }
        let word = le16(frame, at);
        let start = at + 2;
        let end = start + usize::from(word & 0x7FF);
        if end > frame.len() {
            return Err(CUT);
        }
        if word < 0x8000 {
            return Err(SHAPE);
        }
        match word >> 11 & 0xF {
            1 => fill_group(&frame[start..end], &mut met, out)?,
            5 if start == end => return Err(SHAPE),
            5 if frame[start] == 2 => fill_joining(&frame[start + 1..end], &mut met, out)?,
            15 if start != end => return Err(SHAPE),
            15 => break,
            _ => {}
        }
        at = end;
    }
    Ok(met)
}

fn fill_group(group: &[u8], met: &mut u8, out: &mut Beacon) -> Result<(), u8> {
    let mut at = 0;
    while at < group.len() {
        if at + 2 > group.len() {
            return Err(CUT);
        }
        let word = le16(group, at);
        let long = word >= 0x8000;
        let start = at + 2;
        let end = start + usize::from(word & if long { 0x7FF } else { 0xFF });
        if end > group.len() {
            return Err(CUT);
        }
        let content = &group[start..end];
        match if long { word & 0xF800 } else { word & 0xFF00 } {
            0x1A00 => {
                if content.len() != 6 {
                    return Err(SHAPE);
                }
                meet(met, SYNCHRONIZATION_MET)?;
                out.synchronization.asn = u64::from(le32(content, 0)) | u64::from(content[4]) << 32;
                out.synchronization.join_metric = content[5];
            }
            0x1C00 => fill_timeslot(content, met, out)?,
            0xC800 => {
                if content.is_empty() {
                    return Err(SHAPE);
                }
                meet(met, HOPPING_MET)?;
                if content.len() > 1 {
                    return Err(OUT_OF_LIMITS);
                }
                out.hopping_sequence_id = content[0];
            }
            0x1B00 => fill_slotframe(content, met, out)?,
            _ => {}
        }
        at = end;
    }
    Ok(())
}

fn fill_timeslot(content: &[u8], met: &mut u8, out: &mut Beacon) -> Result<(), u8> {
    let with_timings = match content.len() {
        1 => false,
        25 | 27 => true,
        _ => return Err(SHAPE),
    };
    meet(met, TIMESLOT_MET)?;
    if !with_timings {
        // The template ID stays 0.
        return if content[0] == 0 { Ok(()) } else { Err(OUT_OF_LIMITS) };
    }
    out.timeslot.template_id = content[0];
    out.timeslot.has_timings = true;
    let timings = &mut out.timeslot.timings;
    for (place, timing) in timings[..10].iter_mut().enumerate() {
        *timing = le16(content, 1 + 2 * place).into();
    }
    if content.len() == 25 {
        timings[10] = le16(content, 21).into();
        timings[11] = le16(content, 23).into();
    } else {
        timings[10] = u32::from(le16(content, 21)) | u32::from(content[23]) << 16;
        timings[11] = u32::from(le16(content, 24)) | u32::from(content[26]) << 16;
    }
    Ok(())
}

fn fill_slotframe(content: &[u8], met: &mut u8, out: &mut Beacon) -> Result<(), u8> {
    if content.len() < 5 {
        return Err(SHAPE);
    }
    if content[0] != 1 {
        return Err(OUT_OF_LIMITS);
    }
    let count = content[4];
    if content.len() != 5 + 5 * usize::from(count) {
        return Err(SHAPE);
    }
    meet(met, SLOTFRAME_MET)?;
    let size = le16(content, 2);
    if size == 0 || count == 0 || usize::from(count) > MOST_LINKS {
        return Err(OUT_OF_LIMITS);
    }
    out.slotframe.handle = content[1];
    out.slotframe.size = size;
    out.slotframe.link_count = count.into();
    for (link, bytes) in out.slotframe.links.iter_mut().zip(content[5..].chunks_exact(5)) {
        let timeslot = le16(bytes, 0);
        if timeslot >= size {
            return Err(OUT_OF_LIMITS);
        }
        *link = Link { timeslot, channel_offset: le16(bytes, 2), options: bytes[4].into() };
    }
    Ok(())
}

fn fill_joining(content: &[u8], met: &mut u8, out: &mut Beacon) -> Result<(), u8> {
    if content.len() < 4 {
        return Err(SHAPE);
    }
    let has_proxy = content[0] & 0x40 != 0;
    let start = if has_proxy { 12 } else { 4 };
    if content.len() < start || content.len() > start + LONGEST_NETWORK_ID {
        return Err(SHAPE);
    }
    meet(met, JOINING_MET)?;
    let length = content.len() - start;
    let joining = &mut out.joining;
    joining.present = true;
    joining.router = content[0] & 0x80 != 0;
    joining.proxied = has_proxy;
    joining.proxy_priority = (content[0] & 0x07) << 4 | content[1] >> 4;
    joining.rank_priority = u16::from(content[1] & 0x0F) << 8 | u16::from(content[2]);
    joining.pan_priority = content[3];
    if has_proxy {
        joining.proxy_address = le64(content, 4).swap_bytes();
    }
    joining.network_id_length = length as u8;
    joining.network_id[..length].copy_from_slice(&content[start..]);
    Ok(())
}

/// Notes that an element was met, for the first time.
fn meet(met: &mut u8, element: u8) -> Result<(), u8> {
    if *met & element != 0 {
        return Err(MISSING_OR_TWICE);
    }
    *met |= element;
    Ok(())
}

fn le16(bytes: &[u8], at: usize) -> u16 {
    u16::from_le_bytes(array(bytes, at))
}

fn le32(bytes: &[u8], at: usize) -> u32 {
    u32::from_le_bytes(array(bytes, at))
}

fn le64(bytes: &[u8], at: usize) -> u64 {
    u64::from_le_bytes(array(bytes, at))
}

fn array<const N: usize>(bytes: &[u8], at: usize) -> [u8; N] {
    let mut array = [0; N];
    array.copy_from_slice(&bytes[at..at + N]);
    array
}
