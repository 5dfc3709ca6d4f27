//! Reading Enhanced Acknowledgement frames (IEEE 802.15.4-2015, with the settings of RFC 8180): the reference for the
//! reader.

use crate::mac::{address, field, frame_control, header_list, Control, Fields, ACKNOWLEDGEMENT};

pub use crate::mac::{Address, Check, EXTENDED, HEADER_TERMINATION_1, HEADER_TERMINATION_2, LONGEST_FRAME, SHORT};

/// The element ID of the time correction, the only header element that is known.
pub const TIME_CORRECTION: u16 = 0x1E;

/// The content of the time correction is one number: correction 0 to 11, in two's complement; reserved and ignored 12 to
/// 14; not acknowledged 15.
pub const CORRECTION: u16 = 0xFFF;
pub const NOT_ACKNOWLEDGED: u16 = 1 << 15;

/// The ends of what the correction's 12 bits can say.
pub const LEAST_CORRECTION: i32 = -2048;
pub const LARGEST_CORRECTION: i32 = 2047;

/// What an acknowledgement says; the correction is in microseconds. A record to be written may be outside the limits: the
/// correction has more bits than on air.
#[derive(Clone, Copy, Debug, PartialEq, Eq)]
pub struct Ack {
    pub sequence: Option<u8>,
    pub pan: u16,
    pub destination: Address,
    pub source: Address,
    pub correction: i32,
    pub not_acknowledged: bool,
}

impl Ack {
    pub fn fields(&self) -> Fields {
        Fields { sequence: self.sequence, pan: self.pan, destination: self.destination, source: self.source }
    }
}

/// The frame's record, or the first check that it fails.
pub fn read(frame: &[u8]) -> Result<Ack, Check> {
    let (control, mut rest) = frame_control(frame)?;
    let control = Control::read(control, ACKNOWLEDGEMENT, &[SHORT, EXTENDED])?;
    let sequence = control.sequence(&mut rest)?;
    let pan = u16::from_le_bytes(field(&mut rest)?);
    let destination = address(control.destination_mode, &mut rest)?;
    let source = address(control.source_mode, &mut rest)?;
    let word = time_correction(rest)?;
    Ok(Ack {
        sequence,
        pan,
        destination,
        source,
        correction: decode_correction(word),
        not_acknowledged: word & NOT_ACKNOWLEDGED != 0,
    })
}

/// The content of a header list's time correction. What stands behind the list is not looked at.
fn time_correction(list: &[u8]) -> Result<u16, Check> {
    let mut found = None;
    header_list(list, |id, content| {
        if id != TIME_CORRECTION {
            return Ok(());
        }
        let Ok(content) = content.try_into() else {
            return Err(Check::CorrectionLength);
        };
        if found.is_some() {
            return Err(Check::CorrectionTwice);
        }
        found = Some(u16::from_le_bytes(content));
        Ok(())
    })?;
    found.ok_or(Check::CorrectionMissing)
}

fn decode_correction(word: u16) -> i32 {
    match i32::from(word & CORRECTION) {
        number @ ..=LARGEST_CORRECTION => number,
        number => number - 0x1000,
    }
}
