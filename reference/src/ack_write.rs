//! Writing Enhanced Acknowledgement frames: the reference for the writer.

use crate::ack::{Ack, CORRECTION, LARGEST_CORRECTION, LEAST_CORRECTION, NOT_ACKNOWLEDGED, TIME_CORRECTION};
use crate::mac::{Rest, ACKNOWLEDGEMENT};
use crate::write;

/// A limit that a record can break.
#[derive(Clone, Copy, Debug, PartialEq, Eq)]
pub enum Limit {
    /// The correction is below -2048.
    LeastCorrection,
    /// The correction is over 2047.
    LargestCorrection,
}

impl Limit {
    pub const ALL: [Limit; 2] = [Limit::LeastCorrection, Limit::LargestCorrection];
}

/// Why a record in C's form is no record.
#[derive(Clone, Copy, Debug, PartialEq, Eq)]
pub enum Misfit {
    /// A sequence number, not 0, where there is none.
    AbsentSequence,
    /// A short destination over 65535.
    ShortDestination,
    /// A short source over 65535.
    ShortSource,
}

impl Misfit {
    pub const ALL: [Misfit; 3] = [Misfit::AbsentSequence, Misfit::ShortDestination, Misfit::ShortSource];
}

/// Why a record is not written.
pub type Refusal = write::Refusal<Misfit, Limit>;

/// The length of the time correction's content.
const CORRECTION_LENGTH: usize = 2;

/// Writes a record's frame at the start of a buffer; gives its length. A refusal leaves the buffer as it was.
pub fn write(ack: &Ack, buffer: &mut [u8]) -> Result<usize, Refusal> {
    if ack.correction < LEAST_CORRECTION {
        return Err(Refusal::Limit(Limit::LeastCorrection));
    }
    if ack.correction > LARGEST_CORRECTION {
        return Err(Refusal::Limit(Limit::LargestCorrection));
    }
    // No frame is too long.
    let length = frame_length(ack);
    let Some(frame) = buffer.get_mut(..length) else {
        return Err(Refusal::BufferTooShort);
    };
    put_frame(ack, Rest(frame));
    Ok(length)
}

/// The length of a record's frame, 12 to 25.
pub fn frame_length(ack: &Ack) -> usize {
    ack.fields().length() + 2 + CORRECTION_LENGTH
}

/// Fills the frame's bytes, which are as many as its length says.
fn put_frame(ack: &Ack, mut rest: Rest) {
    ack.fields().put(ACKNOWLEDGEMENT, &mut rest);
    rest.header(TIME_CORRECTION, CORRECTION_LENGTH);
    // The low bits of a negative number are its two's complement.
    let correction = ack.correction as u16 & CORRECTION;
    let mark = if ack.not_acknowledged { NOT_ACKNOWLEDGED } else { 0 };
    rest.put(&(correction | mark).to_le_bytes());
    assert!(rest.0.is_empty(), "the fields end before the frame");
}
