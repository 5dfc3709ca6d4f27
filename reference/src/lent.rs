//! Memory that tests lend to the library, and that shows what was written where nothing should be.

use crate::interface::Written;
use crate::random::Random;
use crate::records::LONGEST_BUFFER;

/// What a buffer holds before a frame is put into it.
pub const FILL: u8 = 0x55;

/// A receive buffer: a new frame is put over the older ones, whose ends stand behind it.
#[derive(Default)]
pub struct Receiver {
    buffer: Vec<u8>,
}

impl Receiver {
    /// Puts a frame at the buffer's start and hands its place and length over, to be read there. Panics if anything is
    /// written.
    pub fn receive<T>(&mut self, frame: &[u8], read: impl FnOnce(*const u8, usize) -> T) -> T {
        if self.buffer.len() < frame.len() {
            self.buffer.resize(frame.len(), FILL);
        }
        self.buffer[..frame.len()].copy_from_slice(frame);
        let before = self.buffer.clone();

        // A pointer to bytes that may be written: the compiler takes nothing for granted when they are compared below.
        let answer = read(self.buffer.as_mut_ptr(), frame.len());

        assert!(self.buffer == before, "the frame was written: {frame:02X?}");
        answer
    }
}

/// The bytes before a buffer that is lent, at most, and behind it, at least.
const MARGIN: usize = 64;
const MEMORY: usize = MARGIN + LONGEST_BUFFER + MARGIN;

/// Memory of which a part is a buffer.
pub struct Memory {
    bytes: [u8; MEMORY],
    start: usize,
    length: usize,
}

/// What is said of a record, and all bytes of the memory afterwards.
#[derive(Debug, PartialEq, Eq)]
pub struct Answer {
    pub written: Written,
    bytes: [u8; MEMORY],
}

impl Memory {
    /// Random bytes, with a buffer of this length.
    pub fn random(random: &mut Random, length: usize) -> Memory {
        let mut bytes = [0; MEMORY];
        for bytes in bytes.chunks_mut(8) {
            bytes.copy_from_slice(&random.number().to_le_bytes()[..bytes.len()]);
        }
        let start = random.below(MARGIN as u64) as usize;
        assert!(start + length <= MEMORY);
        Memory { bytes, start, length }
    }

    /// Hands the buffer's place and length over, to be written there. The memory itself stays as it was.
    pub fn lend(&self, write: impl FnOnce(*mut u8, usize) -> Written) -> Answer {
        let mut bytes = self.bytes;
        // A pointer to all of it, which may be written: the compiler takes nothing for granted when it is compared.
        let pointer = bytes.as_mut_ptr();
        let written = write(pointer.wrapping_add(self.start), self.length);
        Answer { written, bytes }
    }

    /// The same for what writes no more than a slice.
    pub fn lend_slice(&self, write: impl FnOnce(&mut [u8]) -> Written) -> Answer {
        let mut bytes = self.bytes;
        let written = write(&mut bytes[self.start..self.start + self.length]);
        Answer { written, bytes }
    }

    /// The frame that an answer put into the buffer, none if it is a refusal. Panics if anything else was written.
    pub fn frame<'a>(&self, answer: &'a Answer) -> Option<&'a [u8]> {
        let Written { number, length } = answer.written;
        assert!(number == 0 || length == 0, "{:?}", answer.written);
        let end = self.start + length;
        let (before, behind) = (..self.start, end..);
        assert!(answer.bytes[before] == self.bytes[before], "written before the buffer: {:?}", answer.written);
        assert!(answer.bytes[behind.clone()] == self.bytes[behind], "written behind the frame: {:?}", answer.written);
        (number == 0).then(|| &answer.bytes[self.start..end])
    }
}
