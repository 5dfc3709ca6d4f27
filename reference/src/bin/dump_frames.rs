//! Writes the frames of the differential tests to standard output, for `c/frames.c` to read: of each the checksum of the
//! answers it should get (8 bytes), its length (4 bytes) and its bytes.

use reference::interface::Numbers;
use reference::{ack_frames, convert, frames};
use std::io::{self, BufWriter, Write};

/// FNV-1a, with whole numbers in place of bytes.
fn checksum(numbers: impl Iterator<Item = u64>) -> u64 {
    numbers.fold(0xCBF2_9CE4_8422_2325, |sum, number| (sum ^ number).wrapping_mul(0x100_0000_01B3))
}

/// The checksum of the reading as a beacon, of where the network ID stands, and of the reading as an acknowledgement,
/// number by number.
fn answer(frame: &[u8]) -> u64 {
    let beacon = convert::read(frame).numbers().into_iter().chain(convert::network_id(frame).numbers());
    checksum(beacon.chain(convert::read_ack(frame).numbers()))
}

fn main() {
    let mut out = BufWriter::new(io::stdout().lock());
    let mut put = |bytes: &[u8]| out.write_all(bytes).expect("standard output takes the frames");
    let mut put_frame = |frame: &[u8]| {
        put(&answer(frame).to_le_bytes());
        put(&(frame.len() as u32).to_le_bytes());
        put(frame);
    };
    frames::visit_all(&mut |_, frame| put_frame(frame));
    ack_frames::visit_all(&mut |_, frame| put_frame(frame));
    out.flush().expect("standard output takes the frames");
}
