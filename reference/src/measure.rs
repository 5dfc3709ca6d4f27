//! How the benchmarks measure, also on a machine that does other work: the load is cut into chunks, all sides run on a
//! chunk in turn, the least time of each chunk over all rounds is kept, and these are added up. And how frames are read and
//! records written for it.

use crate::frame::LONGEST_FRAME;
use crate::interface::Written;
use std::fmt::Debug;
use std::hint::black_box;
use std::ops::Range;
use std::time::Instant;

/// How many cases a chunk has.
pub const CHUNK: usize = 4_000;

pub const ROUNDS: usize = 25;

/// One way to do the work: does it for the cases of a range.
pub struct Side<'a> {
    pub name: &'a str,
    pub run: &'a mut dyn FnMut(Range<usize>),
}

/// Nanoseconds per case of each side, for so many cases in chunks of so many.
pub fn measure(cases: usize, chunk: usize, sides: &mut [Side]) -> Vec<f64> {
    let chunks: Vec<Range<usize>> = (0..cases).step_by(chunk).map(|start| start..cases.min(start + chunk)).collect();
    let mut least = vec![vec![u128::MAX; chunks.len()]; sides.len()];
    for round in 0..ROUNDS {
        for (place, chunk) in chunks.iter().enumerate() {
            // The sides take turns at going first.
            for turn in 0..sides.len() {
                let side = (round + turn) % sides.len();
                let start = Instant::now();
                (sides[side].run)(chunk.clone());
                let time = start.elapsed().as_nanos();
                least[side][place] = least[side][place].min(time);
            }
        }
    }
    least.iter().map(|times| times.iter().sum::<u128>() as f64 / cases as f64).collect()
}

/// Measures in chunks and prints a line for each side: its time, and the first side's time by it.
pub fn compare(title: &str, what: &str, cases: usize, chunk: usize, sides: &mut [Side]) {
    let times = measure(cases, chunk, sides);
    println!("{title}: ns per {what}, and the time of the first by it");
    for (side, time) in sides.iter().zip(&times) {
        println!("  {:<36} {time:8.2} {:6.2}", side.name, times[0] / time);
    }
}

/// Frames, one behind the other.
#[derive(Default)]
pub struct Load {
    pub bytes: Vec<u8>,
    places: Vec<Range<usize>>,
}

impl Load {
    pub fn push(&mut self, frame: &[u8]) {
        self.places.push(self.bytes.len()..self.bytes.len() + frame.len());
        self.bytes.extend(frame);
    }

    pub fn frames(&self, cases: Range<usize>) -> impl Iterator<Item = &[u8]> {
        self.places[cases].iter().map(|place| &self.bytes[place.clone()])
    }
}

/// Reads the frames through a pointer that the compiler cannot see through: no reader is inlined into the loop.
pub fn read_frames<T>(read: fn(&[u8]) -> T, load: &Load, cases: Range<usize>) {
    let read = black_box(read);
    for frame in load.frames(cases) {
        black_box(&read(frame));
    }
}

/// Writes a record at the start of a buffer.
pub type Write<T> = fn(&T, &mut [u8]) -> Written;

/// Writes records through a pointer that the compiler cannot see through: no writer is inlined into the loop.
pub fn write_records<T>(write: Write<T>, records: &[T]) {
    let write = black_box(write);
    let mut buffer = [0; LONGEST_FRAME];
    for record in records {
        black_box(write(record, &mut buffer));
        black_box(&buffer);
    }
}

/// Every side must write the frames and leave the rest of the buffer.
pub fn check_frames<T: Debug>(name: &str, write: Write<T>, records: &[T], frames: &[Vec<u8>]) {
    for (record, frame) in records.iter().zip(frames) {
        let mut expected = [0x55; LONGEST_FRAME];
        expected[..frame.len()].copy_from_slice(frame);
        let mut buffer = [0x55; LONGEST_FRAME];
        let written = Written { number: 0, length: frame.len() };
        assert_eq!((write(record, &mut buffer), buffer), (written, expected), "{name}: {record:?}");
    }
}

#[cfg(test)]
mod tests {
    use super::*;

    /// Every side gets every case once in each round, in chunks of at most the length asked for.
    #[test]
    fn sides_get_all_cases() {
        let mut counts = [[0; 10]; 2];
        let [first, second] = &mut counts;
        let mut one = |range: Range<usize>| first[range].iter_mut().for_each(|count| *count += 1);
        let mut other = |range: Range<usize>| {
            assert!(range.len() <= 4);
            second[range].iter_mut().for_each(|count| *count += 1);
        };
        let times = measure(10, 4, &mut [Side { name: "one", run: &mut one }, Side { name: "other", run: &mut other }]);
        assert!(times.len() == 2 && times.iter().all(|time| *time >= 0.0));
        assert_eq!(counts, [[ROUNDS; 10]; 2]);
    }
}
