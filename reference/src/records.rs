//! The records of the differential test of writing, always the same: worked ones, records of every shape, buffers of
//! every length, every bit flip of samples, each limit broken alone and with each other one, and C's records that are no
//! record's. Each comes with the length of the buffer that it is to be written into.

use crate::beacons::{random_bytes, random_link, random_number};
use crate::frame::{Address, LONGEST_FRAME, LONGEST_NETWORK_ID, TIMINGS};
use crate::interface as c;
use crate::interface::{Number, Numbers};
use crate::random::Random;
use crate::slot::{Link, LARGEST_ASN, MOST_LINKS};
use crate::worked;
use crate::write::{
    frame_length, Joining, Limit, Misfit, Record, FIRST_TIMINGS, LARGEST_FIRST_TIMING, LARGEST_LAST_TIMING,
    LARGEST_PROXY_PRIORITY, LARGEST_RANK_PRIORITY,
};
use std::ops::Range;

/// What a record was made for.
#[derive(Clone, Copy, Debug, PartialEq, Eq)]
pub enum Kind {
    /// What a frame laid out by hand says.
    Worked,
    /// Within the limits, in each shape.
    Shape,
    /// Within the limits, with buffers of each length.
    Buffer,
    /// A record within the limits with one bit inverted.
    BitFlip,
    /// One limit is broken.
    Limit,
    /// Two limits are broken.
    TwoLimits,
    /// C's record is no record's, for one reason.
    Misfit,
    /// C's record is no record's, for two reasons, or a limit is broken too.
    MisfitAndMore,
    /// Random numbers in some fields or in all.
    Random,
}

impl Kind {
    pub const ALL: [Kind; 9] = [
        Kind::Worked,
        Kind::Shape,
        Kind::Buffer,
        Kind::BitFlip,
        Kind::Limit,
        Kind::TwoLimits,
        Kind::Misfit,
        Kind::MisfitAndMore,
        Kind::Random,
    ];
}

/// No buffer is longer.
pub const LONGEST_BUFFER: usize = 300;

/// What is called for each record with its buffer's length.
pub type Visit<'a> = dyn FnMut(Kind, &c::Beacon, usize) + 'a;

/// Visits all records.
pub fn visit_all(visit: &mut Visit) {
    let mut random = Random::new(0x3417E);
    visit_worked(visit);
    for _ in 0..80 {
        for shape in Shape::all() {
            let buffer = random_buffer(&mut random, shape.length());
            visit(Kind::Shape, &c::Beacon::of_record(&shape.record(&mut random)), buffer);
        }
    }
    for _ in 0..500 {
        let shape = Shape::random(&mut random);
        let beacon = c::Beacon::of_record(&shape.record(&mut random));
        for buffer in 0..=shape.length() + 20 {
            visit(Kind::Buffer, &beacon, buffer);
        }
    }
    for _ in 0..180 {
        visit_bit_flips(&mut random, visit);
    }
    visit_broken_limits(&mut random, visit);
    visit_misfits(&mut random, visit);
    for _ in 0..150_000 {
        let (record, length) = random_record(&mut random);
        let mut beacon = c::Beacon::of_record(&record);
        let chosen = choose_fields(&mut random, &beacon);
        scatter(&mut random, &mut beacon, &chosen);
        visit(Kind::Random, &beacon, random_buffer(&mut random, length));
    }
}

/// What decides a frame's length.
#[derive(Clone, Copy, Debug, PartialEq, Eq)]
pub struct Shape {
    pub sequence: bool,
    pub extended: bool,
    pub template: Template,
    pub links: usize,
    /// Whether there is a join proxy's address, and the network ID's length.
    pub joining: Option<(bool, usize)>,
}

#[derive(Clone, Copy, Debug, PartialEq, Eq)]
pub enum Template {
    Alone,
    /// With timings that fit in 2 bytes each.
    Timed,
    /// With timings of which at least one of the last two does not.
    Wide,
}

impl Template {
    pub const ALL: [Template; 3] = [Template::Alone, Template::Timed, Template::Wide];
}

impl Shape {
    pub fn all() -> Vec<Shape> {
        let mut joinings = vec![None];
        for proxied in [false, true] {
            joinings.extend((0..=LONGEST_NETWORK_ID).map(|length| Some((proxied, length))));
        }
        let mut shapes = Vec::new();
        for (sequence, extended) in [(false, false), (false, true), (true, false), (true, true)] {
            for template in Template::ALL {
                for links in 1..=MOST_LINKS {
                    shapes.extend(joinings.iter().map(|&joining| Shape {
                        sequence,
                        extended,
                        template,
                        links,
                        joining,
                    }));
                }
            }
        }
        shapes
    }

    /// Any shape; those with few links come more often, since most of the others are too long.
    pub fn random(random: &mut Random) -> Shape {
        let most_links = random.pick(&[3, 8, MOST_LINKS as u64]);
        Shape {
            sequence: random.chance(50),
            extended: random.chance(50),
            template: random.pick(&Template::ALL),
            links: random.between(1, most_links) as usize,
            joining: random
                .chance(60)
                .then(|| (random.chance(50), random.below(LONGEST_NETWORK_ID as u64 + 1) as usize)),
        }
    }

    /// The frame's length: the minimal beacon's, and what each part adds.
    pub fn length(&self) -> usize {
        let template = match self.template {
            Template::Alone => 0,
            Template::Timed => 24,
            Template::Wide => 26,
        };
        let joining = self.joining.map_or(0, |(proxied, network)| 7 + if proxied { 8 } else { 0 } + network);
        38 + usize::from(self.sequence) + if self.extended { 6 } else { 0 } + template + 5 * (self.links - 1) + joining
    }

    /// A record of this shape within the limits. Values are from their whole ranges and often from the ends of these.
    pub fn record(&self, random: &mut Random) -> Record {
        let size = match random.below(4) {
            0 => random.pick(&[1, 2, 11, 101, 65535]),
            _ => random.between(1, 65535) as u16,
        };
        let mut links = [Link::default(); MOST_LINKS];
        links[..self.links].fill_with(|| random_link(random, size));
        Record {
            sequence: self.sequence.then(|| random_number(random, 0xFF) as u8),
            pan: random_number(random, 0xFFFF) as u16,
            source: match self.extended {
                false => Address::Short(random_number(random, 0xFFFF) as u16),
                true => Address::Extended(random_number(random, u64::MAX)),
            },
            asn: random_number(random, LARGEST_ASN),
            join_metric: random_number(random, 0xFF) as u8,
            template: if self.template == Template::Alone { 0 } else { random_number(random, 0xFF) as u8 },
            timed: self.template != Template::Alone,
            timings: random_timings(random, self.template),
            hopping: random_number(random, 0xFF) as u8,
            handle: random_number(random, 0xFF) as u8,
            size,
            count: self.links as u16,
            links,
            joining: self
                .joining
                .map(|(proxied, network)| random_joining(random, proxied, network))
                .unwrap_or_default(),
        }
    }
}

fn random_timings(random: &mut Random, template: Template) -> [u32; TIMINGS] {
    let mut timings = [0; TIMINGS];
    if template == Template::Alone {
        return timings;
    }
    timings.fill_with(|| random_number(random, u64::from(LARGEST_FIRST_TIMING)) as u32);
    if template == Template::Wide {
        let wide = random.pick(&[10, 11]);
        timings[wide] = match random.below(4) {
            0 => 1 << 16,
            _ => random.between(1 << 16, u64::from(LARGEST_LAST_TIMING)) as u32,
        };
        if random.chance(50) {
            timings[21 - wide] = random_number(random, u64::from(LARGEST_LAST_TIMING)) as u32;
        }
    }
    timings
}

fn random_joining(random: &mut Random, proxied: bool, length: usize) -> Joining {
    let mut network = [0; LONGEST_NETWORK_ID];
    network[..length].copy_from_slice(&random_bytes(random, length));
    Joining {
        present: true,
        router: random.chance(50),
        proxied,
        proxy_priority: random_number(random, LARGEST_PROXY_PRIORITY.into()) as u8,
        rank_priority: random_number(random, LARGEST_RANK_PRIORITY.into()) as u16,
        pan_priority: random_number(random, 0xFF) as u8,
        proxy: if proxied { random_number(random, u64::MAX) } else { 0 },
        network_length: length as u8,
        network,
    }
}

/// A record within the limits, and its frame's length, which may be over 125.
fn random_record(random: &mut Random) -> (Record, usize) {
    let shape = Shape::random(random);
    (shape.record(random), shape.length())
}

/// The length of a buffer for a frame of this length: often just the frame's, or about it, or about the longest frame's.
pub fn random_buffer(random: &mut Random, length: usize) -> usize {
    match random.below(12) {
        0 => 0,
        1 | 2 => length - 1,
        3..6 => length,
        6 => length + 1,
        7 => length + 20,
        8 => random.pick(&[124, 125, 126, 127, 128]),
        // Long enough, and 0 or little in one byte.
        9 => random.pick(&[255, 256, 257]),
        _ => random.below(LONGEST_BUFFER as u64) as usize,
    }
}

fn visit_worked(visit: &mut Visit) {
    for worked in worked::frames() {
        let Ok(beacon) = &worked.answer else {
            continue;
        };
        let record = Record::from_beacon(beacon);
        let length = frame_length(&record);
        for buffer in [0, 1, length - 1, length, length + 1, length + 20, LONGEST_FRAME, LONGEST_BUFFER] {
            visit(Kind::Worked, &c::Beacon::of_record(&record), buffer);
        }
    }
}

/// How many bits a record has; a flag has one.
const BITS: usize = 6 + 24 * 8 + 52 * 16 + 12 * 32 + 3 * 64;

/// Inverts a bit of a record, counted from its first one.
pub fn flip(record: &mut impl Numbers, bit: usize) {
    let mut start = 0;
    // Where in the next number the bit stands, if it does.
    let mut place = |width: usize| {
        let place = bit.checked_sub(start).filter(|place| *place < width);
        start += width;
        place
    };
    record.visit(&mut |number| match number {
        Number::Flag(flag) => *flag ^= place(1).is_some(),
        Number::U8(number) => *number ^= place(8).map_or(0, |at| 1 << at),
        Number::U16(number) => *number ^= place(16).map_or(0, |at| 1 << at),
        Number::U32(number) => *number ^= place(32).map_or(0, |at| 1 << at),
        Number::U64(number) => *number ^= place(64).map_or(0, |at| 1 << at),
        Number::I32(number) => *number ^= place(32).map_or(0, |at| 1 << at),
        Number::Size(_) => unreachable!("a record has no such field"),
    });
}

/// A record with each of its bits inverted.
fn visit_bit_flips(random: &mut Random, visit: &mut Visit) {
    let (record, length) = random_record(random);
    for bit in 0..BITS {
        let mut beacon = c::Beacon::of_record(&record);
        flip(&mut beacon, bit);
        visit(Kind::BitFlip, &beacon, random_buffer(random, length));
    }
}

fn visit_broken_limits(random: &mut Random, visit: &mut Visit) {
    for &limit in Limit::ALL {
        // No timeslot is below size 0.
        let broken = match limit {
            Limit::SlotframeSize => vec![Limit::SlotframeSize, Limit::LinkTimeslot],
            _ => vec![limit],
        };
        let mut visited = 0;
        while visited < 8000 {
            let (mut record, length) = random_record(random);
            break_limit(random, &mut record, limit);
            if record.broken_limits() == broken {
                visit(Kind::Limit, &c::Beacon::of_record(&record), random_buffer(random, length));
                visited += 1;
            }
        }
    }
    for &first in Limit::ALL {
        for &second in Limit::ALL {
            // Not every try breaks both: some records have no place for it, and some limits cannot be broken together.
            for _ in 0..if first == second { 0 } else { 600 } {
                let (mut record, length) = random_record(random);
                break_limit(random, &mut record, first);
                break_limit(random, &mut record, second);
                if !first.is_kept(&record) && !second.is_kept(&record) {
                    visit(Kind::TwoLimits, &c::Beacon::of_record(&record), random_buffer(random, length));
                }
            }
        }
    }
}

/// A number over `largest`, at most `most`: the next one, the last one, the given one with a bit more, or any.
pub fn over(random: &mut Random, number: u64, largest: u64, most: u64) -> u64 {
    match random.below(4) {
        0 => largest + 1,
        1 => most,
        2 => {
            let (low, high) = (u64::BITS - largest.leading_zeros(), u64::BITS - most.leading_zeros() - 1);
            number | 1 << random.between(low.into(), high.into())
        }
        _ => random.between(largest + 1, most),
    }
}

/// Changes a record so that it breaks a limit, if it is of a shape that can.
fn break_limit(random: &mut Random, record: &mut Record, limit: Limit) {
    let used = record.used_links().len();
    let used_network = record.joining.used_network().len();
    let joining = &mut record.joining;
    match limit {
        Limit::Asn => record.asn = over(random, record.asn, LARGEST_ASN, u64::MAX),
        Limit::TemplateAlone => record.template = random.between(1, 0xFF) as u8,
        Limit::FirstTimings => {
            let timing = &mut record.timings[random.below(FIRST_TIMINGS as u64) as usize];
            *timing = over(random, u64::from(*timing), LARGEST_FIRST_TIMING.into(), u32::MAX.into()) as u32;
        }
        Limit::LastTimings => {
            let timing = &mut record.timings[random.between(FIRST_TIMINGS as u64, TIMINGS as u64 - 1) as usize];
            *timing = over(random, u64::from(*timing), LARGEST_LAST_TIMING.into(), u32::MAX.into()) as u32;
        }
        Limit::UnusedTimings => {
            record.timings[random.below(TIMINGS as u64) as usize] = random.pick(&[1, 1800, 0xFF00, 0xFFFF]);
        }
        Limit::SlotframeSize => record.size = 0,
        Limit::NoLinks => {
            record.count = 0;
            if random.chance(80) {
                record.links = Default::default();
            }
        }
        Limit::TooManyLinks => {
            record.count = over(random, record.count.into(), MOST_LINKS as u64, u16::MAX.into()) as u16;
        }
        Limit::LinkTimeslot => {
            let place = match random.below(3) {
                0 => used.saturating_sub(1),
                _ => random.below(used.max(1) as u64) as usize,
            };
            record.links[place].timeslot = match random.below(2) {
                0 => record.size,
                _ => random.between(record.size.into(), 0xFFFF) as u16,
            };
        }
        Limit::UnusedLinks => {
            if used < MOST_LINKS {
                let place = match random.below(3) {
                    0 => used,
                    1 => MOST_LINKS - 1,
                    _ => random.between(used as u64, MOST_LINKS as u64 - 1) as usize,
                };
                match random.below(3) {
                    0 => record.links[place].timeslot = random.between(1, 0xFFFF) as u16,
                    1 => record.links[place].offset = random.between(1, 0xFFFF) as u16,
                    _ => record.links[place].options = random.between(1, 0xFF) as u8,
                }
            }
        }
        Limit::ProxyPriority => {
            let number = joining.proxy_priority.into();
            joining.proxy_priority = over(random, number, LARGEST_PROXY_PRIORITY.into(), 0xFF) as u8;
        }
        Limit::RankPriority => {
            let number = joining.rank_priority.into();
            joining.rank_priority = over(random, number, LARGEST_RANK_PRIORITY.into(), 0xFFFF) as u16;
        }
        Limit::UnusedAddress => {
            joining.proxied = false;
            joining.proxy = match random.below(2) {
                0 => 1 << random.below(64),
                _ => random.between(1, u64::MAX),
            };
        }
        Limit::NetworkLength => {
            let length = joining.network_length.into();
            joining.network_length = over(random, length, LONGEST_NETWORK_ID as u64, u8::MAX.into()) as u8;
        }
        Limit::UnusedNetwork => {
            if used_network < LONGEST_NETWORK_ID {
                let place = random.between(used_network as u64, LONGEST_NETWORK_ID as u64 - 1) as usize;
                joining.network[place] = random.between(1, 0xFF) as u8;
            }
        }
        Limit::AbsentJoining if joining.present => joining.present = false,
        Limit::AbsentJoining => match random.below(8) {
            0 => joining.router = true,
            1 => joining.proxied = true,
            2 => joining.proxy_priority = random.between(1, LARGEST_PROXY_PRIORITY.into()) as u8,
            3 => joining.rank_priority = random.between(1, LARGEST_RANK_PRIORITY.into()) as u16,
            4 => joining.pan_priority = random.between(1, 0xFF) as u8,
            5 => joining.proxy = 1 << random.below(64),
            6 => joining.network_length = random.between(1, LONGEST_NETWORK_ID as u64) as u8,
            _ => joining.network[random.below(LONGEST_NETWORK_ID as u64) as usize] = random.between(1, 0xFF) as u8,
        },
    }
}

fn visit_misfits(random: &mut Random, visit: &mut Visit) {
    for misfit in Misfit::ALL {
        for _ in 0..30_000 {
            let (record, length) = random_record(random);
            let mut beacon = c::Beacon::of_record(&record);
            break_fit(random, &mut beacon, misfit);
            visit(Kind::Misfit, &beacon, random_buffer(random, length));
        }
    }
    for _ in 0..100_000 {
        let (mut record, length) = random_record(random);
        let limit = random.chance(50).then(|| random.pick(Limit::ALL));
        if let Some(limit) = limit {
            break_limit(random, &mut record, limit);
        }
        let mut beacon = c::Beacon::of_record(&record);
        for _ in 0..if limit.is_some() { 1 } else { 2 } {
            let misfit = random.pick(&Misfit::ALL);
            break_fit(random, &mut beacon, misfit);
        }
        visit(Kind::MisfitAndMore, &beacon, random_buffer(random, length));
    }
}

/// Changes C's record so that it is no record's. Often it would be one if a number were cut to its low bits.
fn break_fit(random: &mut Random, beacon: &mut c::Beacon, misfit: Misfit) {
    match misfit {
        Misfit::AbsentSequence => {
            beacon.has_sequence_number = false;
            beacon.sequence_number = random.between(1, 0xFF) as u8;
        }
        Misfit::ShortSource => {
            beacon.source_is_extended = false;
            beacon.source = over(random, beacon.source, 0xFFFF, u64::MAX);
        }
        Misfit::Options => {
            let used = u64::from(beacon.slotframe.link_count).clamp(1, MOST_LINKS as u64);
            let place = match random.below(4) {
                0 => random.below(MOST_LINKS as u64),
                _ => random.below(used),
            };
            let options = &mut beacon.slotframe.links[place as usize].options;
            *options = over(random, u64::from(*options), 0xFF, 0xFFFF) as u16;
        }
    }
}

/// A few fields of a record by their places among its numbers, or none, which stands for all.
fn choose_fields(random: &mut Random, beacon: &c::Beacon) -> Vec<u64> {
    let fields = beacon.numbers().len() as u64;
    let mut chosen = Vec::new();
    if !random.chance(5) {
        // Timings, links and bytes of the network ID are many: the other fields are drawn as often as all of these.
        let few: Vec<u64> = (0..fields).filter(|field| !MANY.iter().any(|many| many.contains(field))).collect();
        for _ in 0..random.between(1, 4) {
            chosen.push(if random.chance(50) { random.below(fields) } else { random.pick(&few) });
        }
    }
    chosen
}

/// Puts other numbers into the chosen fields of a record, or into all if none is chosen.
pub fn scatter(random: &mut Random, record: &mut impl Numbers, chosen: &[u64]) {
    let mut field = 0;
    record.visit(&mut |number| {
        if chosen.is_empty() || chosen.contains(&field) {
            let any = match random.below(4) {
                0 => random.below(3),
                1 => random.below(20),
                2 => random.number() >> random.below(64),
                _ => random.number(),
            };
            match number {
                Number::Flag(flag) => *flag = any % 2 == 1,
                Number::U8(number) => *number = any as u8,
                Number::U16(number) => *number = any as u16,
                Number::U32(number) => *number = any as u32,
                Number::U64(number) => *number = any,
                Number::I32(number) => *number = any as i32,
                Number::Size(_) => unreachable!("a record has no such field"),
            }
        }
        field += 1;
    });
}

/// Where the timings, the links and the bytes of the network ID stand among the numbers of a record.
const MANY: [Range<u64>; 3] = [9..21, 25..73, 81..97];

#[cfg(test)]
mod tests {
    use super::*;
    use crate::convert;
    use crate::coverage::WriteCoverage;
    use crate::frame;
    use crate::parts::house_form;
    use crate::write::write;

    /// The reference alone: its records reach every outcome often, and what it writes are the bytes of the house form,
    /// which read back as the record.
    #[test]
    fn records_reach_every_outcome() {
        let mut coverage = WriteCoverage::default();
        let mut random = Random::new(0x400);
        visit_all(&mut |kind, beacon, length| {
            let before: [u8; LONGEST_BUFFER] = std::array::from_fn(|_| random.number() as u8);
            let mut buffer = before;
            let answer = convert::write(beacon, &mut buffer[..length]);
            let written = answer.unwrap_or(0);
            assert_eq!(buffer[written..], before[written..], "{kind:?}, buffer of {length}: {beacon:?}");
            if answer.is_ok() {
                let record = Record::from_c(beacon).expect("what was written is a record");
                let read = record.to_beacon().expect("what was written is within the limits");
                assert_eq!(buffer[..written], house_form(&read).bytes(), "{kind:?}: {beacon:?}");
                assert_eq!(frame::read(&buffer[..written]), Ok(read), "{kind:?}: {beacon:?}");
            }
            coverage.add(kind, beacon, length, &answer);
        });
        coverage.expect(100);
    }

    /// A shape's record is within the limits and has the shape's length, and C's form gives it back.
    #[test]
    fn shapes() {
        let mut random = Random::new(0x54A9E);
        let shapes = Shape::all();
        assert_eq!(shapes.len(), 4 * 3 * 16 * 35);
        assert_eq!(shapes.iter().map(Shape::length).min(), Some(38));
        assert_eq!(shapes.iter().map(Shape::length).max(), Some(177));
        for shape in shapes {
            let record = shape.record(&mut random);
            assert_eq!(record.broken_limits(), [], "{record:?}");
            assert_eq!(frame_length(&record), shape.length(), "{record:?}");
            assert_eq!(Record::from_c(&c::Beacon::of_record(&record)), Ok(record.clone()));
            let beacon = record.to_beacon().expect("within the limits");
            assert_eq!(Record::from_beacon(&beacon), record);
            assert_eq!(c::Beacon::of(&beacon), c::Beacon::of_record(&record));
            let mut buffer = [0; LONGEST_FRAME];
            let written = write(&record, &mut buffer).ok();
            assert_eq!(written, (shape.length() <= LONGEST_FRAME).then_some(shape.length()));
        }
    }

    /// Each bit of a record is inverted once, and nothing else.
    #[test]
    fn bits() {
        let blank = c::Beacon::default();
        let mut seen = Vec::new();
        for bit in 0..BITS {
            let mut beacon = blank;
            flip(&mut beacon, bit);
            let numbers = beacon.numbers();
            assert_eq!(numbers.iter().map(|number| number.count_ones()).sum::<u32>(), 1, "bit {bit}");
            assert!(!seen.contains(&numbers), "bit {bit}");
            seen.push(numbers);
            flip(&mut beacon, bit);
            assert_eq!(beacon, blank, "bit {bit}");
        }
    }

    /// The fields of which a record has many are where `MANY` says.
    #[test]
    fn fields_of_which_there_are_many() {
        let mut beacon = c::Beacon::default();
        beacon.timeslot.timings = [1; TIMINGS];
        beacon.slotframe.links = [c::Link { timeslot: 2, channel_offset: 2, options: 2 }; MOST_LINKS];
        beacon.joining.network_id = [3; LONGEST_NETWORK_ID];
        let numbers = beacon.numbers();
        for (field, number) in numbers.into_iter().enumerate() {
            let many = MANY.iter().position(|many| many.contains(&(field as u64)));
            assert_eq!(number, many.map_or(0, |many| many as u64 + 1), "field {field}");
        }
    }
}
