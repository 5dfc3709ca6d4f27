//! Writing Enhanced Beacon frames: the reference for the writer.
//!
//! Writing has two halves. The first makes every check and stores nothing; the second puts the fields into the buffer one
//! behind the other, where nothing can go wrong any more.

use crate::frame::{
    Address, Beacon, JoiningInformation, BROADCAST, HEADER_TERMINATION_1, IETF, JOINING, LONGEST_FRAME,
    LONGEST_NETWORK_ID, LONG_HOPPING, MLME, P_FLAG, R_FLAG, SHORT_SLOTFRAME, SHORT_SYNCHRONIZATION, SHORT_TIMESLOT,
    TIMINGS,
};
use crate::mac::{Fields, Rest, BEACON};
use crate::refusal::{BUFFER_TOO_SHORT, FRAME_TOO_LONG, OUT_OF_LIMITS};
use crate::slot::{Link, LARGEST_ASN, MOST_LINKS};

/// How many of the timings have 2 bytes in every form.
pub const FIRST_TIMINGS: usize = 10;
pub const LARGEST_FIRST_TIMING: u32 = (1 << 16) - 1;
pub const LARGEST_LAST_TIMING: u32 = (1 << 24) - 1;
pub const LARGEST_PROXY_PRIORITY: u8 = (1 << 7) - 1;
pub const LARGEST_RANK_PRIORITY: u16 = (1 << 12) - 1;

/// A record to be written, within the limits or not. With `timed` the template ID comes with timings; the
/// first `count` links are used.
#[derive(Clone, Debug, PartialEq, Eq)]
pub struct Record {
    pub sequence: Option<u8>,
    pub pan: u16,
    pub source: Address,
    pub asn: u64,
    pub join_metric: u8,
    pub template: u8,
    pub timed: bool,
    pub timings: [u32; TIMINGS],
    pub hopping: u8,
    pub handle: u8,
    pub size: u16,
    pub count: u16,
    pub links: [Link; MOST_LINKS],
    pub joining: Joining,
}

/// Joining information, all zero if there is none. `router` is its R flag, `proxied` its P flag, and `proxy` the join
/// proxy's address; the first `network_length` bytes of the network ID are used.
#[derive(Clone, Debug, Default, PartialEq, Eq)]
pub struct Joining {
    pub present: bool,
    pub router: bool,
    pub proxied: bool,
    pub proxy_priority: u8,
    pub rank_priority: u16,
    pub pan_priority: u8,
    pub proxy: u64,
    pub network_length: u8,
    pub network: [u8; LONGEST_NETWORK_ID],
}

/// Lists the limits, each with its rule.
macro_rules! limits {
    ($($(#[$comment:meta])* $limit:ident: |$record:ident| $rule:expr,)*) => {
        /// A limit that a record can break.
        #[derive(Clone, Copy, Debug, PartialEq, Eq, PartialOrd, Ord)]
        pub enum Limit {
            $($(#[$comment])* $limit,)*
        }

        impl Limit {
            pub const ALL: &[Limit] = &[$(Limit::$limit,)*];

            pub fn is_kept(self, record: &Record) -> bool {
                match self {
                    $(Limit::$limit => {
                        let $record = record;
                        $rule
                    })*
                }
            }
        }

        /// Looks at every limit; the first that is broken is the refusal.
        fn keep_limits(record: &Record) -> Result<(), Refusal> {
            $({
                let $record = record;
                if !$rule {
                    return Err(Refusal::Limit(Limit::$limit));
                }
            })*
            Ok(())
        }
    };
}

limits! {
    Asn: |record| record.asn <= LARGEST_ASN,
    /// A template ID alone is 0.
    TemplateAlone: |record| record.timed || record.template == 0,
    FirstTimings: |record| record.timings[..FIRST_TIMINGS].iter().all(|timing| *timing <= LARGEST_FIRST_TIMING),
    LastTimings: |record| record.timings[FIRST_TIMINGS..].iter().all(|timing| *timing <= LARGEST_LAST_TIMING),
    /// Timings that do not come with the template ID are zero.
    UnusedTimings: |record| record.timed || record.timings == [0; TIMINGS],
    SlotframeSize: |record| record.size >= 1,
    NoLinks: |record| record.count >= 1,
    TooManyLinks: |record| usize::from(record.count) <= MOST_LINKS,
    LinkTimeslot: |record| record.used_links().iter().all(|link| link.timeslot < record.size),
    /// Links behind those that are used are zero.
    UnusedLinks: |record| record.unused_links().iter().all(|link| *link == Link::default()),
    ProxyPriority: |record| record.joining.proxy_priority <= LARGEST_PROXY_PRIORITY,
    RankPriority: |record| record.joining.rank_priority <= LARGEST_RANK_PRIORITY,
    /// Without the P flag the address is 0.
    UnusedAddress: |record| record.joining.proxied || record.joining.proxy == 0,
    NetworkLength: |record| usize::from(record.joining.network_length) <= LONGEST_NETWORK_ID,
    /// Bytes behind the network ID are zero.
    UnusedNetwork: |record| record.joining.unused_network().iter().all(|byte| *byte == 0),
    /// Joining information that is not there is all zero.
    AbsentJoining: |record| record.joining.present || record.joining == Joining::default(),
}

/// Why a record is not written; a beacon's, if nothing else is said.
#[derive(Clone, Copy, Debug, PartialEq, Eq)]
pub enum Refusal<M = Misfit, L = Limit> {
    /// Of a record in C's form only.
    Misfit(M),
    Limit(L),
    FrameTooLong,
    BufferTooShort,
}

impl<M, L> Refusal<M, L> {
    /// The refusal number.
    pub fn number(self) -> u8 {
        match self {
            Refusal::Misfit(_) | Refusal::Limit(_) => OUT_OF_LIMITS,
            Refusal::FrameTooLong => FRAME_TOO_LONG,
            Refusal::BufferTooShort => BUFFER_TOO_SHORT,
        }
    }
}

/// Why a record in C's form is no record.
#[derive(Clone, Copy, Debug, PartialEq, Eq, PartialOrd, Ord)]
pub enum Misfit {
    /// A sequence number, not 0, where there is none.
    AbsentSequence,
    /// A short source over 65535.
    ShortSource,
    /// A link's options over 255.
    Options,
}

impl Misfit {
    pub const ALL: [Misfit; 3] = [Misfit::AbsentSequence, Misfit::ShortSource, Misfit::Options];
}

/// Writes a record's frame at the start of a buffer; gives its length. A refusal leaves the buffer as it was.
pub fn write(record: &Record, buffer: &mut [u8]) -> Result<usize, Refusal> {
    keep_limits(record)?;
    let length = frame_length(record);
    if length > LONGEST_FRAME {
        return Err(Refusal::FrameTooLong);
    }
    let Some(frame) = buffer.get_mut(..length) else {
        return Err(Refusal::BufferTooShort);
    };
    put_frame(record, Rest(frame));
    Ok(length)
}

/// The length of the frame of a record within the limits.
pub fn frame_length(record: &Record) -> usize {
    let joining = if record.joining.present { 2 + joining_length(&record.joining) } else { 0 };
    // Between them the descriptors of header termination 1 and the MLME group.
    record.fields().length() + 2 + 2 + group_length(record) + joining
}

/// The lengths of contents, without their descriptors.
const SYNCHRONIZATION_LENGTH: usize = 6;
const HOPPING_LENGTH: usize = 1;

fn timeslot_length(record: &Record) -> usize {
    match (record.timed, wide_timings(record)) {
        (false, _) => 1,
        (true, false) => 25,
        (true, true) => 27,
    }
}

/// Whether one of the last two timings needs 3 bytes; then both have them.
fn wide_timings(record: &Record) -> bool {
    record.timings[FIRST_TIMINGS..].iter().any(|timing| *timing > 0xFFFF)
}

fn slotframe_length(record: &Record) -> usize {
    5 + 5 * record.used_links().len()
}

fn group_length(record: &Record) -> usize {
    // Four sub-elements, each with its descriptor.
    4 * 2 + SYNCHRONIZATION_LENGTH + timeslot_length(record) + HOPPING_LENGTH + slotframe_length(record)
}

fn joining_length(joining: &Joining) -> usize {
    // Subtype, flags and priorities, address, network ID.
    1 + 4 + if joining.proxied { 8 } else { 0 } + usize::from(joining.network_length)
}

impl Rest<'_> {
    /// The descriptor of a short sub-element.
    fn short(&mut self, id: u16, length: usize) {
        self.put(&(length as u16 | id << 8).to_le_bytes());
    }

    /// The descriptor of a long sub-element or of a group.
    fn long(&mut self, id: u16, length: usize) {
        self.put(&(length as u16 | id << 11 | 1 << 15).to_le_bytes());
    }
}

/// Fills the frame's bytes, which are as many as its length says.
fn put_frame(record: &Record, mut rest: Rest) {
    record.fields().put(BEACON, &mut rest);
    rest.header(HEADER_TERMINATION_1, 0);
    rest.long(MLME, group_length(record));
    put_synchronization(record, &mut rest);
    put_timeslot(record, &mut rest);
    rest.long(LONG_HOPPING, HOPPING_LENGTH);
    rest.put(&[record.hopping]);
    put_slotframe(record, &mut rest);
    if record.joining.present {
        put_joining(&record.joining, &mut rest);
    }
    assert!(rest.0.is_empty(), "the fields end before the frame");
}

fn put_synchronization(record: &Record, rest: &mut Rest) {
    rest.short(SHORT_SYNCHRONIZATION, SYNCHRONIZATION_LENGTH);
    rest.put(&record.asn.to_le_bytes()[..5]);
    rest.put(&[record.join_metric]);
}

fn put_timeslot(record: &Record, rest: &mut Rest) {
    rest.short(SHORT_TIMESLOT, timeslot_length(record));
    rest.put(&[record.template]);
    if !record.timed {
        return;
    }
    let (first, last) = record.timings.split_at(FIRST_TIMINGS);
    for timing in first {
        rest.put(&timing.to_le_bytes()[..2]);
    }
    let width = if wide_timings(record) { 3 } else { 2 };
    for timing in last {
        rest.put(&timing.to_le_bytes()[..width]);
    }
}

fn put_slotframe(record: &Record, rest: &mut Rest) {
    rest.short(SHORT_SLOTFRAME, slotframe_length(record));
    // One slotframe.
    rest.put(&[1, record.handle]);
    rest.put(&record.size.to_le_bytes());
    rest.put(&[record.count as u8]);
    for link in record.used_links() {
        rest.put(&link.timeslot.to_le_bytes());
        rest.put(&link.offset.to_le_bytes());
        rest.put(&[link.options]);
    }
}

fn put_joining(joining: &Joining, rest: &mut Rest) {
    rest.long(IETF, joining_length(joining));
    rest.put(&[JOINING]);
    let flag = |set: bool, flag: u32| if set { flag } else { 0 };
    let word = flag(joining.router, R_FLAG)
        | flag(joining.proxied, P_FLAG)
        | u32::from(joining.proxy_priority) << 20
        | u32::from(joining.rank_priority) << 8
        | u32::from(joining.pan_priority);
    rest.put(&word.to_be_bytes());
    if joining.proxied {
        rest.put(&joining.proxy.to_be_bytes());
    }
    rest.put(joining.used_network());
}

impl Joining {
    fn split_network(&self) -> (&[u8], &[u8]) {
        self.network.split_at(usize::from(self.network_length).min(LONGEST_NETWORK_ID))
    }

    pub fn used_network(&self) -> &[u8] {
        self.split_network().0
    }

    pub fn unused_network(&self) -> &[u8] {
        self.split_network().1
    }
}

impl Record {
    fn fields(&self) -> Fields {
        Fields { sequence: self.sequence, pan: self.pan, destination: Address::Short(BROADCAST), source: self.source }
    }

    fn split_links(&self) -> (&[Link], &[Link]) {
        self.links.split_at(usize::from(self.count).min(MOST_LINKS))
    }

    pub fn used_links(&self) -> &[Link] {
        self.split_links().0
    }

    pub fn unused_links(&self) -> &[Link] {
        self.split_links().1
    }

    /// The limits that it breaks.
    pub fn broken_limits(&self) -> Vec<Limit> {
        Limit::ALL.iter().copied().filter(|limit| !limit.is_kept(self)).collect()
    }

    /// A beacon that was read.
    pub fn from_beacon(beacon: &Beacon) -> Record {
        let joining = beacon.joining.as_ref().map(|joining| Joining {
            present: true,
            router: joining.router,
            proxied: joining.proxy.is_some(),
            proxy_priority: joining.proxy_priority,
            rank_priority: joining.rank_priority,
            pan_priority: joining.pan_priority,
            proxy: joining.proxy.unwrap_or(0),
            network_length: u8::try_from(joining.network_length).expect("at most 16 bytes"),
            network: joining.network,
        });
        Record {
            sequence: beacon.sequence,
            pan: beacon.pan,
            source: beacon.source,
            asn: beacon.asn,
            join_metric: beacon.join_metric,
            template: beacon.template,
            timed: beacon.timings.is_some(),
            timings: beacon.timings.unwrap_or_default(),
            hopping: beacon.hopping,
            handle: beacon.handle,
            size: beacon.size,
            count: u16::try_from(beacon.count).expect("at most 16 links"),
            links: beacon.links,
            joining: joining.unwrap_or_default(),
        }
    }

    /// The beacon that reading its frame gives; none if it breaks a limit.
    pub fn to_beacon(&self) -> Option<Beacon> {
        keep_limits(self).ok()?;
        let joining = &self.joining;
        Some(Beacon {
            sequence: self.sequence,
            pan: self.pan,
            source: self.source,
            asn: self.asn,
            join_metric: self.join_metric,
            template: self.template,
            timings: self.timed.then_some(self.timings),
            hopping: self.hopping,
            handle: self.handle,
            size: self.size,
            count: self.count.into(),
            links: self.links,
            joining: joining.present.then(|| JoiningInformation {
                router: joining.router,
                proxy: joining.proxied.then_some(joining.proxy),
                proxy_priority: joining.proxy_priority,
                rank_priority: joining.rank_priority,
                pan_priority: joining.pan_priority,
                network: joining.network,
                network_length: joining.network_length.into(),
            }),
        })
    }
}
