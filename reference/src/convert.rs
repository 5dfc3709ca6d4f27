//! Between the reference's own types and the structs of the C header, and the reference's answers in C's form: what the
//! library should say.

use crate::ack::{self, Ack};
use crate::ack_write;
use crate::fields::Content;
use crate::frame::{self, Address, Beacon, Check, LONGEST_NETWORK_ID};
use crate::header::{
    CONTENT_ABSENT, CONTENT_EXTENDED, CONTENT_NUMBER, CONTENT_OCTETS, CONTENT_SHORT, FIELDS, FIELD_ASN,
    FIELD_HOPPING_SEQUENCE_ID, FIELD_JOINING_P, FIELD_JOINING_R, FIELD_JOIN_METRIC, FIELD_LINKS, FIELD_LINK_COUNT,
    FIELD_NETWORK_ID, FIELD_PAN_ID, FIELD_PAN_PRIORITY, FIELD_PROXY_ADDRESS, FIELD_PROXY_PRIORITY, FIELD_RANK_PRIORITY,
    FIELD_SEQUENCE_NUMBER, FIELD_SLOTFRAME_HANDLE, FIELD_SLOTFRAME_SIZE, FIELD_SOURCE, FIELD_TEMPLATE_ID,
    FIELD_TIMINGS,
};
use crate::interface as c;
use crate::interface::Numbers;
use crate::metric::{self, JoinMetric};
use crate::refusal::OUT_OF_LIMITS;
use crate::slot::{self, Link, Slot, MOST_LINKS};
use crate::table::{Call, Place, Table, NO_RANK};
use crate::write::{self, Joining, Misfit, Record, Refusal};

/// The reference's reading.
pub fn read(frame: &[u8]) -> c::Reading {
    c::Reading::of(&frame::read(frame))
}

/// Where the reference finds the network ID.
pub fn network_id(frame: &[u8]) -> c::Span {
    let part = frame::network_id(frame);
    c::Span { offset: part.as_ptr().addr() - frame.as_ptr().addr(), length: part.len() }
}

impl c::Reading {
    /// The reference's answer; a refusal has the blank record.
    pub fn of(answer: &Result<Beacon, Check>) -> c::Reading {
        match answer {
            Ok(beacon) => c::Reading { number: 0, beacon: c::Beacon::of(beacon) },
            Err(check) => c::Reading { number: check.number(), beacon: c::Beacon::default() },
        }
    }
}

/// Whether an address is extended, and its number.
fn address_of(address: Address) -> (bool, u64) {
    match address {
        Address::Short(address) => (false, address.into()),
        Address::Extended(address) => (true, address),
    }
}

/// The address that C's form holds; the misfit if it is a short one over 65535.
fn address_from<M>(is_extended: bool, address: u64, misfit: M) -> Result<Address, M> {
    match (is_extended, u16::try_from(address)) {
        (true, _) => Ok(Address::Extended(address)),
        (false, Ok(address)) => Ok(Address::Short(address)),
        (false, Err(_)) => Err(misfit),
    }
}

/// The sequence number that C's form holds; the misfit if it is not 0 where there is none.
fn sequence_from<M>(is_there: bool, sequence: u8, misfit: M) -> Result<Option<u8>, M> {
    match (is_there, sequence) {
        (true, sequence) => Ok(Some(sequence)),
        (false, 0) => Ok(None),
        (false, _) => Err(misfit),
    }
}

fn links_of(links: &[Link; MOST_LINKS]) -> [c::Link; MOST_LINKS] {
    links.map(|link| c::Link { timeslot: link.timeslot, channel_offset: link.offset, options: link.options.into() })
}

impl c::Beacon {
    /// A beacon that was read.
    pub fn of(beacon: &Beacon) -> c::Beacon {
        let (source_is_extended, source) = address_of(beacon.source);
        c::Beacon {
            has_sequence_number: beacon.sequence.is_some(),
            sequence_number: beacon.sequence.unwrap_or(0),
            pan_id: beacon.pan,
            source_is_extended,
            source,
            synchronization: c::Synchronization { asn: beacon.asn, join_metric: beacon.join_metric },
            timeslot: c::Timeslot {
                template_id: beacon.template,
                has_timings: beacon.timings.is_some(),
                timings: beacon.timings.unwrap_or_default(),
            },
            hopping_sequence_id: beacon.hopping,
            slotframe: c::Slotframe {
                handle: beacon.handle,
                size: beacon.size,
                link_count: beacon.count as u16,
                links: links_of(&beacon.links),
            },
            joining: match &beacon.joining {
                None => c::Joining::default(),
                Some(joining) => c::Joining {
                    present: true,
                    router: joining.router,
                    proxied: joining.proxy.is_some(),
                    proxy_priority: joining.proxy_priority,
                    rank_priority: joining.rank_priority,
                    pan_priority: joining.pan_priority,
                    proxy_address: joining.proxy.unwrap_or(0),
                    network_id_length: joining.network_length as u8,
                    network_id: joining.network,
                },
            },
        }
    }

    /// A record to be written, within the limits or not.
    pub fn of_record(record: &Record) -> c::Beacon {
        let joining = &record.joining;
        let (source_is_extended, source) = address_of(record.source);
        c::Beacon {
            has_sequence_number: record.sequence.is_some(),
            sequence_number: record.sequence.unwrap_or(0),
            pan_id: record.pan,
            source_is_extended,
            source,
            synchronization: c::Synchronization { asn: record.asn, join_metric: record.join_metric },
            timeslot: c::Timeslot { template_id: record.template, has_timings: record.timed, timings: record.timings },
            hopping_sequence_id: record.hopping,
            slotframe: c::Slotframe {
                handle: record.handle,
                size: record.size,
                link_count: record.count,
                links: links_of(&record.links),
            },
            joining: c::Joining {
                present: joining.present,
                router: joining.router,
                proxied: joining.proxied,
                proxy_priority: joining.proxy_priority,
                rank_priority: joining.rank_priority,
                pan_priority: joining.pan_priority,
                proxy_address: joining.proxy,
                network_id_length: joining.network_length,
                network_id: joining.network,
            },
        }
    }
}

impl Record {
    /// The record that C's form holds, or why it holds none.
    pub fn from_c(beacon: &c::Beacon) -> Result<Record, Misfit> {
        let c::Beacon { synchronization, timeslot, slotframe, joining, .. } = beacon;
        let sequence = sequence_from(beacon.has_sequence_number, beacon.sequence_number, Misfit::AbsentSequence)?;
        let source = address_from(beacon.source_is_extended, beacon.source, Misfit::ShortSource)?;
        let mut links = [Link::default(); MOST_LINKS];
        for (link, given) in links.iter_mut().zip(&slotframe.links) {
            let Ok(options) = u8::try_from(given.options) else {
                return Err(Misfit::Options);
            };
            *link = Link { timeslot: given.timeslot, offset: given.channel_offset, options };
        }
        Ok(Record {
            sequence,
            pan: beacon.pan_id,
            source,
            asn: synchronization.asn,
            join_metric: synchronization.join_metric,
            template: timeslot.template_id,
            timed: timeslot.has_timings,
            timings: timeslot.timings,
            hopping: beacon.hopping_sequence_id,
            handle: slotframe.handle,
            size: slotframe.size,
            count: slotframe.link_count,
            links,
            joining: Joining {
                present: joining.present,
                router: joining.router,
                proxied: joining.proxied,
                proxy_priority: joining.proxy_priority,
                rank_priority: joining.rank_priority,
                pan_priority: joining.pan_priority,
                proxy: joining.proxy_address,
                network_length: joining.network_id_length,
                network: joining.network_id,
            },
        })
    }
}

/// The reference's writing of a record in C's form.
pub fn write(beacon: &c::Beacon, buffer: &mut [u8]) -> Result<usize, Refusal> {
    write::write(&Record::from_c(beacon).map_err(Refusal::Misfit)?, buffer)
}

impl c::Written {
    pub fn of<M: Copy, L: Copy>(answer: &Result<usize, Refusal<M, L>>) -> c::Written {
        match *answer {
            Ok(length) => c::Written { number: 0, length },
            Err(refusal) => c::Written { number: refusal.number(), length: 0 },
        }
    }
}

impl c::Content {
    /// What a record has in a field.
    pub fn of(content: &Content) -> c::Content {
        let absent = c::Content { kind: CONTENT_ABSENT, ..c::Content::default() };
        match content {
            Content::Absent => absent,
            Content::Number(number) => c::Content { kind: CONTENT_NUMBER, number: *number, ..absent },
            Content::Address(address) => {
                let (is_extended, number) = address_of(*address);
                c::Content { kind: if is_extended { CONTENT_EXTENDED } else { CONTENT_SHORT }, number, ..absent }
            }
            Content::Octets(octets) => {
                let mut padded = [0; LONGEST_NETWORK_ID];
                padded[..octets.len()].copy_from_slice(octets);
                c::Content { kind: CONTENT_OCTETS, length: octets.len() as u32, octets: padded, ..absent }
            }
        }
    }
}

/// What C's form has in a field, also one that is no record's: the reference's answer, with the header's names of the
/// fields.
pub fn field(beacon: &c::Beacon, index: usize) -> c::Content {
    let c::Beacon { synchronization, timeslot, slotframe, joining, .. } = beacon;
    let content = |kind: u32, number: u64| c::Content { kind, number, ..c::Content::default() };
    let number = |number: u64| content(CONTENT_NUMBER, number);
    match index {
        FIELD_SEQUENCE_NUMBER if beacon.has_sequence_number => number(beacon.sequence_number.into()),
        FIELD_PAN_ID => number(beacon.pan_id.into()),
        FIELD_SOURCE if beacon.source_is_extended => content(CONTENT_EXTENDED, beacon.source),
        // Of a short one over 65535 the low 16 bits.
        FIELD_SOURCE => content(CONTENT_SHORT, beacon.source & 0xFFFF),
        FIELD_ASN => number(synchronization.asn),
        FIELD_JOIN_METRIC => number(synchronization.join_metric.into()),
        FIELD_TEMPLATE_ID => number(timeslot.template_id.into()),
        FIELD_TIMINGS..FIELD_HOPPING_SEQUENCE_ID if timeslot.has_timings => {
            number(timeslot.timings[index - FIELD_TIMINGS].into())
        }
        FIELD_HOPPING_SEQUENCE_ID => number(beacon.hopping_sequence_id.into()),
        FIELD_SLOTFRAME_HANDLE => number(slotframe.handle.into()),
        FIELD_SLOTFRAME_SIZE => number(slotframe.size.into()),
        FIELD_LINK_COUNT => number(slotframe.link_count.into()),
        FIELD_LINKS..FIELD_JOINING_R => {
            let (place, of) = ((index - FIELD_LINKS) / 3, (index - FIELD_LINKS) % 3);
            let c::Link { timeslot, channel_offset, options } = slotframe.links[place];
            match place < usize::from(slotframe.link_count) {
                true => number([timeslot, channel_offset, options][of].into()),
                false => c::Content::default(),
            }
        }
        FIELD_JOINING_R..FIELDS if !joining.present => c::Content::default(),
        FIELD_JOINING_R => number(joining.router.into()),
        FIELD_JOINING_P => number(joining.proxied.into()),
        FIELD_PROXY_PRIORITY => number(joining.proxy_priority.into()),
        FIELD_RANK_PRIORITY => number(joining.rank_priority.into()),
        FIELD_PAN_PRIORITY => number(joining.pan_priority.into()),
        FIELD_PROXY_ADDRESS if joining.proxied => content(CONTENT_EXTENDED, joining.proxy_address),
        FIELD_NETWORK_ID => c::Content {
            length: joining.network_id_length.into(),
            octets: joining.network_id,
            ..content(CONTENT_OCTETS, 0)
        },
        _ => c::Content::default(),
    }
}

/// The reference's reading of an acknowledgement.
pub fn read_ack(frame: &[u8]) -> c::AckReading {
    c::AckReading::of(&ack::read(frame))
}

impl c::AckReading {
    /// The reference's answer; a refusal has the blank record.
    pub fn of(answer: &Result<Ack, Check>) -> c::AckReading {
        match answer {
            Ok(ack) => c::AckReading { number: 0, ack: c::Ack::of(ack) },
            Err(check) => c::AckReading { number: check.number(), ack: c::Ack::default() },
        }
    }
}

impl c::Ack {
    /// A record that was read or is to be written, within the limits or not.
    pub fn of(ack: &Ack) -> c::Ack {
        let (destination_is_extended, destination) = address_of(ack.destination);
        let (source_is_extended, source) = address_of(ack.source);
        c::Ack {
            has_sequence_number: ack.sequence.is_some(),
            sequence_number: ack.sequence.unwrap_or(0),
            pan_id: ack.pan,
            destination_is_extended,
            destination,
            source_is_extended,
            source,
            correction: ack.correction,
            not_acknowledged: ack.not_acknowledged,
        }
    }
}

impl Ack {
    /// The record that C's form holds, or why it holds none.
    pub fn from_c(ack: &c::Ack) -> Result<Ack, ack_write::Misfit> {
        use ack_write::Misfit;
        Ok(Ack {
            sequence: sequence_from(ack.has_sequence_number, ack.sequence_number, Misfit::AbsentSequence)?,
            pan: ack.pan_id,
            destination: address_from(ack.destination_is_extended, ack.destination, Misfit::ShortDestination)?,
            source: address_from(ack.source_is_extended, ack.source, Misfit::ShortSource)?,
            correction: ack.correction,
            not_acknowledged: ack.not_acknowledged,
        })
    }
}

/// The reference's writing of an acknowledgement's record in C's form.
pub fn write_ack(ack: &c::Ack, buffer: &mut [u8]) -> Result<usize, ack_write::Refusal> {
    ack_write::write(&Ack::from_c(ack).map_err(Refusal::Misfit)?, buffer)
}

impl c::Table {
    /// A table whose counters fit in 16 bits.
    pub fn of(table: &Table) -> c::Table {
        let counter = |number: u64| u16::try_from(number).expect("a counter has 16 bits in C");
        c::Table {
            neighbours: table.places.map(|place| c::Neighbour {
                id: place.identifier,
                rank: place.rank,
                attempts: counter(place.attempts),
                acknowledged: counter(place.acknowledged),
                in_use: place.used,
            }),
            has_parent: table.held.is_some(),
            parent: table.held.unwrap_or(0),
        }
    }
}

impl Table {
    /// The table that C's form holds; none if it has an identifier where no parent is held.
    pub fn from_c(table: &c::Table) -> Option<Table> {
        let held = match (table.has_parent, table.parent) {
            (true, parent) => Some(parent),
            (false, 0) => None,
            (false, _) => return None,
        };
        let places = table.neighbours.map(|neighbour| Place {
            used: neighbour.in_use,
            identifier: neighbour.id,
            rank: neighbour.rank,
            attempts: neighbour.attempts.into(),
            acknowledged: neighbour.acknowledged.into(),
        });
        Some(Table { places, held })
    }
}

/// A call's answer in C's form; an evaluation's has a form of its own.
#[derive(Clone, Copy, Debug, PartialEq, Eq)]
pub enum Reply {
    Call(c::TableAnswer),
    Evaluation(c::Evaluation),
}

impl Reply {
    pub fn number(&self) -> u8 {
        match self {
            Reply::Call(answer) => answer.number,
            Reply::Evaluation(evaluation) => evaluation.number,
        }
    }

    pub fn table(&self) -> &c::Table {
        match self {
            Reply::Call(answer) => &answer.table,
            Reply::Evaluation(evaluation) => &evaluation.table,
        }
    }

    /// Whether two are the same bit for bit.
    pub fn same(&self, other: &Reply) -> bool {
        match (self, other) {
            (Reply::Call(one), Reply::Call(other)) => one.same(other),
            (Reply::Evaluation(one), Reply::Evaluation(other)) => one.same(other),
            _ => false,
        }
    }

    /// The refusal of a table: number 8, and the table as it was given.
    pub fn refused(table: &c::Table, call: &Call) -> Reply {
        match call {
            Call::Evaluate => Reply::Evaluation(c::Evaluation {
                number: OUT_OF_LIMITS,
                changed: false,
                rank: NO_RANK,
                has_parent: table.has_parent,
                parent: table.parent,
                table: *table,
            }),
            _ => Reply::Call(c::TableAnswer { number: OUT_OF_LIMITS, table: *table }),
        }
    }
}

/// The reference's answer to a call on a table in C's form.
pub fn call(table: &c::Table, call: &Call) -> Reply {
    let Some(own) = Table::from_c(table) else {
        return Reply::refused(table, call);
    };
    let answer = own.call(call);
    let table = c::Table::of(&answer.table);
    match answer.own_rank {
        None => Reply::Call(c::TableAnswer { number: answer.number, table }),
        Some(rank) => Reply::Evaluation(c::Evaluation {
            number: answer.number,
            changed: own.held != answer.table.held,
            rank,
            has_parent: table.has_parent,
            parent: table.parent,
            table,
        }),
    }
}

/// The reference's slot decision over links in C's form.
pub fn decide(links: &[c::Link], size: u32, id: u32, asn: u64, waits: bool) -> c::Slot {
    // One more than are accepted: longer lists are refused like this one.
    let mut own = [Link::default(); MOST_LINKS + 1];
    for (own, link) in own.iter_mut().zip(links) {
        // Only the bits to transmit and to receive play a part, which stand in the low byte.
        *own = Link { timeslot: link.timeslot, offset: link.channel_offset, options: link.options as u8 };
    }
    c::Slot::of(&slot::decide(&own[..links.len().min(own.len())], size, id, asn, waits))
}

impl c::Slot {
    pub fn of(slot: &Slot) -> c::Slot {
        c::Slot { number: slot.number, action: slot.action, channel: slot.channel, index: slot.place as u8 }
    }
}

/// The reference's increment as the header has it, without a sign: 0 where nothing was acknowledged, and where it would be
/// below 0, which takes more acknowledged than a table may hold.
pub fn increment(attempts: u16, acknowledged: u16) -> u32 {
    let increment = metric::increment(attempts.into(), acknowledged.into()).unwrap_or(0).max(0);
    u32::try_from(increment).expect("at most 256 * 3 * 65535")
}

/// The reference's join metric.
pub fn join_metric(rank: u32) -> c::Metric {
    let JoinMetric { number, metric } = metric::join_metric(rank);
    c::Metric { number, metric }
}

#[cfg(test)]
mod tests {
    use super::*;

    #[test]
    fn tables() {
        let mut table = Table { held: Some(u64::MAX), ..Table::default() };
        table.places[31] = Place { used: true, identifier: u64::MAX, rank: 65535, attempts: 65534, acknowledged: 7 };
        let converted = c::Table::of(&table);
        let neighbour = c::Neighbour { id: u64::MAX, rank: 65535, attempts: 65534, acknowledged: 7, in_use: true };
        assert_eq!((converted.neighbours[31], converted.has_parent, converted.parent), (neighbour, true, u64::MAX));
        assert_eq!(converted.neighbours[..31], [c::Neighbour::default(); 31]);
        assert_eq!(Table::from_c(&converted), Some(table));
        assert_eq!(Table::from_c(&c::Table::default()), Some(Table::default()));

        let held_0 = c::Table { has_parent: true, ..c::Table::default() };
        assert_eq!(Table::from_c(&held_0), Some(Table { held: Some(0), ..Table::default() }));
        let none_but_7 = c::Table { parent: 7, ..c::Table::default() };
        assert_eq!(Table::from_c(&none_but_7), None);
        let refused =
            c::Evaluation { number: 8, rank: 65535, parent: 7, table: none_but_7, ..c::Evaluation::default() };
        assert_eq!(call(&none_but_7, &Call::Evaluate), Reply::Evaluation(refused));
    }

    /// Bits of the options over the low byte are not looked at, and long lists are refused.
    #[test]
    fn links() {
        let link = |options| c::Link { timeslot: 0, channel_offset: 0, options };
        assert_eq!(decide(&[link(0xFF00)], 1, 0, 0, true), c::Slot::default());
        assert_eq!(decide(&[link(0xFF01)], 1, 0, 0, true), c::Slot { action: 1, channel: 16, ..c::Slot::default() });
        for (count, number) in [(0, 8), (16, 0), (17, 8), (18, 8), (300, 8)] {
            assert_eq!(decide(&vec![link(0); count], 1, 0, 0, true), c::Slot { number, ..c::Slot::default() });
        }
    }
}
