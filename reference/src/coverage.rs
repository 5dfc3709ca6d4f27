//! Counts of what random cases reached, so that a test fails when its cases miss something.

use crate::calls::CallList;
use crate::fields::{Comparison, Content, Difference, NAMES};
use crate::frame::{Address, Beacon, Check, LONGEST_FRAME, LONGEST_NETWORK_ID};
use crate::frames::Kind;
use crate::interface as c;
use crate::pairs;
use crate::records::{self, Shape};
use crate::slot::MOST_LINKS;
use crate::stability::Run;
use crate::table::{Call, Place, Table};
use crate::write::{frame_length, Limit, Misfit, Record, Refusal};
use std::collections::{BTreeMap, BTreeSet};

/// How often each named thing was met.
#[derive(Clone, Debug, Default)]
pub struct Counts(BTreeMap<String, usize>);

impl Counts {
    pub fn add(&mut self, name: impl Into<String>) {
        *self.0.entry(name.into()).or_default() += 1;
    }

    pub fn add_if(&mut self, met: bool, name: impl Into<String>) {
        if met {
            self.add(name);
        }
    }

    /// Prints the counts; panics unless exactly these names were met, each at least `least` times.
    pub fn expect(&self, title: &str, least: usize, names: &[impl AsRef<str>]) {
        let names: Vec<&str> = names.iter().map(AsRef::as_ref).collect();
        let count = |name: &str| self.0.get(name).copied().unwrap_or(0);
        println!("{title}");
        for name in &names {
            println!("{:>8}  {name}", count(name));
        }
        for name in &names {
            assert!(count(name) >= least, "{title}: met {} times, not {least}: {name}", count(name));
        }
        for name in self.0.keys() {
            assert!(names.contains(&name.as_str()), "{title}: met, but not in the list: {name}");
        }
    }
}

/// What lists of calls on neighbour tables reached.
#[derive(Clone, Debug, Default)]
pub struct TableCoverage {
    tables: Counts,
    calls: Counts,
    choices: Counts,
    lists: Counts,
    lengths: BTreeMap<usize, usize>,
}

impl TableCoverage {
    /// Counts a list and its run by the reference.
    pub fn add(&mut self, list: &CallList, run: &Run) {
        *self.lengths.entry(list.calls.len()).or_default() += 1;
        self.add_table(&list.table);
        let mut table = list.table.clone();
        for call in &list.calls {
            let answer = table.call(call);
            self.calls.add(call_name(&table, call, answer.number));
            if *call == Call::Evaluate && answer.number == 0 {
                self.choices.add(choice_name(&table, &answer.table));
                self.add_tie(&table, &answer.table);
                self.add_fresh(&table, &answer.table);
            }
            table = answer.table;
        }
        self.add_run(run);
    }

    fn add_table(&mut self, table: &Table) {
        let used: Vec<&Place> = table.places.iter().filter(|place| place.used).collect();
        let any = |rule: &dyn Fn(&Place) -> bool| used.iter().any(|place| rule(place));
        let counts = &mut self.tables;

        let same = |place: &Place| used.iter().filter(|other| other.identifier == place.identifier).count();
        let free_not_zero = table.places.iter().any(|place| !place.used && *place != Place::default());
        let held_missing = table.held.is_some_and(|held| !any(&|place| place.identifier == held));
        counts.add_if(any(&|place| place.attempts > 255), "not sound, t over 255");
        counts.add_if(any(&|place| place.acknowledged > place.attempts), "not sound, a over t");
        counts.add_if(free_not_zero, "not sound, free place not zero");
        counts.add_if(any(&|place| same(place) > 1), "not sound, identifier twice");
        counts.add_if(held_missing, "not sound, held parent not there");
        if !table.sound() {
            return;
        }
        counts.add("sound");
        counts.add_if(used.is_empty(), "empty");
        counts.add_if(used.len() == table.places.len(), "full");
        counts.add_if(any(&|place| place.identifier == 0), "identifier 0");
        counts.add_if(any(&|place| place.identifier == u64::MAX), "identifier 2^64 - 1");
        counts.add_if(table.held == Some(0), "held parent 0");
        counts.add_if(table.held == Some(u64::MAX), "held parent 2^64 - 1");
        for rank in [255, 256, 65534, 65535] {
            counts.add_if(any(&|place| place.rank == rank), format!("rank {rank}"));
        }
        counts.add_if(any(&|place| place.attempts == 255), "t 255");
        counts.add_if(
            any(&|place| place.attempts > 0 && 3 * place.attempts == 11 * place.acknowledged),
            "3t equal to 11a",
        );
        for cost in [65534, 65535] {
            let costs = |place: &Place| place.cost() == Some(cost);
            counts.add_if(any(&|place| costs(place) && place.attempts > 0), format!("cost {cost}"));
            counts.add_if(any(&|place| costs(place) && place.attempts == 0), format!("cost {cost}, fresh"));
        }
        let gap = table.places.windows(2).any(|pair| !pair[0].used && pair[1].used);
        counts.add_if(gap, "free place before a used one");
    }

    /// Counts a parent newly taken from several of the same cost.
    fn add_tie(&mut self, table: &Table, after: &Table) {
        let (Some(parent), true) = (after.held_place(), table.held != after.held) else {
            return;
        };
        let index = table.find(parent.identifier).expect("the parent is a neighbour");
        let ties = |place: &Place| place.eligible() && place.cost() == parent.cost();
        let earlier = table.places[..index].iter().any(ties);
        let far = |place: &Place| ties(place) && place.identifier >> 63 != parent.identifier >> 63;
        self.choices.add_if(earlier, "tie, lower identifier in a later place");
        self.choices.add_if(table.places.iter().any(far), "tie, the other identifier from 2^63 on");
    }

    /// Counts an evaluation in which a fresh neighbour, without an attempt yet, plays a part.
    fn add_fresh(&mut self, table: &Table, after: &Table) {
        let fresh = |place: Option<&Place>| place.is_some_and(|place| place.attempts == 0);
        let gone = |place: &Place| place.attempts > 0 && place.acknowledged == 0;
        let (held, best, changed) = (table.held_place(), table.best(), table.held != after.held);
        let gain = gain(table);
        let counts = &mut self.choices;
        counts.add_if(fresh(after.held_place()) && table.held.is_none(), "fresh first parent");
        counts.add_if(fresh(best) && changed && gain == Some(641), "changed for a fresh best, gain of exactly 641");
        counts.add_if(fresh(best) && !changed && gain == Some(640), "kept against a fresh best, gain of exactly 640");
        counts.add_if(fresh(held) && !changed, "fresh parent kept");
        counts.add_if(fresh(held) && changed, "fresh parent changed");
        counts.add_if(held.is_some_and(gone) && changed, "parent tried and never acknowledged, left");
    }

    fn add_run(&mut self, run: &Run) {
        let (true, Some(slack)) = (run.claim_applies(), run.slack()) else {
            self.lists.add("claim does not apply");
            return;
        };
        self.lists.add(match (run.changes(), run.rises(), slack) {
            (0, 0, _) => "applies, no change, no rise",
            (0, _, _) => "applies, no change, rises",
            (_, 0, 0) => "applies, changes, no rise, bound met with equality",
            (_, 0, _) => "applies, changes, no rise",
            (_, _, 0) => "applies, changes, rises, bound met with equality",
            (_, _, _) => "applies, changes, rises",
        });
        self.lists.add_if(slack == 0 && run.changes() >= 15, "15 changes or more, bound met with equality");
    }

    /// Panics unless everything that such lists can do was met at least `least` times, and every length.
    pub fn expect(&self, least: usize, longest: usize) {
        self.tables.expect(
            "tables given",
            least,
            &[
                "sound",
                "empty",
                "full",
                "identifier 0",
                "identifier 2^64 - 1",
                "held parent 0",
                "held parent 2^64 - 1",
                "rank 255",
                "rank 256",
                "rank 65534",
                "rank 65535",
                "t 255",
                "3t equal to 11a",
                "cost 65534",
                "cost 65534, fresh",
                "cost 65535",
                "cost 65535, fresh",
                "free place before a used one",
                "not sound, t over 255",
                "not sound, a over t",
                "not sound, free place not zero",
                "not sound, identifier twice",
                "not sound, held parent not there",
            ],
        );
        self.calls.expect(
            "calls and their numbers",
            least,
            &[
                "advertise 0, known neighbour",
                "advertise 0, new neighbour",
                "advertise 8",
                "advertise 11",
                "report 0, t stays below 255",
                "report 0, t becomes 255",
                "report 0, halved",
                "report 8, table",
                "report 8, no attempts",
                "report 8, over 4 attempts",
                "report 8, attempts of an unknown neighbour",
                "report 10",
                "forget 0",
                "forget 0, held parent",
                "forget 8",
                "forget 10",
                "evaluate 0",
                "evaluate 8",
            ],
        );
        self.choices.expect(
            "evaluations",
            least,
            &[
                "no parent, none eligible",
                "parent dropped, none eligible",
                "first parent",
                "parent not eligible, best taken",
                "parent changed, gain of exactly 641",
                "parent changed, gain over 641",
                "parent kept, gain of exactly 640",
                "parent kept, gain below 640",
                "parent kept, no gain",
                "tie, lower identifier in a later place",
                "tie, the other identifier from 2^63 on",
                "fresh first parent",
                "changed for a fresh best, gain of exactly 641",
                "kept against a fresh best, gain of exactly 640",
                "fresh parent kept",
                "fresh parent changed",
                "parent tried and never acknowledged, left",
            ],
        );
        self.lists.expect(
            "lists",
            least,
            &[
                "claim does not apply",
                "applies, no change, no rise",
                "applies, no change, rises",
                "applies, changes, no rise",
                "applies, changes, no rise, bound met with equality",
                "applies, changes, rises",
                "applies, changes, rises, bound met with equality",
                "15 changes or more, bound met with equality",
            ],
        );
        let met: Vec<usize> = self.lengths.keys().copied().collect();
        let wanted: Vec<usize> = (1..=longest).collect();
        assert_eq!(met, wanted, "lengths of lists");
    }
}

/// The call and its number, with the reason where one number has several.
fn call_name(table: &Table, call: &Call, number: u8) -> String {
    match *call {
        Call::Advertise { identifier, .. } if number == 0 => match table.find(identifier) {
            Some(_) => "advertise 0, known neighbour".into(),
            None => "advertise 0, new neighbour".into(),
        },
        Call::Advertise { .. } => format!("advertise {number}"),
        Call::Report { identifier, attempts, .. } => match (number, table.find(identifier)) {
            (0, Some(index)) => match table.places[index].attempts + attempts {
                0..255 => "report 0, t stays below 255".into(),
                255 => "report 0, t becomes 255".into(),
                256.. => "report 0, halved".into(),
            },
            (8, _) if !table.sound() => "report 8, table".into(),
            (8, None) => "report 8, attempts of an unknown neighbour".into(),
            (8, Some(_)) if attempts == 0 => "report 8, no attempts".into(),
            (8, Some(_)) => "report 8, over 4 attempts".into(),
            _ => format!("report {number}"),
        },
        Call::Forget { identifier } if number == 0 && table.held == Some(identifier) => "forget 0, held parent".into(),
        Call::Forget { .. } => format!("forget {number}"),
        Call::Evaluate => format!("evaluate {number}"),
    }
}

/// How far the best neighbour's cost is below the held parent's, if the held one is eligible.
fn gain(table: &Table) -> Option<i128> {
    let cost = |place: Option<&Place>| place.filter(|place| place.eligible()).and_then(Place::cost);
    cost(table.held_place()).zip(cost(table.best())).map(|(held, best)| held - best)
}

/// What an evaluation that was not refused did.
fn choice_name(table: &Table, after: &Table) -> &'static str {
    match (table.held, after.held, gain(table)) {
        (None, None, _) => "no parent, none eligible",
        (Some(_), None, _) => "parent dropped, none eligible",
        (None, Some(_), _) => "first parent",
        (Some(_), Some(_), None) => "parent not eligible, best taken",
        (before, now, Some(641)) if before != now => "parent changed, gain of exactly 641",
        (before, now, Some(_)) if before != now => "parent changed, gain over 641",
        (_, _, Some(640)) => "parent kept, gain of exactly 640",
        (_, _, Some(0)) => "parent kept, no gain",
        (_, _, Some(_)) => "parent kept, gain below 640",
    }
}

/// What frames that were read reached.
#[derive(Clone, Debug, Default)]
pub struct FrameCoverage {
    kinds: Counts,
    numbers: Counts,
    checks: Counts,
    records: Counts,
}

impl FrameCoverage {
    /// Counts a frame and the reference's answer.
    pub fn add(&mut self, kind: Kind, frame: &[u8], answer: &Result<Beacon, Check>) {
        self.kinds.add(format!("{kind:?}"));
        match answer {
            Ok(beacon) => {
                self.numbers.add("0");
                count_record(&mut self.records, frame.len(), beacon);
            }
            Err(check) => {
                self.numbers.add(check.number().to_string());
                self.checks.add(format!("{check:?}"));
            }
        }
    }

    /// Panics unless there was every kind of frame, and every number, check and form of the record was met at least
    /// `least` times.
    pub fn expect(&self, least: usize) {
        self.kinds.expect("frames", 1, &Kind::ALL.map(|kind| format!("{kind:?}")));
        self.numbers.expect("numbers", least, &[0, 1, 2, 3, 4, 5, 6, 7, 8].map(|number| number.to_string()));
        let checks: Vec<String> = Check::OF_BEACONS.iter().map(|check| format!("{check:?}")).collect();
        self.checks.expect("checks", least, &checks);
        self.records.expect("records read", least, &record_names());
    }
}

/// Counts a record and its frame's length.
fn count_record(counts: &mut Counts, length: usize, beacon: &Beacon) {
    counts.add_if(length == LONGEST_FRAME, "longest frame");
    counts.add(if beacon.sequence.is_some() { "sequence number" } else { "no sequence number" });
    counts.add(match beacon.source {
        Address::Short(_) => "short source",
        Address::Extended(_) => "extended source",
    });
    counts.add(match beacon.timings {
        None => "no timings",
        Some([.., eleventh, twelfth]) if eleventh.max(twelfth) < 1 << 16 => "timings of 2 bytes",
        Some(_) => "timings over 2 bytes",
    });
    counts.add(format!("{} links", beacon.count));
    let Some(joining) = &beacon.joining else {
        counts.add("no joining information");
        return;
    };
    counts.add(if joining.proxy.is_some() { "join proxy address" } else { "no join proxy address" });
    counts.add(format!("network ID of {} bytes", joining.network_length));
}

/// The names that it gives.
fn record_names() -> Vec<String> {
    let forms = [
        "longest frame",
        "sequence number",
        "no sequence number",
        "short source",
        "extended source",
        "no timings",
        "timings of 2 bytes",
        "timings over 2 bytes",
        "no joining information",
        "join proxy address",
        "no join proxy address",
    ];
    let links = (1..=MOST_LINKS).map(|count| format!("{count} links"));
    let networks = (0..=LONGEST_NETWORK_ID).map(|length| format!("network ID of {length} bytes"));
    forms.map(String::from).into_iter().chain(links).chain(networks).collect()
}

/// How long a buffer is for a frame of this length, with the number that this gives.
pub fn buffer_name(buffer: usize, length: usize) -> &'static str {
    match buffer {
        0 => "9, no byte",
        _ if buffer + 1 == length => "9, a byte short",
        _ if buffer < length => "9, some bytes short",
        _ if buffer == length => "0, just long enough",
        _ if buffer == length + 1 => "0, a byte left",
        _ => "0, some bytes left",
    }
}

/// The names that it gives.
pub const BUFFER_NAMES: [&str; 6] = [
    "9, no byte",
    "9, a byte short",
    "9, some bytes short",
    "0, just long enough",
    "0, a byte left",
    "0, some bytes left",
];

/// What records that were to be written reached.
#[derive(Clone, Debug, Default)]
pub struct WriteCoverage {
    kinds: Counts,
    numbers: Counts,
    refusals: Counts,
    alone: Counts,
    together: BTreeMap<(Limit, Limit), usize>,
    orders: Counts,
    buffers: Counts,
    records: Counts,
    lengths: BTreeMap<usize, usize>,
}

impl WriteCoverage {
    /// Limits of which no record breaks both.
    const NOT_TOGETHER: [(Limit, Limit); 4] = [
        (Limit::NoLinks, Limit::TooManyLinks),
        (Limit::NoLinks, Limit::LinkTimeslot),
        (Limit::TooManyLinks, Limit::UnusedLinks),
        (Limit::NetworkLength, Limit::UnusedNetwork),
    ];

    /// Counts a record, the length of its buffer and the reference's answer.
    pub fn add(&mut self, kind: records::Kind, beacon: &c::Beacon, buffer: usize, answer: &Result<usize, Refusal>) {
        self.kinds.add(format!("{kind:?}"));
        self.numbers.add(answer.map_or_else(Refusal::number, |_| 0).to_string());
        if let Err(refusal) = answer {
            self.refusals.add(format!("{refusal:?}"));
        }
        if let Ok(record) = Record::from_c(beacon) {
            self.add_record(&record, buffer, answer);
        }
    }

    fn add_record(&mut self, record: &Record, buffer: usize, answer: &Result<usize, Refusal>) {
        let length = frame_length(record);
        let (too_long, too_short) = (length > LONGEST_FRAME, buffer < length);
        match answer {
            Err(Refusal::Misfit(_)) => unreachable!("it is a record"),
            Err(Refusal::Limit(_)) => {
                self.add_limits(&record.broken_limits());
                self.orders.add_if(too_long && !too_short, "8 for a frame too long");
                self.orders.add_if(!too_long && too_short, "8 for a buffer too short");
                self.orders.add_if(too_long && too_short, "8 for a frame too long and a buffer too short for it");
                return;
            }
            Err(Refusal::FrameTooLong) => {
                self.orders.add(if too_short { "1 for a buffer too short" } else { "1 for a buffer long enough" });
            }
            Err(Refusal::BufferTooShort) => self.buffers.add(buffer_name(buffer, length)),
            Ok(_) => {
                self.buffers.add(buffer_name(buffer, length));
                count_record(&mut self.records, length, &record.to_beacon().expect("it was written"));
            }
        }
        *self.lengths.entry(length).or_default() += 1;
    }

    fn add_limits(&mut self, broken: &[Limit]) {
        if let [limit] = broken {
            self.alone.add(format!("{limit:?}"));
        }
        for (place, &first) in broken.iter().enumerate() {
            for &second in &broken[place + 1..] {
                *self.together.entry((first, second)).or_default() += 1;
            }
        }
    }

    /// Panics unless there was every kind of record, every number, refusal, pair of limits, buffer and form of the record
    /// was met at least `least` times, and every length of a frame.
    pub fn expect(&self, least: usize) {
        self.kinds.expect("records", 1, &records::Kind::ALL.map(|kind| format!("{kind:?}")));
        self.numbers.expect("numbers", least, &[0, 1, 8, 9].map(|number| number.to_string()));
        let limits = Limit::ALL.iter().map(|limit| Refusal::Limit(*limit));
        let misfits = Misfit::ALL.map(Refusal::Misfit);
        let refusals: Vec<String> = limits
            .chain(misfits)
            .chain([Refusal::FrameTooLong, Refusal::BufferTooShort])
            .map(|refusal| format!("{refusal:?}"))
            .collect();
        self.refusals.expect("first fault", least, &refusals);
        // No timeslot is below size 0, so that one is never broken alone.
        let alone: Vec<String> = Limit::ALL
            .iter()
            .filter(|limit| **limit != Limit::SlotframeSize)
            .map(|limit| format!("{limit:?}"))
            .collect();
        self.alone.expect("limits broken alone", least, &alone);
        self.expect_together(least);
        self.orders.expect(
            "order of faults",
            least,
            &[
                "8 for a frame too long",
                "8 for a buffer too short",
                "8 for a frame too long and a buffer too short for it",
                "1 for a buffer too short",
                "1 for a buffer long enough",
            ],
        );
        self.buffers.expect("buffers", least, &BUFFER_NAMES);
        self.records.expect("records written", least, &record_names());
        let met: BTreeSet<usize> = self.lengths.keys().copied().collect();
        let wanted: BTreeSet<usize> = Shape::all().iter().map(Shape::length).collect();
        assert_eq!(met, wanted, "lengths of frames");
        println!("{} lengths of frames, each at least {} times", met.len(), self.lengths.values().min().unwrap_or(&0));
    }

    fn expect_together(&self, least: usize) {
        let mut pairs = 0;
        for (place, &first) in Limit::ALL.iter().enumerate() {
            for &second in &Limit::ALL[place + 1..] {
                let count = self.together.get(&(first, second)).copied().unwrap_or(0);
                if WriteCoverage::NOT_TOGETHER.contains(&(first, second)) {
                    assert_eq!(count, 0, "{first:?} and {second:?} are both broken");
                } else {
                    assert!(count >= least, "{first:?} and {second:?}: {count} times, not {least}");
                    pairs += 1;
                }
            }
        }
        println!("{pairs} pairs of limits, each at least {} times", self.together.values().min().unwrap_or(&0));
    }
}

/// What pairs of frames that were compared reached.
#[derive(Clone, Debug, Default)]
pub struct PairCoverage {
    kinds: Counts,
    numbers: Counts,
    fields: Counts,
    alone: Counts,
    contents: Counts,
    lists: Counts,
}

impl PairCoverage {
    /// Fields with which others always differ: the links, the proxy's address.
    const NEVER_ALONE: [&str; 2] = ["link-count", "joining-p"];

    /// Counts a pair and the reference's comparison.
    pub fn add(&mut self, kind: pairs::Kind, first: &[u8], second: &[u8], comparison: &Comparison) {
        self.kinds.add(format!("{kind:?}"));
        let differences = match comparison {
            Err([first, second]) => {
                self.numbers.add(format!("first {first}"));
                self.numbers.add(format!("second {second}"));
                return;
            }
            Ok(differences) => differences,
        };
        if let [difference] = &differences[..] {
            self.alone.add(&NAMES[difference.field]);
        }
        for difference in differences {
            self.fields.add(&NAMES[difference.field]);
            self.add_contents(difference);
        }
        self.lists.add(match differences.len() {
            0 if first == second => "none, of one frame",
            0 if first.len() == second.len() => "none, of frames of one length",
            0 => "none, of frames of other lengths",
            1 => "one",
            2..=9 => "2 to 9",
            10..=39 => "10 to 39",
            40.. => "40 or more",
        });
    }

    fn add_contents(&mut self, Difference { first, second, .. }: &Difference) {
        self.contents.add(format!("{}, {}", content_name(first), content_name(second)));
        match (first, second) {
            (Content::Address(Address::Short(short)), Content::Address(Address::Extended(extended)))
            | (Content::Address(Address::Extended(extended)), Content::Address(Address::Short(short))) => {
                self.contents.add_if(u64::from(*short) == *extended, "short and extended of one number");
            }
            (Content::Absent, Content::Number(0)) | (Content::Number(0), Content::Absent) => {
                self.contents.add("absent and the number 0");
            }
            (Content::Octets(first), Content::Octets(second)) => {
                let zeros = [first, second].iter().all(|octets| octets.iter().all(|octet| *octet == 0));
                self.contents.add_if(zeros, "octets that are zeros, of other lengths");
                self.contents.add_if(first.len() == second.len(), "octets of one length");
            }
            _ => {}
        }
    }

    /// Panics unless there was every kind of pair, and every number on both sides, field, field alone, pair of contents
    /// and length of a list was met at least `least` times.
    pub fn expect(&self, least: usize) {
        self.kinds.expect("pairs", 20_000, &pairs::Kind::ALL.map(|kind| format!("{kind:?}")));
        let numbers = (0..=8).flat_map(|number| [format!("first {number}"), format!("second {number}")]);
        self.numbers.expect("numbers where one is refused", least, &numbers.collect::<Vec<_>>());
        self.fields.expect("fields that differ", least, &NAMES);
        let alone = NAMES.iter().filter(|name| !PairCoverage::NEVER_ALONE.contains(&name.as_str()));
        self.alone.expect("fields that differ alone", least, &alone.collect::<Vec<_>>());
        self.contents.expect(
            "contents of fields that differ",
            least,
            &[
                "absent, number",
                "number, absent",
                "number, number",
                "short, short",
                "short, extended",
                "extended, short",
                "extended, extended",
                "absent, extended",
                "extended, absent",
                "absent, octets",
                "octets, absent",
                "octets, octets",
                "short and extended of one number",
                "absent and the number 0",
                "octets that are zeros, of other lengths",
                "octets of one length",
            ],
        );
        self.lists.expect(
            "fields that differ, in a pair",
            least,
            &[
                "none, of one frame",
                "none, of frames of one length",
                "none, of frames of other lengths",
                "one",
                "2 to 9",
                "10 to 39",
                "40 or more",
            ],
        );
    }
}

fn content_name(content: &Content) -> &'static str {
    match content {
        Content::Absent => "absent",
        Content::Number(_) => "number",
        Content::Address(Address::Short(_)) => "short",
        Content::Address(Address::Extended(_)) => "extended",
        Content::Octets(_) => "octets",
    }
}
