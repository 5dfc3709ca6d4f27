//! The neighbour table: the static library against the reference, on random lists of calls, on tables that are refused and
//! on fixed values.

use reference::calls::{longest_descents, random_calls, CallList, Kind, LONGEST_LIST};
use reference::convert::{self, Reply};
use reference::coverage::{Counts, TableCoverage};
use reference::interface as c;
use reference::interface::Numbers;
use reference::library;
use reference::log::{self, Log, MOST_ROWS};
use reference::metric;
use reference::random::Random;
use reference::stability::{self, Run, LEAST_GAIN, MOST_CHANGES_WITHOUT_RISES};
use reference::table::{Call, Place, Table, PLACES};
use std::hint::black_box;
use std::ptr::null;

/// The library's answer to a log, whose lists it only reads. Before and behind what is lent of a list stands a row that
/// would have the log refused.
fn replay(table: &c::Table, log: &Log) -> c::Replay {
    fn between<T: Copy>(list: &[T], row: T) -> Vec<T> {
        [&[row], list, &[row]].concat()
    }
    fn lent<T>(list: &[T]) -> &[T] {
        &list[1..list.len() - 1]
    }
    let lists = Log {
        kinds: between(&log.kinds, 255),
        ids: between(&log.ids, 0xE06E_0F7A_B1E5_1DE5),
        values: between(&log.values, 0xE06E),
        flags: between(&log.flags, 255),
    };
    let before = lists.clone();
    // The compiler shall take nothing for granted when the lists are compared.
    let Log { kinds, ids, values, flags } = black_box(&lists);
    let replay = library::replay_lists(table, lent(kinds), lent(ids), lent(values), lent(flags));
    assert_eq!(lists, before, "a list was written");
    replay
}

/// What the claim that parents do not flap compares; without meaning for lists that it does not apply to.
#[derive(Clone, Copy, Debug, Default, PartialEq, Eq)]
struct Claim {
    evaluations: u32,
    changes: u32,
    rises: u64,
    first: u32,
    last: u32,
}

impl Claim {
    /// Counts an evaluation by the library's answers alone: the table on entry, and what was given for it.
    fn add(&mut self, entry: &c::Table, evaluation: &c::Evaluation) {
        let cost = held_cost(entry);
        match self.evaluations {
            0 => self.first = cost,
            _ => self.rises += u64::from(cost.saturating_sub(self.last)),
        }
        self.evaluations += 1;
        self.changes += u32::from(evaluation.changed);
        self.last = u32::from(evaluation.rank);
    }

    fn of(replay: &c::Replay) -> Claim {
        let c::Replay { evaluations, changes, rises, first_cost: first, last_cost: last, .. } = *replay;
        Claim { evaluations, changes, rises, first, last }
    }

    /// How far it stays below the bound; panics if it does not.
    fn slack(&self, name: &str) -> i128 {
        let spent = LEAST_GAIN * i128::from(self.changes) + i128::from(self.last);
        let slack = i128::from(self.first) + i128::from(self.rises) - spent;
        assert!(slack >= 0, "{name}: bound broken, {self:?}");
        assert!(self.rises > 0 || self.changes <= MOST_CHANGES_WITHOUT_RISES as u32, "{name}: {self:?}");
        slack
    }
}

/// The held parent's rank and the library's increment; 0 without a parent.
fn held_cost(table: &c::Table) -> u32 {
    let held = |place: &&c::Neighbour| table.has_parent && place.in_use && place.id == table.parent;
    let cost = |place: &c::Neighbour| u32::from(place.rank) + library::increment(place.attempts, place.acknowledged);
    table.neighbours.iter().find(held).map_or(0, cost)
}

/// What an evaluation's answer says of the table that it gives back and of the one that it got.
fn check_evaluation(name: &str, entry: &c::Table, evaluation: &c::Evaluation) {
    let parents = |table: &c::Table| (table.has_parent, table.parent);
    let now = parents(&evaluation.table);
    assert_eq!((evaluation.has_parent, evaluation.parent), now, "{name}: {evaluation:?}");
    assert_eq!(evaluation.changed, now != parents(entry), "{name}: {evaluation:?}");
    assert!(evaluation.table.neighbours.same(&entry.neighbours), "{name}: {evaluation:?}");
}

/// Runs a list call by call and compares each answer; gives what it means for the claim.
fn step(name: &str, list: &CallList) -> Claim {
    let mut table = c::Table::of(&list.table);
    let mut claim = Claim::default();
    for (index, call) in list.calls.iter().enumerate() {
        let reply = library::call(&table, call);
        let expected = convert::call(&table, call);
        assert!(reply.same(&expected), "{name}, call {index}, {call:?}: {reply:?} for {expected:?}; {list:?}");
        if reply.number() != 0 {
            assert!(reply.table().same(&table), "{name}, call {index}, {call:?}: refused, but changed");
        }
        if let Reply::Evaluation(evaluation) = &reply {
            check_evaluation(name, &table, evaluation);
            claim.add(&table, evaluation);
        }
        table = *reply.table();
    }
    claim
}

/// Runs a list call by call and as a log, through the library and the reference. The log has the list's calls.
fn check_list(name: &str, list: &CallList, log: &Log, outcomes: &mut Counts) -> Run {
    assert_eq!(log.calls().as_ref(), Some(&list.calls), "{name}");
    let table = c::Table::of(&list.table);
    let run = stability::run(&list.table, &list.calls);
    let expected = if run.sound { c::Replay::of(&run) } else { c::Replay::refused(&table) };
    let stepped = step(name, list);

    let replayed = replay(&table, log);
    assert!(replayed.same(&expected), "{name}: {replayed:?} for {expected:?}; {list:?}");
    if replayed.number != 0 {
        assert!(replayed.table.same(&table), "{name}: refused, but changed");
        assert_eq!((Claim::of(&replayed), replayed.applies), (Claim::default(), false), "{name}: refused, but counted");
    }

    outcomes.add(match (replayed.number, replayed.applies) {
        (0, true) => "claim applies",
        (0, false) => "claim does not apply",
        _ => "refused",
    });
    if replayed.number == 0 && !replayed.applies {
        count_costs(&run, outcomes);
    }
    if replayed.applies {
        let claim = Claim::of(&replayed);
        assert_eq!(stepped, claim, "{name}: call by call, and as a log");
        assert_eq!(Some(claim.slack(name)), run.slack(), "{name}");
        let met = claim.slack(name) == 0 && claim.changes > 0;
        outcomes.add_if(met && claim.rises == 0, "bound met with equality, changes, no rise");
        outcomes.add_if(met && claim.rises > 0, "bound met with equality, changes, rises");
    }
    run
}

/// Of a list outside the claim: which of its costs the rules name. The others, of no parent and of one that was tried and
/// never acknowledged, only the header does.
fn count_costs(run: &Run, outcomes: &mut Counts) {
    if run.evaluations.is_empty() {
        outcomes.add("no evaluation");
        return;
    }
    let rises = run.evaluations.windows(2).all(|pair| pair[0].exit.cost.and(pair[1].entry.cost).is_some());
    let costs = [("rises", rises), ("first", run.first_cost().is_some()), ("last", run.last_cost().is_some())];
    for (field, named) in costs {
        let by = if named { "the rules" } else { "the header alone" };
        outcomes.add(format!("claim does not apply, {field} named by {by}"));
    }
}

/// Puts random numbers where a row's call takes none.
fn fill_unnamed(random: &mut Random, log: &mut Log) {
    for row in 0..log.kinds.len() {
        if log.kinds[row] == 3 {
            log.ids[row] = random.number();
        }
        if log.kinds[row] >= 2 {
            log.values[row] = random.number() as u16;
        }
        if log.kinds[row] != 1 {
            log.flags[row] = random.below(2) as u8;
        }
    }
}

#[test]
fn library_runs_lists_as_the_reference() {
    const LISTS: usize = 100_000;
    /// What is met less often would be a matter of luck.
    const LEAST: usize = 500;

    let mut random = Random::new(0x7AB1E);
    let mut coverage = TableCoverage::default();
    let mut outcomes = Counts::default();
    let mut calls = 0usize;
    for index in 0..LISTS {
        let list = random_calls(&mut random);
        let mut log = Log::of(&list.calls);
        fill_unnamed(&mut random, &mut log);
        let run = check_list(&format!("list {index}"), &list, &log, &mut outcomes);
        coverage.add(&list, &run);
        calls += list.calls.len();
    }
    coverage.expect(LEAST, LONGEST_LIST);
    outcomes.expect(
        &format!("outcomes of {LISTS} lists with {calls} calls"),
        LEAST,
        &[
            "refused",
            "no evaluation",
            "claim applies",
            "claim does not apply",
            "claim does not apply, rises named by the rules",
            "claim does not apply, rises named by the header alone",
            "claim does not apply, first named by the rules",
            "claim does not apply, first named by the header alone",
            "claim does not apply, last named by the rules",
            "claim does not apply, last named by the header alone",
            "bound met with equality, changes, no rise",
            "bound met with equality, changes, rises",
        ],
    );
}

/// 101 changes without a rise, and the bound met with equality.
#[test]
fn longest_descents_through_the_library() {
    for (name, table, calls) in longest_descents() {
        let log = Log::of(&calls);
        let list = CallList { kind: Kind::Descent, table, calls };
        check_list(name, &list, &log, &mut Counts::default());

        let replayed = replay(&c::Table::of(&list.table), &log);
        let expected = Claim { evaluations: 101, changes: 101, rises: 0, first: 65534, last: 793 };
        assert_eq!((replayed.number, replayed.applies, Claim::of(&replayed)), (0, true, expected), "{name}");
    }
}

/// So many calls on a sound table: a random list's, over and over.
fn long_list(random: &mut Random, kind: Kind, length: usize) -> CallList {
    loop {
        let list = random_calls(random);
        if list.kind == kind && list.calls.len() > 10 && list.calls.contains(&Call::Evaluate) {
            let calls = list.calls.iter().copied().cycle().take(length).collect();
            return CallList { calls, ..list };
        }
    }
}

/// The largest rises: of two neighbours the held one goes from the least cost to the largest while the other comes down.
fn seesaw(length: usize) -> CallList {
    let [(_, table, _), _] = longest_descents();
    let calls = (0..length).map(|index| {
        let (held, other) = if index / 3 % 2 == 0 { (0, u64::MAX) } else { (u64::MAX, 0) };
        match index % 3 {
            0 => Call::Advertise { identifier: held, rank: 65534 - 256 },
            1 => Call::Advertise { identifier: other, rank: 256 },
            _ => Call::Evaluate,
        }
    });
    CallList { kind: Kind::Climb, table, calls: calls.collect() }
}

/// The longest logs are run; those that are longer, by one or by what 16 bits lose, are refused.
#[test]
fn logs_of_65535_calls() {
    let mut random = Random::new(0x65535);
    let kinds = [Kind::Any, Kind::Full, Kind::Equals, Kind::Steady, Kind::Descent, Kind::Climb];
    let mut lists: Vec<CallList> = kinds.map(|kind| long_list(&mut random, kind, MOST_ROWS)).into();
    lists.push(seesaw(MOST_ROWS));
    for list in &lists {
        let mut log = Log::of(&list.calls);
        fill_unnamed(&mut random, &mut log);
        check_list(&format!("long list, {:?}", list.kind), list, &log, &mut Counts::default());

        for length in [MOST_ROWS + 1, MOST_ROWS + 2, 2 * MOST_ROWS + 2] {
            let calls: Vec<Call> = list.calls.iter().copied().cycle().take(length).collect();
            check_refused_log(&format!("{length} calls"), &c::Table::of(&list.table), &Log::of(&calls));
        }
    }

    let list = seesaw(MOST_ROWS);
    let rounds = MOST_ROWS as u32 / 3;
    let rises = u64::from(rounds - 1) * (65534 - 512);
    assert!(rises > u64::from(u32::MAX) / 4, "rises take many bits");
    let expected = Claim { evaluations: rounds, changes: rounds, rises, first: 65534, last: 512 };
    let replayed = replay(&c::Table::of(&list.table), &Log::of(&list.calls));
    assert_eq!((replayed.number, replayed.applies, Claim::of(&replayed)), (0, true, expected));
}

/// Number 8, all counts 0, and the table as it was.
fn check_refused_log(name: &str, table: &c::Table, log: &Log) {
    let refused = c::Replay {
        number: 8,
        applies: false,
        evaluations: 0,
        changes: 0,
        rises: 0,
        first_cost: 0,
        last_cost: 0,
        table: *table,
    };
    assert_eq!(log::replay(table, log), refused, "reference, {name}");
    let replayed = replay(table, log);
    assert!(replayed.same(&refused), "library, {name}: {replayed:?}");
}

/// Each reason to refuse a log, alone, in logs that are run without it.
#[test]
fn refused_logs() {
    let mut random = Random::new(0x10C);
    for index in 0..200 {
        let list = long_list(&mut random, [Kind::Any, Kind::Full, Kind::Steady, Kind::Climb][index % 4], 40);
        let log = Log::of(&list.calls);
        check_list("before the change", &list, &log, &mut Counts::default());
        let table = c::Table::of(&list.table);
        let check = |name: &str, change: &dyn Fn(&mut Log)| {
            let mut refused = log.clone();
            change(&mut refused);
            check_refused_log(name, &table, &refused);
        };

        // Shorter, empty, longer by one, and longer by what 16 bits lose.
        for length in [39, 0, 41, 40 + 65536] {
            check(&format!("{length} kinds"), &|log| log.kinds.resize(length, 3));
            check(&format!("{length} identifiers"), &|log| log.ids.resize(length, 0));
            check(&format!("{length} values"), &|log| log.values.resize(length, 0));
            check(&format!("{length} flags"), &|log| log.flags.resize(length, 0));
            check(&format!("40 kinds, of the others {length}"), &|log| {
                log.ids.resize(length, 0);
                log.values.resize(length, 0);
                log.flags.resize(length, 0);
            });
        }
        for row in [0, random.below(40) as usize, 39] {
            for number in [4, 5, 128, 255] {
                check(&format!("kind {number} in row {row}"), &|log| log.kinds[row] = number);
            }
            for number in [2, 3, 128, 255] {
                check(&format!("flag {number} in row {row}"), &|log| log.flags[row] = number);
            }
        }
        for flagged in 0..=3 {
            // A flag is refused whatever the kind of its row.
            check(&format!("flag 2 beside kind {flagged}"), &|log| {
                log.kinds[20] = flagged;
                log.flags[20] = 2;
            });
        }
        let broken = c::Table { has_parent: true, parent: random.number(), ..table };
        check_refused_log("held parent not there", &broken, &log);
        check_refused_log("held parent not there, no calls", &broken, &Log::default());
    }
}

#[test]
fn empty_table() {
    assert!(library::init().same(&c::Table::default()));
    assert_eq!(Table::from_c(&library::init()), Some(Table::default()));
}

/// A log without calls is run, in both forms of an empty list: nothing is counted, and the table stays.
#[test]
fn empty_log() {
    let mut random = Random::new(0xE);
    let table = c::Table::of(&long_list(&mut random, Kind::Steady, 1).table);
    let expected = c::Replay { table, ..c::Replay::default() };
    assert!(table.has_parent && replay(&table, &Log::default()).same(&expected));
    // SAFETY: with the length 0 a pointer may be null.
    let replayed = unsafe { library::tesolvagna_table_replay(table, null(), 0, null(), 0, null(), 0, null(), 0) };
    assert!(replayed.same(&expected), "{replayed:?}");
}

/// One call of each kind, also those that a sound table would refuse with another number.
fn every_call(known: u64, unknown: u64) -> [Call; 9] {
    [
        Call::Advertise { identifier: known, rank: 300 },
        Call::Advertise { identifier: unknown, rank: 300 },
        Call::Report { identifier: known, attempts: 1, acknowledged: true },
        Call::Report { identifier: known, attempts: 5, acknowledged: true },
        Call::Report { identifier: unknown, attempts: 4, acknowledged: false },
        Call::Report { identifier: unknown, attempts: 0, acknowledged: false },
        Call::Forget { identifier: known },
        Call::Forget { identifier: unknown },
        Call::Evaluate,
    ]
}

/// Refused with 8 by every call, and given back bit for bit.
fn check_refused_table(name: &str, table: &c::Table, known: u64, unknown: u64) {
    for call in every_call(known, unknown) {
        let refused = match call {
            Call::Evaluate => Reply::Evaluation(c::Evaluation {
                number: 8,
                changed: false,
                rank: 65535,
                has_parent: table.has_parent,
                parent: table.parent,
                table: *table,
            }),
            _ => Reply::Call(c::TableAnswer { number: 8, table: *table }),
        };
        assert_eq!(convert::call(table, &call), refused, "reference, {name}, {call:?}");
        let reply = library::call(table, &call);
        assert!(reply.same(&refused), "library, {name}, {call:?}: {reply:?}");
    }
    check_refused_log(name, table, &Log::of(&every_call(known, unknown)));
    check_refused_log(name, table, &Log::default());
}

/// A sound table with neighbours 100, 101, .. in its first places.
fn neighbours(count: usize, held: Option<u64>) -> Table {
    let mut table = Table { held, ..Table::default() };
    for (index, place) in table.places[..count].iter_mut().enumerate() {
        let (identifier, rank) = (100 + index as u64, 1000 + index as u16);
        *place = Place { used: true, identifier, rank, attempts: 100, acknowledged: 75 };
    }
    table
}

/// An identifier where no parent is held: any bit of it, and those of neighbours in use.
#[test]
fn parent_that_is_not_held() {
    let mut tried = 0;
    for (count, neighbour) in [(0, 0), (20, 119), (PLACES, 131)] {
        let table = c::Table::of(&neighbours(count, None));
        let bits = (0..64).map(|bit| 1 << bit);
        for parent in bits.chain([neighbour.max(1), 100, u64::MAX]) {
            check_refused_table(&format!("no parent, but {parent}"), &c::Table { parent, ..table }, neighbour, 7);
            tried += 1;
        }
    }
    assert_eq!(tried, 3 * 67);
}

/// Each rule broken at each place, and each two places with one identifier.
#[test]
fn tables_that_break_a_rule() {
    let check = |name: String, given: &Table, change: &dyn Fn(&mut Table)| {
        let mut table = given.clone();
        change(&mut table);
        assert!(given.sound() && !table.sound(), "{name}");
        check_refused_table(&name, &c::Table::of(&table), 100, 7);
    };
    let full = neighbours(PLACES, Some(100));
    for index in 0..PLACES {
        // Among them numbers that are 100 and 75 in their low byte.
        for attempts in [256, 256 + 100, 32768 + 100, 65535] {
            check(format!("t {attempts} at {index}"), &full, &|table| table.places[index].attempts = attempts);
        }
        for acknowledged in [101, 256 + 75, 32768 + 75, 65535] {
            check(format!("a {acknowledged} at {index}"), &full, &|table| {
                table.places[index].acknowledged = acknowledged;
            });
        }
        check(format!("free place {index} not zero"), &full, &|table| {
            table.held = None;
            table.places[index].used = false;
        });
        for other in 0..index {
            check(format!("identifier twice, at {other} and {index}"), &full, &|table| {
                table.held = None;
                table.places[index].identifier = table.places[other].identifier;
            });
        }

        // Place `index` is free.
        let mut one_free = full.clone();
        one_free.places[index] = Place::default();
        one_free.held = None;
        for identifier in [1, 100, u64::MAX] {
            check(format!("free place {index} with an identifier"), &one_free, &|table| {
                table.places[index].identifier = identifier;
            });
        }
        for rank in [1, 256, 65535] {
            check(format!("free place {index} with a rank"), &one_free, &|table| table.places[index].rank = rank);
        }
        check(format!("free place {index} with attempts"), &one_free, &|table| table.places[index].attempts = 1);
        check(format!("free place {index} with acknowledged"), &one_free, &|table| {
            table.places[index].acknowledged = 1;
        });
        check(format!("held parent was at {index}"), &one_free, &|table| table.held = Some(100 + index as u64));
        check("held parent 0, as free places have".into(), &one_free, &|table| table.held = Some(0));
    }
}

/// The library's answer to a call on the reference's table is the reference's.
fn check_call(table: &Table, call: &Call) -> Reply {
    let table = c::Table::of(table);
    let (reply, expected) = (library::call(&table, call), convert::call(&table, call));
    assert!(reply.same(&expected), "{call:?}: {reply:?} for {expected:?}; {table:?}");
    reply
}

/// All numbers of attempts to 65535, and larger ones that are few attempts in their low bits, for a neighbour and for one
/// that is not there.
#[test]
fn reports_of_all_attempts() {
    let table = neighbours(3, None);
    let larger = [1 << 16, 1 << 17, 1 << 24, 1 << 31, u64::from(u32::MAX) - 4].map(|more| more..more + 5);
    for attempts in (0..=65535).chain(larger.into_iter().flatten()) {
        for identifier in [102, 7] {
            let reply = check_call(&table, &Call::Report { identifier, attempts, acknowledged: true });
            assert!(reply.number() == 8 || (1..=4).contains(&attempts), "{attempts} attempts");
        }
    }
}

/// Whether one neighbour becomes the parent, and the own rank, for all counters that a table may hold, at ranks on both
/// sides of each limit.
#[test]
fn eligible_with_all_counters() {
    let mut found = Counts::default();
    for attempts in 0..=255u64 {
        for acknowledged in 0..=attempts {
            // The rank that gives the cost 65534, and its neighbours; where there is none, any rank will do.
            let highest = metric::increment(attempts, acknowledged).map_or(0, |increment| 65534 - increment);
            let near = [highest - 1, highest, highest + 1].map(|rank| rank.clamp(0, 65535) as u16);
            for rank in [0, 255, 256, 257, 65278, 65279, 65280, 65534, 65535].into_iter().chain(near) {
                let mut table = Table::default();
                table.places[31] = Place { used: true, identifier: 0, rank, attempts, acknowledged };
                let Reply::Evaluation(evaluation) = check_call(&table, &Call::Evaluate) else {
                    panic!("not an evaluation");
                };
                found.add(match (evaluation.rank, evaluation.has_parent) {
                    (65534, true) => "own rank 65534",
                    (_, true) => "parent",
                    (_, false) => "none",
                });
            }
        }
    }
    found.expect("evaluations of one neighbour", 1000, &["own rank 65534", "parent", "none"]);
}

/// A neighbour advertised to the empty table becomes the parent at every rank that leaves a cost for it, and a failed report
/// ends that.
#[test]
fn fresh_tags_join() {
    let joined = |evaluation: &Reply| match evaluation {
        Reply::Evaluation(evaluation) => {
            evaluation.has_parent.then_some((evaluation.parent, u32::from(evaluation.rank)))
        }
        Reply::Call(_) => panic!("not an evaluation"),
    };
    for rank in 0..=u16::MAX {
        let identifier = u64::from(rank) << 40;
        let heard = Table::default().call(&Call::Advertise { identifier, rank }).table;
        let expected = (256..=64766).contains(&rank).then_some((identifier, u32::from(rank) + 768));
        assert_eq!(joined(&check_call(&heard, &Call::Evaluate)), expected, "rank {rank}");

        let held = heard.call(&Call::Evaluate).table;
        let attempts = 1 + u64::from(rank % 4);
        let failed = held.call(&Call::Report { identifier, attempts, acknowledged: false }).table;
        assert_eq!(joined(&check_call(&failed, &Call::Evaluate)), None, "rank {rank}, {attempts} attempts failed");
    }
}

fn check_increment(attempts: u16, acknowledged: u16) {
    let expected = convert::increment(attempts, acknowledged);
    assert_eq!(library::increment(attempts, acknowledged), expected, "t {attempts}, a {acknowledged}");
}

#[test]
fn increments() {
    for attempts in 0..=300 {
        for acknowledged in 0..=300 {
            check_increment(attempts, acknowledged);
        }
    }
    for extreme in [0, 1, 2, 3, 255, 256, 257, 21845, 21846, 32767, 32768, 43690, 43691, 65534, 65535] {
        for other in 0..=u16::MAX {
            check_increment(extreme, other);
            check_increment(other, extreme);
        }
    }
}

/// All ranks of 16 bits, and larger ones that are such a rank in their low 16 bits.
#[test]
fn join_metrics_of_all_ranks() {
    let larger = [1 << 16, 1 << 24, 1 << 31, u32::MAX - 65535].map(|more: u32| more..=more + 65535);
    for rank in (0..=65535).chain(larger.into_iter().flatten()) {
        let found = library::join_metric(rank);
        assert_eq!(found, convert::join_metric(rank), "rank {rank}");
        assert!(found.number == 0 || found.number == 8 && found.metric == 0, "rank {rank}");
    }
}

/// The library and the reference on C's table.
type TableCall = fn(&c::Table, &Call) -> Reply;
const SIDES: [(&str, TableCall); 2] = [("library", library::call), ("reference", convert::call)];

/// The rules' own examples; those of channels stand with the slot decision's tests.
#[test]
fn values_of_the_rules() {
    for (t, a, increment) in [(100, 75, 512), (8, 7, 366), (1, 1, 256), (11, 3, 2304), (0, 0, 768)] {
        assert_eq!(library::increment(t, a), increment, "library, t {t}, a {a}");
        assert_eq!(metric::increment(t.into(), a.into()), Some(increment.into()), "reference, t {t}, a {a}");
    }

    for (rank, number, metric) in [(256, 0, 0), (2816, 0, 10), (255, 8, 0), (65535, 8, 0)] {
        let expected = c::Metric { number, metric };
        assert_eq!(library::join_metric(rank), expected, "library, rank {rank}");
        assert_eq!(convert::join_metric(rank), expected, "reference, rank {rank}");
    }

    let neighbour = |id: u64, rank: u16, attempts: u16, acknowledged: u16| c::Neighbour {
        id,
        rank,
        attempts,
        acknowledged,
        in_use: true,
    };
    let table = |places: &[c::Neighbour], held: Option<u64>| {
        let mut table = c::Table { has_parent: held.is_some(), parent: held.unwrap_or(0), ..c::Table::default() };
        table.neighbours[..places.len()].copy_from_slice(places);
        table
    };
    // Eligible neighbours become the parent, others do not.
    let one = |attempts: u16, acknowledged: u16| vec![neighbour(5, 256, attempts, acknowledged)];
    // Costs 1408 and `best`.
    let two = |best: u16| vec![neighbour(5, 1408 - 256, 1, 1), neighbour(6, best - 256, 1, 1)];
    let evaluations = [
        ("t 11, a 3", one(11, 3), None, Some(5), 2560),
        ("t 12, a 3", one(12, 3), None, None, 65535),
        ("t 0, a 0", one(0, 0), None, Some(5), 1024),
        ("t 1, a 0", one(1, 0), None, None, 65535),
        ("1408 held, 768 best", two(768), Some(5), Some(5), 1408),
        ("1408 held, 767 best", two(767), Some(5), Some(6), 767),
    ];
    for (name, places, held, parent, rank) in evaluations {
        let expected = c::Evaluation {
            number: 0,
            changed: held != parent,
            rank,
            has_parent: parent.is_some(),
            parent: parent.unwrap_or(0),
            table: table(&places, parent),
        };
        for (side, call) in SIDES {
            assert_eq!(call(&table(&places, held), &Call::Evaluate), Reply::Evaluation(expected), "{side}, {name}");
        }
    }

    let given = table(&[neighbour(5, 256, 255, 1)], None);
    let halved = c::TableAnswer { number: 0, table: table(&[neighbour(5, 256, 128, 0)], None) };
    for (side, call) in SIDES {
        let reply = call(&given, &Call::Report { identifier: 5, attempts: 1, acknowledged: false });
        assert_eq!(reply, Reply::Call(halved), "{side}, halved");
    }
}

/// RFC 8180's example: each node hears the one before it, tries it 100 times, is acknowledged 75 times and takes it as
/// its parent.
#[test]
fn five_hops() {
    const RANKS: [u16; 6] = [256, 768, 1280, 1792, 2304, 2816];
    for (side, call) in SIDES {
        for (hop, ranks) in RANKS.windows(2).enumerate() {
            let identifier = hop as u64;
            let mut table = library::init();
            let mut calls = vec![Call::Advertise { identifier, rank: ranks[0] }];
            calls.extend((0..100).map(|attempt| {
                // Every fourth is lost.
                Call::Report { identifier, attempts: 1, acknowledged: attempt % 4 != 3 }
            }));
            for made in calls {
                let reply = call(&table, &made);
                assert_eq!(reply.number(), 0, "{side}, hop {hop}");
                table = *reply.table();
            }
            let neighbour =
                c::Neighbour { id: identifier, rank: ranks[0], attempts: 100, acknowledged: 75, in_use: true };
            assert_eq!(table.neighbours[0], neighbour, "{side}, hop {hop}");
            let expected = c::Evaluation {
                number: 0,
                changed: true,
                rank: ranks[1],
                has_parent: true,
                parent: identifier,
                table: c::Table { has_parent: true, parent: identifier, ..table },
            };
            assert_eq!(call(&table, &Call::Evaluate), Reply::Evaluation(expected), "{side}, hop {hop}");
        }
    }
    assert_eq!(library::increment(100, 75), 512);
    let metrics = RANKS.map(|rank| library::join_metric(rank.into()));
    assert_eq!(metrics, [0, 2, 4, 6, 8, 10].map(|metric| c::Metric { number: 0, metric }));
}
