//! Benchmark of the neighbour table: evaluations, advertisements and reports on full tables and on small ones, and the
//! replay of logs, by the library and by the reference, in one run. The library and the reference do the same job on the
//! same table in C's form: the reference converts from it and back. Beside it stands the reference on its own tables and
//! calls, which it need not convert.

use reference::interface as c;
use reference::log::{self, Log};
use reference::measure::{compare, Side};
use reference::random::Random;
use reference::stability;
use reference::table::{Answer, Call, Place, Table, PLACES};
use reference::{convert, library};
use std::hint::black_box;

const TABLES: usize = 20_000;

/// Tables are large, so that a chunk has fewer.
const CHUNK: usize = 1_000;

const LOGS: usize = 200;
const ROWS: usize = 500;

/// A sound table with so many eligible neighbours in its first places. Ranks lie close enough together that evaluations
/// keep and change parents.
fn table(random: &mut Random, neighbours: usize) -> Table {
    let mut table = Table::default();
    for index in 0..neighbours {
        let mut identifier = random.number();
        while table.find(identifier).is_some() {
            identifier = random.number();
        }
        let attempts = random.between(1, 255);
        let acknowledged = random.between(attempts - attempts / 2, attempts);
        let rank = random.between(256, 2000) as u16;
        table.places[index] = Place { used: true, identifier, rank, attempts, acknowledged };
    }
    assert!(table.sound() && table.places[..neighbours].iter().all(Place::eligible));
    if random.chance(90) {
        table.held = Some(random.pick(&table.places[..neighbours]).identifier);
    }
    table
}

/// Calls on a table's neighbours: half reports, and evaluations between changes of ranks and counters.
fn random_calls(random: &mut Random, table: &Table, count: usize) -> Vec<Call> {
    let call = |_| {
        let identifier = random.pick(&table.places).identifier;
        match random.below(100) {
            0..28 => Call::Advertise { identifier, rank: random.between(256, 2000) as u16 },
            28..78 => Call::Report { identifier, attempts: random.between(1, 4), acknowledged: random.chance(90) },
            78..80 => Call::Forget { identifier },
            _ => Call::Evaluate,
        }
    };
    (0..count).map(call).collect()
}

/// A table in both forms, and a call on it.
struct Case {
    own: Table,
    table: c::Table,
    call: Call,
}

fn by_reference_alone(table: &Table, call: &Call) -> Answer {
    table.call(call)
}

/// The library's answer in the form that it has for this kind of call.
fn evaluate(table: &c::Table, _: &Call) -> c::Evaluation {
    library::evaluate(table)
}

fn advertise(table: &c::Table, call: &Call) -> c::TableAnswer {
    let Call::Advertise { identifier, rank } = *call else { panic!("another call") };
    library::advertise(table, identifier, rank)
}

fn report(table: &c::Table, call: &Call) -> c::TableAnswer {
    let Call::Report { identifier, attempts, acknowledged } = *call else { panic!("another call") };
    library::report(table, identifier, attempts as u32, acknowledged)
}

/// Calls through a pointer that the compiler cannot see through: no side is inlined into the loop.
fn run<T, A>(call: fn(&T, &Call) -> A, cases: &[Case], table: fn(&Case) -> &T) {
    let call = black_box(call);
    for case in cases {
        black_box(&call(table(case), &case.call));
    }
}

fn bench_calls<A>(title: &str, what: &str, by_library: fn(&c::Table, &Call) -> A, cases: &[Case]) {
    for case in cases {
        let expected = convert::call(&case.table, &case.call);
        assert_eq!(library::call(&case.table, &case.call), expected, "the sides differ");
        assert_eq!(expected.number(), 0, "the call is valid");
    }
    let mut sides = [
        Side { name: "library", run: &mut |chunk| run(by_library, &cases[chunk], |case| &case.table) },
        Side {
            name: "reference, its own table",
            run: &mut |chunk| run(by_reference_alone, &cases[chunk], |case| &case.own),
        },
        Side { name: "reference, C's table", run: &mut |chunk| run(convert::call, &cases[chunk], |case| &case.table) },
    ];
    compare(title, what, cases.len(), CHUNK, &mut sides);
}

fn calls(random: &mut Random, title: &str, neighbours: std::ops::RangeInclusive<u64>) {
    let tables: Vec<Table> = (0..TABLES)
        .map(|_| {
            let count = random.between(*neighbours.start(), *neighbours.end()) as usize;
            table(random, count)
        })
        .collect();
    let mut choices = [0usize; 3];
    for own in &tables {
        let after = own.evaluate().1;
        choices[if own.held == after.held { 0 } else { 1 + usize::from(own.held.is_none()) }] += 1;
    }
    println!(
        "{title}: an evaluation keeps {}, changes {}, takes a first parent {}",
        choices[0], choices[1], choices[2]
    );
    assert!(choices.iter().all(|count| *count > TABLES / 100), "a choice is rare: {choices:?}");

    let cases = |call: &mut dyn FnMut(&Table) -> Call| -> Vec<Case> {
        tables.iter().map(|own| Case { own: own.clone(), table: c::Table::of(own), call: call(own) }).collect()
    };
    let mut known = |own: &Table| loop {
        let place = random.pick(&own.places);
        if place.used {
            break place.identifier;
        }
    };
    bench_calls("evaluate", "evaluation", evaluate, &cases(&mut |_| Call::Evaluate));
    let advertisements = cases(&mut |own| Call::Advertise { identifier: known(own), rank: 700 });
    bench_calls("advertise, a known neighbour", "advertisement", advertise, &advertisements);
    let reports = cases(&mut |own| Call::Report { identifier: known(own), attempts: 2, acknowledged: true });
    bench_calls("report", "report", report, &reports);
}

/// A log in both forms, and the table that it starts from.
struct Run {
    own: Table,
    table: c::Table,
    calls: Vec<Call>,
    log: Log,
}

fn replays(random: &mut Random) {
    let runs: Vec<Run> = (0..LOGS)
        .map(|_| {
            let own = table(random, PLACES);
            let calls = random_calls(random, &own, ROWS);
            Run { table: c::Table::of(&own), log: Log::of(&calls), own, calls }
        })
        .collect();
    let (mut evaluations, mut changes) = (0, 0);
    for run in &runs {
        let replay = library::replay(&run.table, &run.log);
        assert_eq!(replay, log::replay(&run.table, &run.log), "the sides differ");
        assert_eq!(replay.number, 0, "the log is valid");
        evaluations += replay.evaluations;
        changes += replay.changes;
    }
    println!("{LOGS} logs of {ROWS} calls on full tables: {evaluations} evaluations, {changes} changes");

    // Chunks of whole logs, a case being one call.
    let logs = |chunk: std::ops::Range<usize>| &runs[chunk.start / ROWS..chunk.end / ROWS];
    let mut sides = [
        Side {
            name: "library",
            run: &mut |chunk| {
                for run in logs(chunk) {
                    black_box(&library::replay(black_box(&run.table), black_box(&run.log)));
                }
            },
        },
        Side {
            name: "reference, its own table and calls",
            run: &mut |chunk| {
                for run in logs(chunk) {
                    black_box(&stability::run(black_box(&run.own), black_box(&run.calls)));
                }
            },
        },
        Side {
            name: "reference, C's table and log",
            run: &mut |chunk| {
                for run in logs(chunk) {
                    black_box(&log::replay(black_box(&run.table), black_box(&run.log)));
                }
            },
        },
    ];
    compare("replay", "call", LOGS * ROWS, 4 * ROWS, &mut sides);
}

fn main() {
    let mut random = Random::new(0xBE7AB);
    calls(&mut random, &format!("{TABLES} full tables"), PLACES as u64..=PLACES as u64);
    println!();
    calls(&mut random, &format!("{TABLES} tables of 1 to 12 neighbours"), 1..=12);
    println!();
    replays(&mut random);
}
