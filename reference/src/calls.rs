//! Random tables and lists of calls for the neighbour table's tests; some lists come near the bound on changes.

use crate::metric::increment;
use crate::random::Random;
use crate::table::{Call, Place, Table, MOST_ATTEMPTS, PLACES};

pub const LONGEST_LIST: usize = 60;

/// What a list is built for.
#[derive(Clone, Copy, Debug, PartialEq, Eq)]
pub enum Kind {
    /// Any sound table, any calls.
    Any,
    /// A table that breaks one rule, any calls.
    Unsound,
    /// All places in use, any calls.
    Full,
    /// Few different costs, with steps of 640 and 641 between them: ties and gains at the threshold.
    Equals,
    /// Good links and small movements of ranks: a parent is held throughout.
    Steady,
    /// Each evaluation gains about 641, most of them exactly.
    Descent,
    /// As a descent, but the held parent's cost rises between the evaluations.
    Climb,
}

/// Which neighbours a list's table has.
#[derive(Clone, Copy, Debug, PartialEq, Eq)]
enum Links {
    /// Those that the kind of list asks for.
    Measured,
    /// Most of them without an attempt yet.
    Fresh,
}

impl Links {
    /// Attempts and acknowledged of a neighbour: these, or none.
    fn counters(self, random: &mut Random, measured: fn(&mut Random) -> (u64, u64)) -> (u64, u64) {
        match self {
            Links::Fresh if random.chance(60) => (0, 0),
            _ => measured(random),
        }
    }
}

/// A list of calls and the table that the first of them gets.
#[derive(Clone, Debug)]
pub struct CallList {
    pub kind: Kind,
    pub table: Table,
    pub calls: Vec<Call>,
}

/// A list of 1 to 60 calls. In half of the lists most neighbours of the first table are fresh.
pub fn random_calls(random: &mut Random) -> CallList {
    let length = random.between(1, LONGEST_LIST as u64) as usize;
    let kind = match random.below(100) {
        0..20 => Kind::Any,
        20..30 => Kind::Unsound,
        30..42 => Kind::Full,
        42..54 => Kind::Equals,
        54..66 => Kind::Steady,
        66..83 => Kind::Descent,
        _ => Kind::Climb,
    };
    let links = if random.chance(50) { Links::Fresh } else { Links::Measured };
    match kind {
        Kind::Any => {
            let used = random.pick(&[0, 1, 2, 4, 8, 16, 31]);
            any_calls(random, kind, links, used, length)
        }
        Kind::Unsound => {
            let used = random.pick(&[2, 5, 31]);
            let mut list = any_calls(random, kind, links, used, length);
            break_rule(random, &mut list.table);
            list
        }
        Kind::Full => any_calls(random, kind, links, PLACES, length),
        Kind::Equals => equal_calls(random, links, length),
        Kind::Steady => steady_calls(random, links, length),
        Kind::Descent | Kind::Climb => stairs(random, kind, links, length),
    }
}

fn random_rank(random: &mut Random) -> u16 {
    match random.below(10) {
        0..3 => random.pick(&[0, 255, 256, 257, 64766, 64767, 65278, 65279, 65534, 65535]),
        3..8 => random.between(256, 4000) as u16,
        _ => random.number() as u16,
    }
}

/// Attempts and acknowledged, as a sound table may hold them; most give an eligible neighbour.
fn random_counters(random: &mut Random) -> (u64, u64) {
    match random.below(10) {
        0 => (0, 0),
        1 => random.pick(&[(1, 0), (1, 1), (8, 7), (11, 3), (12, 3), (100, 75), (255, 1), (255, 255)]),
        2 => (255, random.below(256)),
        3 => {
            let t = random.between(251, 254);
            (t, random.between(0, t))
        }
        4..8 => good_counters(random),
        _ => {
            let t = random.below(MOST_ATTEMPTS + 1);
            (t, random.between(0, t))
        }
    }
}

/// Counters of a link that most attempts get across.
fn good_counters(random: &mut Random) -> (u64, u64) {
    let t = random.between(1, MOST_ATTEMPTS);
    (t, random.between(t - t / 4, t))
}

/// Identifiers without repetition; both ends of their range come often.
fn identifiers(random: &mut Random, count: usize) -> Vec<u64> {
    let mut found: Vec<u64> = Vec::new();
    while found.len() < count {
        let identifier = match random.below(4) {
            0 => random.pick(&[0, u64::MAX]),
            1 => random.pick(&[1, 1 << 63, (1 << 63) - 1, u64::MAX - 1]),
            2 => random.below(100),
            _ => random.number(),
        };
        if !found.contains(&identifier) {
            found.push(identifier);
        }
    }
    found
}

/// A sound table with these neighbours, in random places, and no parent.
fn scattered(random: &mut Random, neighbours: &[Place]) -> Table {
    let mut table = Table::default();
    for neighbour in neighbours {
        let free: Vec<usize> = (0..PLACES).filter(|index| !table.places[*index].used).collect();
        table.places[random.pick(&free)] = *neighbour;
    }
    table
}

/// Calls on the table's neighbours, and now and then on one that it does not have.
fn any_calls(random: &mut Random, kind: Kind, links: Links, used: usize, length: usize) -> CallList {
    // Three more than stand in the table.
    let known = identifiers(random, used + 3);
    let neighbours: Vec<Place> = known[..used]
        .iter()
        .map(|identifier| {
            let (attempts, acknowledged) = links.counters(random, random_counters);
            Place { used: true, identifier: *identifier, rank: random_rank(random), attempts, acknowledged }
        })
        .collect();
    let mut table = scattered(random, &neighbours);
    if used > 0 && random.chance(75) {
        table.held = Some(random.pick(&known[..used]));
    }
    // Few neighbours take part, so that calls meet again at one of them.
    let part = known.len().min(random.between(2, 8) as usize);
    let taking_part: Vec<u64> = known[known.len() - part..].to_vec();
    let calls = (0..length).map(|_| any_call(random, &taking_part)).collect();
    CallList { kind, table, calls }
}

fn any_call(random: &mut Random, identifiers: &[u64]) -> Call {
    let identifier = random.pick(identifiers);
    match random.below(100) {
        0..30 => Call::Advertise { identifier, rank: random_rank(random) },
        30..60 => Call::Report { identifier, attempts: random.below(7), acknowledged: random.chance(75) },
        60..72 => Call::Forget { identifier },
        _ => Call::Evaluate,
    }
}

/// Breaks one rule of a table with at least two neighbours and a free place.
fn break_rule(random: &mut Random, table: &mut Table) {
    let used: Vec<usize> = (0..PLACES).filter(|index| table.places[*index].used).collect();
    let free: Vec<usize> = (0..PLACES).filter(|index| !table.places[*index].used).collect();
    let place = random.pick(&used);
    let free_place = random.pick(&free);
    match random.below(8) {
        0 => table.places[place].attempts = random.pick(&[256, 257, 511, 65535]),
        1 => table.places[place].acknowledged = table.places[place].attempts + random.pick(&[1, 2, 255]),
        2 => table.places[free_place].identifier = random.pick(&[1, u64::MAX, table.places[place].identifier.max(1)]),
        3 => table.places[free_place].rank = random.pick(&[1, 256, 65535]),
        4 => table.places[free_place].attempts = random.pick(&[1, 255]),
        5 => table.places[free_place].acknowledged = 1,
        6 => {
            let others: Vec<usize> = used.iter().copied().filter(|index| *index != place).collect();
            table.places[random.pick(&others)].identifier = table.places[place].identifier;
            // The held parent must stay among the neighbours: one rule is broken, not two.
            table.held = None;
        }
        _ => {
            let mut identifier = random.pick(&[0, u64::MAX, 12345]);
            while table.find(identifier).is_some() {
                identifier = random.number();
            }
            table.held = Some(identifier);
        }
    }
}

/// Neighbours that cost their rank plus 256, at few ranks; a fresh one costs 512 more, which other ranks make up for.
fn equal_calls(random: &mut Random, links: Links, length: usize) -> CallList {
    const STEPS: [u16; 5] = [0, 640, 641, 1281, 1282];
    let lowest = if links == Links::Fresh { &[256, 256 + 512][..] } else { &[256] };
    let ranks: Vec<u16> = lowest.iter().flat_map(|rank| STEPS.map(|step| rank + step)).collect();
    let used = random.between(2, 10) as usize;
    let known = identifiers(random, used);
    let neighbours: Vec<Place> = known
        .iter()
        .map(|identifier| {
            let (attempts, acknowledged) = links.counters(random, |_| (1, 1));
            Place { used: true, identifier: *identifier, rank: random.pick(&ranks), attempts, acknowledged }
        })
        .collect();
    let mut table = scattered(random, &neighbours);
    if random.chance(50) {
        table.held = Some(random.pick(&known));
    }
    let calls = (0..length)
        .map(|_| {
            let identifier = random.pick(&known);
            match random.below(100) {
                0..45 => Call::Advertise { identifier, rank: random.pick(&ranks) },
                45..50 => Call::Report { identifier, attempts: 1, acknowledged: true },
                50..52 => Call::Forget { identifier },
                _ => Call::Evaluate,
            }
        })
        .collect();
    CallList { kind: Kind::Equals, table, calls }
}

/// Good links, one of them held, and calls that move their ranks a little.
fn steady_calls(random: &mut Random, links: Links, length: usize) -> CallList {
    let used = random.between(2, 12) as usize;
    let known = identifiers(random, used);
    let middle = random.between(1000, 60000);
    let near = |random: &mut Random| random.between(middle - 700, middle + 700) as u16;
    let neighbours: Vec<Place> = known
        .iter()
        .map(|identifier| {
            let (attempts, acknowledged) = links.counters(random, good_counters);
            Place { used: true, identifier: *identifier, rank: near(random), attempts, acknowledged }
        })
        .collect();
    let mut table = scattered(random, &neighbours);
    table.held = Some(random.pick(&known));
    let calls = (0..length)
        .map(|_| {
            let identifier = random.pick(&known);
            match random.below(100) {
                0..30 => Call::Advertise { identifier, rank: near(random) },
                30..60 => Call::Report { identifier, attempts: random.between(1, 2), acknowledged: random.chance(95) },
                60..61 => Call::Forget { identifier },
                _ => Call::Evaluate,
            }
        })
        .collect();
    CallList { kind: Kind::Steady, table, calls }
}

/// A list under construction, with the table as the calls so far leave it.
struct Builder {
    start: Table,
    table: Table,
    calls: Vec<Call>,
}

impl Builder {
    fn new(table: Table) -> Builder {
        Builder { start: table.clone(), table, calls: Vec::new() }
    }

    fn call(&mut self, call: Call) {
        self.table = self.table.call(&call).table;
        self.calls.push(call);
    }

    fn held_cost(&self) -> Option<i128> {
        self.table.held_place().and_then(Place::cost)
    }

    /// Advertises the rank that gives the neighbour this cost, if there is one that leaves it eligible.
    fn advertise_cost(&mut self, identifier: u64, cost: i128) -> bool {
        let place = &self.table.places[self.table.find(identifier).expect("a neighbour of the table")];
        let Some(increment) = increment(place.attempts, place.acknowledged) else {
            return false;
        };
        if cost - increment < 256 || cost > 65534 {
            return false;
        }
        self.call(Call::Advertise { identifier, rank: (cost - increment) as u16 });
        true
    }
}

/// Evaluations that each gain about 641. Before each, another neighbour than the held one comes to stand that much
/// below it, while no third one stands below the held one; in a climb the held one rises first.
fn stairs(random: &mut Random, kind: Kind, links: Links, length: usize) -> CallList {
    let used = random.between(2, 5) as usize;
    let known = identifiers(random, used);
    let top = if random.chance(33) { 65534 } else { random.between(3000, 65534) };
    let neighbours: Vec<Place> = known
        .iter()
        .map(|identifier| {
            let measured = |random: &mut Random| random.pick(&[(1, 1), (8, 7), (100, 75), (255, 250), (11, 3)]);
            let (attempts, acknowledged) = links.counters(random, measured);
            let increment = increment(attempts, acknowledged).expect("fresh, or acknowledged");
            let rank = (i128::from(top) - increment) as u16;
            Place { used: true, identifier: *identifier, rank, attempts, acknowledged }
        })
        .collect();
    let mut table = scattered(random, &neighbours);
    table.held = Some(random.pick(&known));
    let noise = random.pick(&[0, 0, 20]);
    // Exact in most lists; in the others a gain of 640 keeps the parent and one of 642 leaves slack.
    let gains: &[i128] = random.pick(&[&[641], &[641], &[641, 641, 641, 640, 642]]);

    let mut builder = Builder::new(table);
    while builder.calls.len() < length {
        let (Some(held), Some(cost)) = (builder.table.held, builder.held_cost()) else {
            break;
        };
        if random.chance(noise) {
            noise_calls(random, &mut builder, &known, held, cost);
        }
        let rise = if kind == Kind::Climb && random.chance(70) { random.between(1, 641).into() } else { 0 };
        if rise > 0 {
            builder.advertise_cost(held, cost + rise);
        }
        let risen = builder.held_cost().unwrap_or(cost);
        let others: Vec<u64> = known.iter().copied().filter(|identifier| *identifier != held).collect();
        let gain = random.pick(gains);
        let moved = builder.advertise_cost(random.pick(&others), risen - gain);
        builder.call(Call::Evaluate);
        if !moved && rise == 0 {
            break;
        }
    }
    builder.calls.truncate(length);
    CallList { kind, table: builder.start, calls: builder.calls }
}

/// Calls that are refused, and a rise that is gone again before the next evaluation.
fn noise_calls(random: &mut Random, builder: &mut Builder, known: &[u64], held: u64, cost: i128) {
    let identifier = random.pick(known);
    match random.below(3) {
        0 => builder.call(Call::Report { identifier, attempts: random.pick(&[0, 5, 6]), acknowledged: true }),
        1 => {
            let mut stranger = random.number();
            while known.contains(&stranger) {
                stranger = random.number();
            }
            builder.call(Call::Forget { identifier: stranger });
        }
        _ => {
            if builder.advertise_cost(held, cost + 300) {
                builder.advertise_cost(held, cost);
            }
        }
    }
}

/// The most changes without a rise, of measured neighbours and of fresh ones. Two take turns at standing exactly 641 below
/// the held one, from the largest cost down to where no lower cost is eligible. Fresh ones get down to 1024, so that a
/// measured third one makes the last change.
pub fn longest_descents() -> [(&'static str, Table, Vec<Call>); 2] {
    [("measured", 1), ("fresh", 0)].map(|(name, attempts)| {
        let mut builder = Builder::new(at_largest_cost(attempts));
        while let Some(cost) = builder.held_cost() {
            let next = if builder.table.held == Some(0) { u64::MAX } else { 0 };
            if ![next, THIRD].into_iter().any(|identifier| builder.advertise_cost(identifier, cost - 641)) {
                break;
            }
            builder.call(Call::Evaluate);
        }
        (name, builder.start, builder.calls)
    })
}

/// The neighbour of a descent that is measured whatever the others are.
const THIRD: u64 = 3;

/// Neighbours 0, which is held, and 2^64 - 1, with so many attempts, all acknowledged, and the measured third one. All have
/// the largest cost.
fn at_largest_cost(attempts: u64) -> Table {
    let mut table = Table { held: Some(0), ..Table::default() };
    for (index, (identifier, attempts)) in [(0, attempts), (u64::MAX, attempts), (THIRD, 1)].into_iter().enumerate() {
        let increment = increment(attempts, attempts).expect("fresh, or acknowledged");
        let rank = (65534 - increment) as u16;
        table.places[index] = Place { used: true, identifier, rank, attempts, acknowledged: attempts };
    }
    table
}
