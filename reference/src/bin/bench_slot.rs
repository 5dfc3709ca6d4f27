//! Benchmark of the slot decision: the library and the reference on the same schedules, in one run. The reference decides
//! over its own links, and over C's, which it converts.

use reference::interface as c;
use reference::measure::{compare, Side, CHUNK};
use reference::random::Random;
use reference::slot::{self, Link, Slot, LARGEST_ASN, SLEEP};
use reference::{convert, library};
use std::hint::black_box;

const SCHEDULES: usize = 100_000;

/// A schedule's place in the one list of all links, and what a decision is given besides the links.
struct Schedule {
    start: usize,
    count: usize,
    size: u32,
    asn: u64,
    waits: bool,
}

/// Valid schedules with 1 to 16 links. A quarter of the links are made active, so that all three actions are common.
fn schedules(random: &mut Random) -> (Vec<Link>, Vec<Schedule>) {
    let mut links = Vec::new();
    let mut schedules = Vec::with_capacity(SCHEDULES);
    for _ in 0..SCHEDULES {
        let start = links.len();
        let count = random.between(1, 16) as usize;
        let size = match random.below(2) {
            0 => random.pick(&[1, 7, 11, 101]),
            _ => random.between(1, 65535) as u32,
        };
        let asn = random.below(LARGEST_ASN + 1);
        for _ in 0..count {
            let timeslot = match random.chance(25) {
                true => asn % u64::from(size),
                false => random.below(u64::from(size)),
            };
            links.push(Link {
                timeslot: timeslot as u16,
                offset: random.number() as u16,
                options: random.number() as u8,
            });
        }
        schedules.push(Schedule { start, count, size, asn, waits: random.chance(50) });
    }
    (links, schedules)
}

type Decide<L, S> = fn(&[L], u32, u32, u64, bool) -> S;

fn answer<L, S>(decide: Decide<L, S>, links: &[L], schedule: &Schedule) -> S {
    let lent = &links[schedule.start..schedule.start + schedule.count];
    decide(lent, schedule.size, 0, schedule.asn, schedule.waits)
}

/// Decides through a pointer that the compiler cannot see through: no side is inlined into the loop.
fn run<L, S>(decide: Decide<L, S>, links: &[L], schedules: &[Schedule]) {
    let decide = black_box(decide);
    for schedule in schedules {
        black_box(answer(decide, links, schedule));
    }
}

fn main() {
    let (own, schedules) = schedules(&mut Random::new(0xBE4C));
    let links: Vec<c::Link> = own
        .iter()
        .map(|link| c::Link { timeslot: link.timeslot, channel_offset: link.offset, options: link.options.into() })
        .collect();

    let mut actions = [0usize; 3];
    for schedule in &schedules {
        let expected = answer(slot::decide, &own, schedule);
        assert_eq!(answer(library::decide, &links, schedule), c::Slot::of(&expected), "the sides differ");
        assert_eq!(answer(convert::decide, &links, schedule), c::Slot::of(&expected), "the sides differ");
        assert_eq!(expected.number, 0, "the schedule is valid");
        actions[expected.action as usize] += 1;
    }
    assert!(actions.iter().all(|count| *count > SCHEDULES / 20), "an action is rare: {actions:?}");
    println!("{SCHEDULES} schedules, {} links", links.len());
    println!("sleep {}, transmit {}, listen {}", actions[SLEEP as usize], actions[1], actions[2]);

    let mut sides = [
        Side {
            name: "library",
            run: &mut |cases| run(library::decide as Decide<c::Link, c::Slot>, &links, &schedules[cases]),
        },
        Side {
            name: "reference, its own links",
            run: &mut |cases| run(slot::decide as Decide<Link, Slot>, &own, &schedules[cases]),
        },
        Side { name: "reference, C's links", run: &mut |cases| run(convert::decide, &links, &schedules[cases]) },
    ];
    compare("schedules", "decision", SCHEDULES, CHUNK, &mut sides);
}
