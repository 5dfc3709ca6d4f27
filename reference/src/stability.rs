//! Parents do not flap: what a list of calls does to the held parent, and the bound on how often it changes.
//!
//! The claim is about a list of calls from a sound table, with at least one evaluation, in which the parent held on
//! entry to each evaluation is eligible there: 641 times the changes, plus the held parent's cost on exit from the last
//! evaluation, is at most its cost on entry to the first, plus all rises between one evaluation and the next. Without
//! rises there are at most 101 changes, since costs lie from 512 to 65534.

use crate::table::{Call, Table};

/// The least gain that changes the parent.
pub const LEAST_GAIN: i128 = 641;

pub const MOST_CHANGES_WITHOUT_RISES: usize = 101;

/// The held parent at one moment.
#[derive(Clone, Copy, Debug, PartialEq, Eq)]
pub struct Held {
    pub parent: Option<u64>,
    /// 0 without a parent.
    pub rank: u16,
    /// None without a parent, and for one that was tried and never acknowledged.
    pub cost: Option<i128>,
    pub eligible: bool,
}

impl Held {
    fn of(table: &Table) -> Held {
        let place = table.held_place();
        Held {
            parent: table.held,
            rank: place.map_or(0, |place| place.rank),
            cost: place.and_then(|place| place.cost()),
            eligible: place.is_some_and(|place| place.eligible()),
        }
    }
}

/// One evaluation of a list: its refusal number, and the parent held in the table it got and in the one it gave back.
#[derive(Clone, Copy, Debug, PartialEq, Eq)]
pub struct Evaluation {
    pub number: u8,
    pub entry: Held,
    pub exit: Held,
}

/// What came of a list of calls, each given the table that the call before it gave back.
#[derive(Clone, Debug, PartialEq, Eq)]
pub struct Run {
    pub table: Table,
    pub evaluations: Vec<Evaluation>,
    /// Whether the first call got a table that is not refused.
    pub sound: bool,
}

/// Runs the list, refused calls included.
pub fn run(table: &Table, calls: &[Call]) -> Run {
    let mut run = Run { table: table.clone(), evaluations: Vec::new(), sound: table.sound() };
    for call in calls {
        let answer = run.table.call(call);
        if *call == Call::Evaluate {
            let (entry, exit) = (Held::of(&run.table), Held::of(&answer.table));
            run.evaluations.push(Evaluation { number: answer.number, entry, exit });
        }
        run.table = answer.table;
    }
    run
}

impl Run {
    /// How many evaluations gave back another held parent than they got; none is a value of its own.
    pub fn changes(&self) -> usize {
        self.evaluations.iter().filter(|evaluation| evaluation.entry.parent != evaluation.exit.parent).count()
    }

    /// The sum of the rises from one evaluation's exit to the next one's entry. A fall is no rise, and neither is a
    /// step where one of the costs is missing, which a list under the claim does not have.
    pub fn rises(&self) -> i128 {
        let rise = |pair: &[Evaluation]| match (pair[0].exit.cost, pair[1].entry.cost) {
            (Some(before), Some(after)) => (after - before).max(0),
            _ => 0,
        };
        self.evaluations.windows(2).map(rise).sum()
    }

    /// The held parent's cost on entry to the first evaluation.
    pub fn first_cost(&self) -> Option<i128> {
        self.evaluations.first().and_then(|evaluation| evaluation.entry.cost)
    }

    /// The held parent's cost on exit from the last evaluation.
    pub fn last_cost(&self) -> Option<i128> {
        self.evaluations.last().and_then(|evaluation| evaluation.exit.cost)
    }

    pub fn claim_applies(&self) -> bool {
        self.sound
            && !self.evaluations.is_empty()
            && self.evaluations.iter().all(|evaluation| evaluation.entry.eligible)
    }

    /// How far the list stays below the bound: negative if it broke it, 0 if it just meets it. None where a cost is
    /// missing, which a list under the claim does not have.
    pub fn slack(&self) -> Option<i128> {
        let spent = LEAST_GAIN * self.changes() as i128 + self.last_cost()?;
        Some(self.first_cost()? + self.rises() - spent)
    }
}

#[cfg(test)]
mod tests {
    use super::*;
    use crate::calls::{longest_descents, random_calls, Kind, LONGEST_LIST};
    use crate::coverage::TableCoverage;
    use crate::random::Random;
    use crate::table::{Answer, Place};

    /// What each call promises on every table, checked without the call's own code.
    fn check_call(table: &Table, call: &Call, answer: &Answer) {
        assert_eq!(answer.table.sound(), table.sound(), "{call:?} on {table:?}");
        assert!(answer.number == 0 || answer.table == *table, "{call:?} on {table:?}");
        match (call, answer.own_rank) {
            (Call::Evaluate, Some(own_rank)) => check_evaluation(table, answer, own_rank),
            (Call::Evaluate, None) => panic!("an evaluation without its own rank"),
            (_, own_rank) => assert_eq!(own_rank, None, "{call:?}"),
        }
    }

    fn check_evaluation(table: &Table, answer: &Answer, own_rank: u16) {
        let after = &answer.table;
        assert_eq!(after.places, table.places, "an evaluation sets the held parent only");
        let eligible: Vec<(i128, u64)> = table
            .places
            .iter()
            .filter(|place| place.eligible())
            .map(|place| (place.cost().expect("an eligible neighbour has a cost"), place.identifier))
            .collect();
        if answer.number != 0 {
            assert_eq!((answer.number, own_rank), (8, 65535));
            return;
        }
        let Some(parent) = after.held else {
            assert!(eligible.is_empty() && own_rank == 65535, "{table:?}");
            return;
        };
        let found = eligible.iter().find(|(_, identifier)| *identifier == parent);
        let (cost, _) = *found.expect("the parent is eligible");
        assert!(own_rank == cost as u16 && (512..=65534).contains(&cost), "{table:?}");
        let held = eligible.iter().find(|(_, identifier)| Some(*identifier) == table.held);
        let threshold = held.is_some_and(|(held, _)| eligible.iter().all(|(other, _)| held - other <= 640));
        match threshold {
            true => assert_eq!(Some(parent), table.held, "{table:?}"),
            false => assert!(eligible.iter().all(|other| (cost, parent) <= *other), "{table:?}"),
        }
    }

    #[test]
    fn random_lists_keep_the_bound() {
        let mut random = Random::new(0x57AB);
        let mut coverage = TableCoverage::default();
        for _ in 0..40_000 {
            let list = random_calls(&mut random);
            let mut table = list.table.clone();
            for call in &list.calls {
                let answer = table.call(call);
                check_call(&table, call, &answer);
                table = answer.table;
            }

            let run = run(&list.table, &list.calls);
            assert_eq!(run.table, table);
            coverage.add(&list, &run);
            if run.claim_applies() {
                let slack = run.slack().expect("eligible parents have costs");
                assert!(slack >= 0, "bound broken by {list:?}");
                assert!(run.rises() > 0 || run.changes() <= MOST_CHANGES_WITHOUT_RISES, "{list:?}");
                assert!(run.evaluations.iter().all(|evaluation| evaluation.number == 0), "{list:?}");
            }
        }
        coverage.expect(200, LONGEST_LIST);
    }

    /// The bound is met with equality by 101 changes and no rise, and the last cost leaves no room for one more.
    #[test]
    fn longest_descents_have_101_changes() {
        for (name, table, calls) in longest_descents() {
            let run = run(&table, &calls);
            assert!(run.claim_applies(), "{name}");
            assert_eq!((run.evaluations.len(), run.changes(), run.rises()), (101, 101, 0), "{name}");
            assert_eq!((run.first_cost(), run.last_cost(), run.slack()), (Some(65534), Some(793), Some(0)), "{name}");
        }
    }

    /// One neighbour, held. Each step is a rank that it advertises; an evaluation follows where the mark is set.
    #[test]
    fn rises_are_taken_from_exit_to_entry() {
        let mut table = Table { held: Some(9), ..Table::default() };
        table.places[4] = Place { used: true, identifier: 9, rank: 1000, attempts: 1, acknowledged: 1 };
        let cases = [
            ("before the first evaluation", vec![(3000, false), (2000, true)], 0, 2256, 2256),
            ("up and down between two", vec![(1000, true), (3000, false), (1000, true)], 0, 1256, 1256),
            ("up", vec![(1000, true), (1400, true)], 400, 1256, 1656),
            ("a fall is not taken off", vec![(1000, true), (600, true), (1400, true)], 800, 1256, 1656),
            ("after the last evaluation", vec![(1000, true), (5000, false)], 0, 1256, 1256),
        ];
        for (name, steps, rises, first, last) in cases {
            let mut calls = Vec::new();
            for (rank, evaluate) in steps {
                calls.push(Call::Advertise { identifier: 9, rank });
                if evaluate {
                    calls.push(Call::Evaluate);
                }
            }
            let run = run(&table, &calls);
            assert!(run.claim_applies(), "{name}");
            assert_eq!((run.rises(), run.changes()), (rises, 0), "{name}");
            assert_eq!((run.first_cost(), run.last_cost()), (Some(first), Some(last)), "{name}");
        }
    }

    /// A change is told by the parents held on entry and exit, not by their costs; none is a parent of its own.
    #[test]
    fn changes_are_counted_from_the_parents_held() {
        let mut table = Table { held: Some(1), ..Table::default() };
        // Both cost 1279; the first is not eligible.
        table.places[0] = Place { used: true, identifier: 1, rank: 255, attempts: 2, acknowledged: 1 };
        table.places[1] = Place { used: true, identifier: 2, rank: 1023, attempts: 1, acknowledged: 1 };
        let forget = Call::Forget { identifier: 2 };
        let cases = [
            ("to another of the same cost", vec![Call::Evaluate], 1),
            ("and kept", vec![Call::Evaluate, Call::Evaluate], 1),
            ("forgotten between evaluations, none after", vec![Call::Evaluate, forget, Call::Evaluate], 1),
            ("to none", vec![forget, Call::Evaluate], 1),
            ("no evaluation", vec![forget, Call::Forget { identifier: 1 }], 0),
        ];
        for (name, calls, changes) in cases {
            assert_eq!(run(&table, &calls).changes(), changes, "{name}");
        }
    }

    #[test]
    fn where_the_claim_does_not_apply() {
        let mut table = Table { held: Some(1), ..Table::default() };
        table.places[0] = Place { used: true, identifier: 1, rank: 256, attempts: 1, acknowledged: 1 };
        let forget = Call::Forget { identifier: 1 };
        let unfit = Call::Advertise { identifier: 1, rank: 255 };
        let cases = [
            ("one evaluation", vec![Call::Evaluate], true),
            ("no call", vec![], false),
            ("no evaluation", vec![forget], false),
            ("no parent", vec![forget, Call::Evaluate], false),
            ("parent not eligible", vec![Call::Evaluate, unfit, Call::Evaluate], false),
            ("parent not eligible after the last evaluation", vec![Call::Evaluate, unfit], true),
        ];
        for (name, calls, expected) in cases {
            assert_eq!(run(&table, &calls).claim_applies(), expected, "{name}");
        }
        table.places[1].rank = 1;
        assert!(!run(&table, &[Call::Evaluate]).claim_applies(), "table not sound");
    }

    /// A kind of list that lost its point would hide behind the others.
    #[test]
    fn kinds_of_lists_do_what_they_are_for() {
        let mut random = Random::new(0x5EED);
        let (mut descents, mut descents_met, mut climbs, mut climbs_met, mut fresh) = (0, 0, 0, 0, 0);
        for _ in 0..10_000 {
            let list = random_calls(&mut random);
            fresh += usize::from(list.table.places.iter().any(|place| place.used && place.attempts == 0));
            let run = run(&list.table, &list.calls);
            let met = run.claim_applies() && run.changes() > 0 && run.slack() == Some(0);
            match list.kind {
                Kind::Unsound => assert!(!run.sound),
                Kind::Full => assert!(run.sound && list.table.places.iter().all(|place| place.used)),
                Kind::Any | Kind::Equals | Kind::Steady => assert!(run.sound),
                Kind::Descent => {
                    descents += 1;
                    descents_met += usize::from(met);
                }
                Kind::Climb => {
                    climbs += 1;
                    climbs_met += usize::from(met && run.rises() > 0);
                }
            }
        }
        println!("bound met with equality: {descents_met} of {descents} descents, {climbs_met} of {climbs} climbs");
        println!("lists whose first table has a fresh neighbour: {fresh} of 10000");
        assert!((5_000..7_000).contains(&fresh));
        assert!(descents > 1000 && descents_met * 2 > descents);
        assert!(climbs > 1000 && climbs_met * 2 > climbs);
    }
}
