//! Logs of table calls: the four lists that are lent for them, and what the reference says that they come to.

use crate::header::{CALL_ADVERTISE, CALL_EVALUATE, CALL_FORGET, CALL_REPORT};
use crate::interface as c;
use crate::refusal::OUT_OF_LIMITS;
use crate::stability::{self, Held, Run};
use crate::table::{Call, Table};

/// The most calls that a log may have.
pub use crate::header::MOST_CALLS as MOST_ROWS;

/// Calls as four lists, one row for each call.
#[derive(Clone, Debug, Default, PartialEq, Eq)]
pub struct Log {
    pub kinds: Vec<u8>,
    pub ids: Vec<u64>,
    /// The rank or the attempts.
    pub values: Vec<u16>,
    /// 1 acknowledged.
    pub flags: Vec<u8>,
}

impl Log {
    /// The calls' rows; what a call does not take is 0.
    pub fn of(calls: &[Call]) -> Log {
        let mut log = Log::default();
        for call in calls {
            let (kind, id, value, flag) = match *call {
                Call::Advertise { identifier, rank } => (CALL_ADVERTISE, identifier, u64::from(rank), false),
                Call::Report { identifier, attempts, acknowledged } => {
                    (CALL_REPORT, identifier, attempts, acknowledged)
                }
                Call::Forget { identifier } => (CALL_FORGET, identifier, 0, false),
                Call::Evaluate => (CALL_EVALUATE, 0, 0, false),
            };
            log.kinds.push(kind);
            log.ids.push(id);
            log.values.push(u16::try_from(value).expect("16 bits"));
            log.flags.push(flag.into());
        }
        log
    }

    /// The rows' calls; none if the log is refused.
    pub fn calls(&self) -> Option<Vec<Call>> {
        let rows = self.kinds.len();
        if rows > MOST_ROWS || [self.ids.len(), self.values.len(), self.flags.len()] != [rows; 3] {
            return None;
        }
        (0..rows).map(|row| self.call(row)).collect()
    }

    fn call(&self, row: usize) -> Option<Call> {
        let (identifier, value) = (self.ids[row], self.values[row]);
        // A flag is looked at in every row, also where the call does not take it.
        let acknowledged = match self.flags[row] {
            0 => false,
            1 => true,
            _ => return None,
        };
        match self.kinds[row] {
            CALL_ADVERTISE => Some(Call::Advertise { identifier, rank: value }),
            CALL_REPORT => Some(Call::Report { identifier, attempts: u64::from(value), acknowledged }),
            CALL_FORGET => Some(Call::Forget { identifier }),
            CALL_EVALUATE => Some(Call::Evaluate),
            _ => None,
        }
    }
}

/// The cost of a held parent as the header has it, also where the rules name none: 0 without a parent, and the rank alone
/// of one that never acknowledged.
fn cost(held: &Held) -> i128 {
    held.cost.unwrap_or(held.rank.into())
}

impl c::Replay {
    /// What a run comes to, from a table that is not refused.
    pub fn of(run: &Run) -> c::Replay {
        let evaluations = &run.evaluations;
        let rise = |pair: &[stability::Evaluation]| (cost(&pair[1].entry) - cost(&pair[0].exit)).max(0);
        let rises: i128 = evaluations.windows(2).map(rise).sum();
        c::Replay {
            number: 0,
            applies: run.claim_applies(),
            evaluations: evaluations.len() as u32,
            changes: run.changes() as u32,
            rises: rises as u64,
            first_cost: evaluations.first().map_or(0, |evaluation| cost(&evaluation.entry) as u32),
            last_cost: evaluations.last().map_or(0, |evaluation| cost(&evaluation.exit) as u32),
            table: c::Table::of(&run.table),
        }
    }

    /// The refusal: all counts are 0, and the table is as it was given.
    pub fn refused(table: &c::Table) -> c::Replay {
        c::Replay { number: OUT_OF_LIMITS, table: *table, ..c::Replay::default() }
    }
}

/// The reference's answer to a log on a table in C's form.
pub fn replay(table: &c::Table, log: &Log) -> c::Replay {
    match (Table::from_c(table), log.calls()) {
        (Some(own), Some(calls)) if own.sound() => c::Replay::of(&stability::run(&own, &calls)),
        _ => c::Replay::refused(table),
    }
}

#[cfg(test)]
mod tests {
    use super::*;
    use crate::table::Place;

    const CALLS: [Call; 4] = [
        Call::Advertise { identifier: u64::MAX, rank: 65535 },
        Call::Report { identifier: 0, attempts: 65535, acknowledged: true },
        Call::Forget { identifier: 7 },
        Call::Evaluate,
    ];

    #[test]
    fn rows_are_calls() {
        let log = Log::of(&CALLS);
        assert_eq!(log.kinds, [0, 1, 2, 3]);
        assert_eq!(log.ids, [u64::MAX, 0, 7, 0]);
        assert_eq!(log.values, [65535, 65535, 0, 0]);
        assert_eq!(log.flags, [0, 1, 0, 0]);
        assert_eq!(log.calls(), Some(CALLS.to_vec()));

        let mut noisy = log.clone();
        noisy.ids[3] = 1;
        noisy.values[2..].fill(9);
        noisy.flags.fill(1);
        assert_eq!(noisy.calls(), Some(CALLS.to_vec()), "what a call does not take is not looked at");
    }

    #[test]
    fn refused_logs() {
        let changed = |change: fn(&mut Log)| {
            let mut log = Log::of(&CALLS);
            change(&mut log);
            log
        };
        let logs = [
            ("no kinds", changed(|log| log.kinds.clear())),
            ("an identifier less", changed(|log| log.ids.truncate(3))),
            ("a value more", changed(|log| log.values.push(0))),
            ("a flag less", changed(|log| log.flags.truncate(3))),
            ("kind 4", changed(|log| log.kinds[0] = 4)),
            ("flag 2 of an evaluation", changed(|log| log.flags[3] = 2)),
        ];
        for (name, log) in logs {
            assert_eq!(log.calls(), None, "{name}");
        }
        assert!(Log::of(&vec![Call::Evaluate; MOST_ROWS]).calls().is_some());
        assert!(Log::of(&vec![Call::Evaluate; MOST_ROWS + 1]).calls().is_none());
    }

    /// Costs that the rules do not name: of no parent 0, of one that never acknowledged its rank.
    #[test]
    fn costs_that_only_the_header_names() {
        let place =
            |identifier, rank, attempts, acknowledged| Place { used: true, identifier, rank, attempts, acknowledged };
        let mut table = Table { held: Some(7), ..Table::default() };
        table.places[0] = place(7, 300, 1, 1);
        let counts =
            |calls: &[Call]| c::Replay { table: c::Table::default(), ..replay(&c::Table::of(&table), &Log::of(calls)) };
        // Forgotten between two evaluations, of which the second has none.
        let forgotten = c::Replay { evaluations: 2, first_cost: 556, ..c::Replay::default() };
        assert_eq!(counts(&[Call::Evaluate, CALLS[2], Call::Evaluate]), forgotten);

        // Halved to no acknowledgement: on entry the rank alone, on exit none.
        table.places[0] = place(7, 300, 255, 1);
        let counts =
            |calls: &[Call]| c::Replay { table: c::Table::default(), ..replay(&c::Table::of(&table), &Log::of(calls)) };
        let halving = Call::Report { identifier: 7, attempts: 1, acknowledged: false };
        let halved = c::Replay { evaluations: 1, changes: 1, first_cost: 300, ..c::Replay::default() };
        assert_eq!(counts(&[halving, Call::Evaluate]), halved);
        let no_evaluation = c::Replay::default();
        assert_eq!(counts(&[halving]), no_evaluation);
    }
}
