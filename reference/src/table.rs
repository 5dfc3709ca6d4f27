//! The neighbour table and its calls: the reference for advertise, report, forget and evaluate.

use crate::metric;
use crate::refusal::{OUT_OF_LIMITS, TABLE_FULL, UNKNOWN_NEIGHBOUR};

pub use crate::header::NEIGHBOURS as PLACES;

/// The largest number of attempts that a place may count.
pub const MOST_ATTEMPTS: u64 = 255;

/// A gain must be greater than this for a change of parent.
pub const THRESHOLD: i128 = 640;

/// The rank of a node without a parent.
pub const NO_RANK: u16 = crate::header::NO_RANK as u16;

/// One place. The counters are wide, so that a table over its limits can be given.
#[derive(Clone, Copy, Debug, Default, PartialEq, Eq)]
pub struct Place {
    pub used: bool,
    pub identifier: u64,
    pub rank: u16,
    pub attempts: u64,
    pub acknowledged: u64,
}

impl Place {
    pub fn cost(&self) -> Option<i128> {
        metric::cost(self.rank, self.attempts, self.acknowledged)
    }

    /// Whether the place holds a neighbour that can be a parent.
    pub fn eligible(&self) -> bool {
        self.used && metric::eligible(self.rank, self.attempts, self.acknowledged)
    }
}

/// The table, with the held parent's identifier beside its places.
#[derive(Clone, Debug, Default, PartialEq, Eq)]
pub struct Table {
    pub places: [Place; PLACES],
    pub held: Option<u64>,
}

/// A call with what it is given besides the table.
#[derive(Clone, Copy, Debug, PartialEq, Eq)]
pub enum Call {
    Advertise { identifier: u64, rank: u16 },
    Report { identifier: u64, attempts: u64, acknowledged: bool },
    Forget { identifier: u64 },
    Evaluate,
}

/// A call's answer: 0 or the refusal number, the table given back, and an evaluation's own rank.
#[derive(Clone, Debug, PartialEq, Eq)]
pub struct Answer {
    pub number: u8,
    pub table: Table,
    pub own_rank: Option<u16>,
}

impl Table {
    /// Where the neighbour stands. Free places have the identifier 0, which is also a neighbour's.
    pub fn find(&self, identifier: u64) -> Option<usize> {
        self.places.iter().position(|place| place.used && place.identifier == identifier)
    }

    /// Whether the table keeps every rule; one that does not is refused by each call.
    pub fn sound(&self) -> bool {
        let place_sound = |place: &Place| match place.used {
            true => place.attempts <= MOST_ATTEMPTS && place.acknowledged <= place.attempts,
            false => *place == Place::default(),
        };
        // Each used place is the first with its identifier: no identifier comes twice.
        let once = |index: usize, place: &Place| !place.used || self.find(place.identifier) == Some(index);
        let held_found = self.held.is_none_or(|held| self.find(held).is_some());
        held_found && self.places.iter().enumerate().all(|(index, place)| place_sound(place) && once(index, place))
    }

    /// The held parent's place.
    pub fn held_place(&self) -> Option<&Place> {
        self.held.and_then(|held| self.find(held)).map(|index| &self.places[index])
    }

    /// The eligible neighbour with the least cost, then the lower identifier.
    pub fn best(&self) -> Option<&Place> {
        let eligible = self.places.iter().filter(|place| place.eligible());
        eligible.min_by_key(|place| (place.cost(), place.identifier))
    }

    pub fn advertise(&self, identifier: u64, rank: u16) -> (u8, Table) {
        let mut table = self.clone();
        if !self.sound() {
            return (OUT_OF_LIMITS, table);
        }
        if let Some(index) = self.find(identifier) {
            table.places[index].rank = rank;
            return (0, table);
        }
        let Some(free) = self.places.iter().position(|place| !place.used) else {
            return (TABLE_FULL, table);
        };
        table.places[free] = Place { used: true, identifier, rank, attempts: 0, acknowledged: 0 };
        (0, table)
    }

    pub fn report(&self, identifier: u64, attempts: u64, acknowledged: bool) -> (u8, Table) {
        let mut table = self.clone();
        if !self.sound() || !(1..=4).contains(&attempts) {
            return (OUT_OF_LIMITS, table);
        }
        let Some(index) = self.find(identifier) else {
            return (UNKNOWN_NEIGHBOUR, table);
        };
        let place = &mut table.places[index];
        if place.attempts + attempts > MOST_ATTEMPTS {
            place.attempts /= 2;
            place.acknowledged /= 2;
        }
        place.attempts += attempts;
        place.acknowledged += u64::from(acknowledged);
        (0, table)
    }

    pub fn forget(&self, identifier: u64) -> (u8, Table) {
        let mut table = self.clone();
        if !self.sound() {
            return (OUT_OF_LIMITS, table);
        }
        let Some(index) = self.find(identifier) else {
            return (UNKNOWN_NEIGHBOUR, table);
        };
        table.places[index] = Place::default();
        if table.held == Some(identifier) {
            table.held = None;
        }
        (0, table)
    }

    /// The number, the table with its parent chosen anew, and the own rank.
    pub fn evaluate(&self) -> (u8, Table, u16) {
        let mut table = self.clone();
        if !self.sound() {
            return (OUT_OF_LIMITS, table, NO_RANK);
        }
        let Some(best) = self.best() else {
            table.held = None;
            return (0, table, NO_RANK);
        };
        let parent = match self.held_place().filter(|held| held.eligible()) {
            Some(held) if held.cost().unwrap() - best.cost().unwrap() <= THRESHOLD => held,
            _ => best,
        };
        table.held = Some(parent.identifier);
        (0, table, parent.cost().unwrap() as u16)
    }

    pub fn call(&self, call: &Call) -> Answer {
        let (number, table, own_rank) = match *call {
            Call::Advertise { identifier, rank } => {
                let (number, table) = self.advertise(identifier, rank);
                (number, table, None)
            }
            Call::Report { identifier, attempts, acknowledged } => {
                let (number, table) = self.report(identifier, attempts, acknowledged);
                (number, table, None)
            }
            Call::Forget { identifier } => {
                let (number, table) = self.forget(identifier);
                (number, table, None)
            }
            Call::Evaluate => {
                let (number, table, own_rank) = self.evaluate();
                (number, table, Some(own_rank))
            }
        };
        Answer { number, table, own_rank }
    }
}

#[cfg(test)]
mod tests {
    use super::*;

    /// A used place; `cost` of one attempt, acknowledged, is the rank plus 256.
    fn place(identifier: u64, rank: u16, attempts: u64, acknowledged: u64) -> Place {
        Place { used: true, identifier, rank, attempts, acknowledged }
    }

    fn table(places: &[Place], held: Option<u64>) -> Table {
        let mut table = Table { held, ..Table::default() };
        table.places[..places.len()].copy_from_slice(places);
        table
    }

    fn with_cost(identifier: u64, cost: u16) -> Place {
        place(identifier, cost - 256, 1, 1)
    }

    fn full() -> Table {
        let mut table = Table::default();
        for (index, place) in table.places.iter_mut().enumerate() {
            *place = with_cost(index as u64, 1000 + index as u16);
        }
        table
    }

    #[test]
    fn changes_only_for_a_gain_over_640() {
        for (best, expected) in [(769, 1), (768, 1), (767, 2), (766, 2)] {
            let given = table(&[with_cost(1, 1408), with_cost(2, best)], Some(1));
            let (number, after, own_rank) = given.evaluate();
            assert_eq!((number, after.held), (0, Some(expected)), "best {best}");
            assert_eq!(own_rank, if expected == 1 { 1408 } else { best }, "best {best}");
        }
    }

    /// The neighbour with the lower rank has the higher cost.
    #[test]
    fn compares_costs_not_ranks() {
        let near = place(1, 512, 11, 3);
        let far = place(2, 1536, 1, 1);
        assert_eq!((near.cost(), far.cost()), (Some(2816), Some(1792)));
        for held in [None, Some(1), Some(2)] {
            let (number, after, own_rank) = table(&[near, far], held).evaluate();
            assert_eq!((number, after.held, own_rank), (0, Some(2), 1792), "held {held:?}");
        }
    }

    #[test]
    fn tie_goes_to_the_lower_identifier_but_not_from_a_held_parent() {
        let places = [with_cost(u64::MAX, 900), with_cost(7, 900), with_cost(1 << 63, 900)];
        assert_eq!(table(&places, None).evaluate().1.held, Some(7));
        assert_eq!(table(&places, Some(u64::MAX)).evaluate().1.held, Some(u64::MAX));
        let places = [with_cost(u64::MAX, 900), with_cost(0, 900)];
        assert_eq!(table(&places, None).evaluate().1.held, Some(0));
    }

    #[test]
    fn held_parent_that_is_not_eligible_gives_way_to_any_best() {
        let given = table(&[place(1, 255, 1, 1), with_cost(2, 60000)], Some(1));
        let (number, after, own_rank) = given.evaluate();
        assert_eq!((number, after.held, own_rank), (0, Some(2), 60000));
    }

    /// None eligible is no refusal, but a table that breaks a rule is.
    #[test]
    fn no_eligible_neighbour() {
        let given =
            table(&[place(1, 65535, 1, 1), place(2, 256, 12, 3), place(3, 256, 4, 0), place(4, 64767, 0, 0)], Some(1));
        let (number, after, own_rank) = given.evaluate();
        assert_eq!((number, &after, own_rank), (0, &Table { held: None, ..given.clone() }, 65535));

        let broken = Table { held: Some(5), ..given };
        assert_eq!(broken.evaluate(), (8, broken.clone(), 65535));
    }

    /// A fresh tag joins through the first neighbour it hears, measures it, changes for a fresh one, and leaves that when
    /// its first attempt fails.
    #[test]
    fn fresh_neighbours_are_eligible() {
        let (_, heard) = Table::default().advertise(1, 512);
        let (_, joined, own_rank) = heard.evaluate();
        assert_eq!((joined.held, own_rank), (Some(1), 512 + 768));
        let (_, measured) = joined.report(1, 4, true);
        // 512 + 2560.
        assert_eq!((measured.places[0].cost(), measured.evaluate().1.held), (Some(3072), None));
        let (_, measured) = measured.report(1, 1, true);
        // 5 attempts, 2 acknowledged: 512 + 1408.
        assert_eq!(measured.evaluate().2, 1920);
        for (rank, expected) in [(1920 - 640 - 768, 1), (1920 - 641 - 768, 2)] {
            let (_, offered) = measured.advertise(2, rank);
            assert_eq!(offered.evaluate().1.held, Some(expected), "fresh neighbour of rank {rank}");
        }
        let (_, changed, _) = measured.advertise(2, 256).1.evaluate();
        let (_, failed) = changed.report(2, 1, false);
        assert_eq!((changed.held, failed.evaluate().1.held), (Some(2), Some(1)));
    }

    #[test]
    fn report_halves_over_255() {
        let cases = [
            ("t 255, a 1, one failed attempt", 255, 1, 1, false, 128, 0),
            ("251 + 4 does not exceed 255", 251, 251, 4, true, 255, 252),
            ("252 + 4 exceeds 255", 252, 251, 4, true, 130, 126),
            ("254 + 1 does not exceed 255", 254, 9, 1, false, 255, 9),
            ("first attempts", 0, 0, 3, true, 3, 1),
        ];
        for (name, t, a, attempts, acknowledged, t_after, a_after) in cases {
            let (number, after) = table(&[place(5, 256, t, a)], Some(5)).report(5, attempts, acknowledged);
            assert_eq!(number, 0, "{name}");
            assert_eq!(after, table(&[place(5, 256, t_after, a_after)], Some(5)), "{name}");
        }
    }

    #[test]
    fn report_refuses_in_order() {
        let given = table(&[with_cost(1, 600)], None);
        for (identifier, attempts, number) in [(1, 0, 8), (1, 5, 8), (2, 0, 8), (2, 5, 8), (2, 1, 10), (0, 4, 10)] {
            assert_eq!(given.report(identifier, attempts, true), (number, given.clone()));
        }
    }

    #[test]
    fn full_table_takes_a_new_neighbour_after_a_forget() {
        let given = Table { held: Some(30), ..full() };
        assert_eq!(given.advertise(99, 300), (11, given.clone()));
        let (number, after) = given.advertise(7, 300);
        assert_eq!((number, after.places[7].rank), (0, 300), "a known neighbour needs no free place");

        let (number, freed) = given.forget(30);
        assert_eq!((number, freed.places[30], freed.held), (0, Place::default(), None));
        let (_, freed) = freed.forget(3);
        assert_eq!(freed.forget(3), (10, freed.clone()));
        let (number, refilled) = freed.advertise(30, 300);
        assert_eq!(number, 0);
        assert_eq!(refilled.places[3], place(30, 300, 0, 0), "the lowest-numbered free place");
        assert_eq!(refilled.held, None, "forgotten is forgotten");
    }

    #[test]
    fn identifier_0_is_a_neighbour_and_a_free_place_is_not() {
        let empty = Table::default();
        assert_eq!(empty.forget(0), (10, empty.clone()));
        let (number, one) = empty.advertise(0, 400);
        assert_eq!((number, one.places[0]), (0, place(0, 400, 0, 0)));
        assert_eq!(one.forget(0), (0, empty));
    }

    #[test]
    fn every_call_refuses_a_table_that_breaks_a_rule() {
        let sound = table(&[with_cost(1, 600), with_cost(2, 700)], Some(2));
        assert!(sound.sound());
        let broken = |change: fn(&mut Table)| {
            let mut table = sound.clone();
            change(&mut table);
            table
        };
        let tables = [
            ("t 256", broken(|table| table.places[0].attempts = 256)),
            ("a over t", broken(|table| table.places[1].acknowledged = 2)),
            ("free place with an identifier", broken(|table| table.places[31].identifier = 1)),
            ("free place with a rank", broken(|table| table.places[2].rank = 1)),
            ("free place with attempts", broken(|table| table.places[2].attempts = 1)),
            ("free place with an acknowledgement", broken(|table| table.places[2].acknowledged = 1)),
            ("identifier twice", broken(|table| table.places[31] = with_cost(1, 900))),
            ("held parent not there", broken(|table| table.held = Some(3))),
            ("held parent 0, only free places have it", broken(|table| table.held = Some(0))),
        ];
        let calls = [
            Call::Advertise { identifier: 1, rank: 256 },
            Call::Report { identifier: 1, attempts: 1, acknowledged: true },
            Call::Forget { identifier: 1 },
            Call::Evaluate,
        ];
        for (name, given) in tables {
            assert!(!given.sound(), "{name}");
            for call in calls {
                let own_rank = if call == Call::Evaluate { Some(65535) } else { None };
                assert_eq!(given.call(&call), Answer { number: 8, table: given.clone(), own_rank }, "{name}, {call:?}");
            }
        }
    }
}
