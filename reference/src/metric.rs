//! What a neighbour costs, whether it can be a parent, and the join metric: the reference for the rank rules.

use crate::refusal::OUT_OF_LIMITS;

pub const LEAST_RANK: u16 = 256;
pub const LARGEST_COST: i128 = 65534;

/// What a neighbour adds to its rank before the first attempt: RFC 6552's default step of 3.
pub const FRESH_INCREMENT: i128 = 3 * 256;

/// The smallest whole number not below 256 (3t - 2a) / a, for `attempts` t and `acknowledged` a. Before the first attempt
/// it is `FRESH_INCREMENT`; there is none after attempts of which none was acknowledged.
pub fn increment(attempts: u64, acknowledged: u64) -> Option<i128> {
    let (t, a) = (i128::from(attempts), i128::from(acknowledged));
    if a == 0 {
        return (t == 0).then_some(FRESH_INCREMENT);
    }
    let dividend = 256 * (3 * t - 2 * a);
    // Euclidean division rounds down for a positive divisor, so this rounds up.
    Some(-(-dividend).div_euclid(a))
}

/// Path cost through a neighbour: its rank plus the increment, if it has one.
pub fn cost(rank: u16, attempts: u64, acknowledged: u64) -> Option<i128> {
    increment(attempts, acknowledged).map(|increment| i128::from(rank) + increment)
}

/// Whether a neighbour can be a parent. One that was tried and never acknowledged has no cost.
pub fn eligible(rank: u16, attempts: u64, acknowledged: u64) -> bool {
    rank >= LEAST_RANK
        && 3 * i128::from(attempts) <= 11 * i128::from(acknowledged)
        && cost(rank, attempts, acknowledged).is_some_and(|cost| cost <= LARGEST_COST)
}

/// The join metric's answer; a refused metric is 0.
#[derive(Clone, Copy, Debug, PartialEq, Eq)]
pub struct JoinMetric {
    pub number: u8,
    pub metric: u8,
}

/// The join metric that a node of this rank sends in its beacons.
pub fn join_metric(rank: u32) -> JoinMetric {
    match rank {
        256..=65534 => JoinMetric { number: 0, metric: (rank / 256 - 1) as u8 },
        _ => JoinMetric { number: OUT_OF_LIMITS, metric: 0 },
    }
}

#[cfg(test)]
mod tests {
    use super::*;

    #[test]
    fn increments() {
        let cases = [
            (100, 75, 512),
            // 365.71 rounded up; dividing before multiplying would give 256.
            (8, 7, 366),
            (1, 1, 256),
            (11, 3, 2304),
            (255, 1, 195_328),
            (0, 0, 768),
        ];
        for (t, a, expected) in cases {
            assert_eq!(increment(t, a), Some(expected), "t {t}, a {a}");
        }
        assert_eq!(increment(1, 0), None);
        assert_eq!(increment(255, 0), None);
    }

    /// Not below the fraction, and one less is: over every pair of counters that a table may hold.
    #[test]
    fn increment_is_the_ceiling() {
        for t in 1..=255u64 {
            for a in 1..=t {
                let found = increment(t, a).expect("a is at least 1");
                let dividend = 256 * (3 * i128::from(t) - 2 * i128::from(a));
                assert!(found * i128::from(a) >= dividend, "t {t}, a {a}");
                assert!((found - 1) * i128::from(a) < dividend, "t {t}, a {a}");
                assert!(found >= 256, "t {t}, a {a}");
            }
        }
    }

    #[test]
    fn eligibility() {
        let cases = [
            ("3t equal to 11a", 256, 11, 3, true),
            ("3t over 11a", 256, 12, 3, false),
            ("nothing acknowledged", 256, 1, 0, false),
            ("never tried", 256, 0, 0, true),
            ("never tried, rank 255", 255, 0, 0, false),
            ("never tried, cost 65534", 64766, 0, 0, true),
            ("never tried, cost 65535", 64767, 0, 0, false),
            ("halved to nothing acknowledged", 256, 128, 0, false),
            ("rank 255", 255, 1, 1, false),
            ("rank 256", 256, 1, 1, true),
            ("cost 65534", 65278, 1, 1, true),
            ("cost 65535", 65279, 1, 1, false),
            ("cost 65536, which is 0 in 16 bits", 65280, 1, 1, false),
            ("rank 65535", 65535, 1, 1, false),
        ];
        for (name, rank, t, a, expected) in cases {
            assert_eq!(eligible(rank, t, a), expected, "{name}");
        }
    }

    #[test]
    fn costs_of_eligible_neighbours_lie_from_512_to_65534() {
        let (mut least, mut largest) = (i128::MAX, 0);
        for rank in (0..=600).chain(62000..=65535) {
            for (t, a) in [(0, 0), (1, 1), (255, 255), (2, 1), (3, 1), (8, 7), (11, 3), (253, 69), (255, 70)] {
                if eligible(rank, t, a) {
                    let cost = cost(rank, t, a).expect("an eligible neighbour has a cost");
                    least = least.min(cost);
                    largest = largest.max(cost);
                }
            }
        }
        assert_eq!((least, largest), (512, 65534));
    }

    #[test]
    fn join_metrics() {
        let cases = [(256, 0, 0), (511, 0, 0), (512, 0, 1), (2816, 0, 10), (65534, 0, 254)];
        for (rank, number, metric) in cases {
            assert_eq!(join_metric(rank), JoinMetric { number, metric }, "rank {rank}");
        }
        for rank in [0, 255, 65535, 65536, 65536 + 256, u32::MAX] {
            assert_eq!(join_metric(rank), JoinMetric { number: 8, metric: 0 }, "rank {rank}");
        }
    }

    /// RFC 8180's example: five hops, each with 100 attempts of which 75 were acknowledged.
    #[test]
    fn five_hops() {
        let ranks = [256, 768, 1280, 1792, 2304, 2816];
        for hop in ranks.windows(2) {
            assert_eq!(cost(hop[0], 100, 75), Some(i128::from(hop[1])));
        }
        let metrics = ranks.map(|rank| join_metric(rank.into()).metric);
        assert_eq!(metrics, [0, 2, 4, 6, 8, 10]);
    }
}
