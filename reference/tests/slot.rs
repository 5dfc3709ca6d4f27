//! Slot and channel decision: the static library against the reference, on random schedules and on fixed values.

use reference::coverage::Counts;
use reference::header::{LISTEN, MOST_LINKS, OPTION_RECEIVE, OPTION_TRANSMIT, SLEEP, TRANSMIT};
use reference::interface::{Link, Numbers, Slot};
use reference::random::Random;
use reference::slot::{self, HOPPING_SEQUENCE, LARGEST_ASN};
use reference::{convert, library};
use std::ptr::null;

/// The option bits that count, as wide as a link has them.
const TRANSMIT_BIT: u16 = OPTION_TRANSMIT as u16;
const RECEIVE_BIT: u16 = OPTION_RECEIVE as u16;

/// One question. The links lent are all but the first and the last of `buffer`; those two catch a library that reads
/// or writes outside the list.
#[derive(Clone, Debug)]
struct Case {
    buffer: Vec<Link>,
    size: u32,
    id: u32,
    asn: u64,
    waits: bool,
}

impl Case {
    fn links(&self) -> &[Link] {
        &self.buffer[1..self.buffer.len() - 1]
    }

    /// The slot's number within the slotframe, if there is one.
    fn now(&self) -> Option<u64> {
        self.asn.checked_rem(self.size.into())
    }

    fn is_active(&self, link: &Link) -> bool {
        Some(u64::from(link.timeslot)) == self.now()
    }
}

/// What a case is an example of. Refusals are told apart by the one reason that the case gives; several go together.
const OUTCOMES: [&str; 25] = [
    "transmit on the first place",
    "transmit on a later place",
    "transmit, earlier active link only receives",
    "listen on the first place, no frame waits",
    "listen on a later place, no frame waits",
    "listen, no frame for an active transmit link",
    "listen on the first place although a frame waits",
    "listen on a later place although a frame waits",
    "sleep, no link is active",
    "sleep, frame waits, active links have neither bit",
    "sleep, no frame waits, active links have neither bit",
    "sleep, no frame for an active transmit link",
    "refused, size 0",
    "refused, no links",
    "refused, 17 links",
    "refused, over 17 links",
    "refused, timeslot equals the size, a link is active",
    "refused, timeslot equals the size, no link is active",
    "refused, timeslot over the size, same slot mod size",
    "refused, timeslot over the size, other slot",
    "refused, sequence ID to 255",
    "refused, sequence ID over 255",
    "refused, ASN 2^40",
    "refused, ASN over 2^40",
    "refused, several reasons",
];

/// The outcome that a case is counted under. A refusal is described from the case alone, an action from the answer.
fn outcome(case: &Case, answer: Slot) -> &'static str {
    let links = case.links();
    let active: Vec<&Link> = links.iter().filter(|link| case.is_active(link)).collect();
    let has = |bit: u16| active.iter().any(|link| link.options & bit != 0);

    let mut reasons = Vec::new();
    if case.size == 0 {
        reasons.push("refused, size 0");
    } else if let Some(link) = links.iter().find(|link| u32::from(link.timeslot) >= case.size) {
        // An active link's timeslot is always below the size: what comes near is a link that reduction would activate.
        let timeslot = u32::from(link.timeslot);
        reasons.push(match (timeslot == case.size, active.is_empty()) {
            (true, false) => "refused, timeslot equals the size, a link is active",
            (true, true) => "refused, timeslot equals the size, no link is active",
            (false, _) if case.now() == Some(u64::from(timeslot % case.size)) => {
                "refused, timeslot over the size, same slot mod size"
            }
            (false, _) => "refused, timeslot over the size, other slot",
        });
    }
    match links.len() {
        0 => reasons.push("refused, no links"),
        17 => reasons.push("refused, 17 links"),
        count if count > MOST_LINKS => reasons.push("refused, over 17 links"),
        _ => (),
    }
    match case.id {
        0 => (),
        1..=255 => reasons.push("refused, sequence ID to 255"),
        _ => reasons.push("refused, sequence ID over 255"),
    }
    if case.asn > LARGEST_ASN {
        reasons.push(if case.asn == 1 << 40 { "refused, ASN 2^40" } else { "refused, ASN over 2^40" });
    }

    match reasons[..] {
        [] => (),
        [reason] => return reason,
        _ => return "refused, several reasons",
    }
    match (answer.action, answer.index, case.waits) {
        (TRANSMIT, index, _) => {
            let earlier =
                links[..usize::from(index)].iter().any(|link| case.is_active(link) && link.options & RECEIVE_BIT != 0);
            match index {
                0 => "transmit on the first place",
                _ if earlier => "transmit, earlier active link only receives",
                _ => "transmit on a later place",
            }
        }
        (LISTEN, _, false) if has(TRANSMIT_BIT) => "listen, no frame for an active transmit link",
        (LISTEN, 0, false) => "listen on the first place, no frame waits",
        (LISTEN, _, false) => "listen on a later place, no frame waits",
        (LISTEN, 0, true) => "listen on the first place although a frame waits",
        (LISTEN, _, true) => "listen on a later place although a frame waits",
        (SLEEP, _, _) if active.is_empty() => "sleep, no link is active",
        (SLEEP, _, true) => "sleep, frame waits, active links have neither bit",
        (SLEEP, _, false) if has(TRANSMIT_BIT) => "sleep, no frame for an active transmit link",
        (SLEEP, _, false) => "sleep, no frame waits, active links have neither bit",
        _ => "no action of the three",
    }
}

fn random_asn(random: &mut Random) -> u64 {
    match random.below(100) {
        0..8 => 0,
        8..16 => LARGEST_ASN,
        16..21 => LARGEST_ASN + 1,
        21..23 => u64::MAX,
        23..45 => random.below(1000),
        45..96 => random.below(LARGEST_ASN + 1),
        _ => random.number() >> random.below(24),
    }
}

fn random_count(random: &mut Random) -> usize {
    match random.below(100) {
        0..5 => 0,
        5..25 => 1,
        25..70 => random.between(2, 15) as usize,
        70..90 => MOST_LINKS,
        90..96 => MOST_LINKS + 1,
        _ => random.between(18, 40) as usize,
    }
}

/// A timeslot that reaches the size: the size itself, one that would be active if reduced, or any other.
fn timeslot_over(random: &mut Random, size: u16, now: u16) -> u16 {
    match random.below(3) {
        0 => size,
        1 => now.checked_add(size).unwrap_or(size),
        _ => random.between(u64::from(size), u64::from(u16::MAX)) as u16,
    }
}

/// A sequence ID; those that are refused are often 0 in their low 8 or 16 bits.
fn random_id(random: &mut Random) -> u32 {
    match random.below(100) {
        0..92 => 0,
        92..94 => random.pick(&[1, 16, 255]),
        94..96 => random.between(1, 255) as u32,
        96..98 => random.pick(&[256, 65536, 1 << 24, 1 << 31]),
        _ => random.between(256, u32::MAX.into()) as u32,
    }
}

/// A case of the given size. Whole schedules lean to one mood (which links are active, which bits they have), since
/// links drawn one by one would almost never leave every active link without a bit.
fn random_case(random: &mut Random, size: u32) -> Case {
    let asn = match random.below(4) {
        // In a slotframe of more than 65536 slots few of them can have a link: these come often.
        0 if size > 65536 => {
            let frames = (LARGEST_ASN + 1) / u64::from(size);
            random.below(frames) * u64::from(size) + random.below(65536)
        }
        _ => random_asn(random),
    };
    // The active timeslot; where it is over 65535, what is left of it in 16 bits, which is not active.
    let now = asn.checked_rem(u64::from(size)).unwrap_or(0) as u16;
    let count = random_count(random);
    let active_percent = random.pick(&[0, 15, 50, 90]);
    let (clear, set) = random.pick(&[
        (0, 0),
        (0, 0),
        (TRANSMIT_BIT | RECEIVE_BIT, 0),
        (TRANSMIT_BIT, 0),
        (RECEIVE_BIT, 0),
        (TRANSMIT_BIT, RECEIVE_BIT),
    ]);

    let mut buffer: Vec<Link> = (0..count + 2)
        .map(|_| Link {
            timeslot: match random.below(100) < active_percent {
                true => now,
                // This draw may hit the active slot too: a case is counted as what it is.
                false => random.below(u64::from(size.clamp(1, 65536))) as u16,
            },
            channel_offset: random.number() as u16,
            // In half of the links one byte, as on air.
            options: random.number() as u16 & random.pick(&[0xFF, 0xFFFF]) & !clear | set,
        })
        .collect();

    // The links that are not lent: taken for the case's own they would decide, or refuse it.
    for place in [0, count + 1] {
        buffer[place].timeslot = random.pick(&[now, u16::MAX]);
    }
    if let (true, Ok(size), true) = (count > 0, u16::try_from(size), random.chance(15)) {
        let place = random.between(1, count as u64) as usize;
        buffer[place].timeslot = timeslot_over(random, size, now);
    }
    Case { buffer, size, id: random_id(random), asn, waits: random.chance(50) }
}

/// The library's answer. It gets a pointer to links that may be written, so that the compiler takes nothing for granted
/// when they are compared afterwards.
fn library_answer(case: &Case) -> (Slot, Vec<Link>) {
    let mut buffer = case.buffer.clone();
    let count = buffer.len() - 2;
    // SAFETY: the buffer holds count + 2 links, so from its second link on there are `count`.
    let answer = unsafe {
        let links = buffer.as_mut_ptr().add(1);
        library::tesolvagna_slot_decide(links, count, case.size, case.id, case.asn, case.waits)
    };
    (answer, buffer)
}

/// What cases with a size over 65535, or a link's options over 255, are an example of.
const WIDE: [&str; 7] = [
    "size 65536, not refused",
    "size over 65535, transmit",
    "size over 65535, listen",
    "size over 65535, sleep, the slot is over 65535 and a link's in its low 16 bits",
    "size over 65535, sleep, the slot is over 65535",
    "size over 65535, sleep",
    "options over 255 at the deciding link",
];

fn count_wide(case: &Case, answer: Slot, counts: &mut Counts) {
    if answer.number != 0 {
        return;
    }
    let deciding = &case.links()[usize::from(answer.index)];
    counts.add_if(answer.action != SLEEP && deciding.options > 255, "options over 255 at the deciding link");
    counts.add_if(case.size == 65536, "size 65536, not refused");
    if case.size > 65535 {
        let now = case.now().expect("the size is not 0");
        let low = case.links().iter().any(|link| u64::from(link.timeslot) == now % 65536);
        counts.add(match (answer.action, now > 65535, low) {
            (TRANSMIT, _, _) => "size over 65535, transmit",
            (LISTEN, _, _) => "size over 65535, listen",
            (_, true, true) => "size over 65535, sleep, the slot is over 65535 and a link's in its low 16 bits",
            (_, true, false) => "size over 65535, sleep, the slot is over 65535",
            (_, false, _) => "size over 65535, sleep",
        });
    }
}

#[test]
fn library_decides_as_the_reference() {
    const ROUNDS: usize = 14_000;
    /// An outcome that is met less often would be a matter of luck.
    const LEAST: usize = 500;

    let mut random = Random::new(0x6715C);
    let mut outcomes = Counts::default();
    let mut wide = Counts::default();
    let mut options_at_first_active = [0usize; 256];
    let mut channels = [[0usize; 27]; 3];
    let mut cases = 0usize;

    for _ in 0..ROUNDS {
        let any_size = random.number() as u16;
        let large_size = random.between(65537, 1 << 20) as u32;
        let huge_size = random.between(1 << 20, u32::MAX.into()) as u32;
        let sizes = [101, 65535, any_size.into(), 65536, large_size, huge_size];
        for size in (0..=20).chain(sizes) {
            let case = random_case(&mut random, size);
            let expected = convert::decide(case.links(), case.size, case.id, case.asn, case.waits);
            let (answer, buffer) = library_answer(&case);
            assert!(answer.same(&expected), "case {cases}: {answer:?} for {expected:?}: {case:?}");
            assert_eq!(buffer, case.buffer, "case {cases}: links were written");

            let found = outcome(&case, expected);
            assert_eq!(found.starts_with("refused"), expected.number == 8, "case {cases}, {found}: {case:?}");
            outcomes.add(found);
            count_wide(&case, expected, &mut wide);
            if expected.number == 0 {
                channels[expected.action as usize][expected.channel as usize] += 1;
                if let Some(link) = case.links().iter().find(|link| case.is_active(link)) {
                    options_at_first_active[usize::from(link.options & 0xFF)] += 1;
                }
            }
            cases += 1;
        }
    }

    assert!(cases >= 378_000);
    outcomes.expect(&format!("outcomes of {cases} cases"), LEAST, &OUTCOMES);
    wide.expect("numbers that 16 bits or a byte do not hold", LEAST, &WIDE);
    for (options, count) in options_at_first_active.iter().enumerate() {
        assert!(*count > 0, "options {options:#04x} never stood at the first active link");
    }
    for action in [TRANSMIT, LISTEN] {
        for (channel, count) in channels[action as usize].iter().enumerate().skip(11) {
            assert!(*count > 0, "action {action} never met channel {channel}");
        }
    }
}

/// The empty list in both forms: a pointer that points to no link, and NULL.
#[test]
fn no_links_are_refused() {
    let refused = Slot { number: 8, ..Slot::default() };
    assert_eq!(convert::decide(&[], 11, 0, 0, true), refused);
    assert_eq!(library::decide(&[], 11, 0, 0, true), refused);
    // SAFETY: with the length 0 a pointer may be null.
    assert_eq!(unsafe { library::tesolvagna_slot_decide(null(), 0, 11, 0, 0, true) }, refused);
}

/// Both sides give this answer.
fn expect(name: &str, links: &[Link], size: u32, id: u32, asn: u64, waits: bool, expected: Slot) {
    assert_eq!(convert::decide(links, size, id, asn, waits), expected, "reference, {name}");
    assert_eq!(library::decide(links, size, id, asn, waits), expected, "library, {name}");
}

/// Each limit from both sides, one number moved at a time.
#[test]
fn limits() {
    let link = Link { timeslot: 0, channel_offset: 0, options: TRANSMIT_BIT };
    let transmit = |channel: u8| Slot { number: 0, action: TRANSMIT, channel, index: 0 };
    let sleep = Slot::default();
    let refused = Slot { number: 8, ..sleep };
    let at = |timeslot: u16| Link { timeslot, ..link };

    // 2^40 - 1 is a multiple of 3, 5 and 11, so that timeslot 0 of a slotframe of 11 is active there.
    let cases = [
        ("size 0", vec![link], 0, 0, 0, refused),
        ("size 1", vec![link], 1, 0, 0, transmit(16)),
        ("size 65535, last timeslot", vec![at(65534)], 65535, 0, 65534, transmit(20)),
        ("size 65535, timeslot 65535", vec![at(65535)], 65535, 0, 65534, refused),
        ("size 65536, 0 in 16 bits", vec![link], 65536, 0, 65536, transmit(16)),
        ("size 65536, last timeslot", vec![at(65535)], 65536, 0, 65535, transmit(21)),
        ("size 65537, slot 65536", vec![link], 65537, 0, 65536, sleep),
        ("size 65547, 11 in 16 bits", vec![at(5)], 65547, 0, 16, sleep),
        ("size 2^32 - 1", vec![at(1)], u32::MAX, 0, 1 << 32, transmit(16)),
        ("no links", vec![], 11, 0, 0, refused),
        ("1 link", vec![link; 1], 11, 0, 0, transmit(16)),
        ("16 links", vec![link; 16], 11, 0, 0, transmit(16)),
        ("17 links", vec![link; 17], 11, 0, 0, refused),
        ("256 + 1 links", vec![link; 257], 11, 0, 0, refused),
        ("65536 + 1 links", vec![link; 65537], 11, 0, 0, refused),
        ("timeslot below the size", vec![link, at(10)], 11, 0, 0, transmit(16)),
        ("timeslot equal to the size, after the deciding link", vec![link, at(11)], 11, 0, 0, refused),
        ("timeslot over the size, active if reduced", vec![at(14)], 11, 0, 3, refused),
        ("sequence ID 1", vec![link], 11, 1, 0, refused),
        ("sequence ID 256", vec![link], 11, 256, 0, refused),
        ("sequence ID 65536", vec![link], 11, 65536, 0, refused),
        ("sequence ID 2^31", vec![link], 11, 1 << 31, 0, refused),
        ("ASN 2^40 - 1", vec![link], 11, 0, (1 << 40) - 1, transmit(21)),
        ("ASN 2^40", vec![at(1)], 11, 0, 1 << 40, refused),
        ("no active link", vec![link], 11, 0, 1, sleep),
    ];
    for (name, links, size, id, asn, expected) in cases {
        expect(name, &links, size, id, asn, true, expected);
    }
}

/// Which link decides: the first active one with the bit that counts, not the first listed or the first active.
#[test]
fn first_link_with_the_bit() {
    // Slotframe of 5, ASN 7: timeslot 2 is active; entry 7 + offset of the hopping sequence.
    let link = |timeslot: u16, channel_offset: u16, options: u16| Link { timeslot, channel_offset, options };
    let links = [
        link(1, 0, TRANSMIT_BIT | RECEIVE_BIT),
        link(2, 1, 0b1111_1111_1111_1100),
        link(2, 2, RECEIVE_BIT),
        link(2, 3, TRANSMIT_BIT | RECEIVE_BIT),
        link(2, 4, 0xFF00 | TRANSMIT_BIT),
    ];
    let slot = |action: u8, channel: u8, index: u8| Slot { number: 0, action, channel, index };
    let cases = [
        ("all, frame waits", &links[..], true, slot(TRANSMIT, 12, 3)),
        ("all, no frame", &links[..], false, slot(LISTEN, 11, 2)),
        ("only bit 0, frame waits", &links[4..], true, slot(TRANSMIT, 13, 0)),
        ("only bit 0, no frame", &links[4..], false, slot(SLEEP, 0, 0)),
        ("only bit 1, frame waits", &links[..3], true, slot(LISTEN, 11, 2)),
        ("neither bit, frame waits", &links[..2], true, slot(SLEEP, 0, 0)),
        ("neither bit, no frame", &links[..2], false, slot(SLEEP, 0, 0)),
    ];
    for (name, links, waits, expected) in cases {
        expect(name, links, 5, 0, 7, waits, expected);
    }
}

/// The rules' own examples of channels, then sums that pass 2^40, 2^64 and the table's end.
#[test]
fn channel_values() {
    let cases = [
        (11, 0, 13),
        (LARGEST_ASN, 0, 21),
        (LARGEST_ASN, 1, 16),
        (0, 0, 16),
        (0, 65535, 21),
        (1, 65535, 16),
        (LARGEST_ASN + 1, 3, 18),
        (u64::MAX, 0, 21),
        (u64::MAX, 65535, 20),
    ];
    for (asn, offset, channel) in cases {
        assert_eq!(slot::channel(asn, offset), channel, "reference, ASN {asn}, offset {offset}");
        assert_eq!(library::channel(asn, offset), channel, "library, ASN {asn}, offset {offset}");
    }
}

#[test]
fn channel_over_all_offsets() {
    let mut random = Random::new(0xC4A7);
    let any = [random.number(), random.below(LARGEST_ASN), random.below(1000)];
    for asn in [0, 1, 15, 16, LARGEST_ASN, LARGEST_ASN + 1, u64::MAX].into_iter().chain(any) {
        for offset in 0..=u16::MAX {
            assert_eq!(library::channel(asn, offset), slot::channel(asn, offset), "ASN {asn}, offset {offset}");
        }
    }
}

/// Sixteen slots in a row use all sixteen channels once each, wherever they start.
#[test]
fn sixteen_slots_use_all_channels() {
    let mut sequence = HOPPING_SEQUENCE;
    sequence.sort_unstable();
    assert!(sequence.into_iter().eq(11..=26), "the sequence has each channel once");

    let mut random = Random::new(0x0515);
    for start in [0, 5, LARGEST_ASN - 15, random.below(LARGEST_ASN - 15)] {
        let offset = random.number() as u16;
        // A slotframe of one slot: the link is active in each, and the decision reports the channel too.
        let links = [Link { timeslot: 0, channel_offset: offset, options: RECEIVE_BIT }];
        let mut channels: Vec<u8> = (start..start + 16).map(|asn| library::channel(asn, offset)).collect();
        let decided = (start..start + 16).map(|asn| library::decide(&links, 1, 0, asn, false).channel);
        assert!(decided.eq(channels.iter().copied()), "start {start}, offset {offset}");
        channels.sort_unstable();
        assert!(channels.into_iter().eq(11..=26), "start {start}, offset {offset}");
    }
}
