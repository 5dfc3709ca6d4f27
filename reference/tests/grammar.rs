//! Frames by the grammar through C: each is accepted, with the record that it was made from.

use reference::convert;
use reference::coverage::Counts;
use reference::grammar::{derive, CONSTRUCTORS};
use reference::interface::{Numbers, Reading};
use reference::library;
use reference::random::Random;

/// Frames of one seed.
fn accepts(seed: u64, frames: usize) {
    /// A constructor that is used less often would be a matter of luck.
    const LEAST: usize = 10_000;

    let mut random = Random::new(seed);
    let mut counts = Counts::default();
    let mut longest = 0;
    for place in 0..frames {
        let derivation = derive(&mut random);
        let expected = Reading::of(&Ok(derivation.beacon));
        let found = library::read(&derivation.frame);
        assert!(found.same(&expected), "frame {place}: {found:?} for {expected:?}: {:02X?}", derivation.frame);
        let network = library::network_id(&derivation.frame);
        assert!(network.same(&convert::network_id(&derivation.frame)), "frame {place}: {:02X?}", derivation.frame);
        derivation.used.iter().for_each(|&name| counts.add(name));
        longest = longest.max(derivation.frame.len());
    }
    assert_eq!(longest, 125);
    counts.expect("constructors", LEAST, &CONSTRUCTORS);
}

/// A million frames, half of them in a thread of their own.
#[test]
fn library_accepts_what_the_grammar_has() {
    std::thread::scope(|scope| {
        scope.spawn(|| accepts(9, 500_000));
        scope.spawn(|| accepts(10, 500_000));
    });
}
