//! What a case is: the profile of its steps, the sizes of its rack, how many steps it has.

use crate::rng::Rng;
use crate::words::Setup;

/// What a step may be; a profile has a weight for each.
pub const KINDS: usize = 15;

pub struct Profile {
    pub name: &'static str,
    /// How often a case has this profile.
    often: u64,
    /// Whole macros, useful calls, random calls, wild numbers, wrong lengths, entries by hand,
    /// frames by hand, drops, machines, slots, questions, stops, plays, opens, last rounds.
    pub weights: [u64; KINDS],
}

/// The profiles that are chosen by the sizes of a case.
const MANY: usize = 9;
pub const BRIM: usize = 10;
const LONG_DIFFS: usize = 11;

pub const PROFILES: [Profile; 12] = [
    Profile {
        name: "honest",
        often: 16,
        weights: [500, 330, 40, 5, 5, 0, 0, 0, 0, 2, 15, 0, 30, 1, 0],
    },
    Profile {
        name: "mixed",
        often: 22,
        weights: [260, 260, 110, 40, 40, 30, 50, 6, 5, 20, 50, 1, 50, 2, 1],
    },
    Profile {
        name: "wild numbers",
        often: 8,
        weights: [230, 200, 90, 260, 40, 15, 15, 4, 6, 25, 40, 1, 40, 8, 1],
    },
    Profile {
        name: "hostile caller",
        often: 22,
        weights: [200, 220, 70, 15, 25, 110, 260, 12, 8, 4, 15, 1, 55, 1, 3],
    },
    Profile {
        name: "wrong lengths",
        often: 8,
        weights: [280, 240, 40, 15, 230, 10, 10, 4, 4, 5, 50, 0, 80, 5, 0],
    },
    Profile {
        name: "slots",
        often: 3,
        weights: [60, 80, 20, 10, 10, 10, 20, 5, 20, 600, 160, 0, 20, 2, 0],
    },
    Profile {
        name: "stops",
        often: 7,
        weights: [380, 300, 90, 10, 10, 10, 20, 4, 2, 2, 15, 12, 40, 2, 0],
    },
    Profile {
        name: "full",
        often: 6,
        weights: [100, 150, 500, 5, 5, 5, 30, 2, 2, 2, 20, 1, 60, 1, 0],
    },
    Profile {
        name: "last rounds",
        often: 4,
        weights: [280, 300, 90, 10, 10, 20, 60, 6, 2, 2, 20, 1, 40, 2, 40],
    },
    Profile {
        name: "many calls",
        often: 4,
        weights: [150, 120, 40, 5, 10, 10, 15, 2, 2, 2, 20, 1, 500, 1, 0],
    },
    Profile {
        name: "full balances",
        often: 0,
        weights: [30, 20, 2, 0, 0, 0, 0, 0, 930, 0, 2, 0, 10, 0, 0],
    },
    Profile {
        name: "long diffs",
        often: 0,
        weights: [350, 150, 50, 5, 10, 60, 150, 3, 2, 2, 20, 1, 200, 2, 1],
    },
];

/// A case before its first step.
pub struct Plan {
    pub setup: Setup,
    pub steps: usize,
    pub profile: usize,
}

/// Fixed by the case's first random numbers alone, so the number of cases is known beforehand.
pub fn plan(rng: &mut Rng) -> Plan {
    let often: Vec<u64> = PROFILES.iter().map(|profile| profile.often).collect();
    let profile = rng.weighted(&often);
    if rng.one_in(600) {
        return brim_plan(rng);
    }
    let store = u64::from(rng.percent(20));
    let cards = if store == 1 { 3 } else { rng.pick(&[3, 5, 7]) };
    let full = PROFILES[profile].name == "full";
    let places = match rng.below(100) {
        0 if rng.one_in(4) => 1024,
        0 => rng.between(100, 1024),
        1..=14 => rng.between(1, 3),
        _ if full => rng.between(1, 6),
        _ => rng.between(4, 32),
    };
    let room = match rng.below(100) {
        _ if store == 1 => 8,
        0 if cards == 3 => rng.between(65, 1100),
        1..=14 => rng.between(1, 3),
        _ if full => rng.between(1, 5),
        _ => rng.between(4, 64),
    };
    let machine = rng.below(2);
    let setup = Setup { cards, places, room, store, machine };
    if places > 32 {
        return long_plan(rng, setup);
    }
    Plan { setup, steps: rng.between(60, 700) as usize, profile }
}

/// Long logs make long dumps: few steps, with many calls in each. Three cards' lanes may have
/// room for a diff of a whole log.
fn long_plan(rng: &mut Rng, mut setup: Setup) -> Plan {
    let steps = rng.between(60, 160) as usize;
    if rng.one_in(2) {
        return Plan { setup, steps, profile: MANY };
    }
    (setup.cards, setup.store) = (3, 0);
    setup.room = setup.places + rng.between(1, 40);
    Plan { setup, steps, profile: LONG_DIFFS }
}

/// Balances come to their bounds only after thousands of postings by hand.
fn brim_plan(rng: &mut Rng) -> Plan {
    let setup = Setup { cards: 3, places: rng.between(2, 6), room: 8, store: 0, machine: 0 };
    Plan { setup, steps: 5200, profile: BRIM }
}
