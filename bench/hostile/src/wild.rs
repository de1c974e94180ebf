//! Random calls, wild numbers, wrong lengths, damaged slots, and questions of every kind.

use crate::forged::fields;
use crate::honest::{commit, payload, row, ship, submit, take};
use crate::rng::Rng;
use crate::scene::Scene;
use crate::words::{code, record, Record, Setup};

/// A well-formed call at random, useful or not.
pub fn plausible(rng: &mut Rng, scene: &Scene) -> Record {
    let card = scene.any(rng);
    let peer = if rng.percent(96) { scene.other(rng, card) } else { scene.any(rng) };
    let kind = rng.between(4, 6) as u8;
    match rng.weighted(&[2, 8, 6, 14, 14, 14, 14, 14, 12]) {
        0 => record(code::TIMEOUT, &[card.into()]),
        1 => record(code::ELECT, &[card.into()]),
        2 => record(code::WIN, &[card.into()]),
        3 => submit(rng, scene, card),
        4 => ship(scene, card, peer),
        5 => take(scene, card, peer),
        6 => row(code::PUSH, scene, card, peer, kind),
        7 => row(code::LOOK, scene, card, peer, kind),
        _ => commit(scene, card),
    }
}

/// Where the lengths and the choice of a backplane stand in a call's record.
fn lengths_of(code: u64) -> &'static [usize] {
    match code {
        code::OPEN => &[3, 4, 5],
        code::SUBMIT => &[6],
        code::SHIP | code::TAKE => &[3, 4],
        code::PUSH | code::LOOK => &[4],
        code::COMMIT => &[2, 3],
        code::READING => &[2, 3],
        code::LOG => &[2],
        code::PLAY => &[2, 3, 4, 5],
        _ => &[],
    }
}

/// How many numbers a call has before its lengths.
fn numbers_of(code: u64) -> u64 {
    match code {
        code::TIMEOUT | code::ELECT | code::WIN | code::STOP | code::COMMIT | code::CARD => 1,
        code::READING | code::LOG => 1,
        code::SHIP | code::TAKE | code::OPEN => 2,
        code::PUSH | code::LOOK | code::FITS | code::LEAST_EPOCH => 3,
        code::SUBMIT | code::FRAME_AT | code::DROP | code::FIND_ROOM => 4,
        _ => 3,
    }
}

/// One number of a call, or two, made wild.
pub fn wilder(rng: &mut Rng, mut step: Record) -> Record {
    for _ in 0..rng.between(1, 2) {
        let most = numbers_of(step[0]);
        let place = rng.between(1, most) as usize;
        step[place] = match rng.below(4) {
            // The same number behind bits that are cut off.
            0 => step[place] | rng.pick(&[256, 1 << 32, 1 << 40, 1 << 63]),
            1 => rng.below(10),
            _ => rng.wild(),
        };
    }
    step
}

/// One length of a call, or its backplane, made wrong.
pub fn mislent(rng: &mut Rng, mut step: Record) -> Record {
    let places = lengths_of(step[0]);
    if places.is_empty() {
        return step;
    }
    let place = rng.pick(places);
    let right = step[place];
    let choice = matches!((step[0], place), (code::PUSH | code::LOOK, 4))
        || matches!((step[0], place), (code::SHIP | code::TAKE, 4))
        || matches!((step[0], place), (code::OPEN | code::PLAY, 5));
    step[place] = if choice {
        rng.pick(&[1, 1, 1, 0, 2, u64::MAX])
    } else {
        match rng.below(8) {
            0 => 0,
            1 => right.wrapping_sub(1),
            2 | 3 => right + 1,
            4 => right + rng.between(2, 5),
            5 => right / 2,
            6 => u64::MAX,
            _ => rng.wild(),
        }
    };
    step
}

/// An open that fits, on the backplane that the rack had or, seldom, on the odd one.
pub fn open(rng: &mut Rng, setup: &Setup) -> Record {
    let odd = u64::from(setup.odd_cards());
    let places = (setup.entries() as u64 / odd).min(1024);
    if rng.percent(8) && places > 0 {
        let places = rng.between(places.div_ceil(2), places);
        return record(code::OPEN, &[odd, places, odd * places, odd, 1]);
    }
    let places = setup.places;
    record(code::OPEN, &[setup.cards, places, setup.cards * places, setup.cards, 0])
}

/// A lane in which frames wait, where a few draws find one: from, to, number.
pub fn busy_lane(rng: &mut Rng, scene: &Scene) -> (u8, u8, u8) {
    let mut draw = || {
        let from = scene.any(rng);
        (from, scene.other(rng, from), rng.pick(&[0, 4, 5, 6]))
    };
    let busy = |lane: &(u8, u8, u8)| scene.waiting(lane.0, lane.1, lane.2) > 0;
    (0..12).map(|_| draw()).find(busy).unwrap_or_else(draw)
}

/// An open in which one thing alone is wrong, so that only that check can refuse it: no places,
/// one place too many, a product that wraps around to the right length, odd numbers of cards.
pub fn edge_open(rng: &mut Rng, setup: &Setup) -> Record {
    let which = u64::from(rng.one_in(3));
    let cards = if which == 0 { setup.cards } else { setup.odd_cards().into() };
    let memory = setup.entries() as u64;
    let (cards, places) = match rng.below(6) {
        0 => (cards, 0),
        1 => (cards, 1025),
        2 => {
            // The inverses of 3, 5 and 7 modulo 2 to the 64th.
            let inverse = match cards {
                3 => 0xAAAA_AAAA_AAAA_AAAB,
                5 => 0xCCCC_CCCC_CCCC_CCCD,
                _ => 0x6DB6_DB6D_B6DB_6DB7_u64,
            };
            (cards, inverse.wrapping_mul(rng.below(memory + 1)))
        }
        3 => (rng.pick(&[0, 1, 2, 4, 6]), setup.places),
        4 => (cards | rng.pick(&[256, 1 << 32]), memory / cards),
        _ => (cards, memory / cards),
    };
    let lent = (cards & 255).wrapping_mul(places);
    record(code::OPEN, &[cards, places, lent, cards & 255, which])
}

/// A reading, a look into the lanes, or a small function's call.
pub fn question(rng: &mut Rng, scene: &Scene) -> Record {
    let (card, peer, lane) = busy_lane(rng, scene);
    let (one, two) = (u64::from(card), u64::from(peer));
    let number = if rng.percent(95) { lane.into() } else { rng.wild() };
    let which = if rng.one_in(10) { 1 - scene.which } else { scene.which };
    let waiting = scene.waiting(card, peer, lane) as u64;
    let near = if rng.percent(70) { rng.below(waiting.max(1)) } else { waiting + rng.below(2) };
    match rng.below(12) {
        0 | 1 => {
            let used = scene.facts.log(card).len() as u64;
            let length = if rng.one_in(2) { scene.places as u64 } else { used + rng.below(3) };
            record(code::READING, &[one, scene.elen(), length.saturating_sub(rng.below(3))])
        }
        2 => record(code::LOG, &[one, scene.elen()]),
        3 => record(code::CARD, &[one]),
        4 => record(code::FITS, &[scene.elen() + rng.below(2), scene.mlen(), scene.mlen()]),
        5 => record(code::WAITING, &[one, two, number, which]),
        6 => record(code::FRAME_AT, &[one, two, number, near, which]),
        7 => record(rng.pick(&[code::SIZES, code::QUIET]), &[which]),
        8 => {
            let free = (scene.room() as u64 + rng.below(3)).saturating_sub(waiting + rng.below(3));
            record(code::FIND_ROOM, &[one, two, number, free, which])
        }
        _ => small(rng, scene.setup.machine),
    }
}

/// A function of numbers alone.
pub fn small(rng: &mut Rng, machine: u64) -> Record {
    let marks = [rng.below(3), rng.below(9), rng.below(9)];
    match rng.below(5) {
        0 => draft(rng, machine),
        1 => {
            let round = rng.pick(&[0, 0, 1, 4_294_967_294, 4_294_967_295, 4_294_967_296, marks[0]]);
            record(code::LEAST_EPOCH, &[round, marks[1], marks[2]])
        }
        2 => shape(rng),
        _ => {
            let (mut w1, mut w2, mut w3) = payload(rng, machine);
            match rng.below(6) {
                0 => w1 = rng.wild(),
                1 => w2 = rng.wild(),
                2 => w3 = rng.wild(),
                3 => (w1, w2, w3) = (rng.wild(), rng.wild(), rng.wild()),
                _ => {}
            }
            record(code::WORDS, &[w1, w2, w3])
        }
    }
}

/// The numbers that a payload is made from, at the ends of their ranges.
fn draft(rng: &mut Rng, machine: u64) -> Record {
    let wild = rng.wild();
    if machine == 1 {
        let load = rng.pick(&[0, 63, 64, 7, 7, wild]);
        let carrier = rng.pick(&[0, 1, 65535, 65536, 9, 9, wild]);
        return record(code::PAYLOAD, &[load, rng.pick(&[1, 2, 1, 2, 0, 3, wild]), carrier]);
    }
    let bound = i64::pow(2, 31);
    let cents = rng.pick(&[0, -1, bound, bound - 1, -bound, -bound - 1, i64::MIN, i64::MAX]);
    let cents = if rng.one_in(5) { wild } else { cents as u64 };
    record(code::PAYLOAD, &[rng.pick(&[0, 31, 32, 5, 5, wild]), cents, wild])
}

fn shape(rng: &mut Rng) -> Record {
    let (wild, wilder) = (rng.wild(), rng.wild());
    let cards = rng.pick(&[3, 5, 7, 3, 5, 7, 1, 2, 4, 8, 259, wild]);
    let room = rng.pick(&[1, 2, 64, 2047, 2048, 2049, 0, wilder]);
    let bytes = (cards as u8 as u64).pow(2).wrapping_mul(4 * 48).wrapping_mul(room);
    let length = match rng.below(6) {
        0 => bytes.wrapping_add(1),
        1 => bytes.wrapping_sub(1),
        2 => rng.wild(),
        _ => bytes,
    };
    record(code::SHAPE, &[cards, room, length])
}

/// A true frame's eight numbers.
fn true_frame(rng: &mut Rng, machine: u64) -> [u64; 8] {
    let round = rng.pick(&[0, 1, 255, 256, 65536, u32::MAX - 1, u32::MAX]);
    let header = (round, rng.between(1, 7) as u8, rng.pick(&[1, 2, 256, u32::MAX - 1]));
    let kind = rng.between(1, 6);
    let (w1, w2, w3) = payload(rng, machine);
    let base = [rng.below(1 << 32), rng.between(1, 7), rng.pick(&[0, 1, 4_294_967_294])];
    match kind {
        1 | 3 => fields(kind, header, [rng.below(16), w1, w2, w3]),
        2 => fields(2, (header.0, header.1, 0), [base[0], base[1], base[2], rng.below(1025)]),
        5 if rng.one_in(4) => fields(5, (0, 0, 0), [0; 4]),
        5 => fields(5, (header.0, header.1, 0), [base[0], base[1], base[2], 0]),
        _ if rng.one_in(4) => fields(kind, (0, 0, 0), [0; 4]),
        _ => fields(kind, header, [0; 4]),
    }
}

pub fn slot_write(rng: &mut Rng, machine: u64) -> Record {
    let mut frame = true_frame(rng, machine);
    if rng.percent(35) {
        let place = rng.below(8) as usize;
        frame[place] = rng.wild();
    }
    let length = rng.pick(&[128, 128, 128, 48, 49, 47, 0, 100]);
    let most = length.max(48) - 48;
    let start = match rng.below(8) {
        0 => most + 1,
        1 => rng.wild(),
        2 => most,
        _ => rng.below(most + 1),
    };
    let mut step = record(code::SLOT_WRITE, &[start, length]);
    step[3..11].copy_from_slice(&frame);
    step
}

/// A slot by the page: a bit for each field that is not 0, then those fields, low byte first.
fn slot_of(frame: &[u64; 8]) -> [u8; 48] {
    const SIZES: [usize; 8] = [1, 4, 1, 4, 8, 8, 8, 8];
    let mut slot = [0; 48];
    let mut end = 1;
    for (index, (field, size)) in frame.iter().zip(SIZES).enumerate() {
        if *field != 0 {
            slot[0] |= 1 << index;
            slot[end..end + size].copy_from_slice(&field.to_le_bytes()[..size]);
            end += size;
        }
    }
    slot
}

/// A true slot, mostly, with a few bits or bytes of it damaged.
pub fn slot_read(rng: &mut Rng, machine: u64) -> Record {
    let mut slot = slot_of(&true_frame(rng, machine));
    match rng.below(8) {
        0 => slot[rng.below(48) as usize] ^= 1 << rng.below(8),
        1 => slot[0] ^= 1 << rng.below(8),
        2 => slot[47 - rng.below(10) as usize] = rng.word() as u8,
        3 => slot[rng.below(24) as usize] = rng.pick(&[0, 1, 7, 8, 15, 16, 255]),
        _ => {}
    }
    let length = rng.pick(&[72, 72, 72, 48, 49, 47, 0, 60]);
    let most = length.max(48) - 48;
    let start = match rng.below(8) {
        0 => most + 1,
        1 => rng.wild(),
        _ => rng.below(most + 1),
    };
    let mut bytes = [0xEE_u8; 72];
    let at = start.min(24) as usize;
    bytes[at..at + 48].copy_from_slice(&slot);
    let mut step = record(code::SLOT_READ, &[start, length]);
    for (word, eight) in step[3..].iter_mut().zip(bytes.chunks_exact(8)) {
        *word = eight.iter().rev().fold(0, |word, byte| word << 8 | u64::from(*byte));
    }
    step
}
