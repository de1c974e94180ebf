//! What a hostile caller makes by hand: frames in any lane, entries in any place.

use crate::honest::{commit, payload, queue, row, take, Pending};
use crate::rng::Rng;
use crate::scene::{within_epoch, Scene};
use crate::words::{code, record, Record, RECORD};
use twin::{Card, Entry, Epoch, Header};

const LAST: u32 = u32::MAX;
/// The last count of a header.
const LAST_COUNT: u32 = u32::MAX - 1;

/// The eight numbers of a frame, which need not be a frame's.
type Fields = [u64; 8];

pub fn fields(kind: u64, header: Header, words: [u64; 4]) -> Fields {
    let (round, leader, count) = header;
    let [w1, w2, w3, w4] = words;
    [kind, round.into(), leader.into(), count.into(), w1, w2, w3, w4]
}

/// A frame is sent; now and then with a number that no such frame has.
fn send(rng: &mut Rng, pending: &mut Pending, lane: (u8, u8, u8), mut frame: Fields) {
    if rng.one_in(40) {
        frame[rng.below(8) as usize] = rng.wild();
    }
    let mut step = record(code::SEND, &[lane.0.into(), lane.1.into(), lane.2.into()]);
    step[4..].copy_from_slice(&frame);
    queue(pending, step);
}

fn send_all(pending: &mut Pending, lane: (u8, u8, u8), frames: &[Fields]) {
    let (from, to, number) = lane;
    let count = frames.len() as u64;
    queue(pending, record(code::SEND_ALL, &[from.into(), to.into(), number.into(), count]));
    for frame in frames {
        // The first word is ignored, so it need not be a code.
        let mut step = [u64::MAX; RECORD];
        step[1..9].copy_from_slice(frame);
        queue(pending, step);
    }
}

/// An epoch near one, as it is, before it, after it, or the last there is.
fn epoch_near(rng: &mut Rng, near: Epoch, leader: u8) -> Epoch {
    match rng.below(12) {
        0..=3 => near,
        4..=6 => (near.0.saturating_add(1), leader),
        7 => (near.0, leader),
        8 => (near.0.saturating_sub(1), leader),
        9 => (near.0.saturating_add(2), rng.between(1, 7) as u8),
        10 => (near.0, rng.between(1, 7) as u8),
        _ if rng.one_in(8) => (rng.pick(&[LAST, LAST - 1]), rng.between(1, 7) as u8),
        _ => (0, leader),
    }
}

fn count_near(rng: &mut Rng, count: u32) -> u32 {
    match rng.below(16) {
        0..=8 => count,
        9 => count.saturating_sub(1),
        10..=12 => count.saturating_add(1),
        13 => count.saturating_add(2),
        14 => rng.pick(&[0, 1, LAST_COUNT, LAST]),
        _ => rng.below(6) as u32,
    }
}

/// Any mark that the card, its log or nothing at all suggests.
fn header_near(rng: &mut Rng, card: &Card, log: &[Entry], leader: u8) -> Header {
    match rng.below(10) {
        0 => (0, 0, 0),
        1 | 2 if !log.is_empty() => log[rng.below(log.len() as u64) as usize].header,
        3 => card.committed,
        4 => card.next,
        5 => card.accepted,
        _ => {
            let near = if rng.one_in(2) { card.newest } else { card.current };
            let epoch = epoch_near(rng, near, leader);
            within_epoch(epoch, count_near(rng, card.accepted.2))
        }
    }
}

/// A few frames by hand, mostly followed by the call that meets them.
pub fn frames(rng: &mut Rng, scene: &Scene, pending: &mut Pending) {
    let to = scene.any(rng);
    let from = scene.other(rng, to);
    let Some(card) = scene.facts.card(to) else { return };
    // What waits in front would be met first, so it is sometimes dropped by hand.
    if rng.percent(60) {
        let ahead = scene.waiting(from, to, 0) as u64;
        queue(pending, record(code::DROP, &[from.into(), to.into(), 0, ahead, 0]));
    }
    let long = scene.places > 32 && scene.room() > scene.places;
    match rng.below(10) {
        _ if long && rng.one_in(4) => return long_diff(rng, scene, pending, (from, to), &card),
        0..=2 => message(rng, scene, pending, (from, to), &card),
        3..=6 => diff(rng, scene, pending, (from, to), &card),
        _ => return rows(rng, scene, pending, (from, to), &card),
    }
    if rng.percent(80) {
        queue(pending, take(scene, to, from));
    }
}

fn message(rng: &mut Rng, scene: &Scene, pending: &mut Pending, (from, to): (u8, u8), card: &Card) {
    let header = match rng.below(4) {
        0 => header_near(rng, card, scene.facts.log(to), from),
        1 => within_epoch(card.newest, count_near(rng, card.accepted.2.saturating_add(1))),
        _ => within_epoch(card.current, count_near(rng, card.accepted.2.saturating_add(1))),
    };
    let frame = entry_frame(rng, scene.setup.machine, header);
    let lane = if rng.percent(95) { 0 } else { rng.pick(&[4, 5, 6]) };
    // A message comes from the leader of its epoch, if the caller bothers.
    let from =
        if rng.percent(60) && header.1 != to { header.1.clamp(1, scene.cards) } else { from };
    send(rng, pending, (from, to, lane), frame);
    if from != to && rng.percent(80) {
        queue(pending, take(scene, to, from));
    }
}

fn entry_frame(rng: &mut Rng, machine: u64, header: Header) -> Fields {
    let kind = if rng.percent(90) { 1 } else { rng.pick(&[3, 2, 4, 0, 7]) };
    entry_fields(rng, machine, kind, header)
}

fn entry_fields(rng: &mut Rng, machine: u64, kind: u64, header: Header) -> Fields {
    let (w1, w2, w3) =
        if rng.percent(85) { payload(rng, machine) } else { (rng.wild(), rng.wild(), rng.wild()) };
    let queue = if rng.percent(98) { rng.below(16) } else { rng.pick(&[16, 255, 256, u64::MAX]) };
    fields(kind, header, [queue, w1, w2, w3])
}

/// A diff with its entries: mostly whole, now and then wrong in one of the ways there are.
fn diff(rng: &mut Rng, scene: &Scene, pending: &mut Pending, (from, to): (u8, u8), card: &Card) {
    let log = scene.facts.log(to);
    let near = if rng.percent(70) { card.newest } else { card.current };
    let epoch = if rng.percent(65) {
        (near.0.saturating_add(u32::from(from <= near.1)), from)
    } else {
        epoch_near(rng, near, from)
    };
    let base = header_near(rng, card, log, from);
    let count = rng.pick(&[0, 0, 1, 1, 2, 2, 3, 4, 6, 10]);
    let mut frames = vec![head(rng, epoch, base, count)];
    let mut mark = base;
    for _ in 0..count {
        mark = rising(rng, mark, epoch);
        let kind = if rng.percent(97) { 3 } else { rng.pick(&[1, 2, 4]) };
        let frame = entry_fields(rng, scene.setup.machine, kind, mark);
        frames.push(frame);
    }
    if rng.percent(6) {
        frames.pop();
    }
    if frames.len() > 2 && rng.percent(6) {
        let last = frames.len() - 1;
        frames.swap(last, last - 1);
    }
    send_all(pending, (from, to, 0), &frames);
    if rng.percent(30) {
        queue(pending, take(scene, to, from));
        delivered(rng, scene, pending, (from, to), epoch);
    }
}

/// A commit row by hand, under which the card delivers what a diff has brought.
fn delivered(
    rng: &mut Rng,
    scene: &Scene,
    pending: &mut Pending,
    (from, to): (u8, u8),
    epoch: Epoch,
) {
    let count = rng.pick(&[0, 0, 0, 1, 2, LAST_COUNT]);
    send(rng, pending, (from, to, 6), fields(6, within_epoch(epoch, count), [0; 4]));
    for _ in 0..scene.waiting(from, to, 6).min(4) + 1 {
        queue(pending, row(code::LOOK, scene, to, from, 6));
    }
    for _ in 0..rng.between(1, 3) {
        queue(pending, commit(scene, to));
    }
}

/// A diff as long as a log, or one longer: as many steps as it takes, and then the delivery.
fn long_diff(
    rng: &mut Rng,
    scene: &Scene,
    pending: &mut Pending,
    (from, to): (u8, u8),
    card: &Card,
) {
    let ahead = scene.waiting(from, to, 0) as u64;
    queue(pending, record(code::DROP, &[from.into(), to.into(), 0, ahead, 0]));
    let epoch = (card.newest.0.saturating_add(1), from);
    let count = scene.places as u64 + rng.pick(&[0, 0, 0, 1]) - rng.pick(&[0, 0, 1, 40]).min(30);
    let head = fields(2, within_epoch(epoch, 0), [0, 0, 0, count.min(1024)]);
    send(rng, pending, (from, to, 0), head);
    let mut mark = (0, 1, 0);
    for first in (0..count).step_by(16) {
        let entries = (first..count.min(first + 16)).map(|_| {
            mark = (mark.0, mark.1, mark.2 + 1);
            // One entry that is no frame's would spoil them all.
            let (w1, w2, w3) = payload(rng, scene.setup.machine);
            fields(3, mark, [rng.below(16), w1, w2, w3])
        });
        let frames: Vec<Fields> = entries.collect();
        send_all(pending, (from, to, 0), &frames);
    }
    queue(pending, take(scene, to, from));
    delivered(rng, scene, pending, (from, to), epoch);
}

fn head(rng: &mut Rng, epoch: Epoch, base: Header, count: u64) -> Fields {
    let told = match rng.below(25) {
        0 => count + 1,
        1 => rng.pick(&[1024, 1025, 1023, u64::MAX, 4_294_967_296]),
        _ => count,
    };
    let (round, leader, number) = base;
    let words = [round.into(), leader.into(), number.into(), told];
    fields(2, within_epoch(epoch, u32::from(rng.one_in(60))), words)
}

/// A header above the mark and below the epoch, where the caller bothers.
fn rising(rng: &mut Rng, mark: Header, epoch: Epoch) -> Header {
    let up = (mark.0, mark.1.max(1), mark.2.saturating_add(1).min(LAST_COUNT));
    match rng.below(30) {
        0..=20 => up,
        21..=24 if mark.0 < epoch.0 => (mark.0.saturating_add(1), rng.between(1, 7) as u8, 1),
        25 => (mark.0, mark.1.saturating_add(1).min(7), rng.between(1, 3) as u32),
        26 => mark,
        27 => (epoch.0, epoch.1, rng.below(2) as u32),
        28 => (up.0, up.1, LAST_COUNT),
        29 => (mark.0.saturating_sub(1), up.1, 1),
        _ => up,
    }
}

/// Rows by hand, mostly looked at right away; their marks may be any.
fn rows(rng: &mut Rng, scene: &Scene, pending: &mut Pending, (from, to): (u8, u8), card: &Card) {
    let kind = rng.between(4, 6);
    let header = header_near(rng, card, scene.facts.log(to), from);
    let frame = if kind == 5 {
        let epoch = epoch_near(rng, card.newest, from);
        let (round, leader, count) = header;
        fields(5, within_epoch(epoch, 0), [round.into(), leader.into(), count.into(), 0])
    } else {
        fields(kind, header, [0, 0, 0, u64::from(rng.one_in(60))])
    };
    let number = if rng.percent(92) { kind as u8 } else { rng.pick(&[0, 4, 5, 6]) };
    send(rng, pending, (from, to, number), frame);
    for _ in 0..scene.waiting(from, to, number).min(4) + 1 {
        if rng.percent(85) {
            queue(pending, row(code::LOOK, scene, to, from, number));
        }
    }
}

/// Rounds near their end: votes of the last rounds, and what the cards make of them.
pub fn last_rounds(rng: &mut Rng, scene: &Scene, pending: &mut Pending) {
    let to = scene.any(rng);
    let from = scene.other(rng, to);
    let round = rng.pick(&[LAST, LAST, LAST - 1, LAST - 2]);
    let leader = rng.between(1, 7) as u8;
    let header: Header =
        rng.pick(&[(0, 0, 0), (0, 0, 0), (0, 1, 1), (LAST, 7, LAST_COUNT), (LAST, 7, 0)]);
    let words = [u64::from(header.0), u64::from(header.1), u64::from(header.2), 0];
    let ahead = scene.waiting(from, to, 5) as u64;
    queue(pending, record(code::DROP, &[from.into(), to.into(), 5, ahead, 0]));
    send(rng, pending, (from, to, 5), fields(5, (round, leader, 0), words));
    queue(pending, row(code::LOOK, scene, to, from, 5));
    for _ in 0..rng.between(1, 3) {
        let call = rng.pick(&[code::TIMEOUT, code::ELECT, code::ELECT]);
        queue(pending, record(call, &[to.into()]));
    }
}

/// An entry by hand, mostly into a place that a log uses.
pub fn put(rng: &mut Rng, scene: &Scene) -> Option<Record> {
    let number = scene.any(rng);
    let log = scene.facts.log(number);
    let card = scene.facts.card(number)?;
    let front = (usize::from(number) - 1) * scene.places;
    let index = if log.is_empty() || rng.percent(10) {
        rng.below(scene.elen() + 5)
    } else {
        front as u64 + rng.below(log.len() as u64)
    };
    let leader = rng.between(1, 7) as u8;
    let header = header_near(rng, &card, log, leader);
    let count = count_near(rng, header.2).max(u32::from(rng.percent(94)));
    let header = (header.0, header.1.max(u8::from(rng.percent(97))), count);
    let (w1, w2, w3) = if rng.percent(80) {
        payload(rng, scene.setup.machine)
    } else {
        (rng.wild(), rng.wild(), rng.wild())
    };
    let into = if rng.percent(96) { rng.below(16) } else { rng.between(16, 300) };
    let mut marks = [u64::from(header.0), header.1.into(), header.2.into()];
    if rng.one_in(100) {
        marks[rng.below(3) as usize] = rng.wild();
    }
    let [round, leader, count] = marks;
    Some(record(code::PUT, &[index, round, leader, count, into, w1, w2, w3]))
}
