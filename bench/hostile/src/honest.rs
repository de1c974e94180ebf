//! Steps that a rack's honest user makes: whole elections and bookings, and single steps that
//! are likely to be accepted just now.

use crate::rng::Rng;
use crate::scene::Scene;
use crate::words::{code, record, Record};
use std::collections::VecDeque;
use twin::{Card, Role};

/// Steps that are still to come, as words.
pub type Pending = VecDeque<u64>;

pub fn queue(pending: &mut Pending, step: Record) {
    pending.extend(step);
}

/// An honest step is now and then left out or made twice: cards fall behind, rows grow old.
fn mostly(rng: &mut Rng, pending: &mut Pending, step: Record) {
    let times = [0, 2, 1][rng.weighted(&[3, 1, 60])];
    (0..times).for_each(|_| queue(pending, step));
}

pub fn submit(rng: &mut Rng, scene: &Scene, card: u8) -> Record {
    let queue = rng.below(16);
    let (w1, w2, w3) = payload(rng, scene.setup.machine);
    record(code::SUBMIT, &[card.into(), queue, w1, w2, w3, scene.elen()])
}

/// The words of a payload that can be made; few carriers and loads, so that they meet.
pub fn payload(rng: &mut Rng, machine: u64) -> (u64, u64, u64) {
    if machine == 1 {
        return (rng.pick(&[0, 1, 2, 31, 63]), rng.between(1, 2), rng.pick(&[1, 2, 65535]));
    }
    let cents = rng.pick(&[0, 1, 500, 1 << 31, (1 << 31) + 77, (1 << 32) - 1]);
    (rng.pick(&[0, 1, 2, 31]), cents, 0)
}

pub fn ship(scene: &Scene, card: u8, peer: u8) -> Record {
    record(code::SHIP, &[card.into(), peer.into(), scene.elen(), scene.which])
}

pub fn take(scene: &Scene, card: u8, peer: u8) -> Record {
    record(code::TAKE, &[card.into(), peer.into(), scene.elen(), scene.which])
}

pub fn row(code: u64, scene: &Scene, card: u8, peer: u8, kind: u8) -> Record {
    record(code, &[card.into(), peer.into(), kind.into(), scene.which])
}

pub fn commit(scene: &Scene, card: u8) -> Record {
    record(code::COMMIT, &[card.into(), scene.elen(), scene.mlen()])
}

/// A whole election or a whole booking, by what the rack needs.
pub fn whole(rng: &mut Rng, scene: &Scene, pending: &mut Pending) {
    let full = |number| scene.facts.log(number).len() == scene.places;
    match scene.leader() {
        // A full log takes no booking more; only another leader may still cut it.
        Some((number, _)) if full(number) && rng.percent(50) => election(rng, scene, pending),
        Some((number, card)) if rng.percent(91) => booking(rng, scene, pending, number, &card),
        _ => election(rng, scene, pending),
    }
}

fn election(rng: &mut Rng, scene: &Scene, pending: &mut Pending) {
    let Some((stands, _)) = scene.live(rng) else { return };
    let mine = u64::from(stands);
    let first = if rng.percent(80) { code::TIMEOUT } else { code::ELECT };
    queue(pending, record(first, &[mine]));
    for peer in (1..=scene.cards).filter(|peer| *peer != stands) {
        if rng.percent(15) {
            continue;
        }
        row_across(rng, scene, pending, (stands, peer, 5));
        mostly(rng, pending, record(code::ELECT, &[peer.into()]));
        row_across(rng, scene, pending, (peer, stands, 5));
        if rng.percent(10) {
            mostly(rng, pending, record(code::ELECT, &[mine]));
        }
    }
    mostly(rng, pending, record(code::WIN, &[mine]));
}

/// A row is pushed, and all that waits before it is looked at too.
fn row_across(rng: &mut Rng, scene: &Scene, pending: &mut Pending, (from, to, kind): (u8, u8, u8)) {
    let ahead = scene.waiting(from, to, kind);
    if ahead < scene.room() {
        mostly(rng, pending, row(code::PUSH, scene, from, to, kind));
    }
    for _ in 0..ahead.min(4) + 1 {
        mostly(rng, pending, row(code::LOOK, scene, to, from, kind));
    }
}

fn booking(rng: &mut Rng, scene: &Scene, pending: &mut Pending, leader: u8, card: &Card) {
    let free = scene.places - scene.facts.log(leader).len();
    // Long logs are there to be filled.
    let wanted =
        if scene.places > 32 { rng.below(40) } else { rng.pick(&[0, 1, 1, 2, 3]) } as usize;
    let count = if rng.percent(95) { wanted.min(free) } else { wanted };
    for _ in 0..count {
        let step = submit(rng, scene, leader);
        mostly(rng, pending, step);
    }
    let peers: Vec<u8> =
        (1..=scene.cards).filter(|peer| *peer != leader && rng.percent(75)).collect();
    for peer in &peers {
        across(rng, scene, pending, (leader, *peer), card, count as u32);
    }
    for _ in 0..=count.min(6) {
        mostly(rng, pending, commit(scene, leader));
    }
    for peer in &peers {
        if rng.percent(85) {
            row_across(rng, scene, pending, (leader, *peer, 6));
            (0..=count.min(6)).for_each(|_| mostly(rng, pending, commit(scene, *peer)));
        }
    }
}

/// What the leader's peer lacks goes to it, and its accept row comes back.
fn across(
    rng: &mut Rng,
    scene: &Scene,
    pending: &mut Pending,
    (leader, peer): (u8, u8),
    card: &Card,
    new: u32,
) {
    let lacks = match card.peers[usize::from(peer) - 1].shipped {
        None => 1 + card.accepted.2 + new,
        Some(count) => card.accepted.2.saturating_sub(count) + new,
    };
    let ahead = scene.waiting(leader, peer, 0) as u32;
    let ships = if scene.room() as u32 > ahead { lacks.min(5) } else { 0 };
    for _ in 0..ships {
        mostly(rng, pending, ship(scene, leader, peer));
        if rng.percent(70) {
            mostly(rng, pending, take(scene, peer, leader));
        }
    }
    for _ in 0..ahead.min(6) {
        mostly(rng, pending, take(scene, peer, leader));
    }
    row_across(rng, scene, pending, (peer, leader, 4));
}

/// One step that is likely to be accepted now.
pub fn useful(rng: &mut Rng, scene: &Scene) -> Option<Record> {
    (0..6).find_map(|_| {
        let (number, card) = scene.live(rng)?;
        if rng.percent(45) {
            return drain(rng, scene, number);
        }
        match card.role {
            Role::Electing => electing(rng, scene, number, &card),
            Role::Leader => leading(rng, scene, number, &card),
            Role::Follower => following(rng, scene, number, &card),
        }
    })
}

/// Something that waits for the card is taken or looked at.
fn drain(rng: &mut Rng, scene: &Scene, number: u8) -> Option<Record> {
    (0..5).find_map(|_| {
        let (peer, kind) = (scene.other(rng, number), rng.pick(&[0, 0, 4, 5, 6]));
        if scene.waiting(peer, number, kind) == 0 {
            return None;
        }
        Some(match kind {
            0 => take(scene, number, peer),
            _ => row(code::LOOK, scene, number, peer, kind),
        })
    })
}

fn push(scene: &Scene, number: u8, peer: u8, kind: u8) -> Option<Record> {
    let fits = scene.waiting(number, peer, kind) < scene.room();
    fits.then(|| row(code::PUSH, scene, number, peer, kind))
}

fn electing(rng: &mut Rng, scene: &Scene, number: u8, card: &Card) -> Option<Record> {
    let own = u64::from(number);
    if scene.may_win(number, card) {
        return Some(record(code::WIN, &[own]));
    }
    let voted = card.vote.0 .1;
    match rng.below(40) {
        0 if rng.one_in(2) => Some(record(code::TIMEOUT, &[own])),
        1..=14 => Some(record(code::ELECT, &[own])),
        // Mostly the card it votes for waits for its row.
        15..=27 if voted != number && (1..=scene.cards).contains(&voted) => {
            push(scene, number, voted, 5)
        }
        _ => {
            let peer = scene.other(rng, number);
            push(scene, number, peer, 5)
        }
    }
}

fn leading(rng: &mut Rng, scene: &Scene, number: u8, card: &Card) -> Option<Record> {
    if scene.may_commit(number, card) && rng.percent(50) {
        return Some(commit(scene, number));
    }
    let peer = scene.other(rng, number);
    match rng.below(20) {
        0 if rng.percent(30) => Some(record(code::TIMEOUT, &[number.into()])),
        1..=6 => (scene.facts.log(number).len() < scene.places).then(|| submit(rng, scene, number)),
        7..=13 => {
            let shipped = card.peers[usize::from(peer) - 1].shipped;
            let due = shipped.is_none_or(|count| count < card.accepted.2);
            let fits = scene.waiting(number, peer, 0) < scene.room();
            (due && fits).then(|| ship(scene, number, peer))
        }
        14..=17 if (card.committed.0, card.committed.1) == card.current => {
            push(scene, number, peer, 6)
        }
        _ => {
            let kind = rng.pick(&[4, 5]);
            push(scene, number, peer, kind)
        }
    }
}

fn following(rng: &mut Rng, scene: &Scene, number: u8, card: &Card) -> Option<Record> {
    if scene.may_commit(number, card) {
        return Some(commit(scene, number));
    }
    let leader = card.current.1;
    let peer = if rng.percent(80) && leader != number { leader } else { scene.other(rng, number) };
    match rng.below(20) {
        0 if rng.percent(30) => Some(record(code::TIMEOUT, &[number.into()])),
        1 => push(scene, number, peer, 5),
        _ => push(scene, number, peer, 4),
    }
}
