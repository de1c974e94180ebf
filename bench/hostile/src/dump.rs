//! All that can be seen after a step, as words.

use crate::session::{Opened, Session};
use twin::{Backplane, Card, Entry, Header, Lane, Machine, Role, Vote};

pub const LANES: [u8; 4] = [0, 4, 5, 6];
pub const CARD_WORDS: usize = 104;

pub fn everything<B: Backplane, M: Machine>(session: &Session<'_, B, M>, out: &mut Vec<u64>) {
    match session.opened.as_ref() {
        None => out.push(0),
        Some(opened) => rack(opened, &session.entries, out),
    }
    for machine in &session.machines {
        machine.dump(out);
    }
    lanes(&session.own, session.setup.cards as u8, out);
    out.push(twin::is_quiet(&session.odd).into());
    out.push(hash(&session.entries));
}

fn rack(opened: &Opened, memory: &[Entry], out: &mut Vec<u64>) {
    let Opened { rack, cards, places } = opened;
    out.extend_from_slice(&[1, u64::from(*cards), *places as u64, rack.tally()]);
    for number in 1..=*cards {
        // A rack has all its cards; one that it denies must not pass for an agreeing dump.
        match rack.card(number) {
            Ok(copy) => card(&copy, out),
            Err(refusal) => out.push(u64::MAX - u64::from(refusal)),
        }
    }
    let own = &memory[..usize::from(*cards) * places];
    for number in 1..=*cards {
        match rack.log(own, number) {
            Ok(log) => {
                out.push(log.len() as u64);
                entries(log, out);
            }
            Err(refusal) => out.push(u64::MAX - u64::from(refusal)),
        }
    }
}

fn header(h: Header) -> [u64; 3] {
    [h.0.into(), h.1.into(), h.2.into()]
}

fn vote((epoch, h): Vote) -> [u64; 5] {
    [epoch.0.into(), epoch.1.into(), h.0.into(), h.1.into(), h.2.into()]
}

pub fn card(card: &Card, out: &mut Vec<u64>) {
    let role = match card.role {
        Role::Electing => 0,
        Role::Leader => 1,
        Role::Follower => 2,
    };
    let (current, newest) = (card.current, card.newest);
    out.extend_from_slice(&[role, card.stopped.into()]);
    out.extend_from_slice(&[current.0.into(), current.1.into()]);
    out.extend_from_slice(&[newest.0.into(), newest.1.into()]);
    out.extend_from_slice(&header(card.accepted));
    out.extend_from_slice(&header(card.committed));
    out.extend_from_slice(&header(card.next));
    out.extend_from_slice(&vote(card.vote));
    for peer in &card.peers {
        out.push(peer.shipped.map_or(0, |count| 1 + u64::from(count)));
        out.extend_from_slice(&header(peer.accept));
        out.extend_from_slice(&vote(peer.vote));
        out.extend_from_slice(&header(peer.commit));
    }
}

pub fn entries(entries: &[Entry], out: &mut Vec<u64>) {
    out.reserve(entries.len() * 7);
    for entry in entries {
        let [round, leader, count] = header(entry.header);
        let (w1, w2, w3) = entry.payload;
        out.extend_from_slice(&[round, leader, count, entry.queue.into(), w1, w2, w3]);
    }
}

fn lanes<B: Backplane>(backplane: &B, cards: u8, out: &mut Vec<u64>) {
    for from in 1..=cards {
        for to in (1..=cards).filter(|to| *to != from) {
            for number in LANES {
                waiting(backplane, Lane { from, to, number }, out);
            }
        }
    }
}

fn waiting<B: Backplane>(backplane: &B, lane: Lane, out: &mut Vec<u64>) {
    let count = match backplane.waiting(lane) {
        Ok(count) => count,
        Err(refusal) => return out.push(u64::MAX - u64::from(refusal)),
    };
    out.push(count as u64);
    for position in 0..count {
        match backplane.frame_at(lane, position) {
            Ok(frame) => out.extend_from_slice(&frame.fields()),
            Err(refusal) => out.push(u64::MAX - u64::from(refusal)),
        }
    }
}

/// Two chains, so that the multiplications of neighbours overlap: every word of every place counts.
fn hash(entries: &[Entry]) -> u64 {
    const FACTOR: u64 = 0x9E37_79B9_7F4A_7C15;
    let (mut one, mut two) = (1_u64, 2_u64);
    for entry in entries {
        let (round, leader, count) = entry.header;
        let marks = u64::from(round) << 32 | u64::from(count);
        let small = u64::from(leader) << 8 | u64::from(entry.queue);
        let (w1, w2, w3) = entry.payload;
        one = (one ^ marks ^ w1.rotate_left(17)).wrapping_mul(FACTOR).rotate_left(23);
        two = (two ^ small ^ w2 ^ w3.rotate_left(31)).wrapping_mul(FACTOR).rotate_left(29);
    }
    one ^ two.rotate_left(32)
}
