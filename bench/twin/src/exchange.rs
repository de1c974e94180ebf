//! The calls between a card and a peer: ship and take, push and look.

use crate::backplane::{find_room, Backplane, Lane};
use crate::card::{Card, Role};
use crate::frame::{
    Entry, Frame, ACCEPT_ROW, COMMIT_ROW, DIFF_ENTRY, DIFF_HEAD, MESSAGE, VOTE_ROW,
};
use crate::log;
use crate::marks::{epoch_of, start_of};
use crate::rack::{Rack, Seat};
use crate::refusals::{LOG_FULL, MALFORMED, NOTHING_DUE, OUT_OF_RANGE, OUT_OF_TURN};

/// The lane of messages and diffs; a row's lane has its kind's number.
const ENTRY_LANE: u8 = 0;

/// Take's answers.
const PASSED_OVER: u8 = 0;
const APPENDED: u8 = 1;
const INSTALLED: u8 = 2;

impl Rack {
    pub fn ship<B: Backplane>(
        &mut self,
        entries: &[Entry],
        backplane: &mut B,
        card: u8,
        peer: u8,
    ) -> Result<u32, u8> {
        let (at, peer_at) = self.pair(card, peer)?;
        self.check_entries(entries)?;
        self.check_backplane(backplane)?;
        let log = &entries[self.used_part(at)];
        let own = &mut self.seats[at].card;
        own.acting_as(Role::Leader)?;
        let lane = Lane { from: card, to: peer, number: ENTRY_LANE };
        match own.peers[peer_at].shipped {
            None => ship_diff(own, log, backplane, lane, peer_at),
            Some(count) => ship_message(own, log, backplane, lane, peer_at, count),
        }
    }

    pub fn take<B: Backplane>(
        &mut self,
        entries: &mut [Entry],
        backplane: &mut B,
        card: u8,
        peer: u8,
    ) -> Result<u8, u8> {
        let (at, _) = self.pair(card, peer)?;
        self.check_entries(entries)?;
        self.check_backplane(backplane)?;
        let start = at * self.places;
        let part = &mut entries[start..start + self.places];
        let seat = &mut self.seats[at];
        seat.card.running()?;
        let lane = Lane { from: peer, to: card, number: ENTRY_LANE };
        let front = backplane.frame_at(lane, 0)?;
        match front.kind() {
            MESSAGE if front.leader() == peer => take_message(seat, part, backplane, lane, front),
            DIFF_HEAD if front.leader() == peer => take_diff(seat, part, backplane, lane, front),
            _ => Err(MALFORMED),
        }
    }

    pub fn push<B: Backplane>(
        &self,
        backplane: &mut B,
        card: u8,
        peer: u8,
        kind: u8,
    ) -> Result<(), u8> {
        let (at, _) = self.pair(card, peer)?;
        self.check_backplane(backplane)?;
        check_row_kind(kind)?;
        let own = &self.seats[at].card;
        own.running()?;
        let row = match kind {
            ACCEPT_ROW => Frame::accept_row(own.accepted),
            VOTE_ROW => Frame::vote_row(own.vote),
            _ if epoch_of(own.committed) == own.current => Frame::commit_row(own.committed),
            _ => return Err(NOTHING_DUE),
        };
        backplane.send(Lane { from: card, to: peer, number: kind }, row)
    }

    pub fn look<B: Backplane>(
        &mut self,
        backplane: &mut B,
        card: u8,
        peer: u8,
        kind: u8,
    ) -> Result<(), u8> {
        let (at, peer_at) = self.pair(card, peer)?;
        self.check_backplane(backplane)?;
        check_row_kind(kind)?;
        let own = &mut self.seats[at].card;
        own.running()?;
        let lane = Lane { from: peer, to: card, number: kind };
        let row = backplane.frame_at(lane, 0)?;
        if row.kind() != kind {
            return Err(MALFORMED);
        }
        backplane.drop_first(lane, 1)?;
        let copies = &mut own.peers[peer_at];
        match kind {
            ACCEPT_ROW => copies.accept = row.header(),
            VOTE_ROW => copies.vote = (row.epoch(), row.header_of_words()),
            _ => copies.commit = row.header(),
        }
        Ok(())
    }
}

#[inline]
fn check_row_kind(kind: u8) -> Result<(), u8> {
    if (ACCEPT_ROW..=COMMIT_ROW).contains(&kind) {
        Ok(())
    } else {
        Err(OUT_OF_RANGE)
    }
}

/// The first shipment of an epoch: what the peer may lack from earlier ones.
fn ship_diff<B: Backplane>(
    own: &mut Card,
    log: &[Entry],
    backplane: &mut B,
    lane: Lane,
    peer_at: usize,
) -> Result<u32, u8> {
    let base = own.peers[peer_at].commit;
    let end = start_of(own.current);
    let follow = log::within(log, base, end).count();
    find_room(backplane, lane, 1 + follow)?;
    backplane.send(lane, Frame::diff_head(own.current, base, follow))?;
    for entry in log::within(log, base, end) {
        backplane.send(lane, Frame::diff_entry(entry))?;
    }
    own.peers[peer_at].shipped = Some(0);
    // At most 1025, the head and a whole log.
    Ok(1 + follow as u32)
}

// Inlined, so that a frame on the everyday path need not be passed through memory.
#[inline(always)]
fn ship_message<B: Backplane>(
    own: &mut Card,
    log: &[Entry],
    backplane: &mut B,
    lane: Lane,
    peer_at: usize,
    shipped: u32,
) -> Result<u32, u8> {
    let (round, leader) = own.current;
    let count = shipped.checked_add(1).ok_or(NOTHING_DUE)?;
    let entry = log::find(log, (round, leader, count)).ok_or(NOTHING_DUE)?;
    backplane.send(lane, Frame::message(entry))?;
    own.peers[peer_at].shipped = Some(count);
    Ok(1)
}

// Inlined for the same reason.
#[inline(always)]
fn take_message<B: Backplane>(
    seat: &mut Seat,
    part: &mut [Entry],
    backplane: &mut B,
    lane: Lane,
    message: Frame,
) -> Result<u8, u8> {
    let Seat { card, used } = seat;
    let epoch = message.epoch();
    if epoch < card.newest {
        backplane.drop_first(lane, 1)?;
        return Ok(PASSED_OVER);
    }
    let entry = message.entry();
    let follows = entry.header.2 - 1 == card.accepted.2;
    if epoch != card.current || epoch != card.newest || !follows {
        return Err(OUT_OF_TURN);
    }
    let place = part.get_mut(*used).ok_or(LOG_FULL)?;
    backplane.drop_first(lane, 1)?;
    *place = entry;
    *used += 1;
    card.accepted = entry.header;
    Ok(APPENDED)
}

fn take_diff<B: Backplane>(
    seat: &mut Seat,
    part: &mut [Entry],
    backplane: &mut B,
    lane: Lane,
    head: Frame,
) -> Result<u8, u8> {
    let epoch = head.epoch();
    check_whole(backplane, lane, &head)?;
    let follow = head.announced();
    if epoch < seat.card.newest {
        backplane.drop_first(lane, 1 + follow)?;
        return Ok(PASSED_OVER);
    }
    if epoch == seat.card.current {
        return Err(OUT_OF_TURN);
    }
    let log = &mut part[..seat.used];
    let base = head.header_of_words();
    if log::up_to(log, base).count() + follow > part.len() {
        return Err(LOG_FULL);
    }
    let log = &mut part[..seat.used];
    let kept = log::cut_above(log, base);
    for (position, place) in part[kept..kept + follow].iter_mut().enumerate() {
        *place = backplane.frame_at(lane, 1 + position)?.entry();
    }
    backplane.drop_first(lane, 1 + follow)?;
    seat.used = kept + follow;
    seat.card.enter(Role::Follower, epoch);
    Ok(INSTALLED)
}

/// Whether all the entries that the head announces wait behind it, rising from its base to below
/// its epoch.
fn check_whole<B: Backplane>(backplane: &B, lane: Lane, head: &Frame) -> Result<(), u8> {
    let follow = head.announced();
    if backplane.waiting(lane)? <= follow {
        return Err(MALFORMED);
    }
    let end = start_of(head.epoch());
    let mut last = head.header_of_words();
    for position in 1..=follow {
        let frame = backplane.frame_at(lane, position)?;
        let rises = last < frame.header() && frame.header() < end;
        if frame.kind() != DIFF_ENTRY || !rises {
            return Err(MALFORMED);
        }
        last = frame.header();
    }
    Ok(())
}
