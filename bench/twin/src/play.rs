//! Lists of calls.

use crate::backplane::Backplane;
use crate::frame::Entry;
use crate::machine::{Machine, Words};
use crate::marks::{Epoch, Header};
use crate::rack::Rack;
use crate::refusals::WRONG_SIZE;

/// A call and its numbers, in the order of the rack's own functions.
#[derive(Clone, Copy, Debug)]
pub enum Call {
    Timeout(u8),
    Elect(u8),
    Win(u8),
    Submit(u8, u8, Words),
    Ship(u8, u8),
    Take(u8, u8),
    Push(u8, u8, u8),
    Look(u8, u8, u8),
    Commit(u8),
    Stop(u8),
}

#[derive(Clone, Copy, PartialEq, Eq, Debug)]
pub enum Answer {
    Epoch(Epoch),
    Number(u32),
    Placed(Header),
    Done,
}

/// Carries out the calls, and puts each reply in the place of its call. Refused before the first
/// call where the memory is not the rack's.
pub fn play<B: Backplane, M: Machine>(
    rack: &mut Rack,
    entries: &mut [Entry],
    machines: &mut [M],
    backplane: &mut B,
    calls: &[Call],
    replies: &mut [Result<Answer, u8>],
) -> Result<(), u8> {
    let fits = rack.fits(entries.len(), machines.len(), backplane.cards());
    if !fits || replies.len() != calls.len() {
        return Err(WRONG_SIZE);
    }
    for (call, reply) in calls.iter().zip(replies) {
        *reply = carry_out(rack, entries, machines, backplane, *call);
    }
    Ok(())
}

fn carry_out<B: Backplane, M: Machine>(
    rack: &mut Rack,
    entries: &mut [Entry],
    machines: &mut [M],
    backplane: &mut B,
    call: Call,
) -> Result<Answer, u8> {
    let number = |small: u8| Answer::Number(small.into());
    let done = |()| Answer::Done;
    match call {
        Call::Timeout(card) => rack.timeout(card).map(Answer::Epoch),
        Call::Elect(card) => rack.elect(card).map(number),
        Call::Win(card) => rack.win(card).map(Answer::Epoch),
        Call::Submit(card, queue, payload) => {
            rack.submit(entries, card, queue, payload).map(Answer::Placed)
        }
        Call::Ship(card, peer) => rack.ship(entries, backplane, card, peer).map(Answer::Number),
        Call::Take(card, peer) => rack.take(entries, backplane, card, peer).map(number),
        Call::Push(card, peer, kind) => rack.push(backplane, card, peer, kind).map(done),
        Call::Look(card, peer, kind) => rack.look(backplane, card, peer, kind).map(done),
        Call::Commit(card) => rack.commit(entries, machines, card).map(Answer::Number),
        Call::Stop(card) => rack.stop(card).map(done),
    }
}
