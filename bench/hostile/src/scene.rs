//! A light look at an open rack: what a caller would know who reads it before each step.

use crate::facts::Facts;
use crate::rng::Rng;
use crate::words::Setup;
use twin::{Card, Epoch, Header, Lane, Role};

pub struct Scene<'f> {
    pub facts: &'f dyn Facts,
    pub setup: Setup,
    pub cards: u8,
    pub places: usize,
    /// Which backplane the rack stands on.
    pub which: u64,
}

impl<'f> Scene<'f> {
    /// None where no rack is open.
    pub fn of(facts: &'f dyn Facts, setup: Setup) -> Option<Scene<'f>> {
        let (cards, places) = facts.opened()?;
        let which = u64::from(u64::from(cards) != setup.cards);
        Some(Scene { facts, setup, cards, places, which })
    }

    pub fn elen(&self) -> u64 {
        u64::from(self.cards) * self.places as u64
    }

    pub fn mlen(&self) -> u64 {
        self.cards.into()
    }

    pub fn room(&self) -> usize {
        if self.which == 0 {
            self.setup.room as usize
        } else {
            1
        }
    }

    pub fn waiting(&self, from: u8, to: u8, number: u8) -> usize {
        let lane = Lane { from, to, number };
        if self.which == 0 {
            self.facts.waiting(lane)
        } else {
            self.facts.odd_waiting(lane)
        }
    }

    pub fn any(&self, rng: &mut Rng) -> u8 {
        rng.between(1, self.cards.into()) as u8
    }

    pub fn other(&self, rng: &mut Rng, than: u8) -> u8 {
        let shift = rng.between(1, u64::from(self.cards) - 1) as u8;
        (than - 1 + shift) % self.cards + 1
    }

    /// A card that is not stopped, where a few draws find one.
    pub fn live(&self, rng: &mut Rng) -> Option<(u8, Card)> {
        (0..4).find_map(|_| {
            let number = self.any(rng);
            let card = self.facts.card(number)?;
            (!card.stopped).then_some((number, card))
        })
    }

    /// The leader of the highest epoch, if it still goes by that epoch.
    pub fn leader(&self) -> Option<(u8, Card)> {
        let all = (1..=self.cards).filter_map(|i| Some((i, self.facts.card(i)?)));
        let leading = all.filter(|(_, card)| {
            card.role == Role::Leader && !card.stopped && card.current == card.newest
        });
        leading.max_by_key(|(_, card)| card.current)
    }

    /// Whether nothing but a new rack brings this one forward.
    pub fn stuck(&self) -> bool {
        let cards = || (1..=self.cards).filter_map(|i| self.facts.card(i));
        let stopped = cards().filter(|card| card.stopped).count();
        let spent = cards().filter(|card| card.newest.0 > u32::MAX - 2).count();
        2 * stopped > usize::from(self.cards) || 2 * spent > usize::from(self.cards)
    }

    pub fn may_win(&self, number: u8, card: &Card) -> bool {
        let equal =
            |peer: &u8| *peer == number || card.peers[usize::from(*peer) - 1].vote == card.vote;
        let count = (1..=self.cards).filter(equal).count() as u8;
        card.role == Role::Electing && card.vote.0 .1 == number && self.is_majority(count)
    }

    pub fn may_commit(&self, number: u8, card: &Card) -> bool {
        let within =
            |mark: Header| mark >= card.next && mark <= (card.current.0, card.current.1, u32::MAX);
        let supported = match card.role {
            Role::Electing => false,
            Role::Leader => {
                let counts = |peer: &u8| match *peer {
                    own if own == number => within(card.accepted),
                    other => within(card.peers[usize::from(other) - 1].accept),
                };
                self.is_majority((1..=self.cards).filter(counts).count() as u8)
            }
            Role::Follower => {
                let leader = usize::from(card.current.1.clamp(1, 7));
                within(card.peers[leader - 1].commit)
            }
        };
        let log = self.facts.log(number);
        supported && (card.next.2 == 0 || log.iter().rev().any(|e| e.header == card.next))
    }

    fn is_majority(&self, count: u8) -> bool {
        2 * count > self.cards
    }
}

pub fn within_epoch(epoch: Epoch, count: u32) -> Header {
    (epoch.0, epoch.1, count)
}
