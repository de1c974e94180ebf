//! The whole rack: opening, the calls of one card and its log, and the readings.

use std::ops::Range;

use crate::backplane::{is_quiet, Backplane};
use crate::card::{Card, Role};
use crate::frame::{Entry, LAST_QUEUE, MOST_ENTRIES};
use crate::log;
use crate::machine::{Machine, Words};
use crate::marks::{Epoch, Header, LAST_COUNT, MOST_CARDS};
use crate::refusals::{
    LOG_FULL, NOTHING_DUE, NO_CARD, OUT_OF_RANGE, USED_UP, WRONG_ROLE, WRONG_SIZE,
};

/// A card, and how many places of its log are used.
pub(crate) struct Seat {
    pub(crate) card: Card,
    pub(crate) used: usize,
}

const FREE_SEAT: Seat = Seat { card: Card::FRESH, used: 0 };

/// Numbers only; entries, machines and lanes are lent for each call.
pub struct Rack {
    cards: u8,
    pub(crate) places: usize,
    tally: u64,
    pub(crate) seats: [Seat; MOST_CARDS as usize],
}

/// Sizes that no rack has, or memory of another size.
#[inline]
fn sized(fits: bool) -> Result<(), u8> {
    if fits {
        Ok(())
    } else {
        Err(WRONG_SIZE)
    }
}

impl Rack {
    pub fn open<B: Backplane, M: Machine>(
        cards: u8,
        places: usize,
        entries: &[Entry],
        machines: &mut [M],
        backplane: &B,
    ) -> Result<Rack, u8> {
        sized(matches!(cards, 3 | 5 | 7) && (1..=MOST_ENTRIES).contains(&places))?;
        let rack = Rack { cards, places, tally: 0, seats: [FREE_SEAT; MOST_CARDS as usize] };
        sized(rack.fits(entries.len(), machines.len(), backplane.cards()))?;
        sized(is_quiet(backplane))?;
        machines.fill(M::start());
        Ok(rack)
    }

    /// Whether entries and machines of these lengths, and a backplane of so many cards, are the
    /// rack's.
    #[inline]
    pub fn fits(&self, entries: usize, machines: usize, cards: u8) -> bool {
        self.has_entries(entries) && machines == usize::from(self.cards) && cards == self.cards
    }

    #[inline]
    fn has_entries(&self, entries: usize) -> bool {
        entries == usize::from(self.cards) * self.places
    }

    /// The place of a card's seat.
    #[inline]
    fn index(&self, card: u8) -> Result<usize, u8> {
        if card == 0 || card > self.cards {
            return Err(NO_CARD);
        }
        Ok(usize::from(card) - 1)
    }

    /// The seats' places of a card and of its peer, which is another card.
    #[inline]
    pub(crate) fn pair(&self, card: u8, peer: u8) -> Result<(usize, usize), u8> {
        let pair = (self.index(card)?, self.index(peer)?);
        if card == peer {
            return Err(NO_CARD);
        }
        Ok(pair)
    }

    #[inline]
    pub(crate) fn check_entries(&self, entries: &[Entry]) -> Result<(), u8> {
        sized(self.has_entries(entries.len()))
    }

    pub(crate) fn check_backplane<B: Backplane>(&self, backplane: &B) -> Result<(), u8> {
        sized(backplane.cards() == self.cards)
    }

    /// The used front of a card's own part of the entries.
    #[inline]
    pub(crate) fn used_part(&self, at: usize) -> Range<usize> {
        let start = at * self.places;
        start..start + self.seats[at].used
    }

    pub fn timeout(&mut self, card: u8) -> Result<Epoch, u8> {
        let at = self.index(card)?;
        self.seats[at].card.timeout(card, self.cards)
    }

    pub fn elect(&mut self, card: u8) -> Result<u8, u8> {
        let at = self.index(card)?;
        self.seats[at].card.elect(card, self.cards)
    }

    pub fn win(&mut self, card: u8) -> Result<Epoch, u8> {
        let at = self.index(card)?;
        self.seats[at].card.win(card, self.cards)
    }

    pub fn stop(&mut self, card: u8) -> Result<(), u8> {
        let at = self.index(card)?;
        let card = &mut self.seats[at].card;
        card.running()?;
        card.stopped = true;
        Ok(())
    }

    #[inline]
    pub fn submit(
        &mut self,
        entries: &mut [Entry],
        card: u8,
        queue: u8,
        payload: Words,
    ) -> Result<Header, u8> {
        let at = self.index(card)?;
        self.check_entries(entries)?;
        if queue > LAST_QUEUE {
            return Err(OUT_OF_RANGE);
        }
        let Seat { card, used } = &mut self.seats[at];
        card.acting_as(Role::Leader)?;
        if *used >= self.places {
            return Err(LOG_FULL);
        }
        let (round, leader, count) = card.accepted;
        if count >= LAST_COUNT || self.tally == u64::MAX {
            return Err(USED_UP);
        }
        let header = (round, leader, count + 1);
        entries[at * self.places + *used] = Entry { header, queue, payload };
        *used += 1;
        card.accepted = header;
        self.tally += 1;
        Ok(header)
    }

    pub fn commit<M: Machine>(
        &mut self,
        entries: &[Entry],
        machines: &mut [M],
        card: u8,
    ) -> Result<u32, u8> {
        let at = self.index(card)?;
        self.check_entries(entries)?;
        sized(machines.len() == usize::from(self.cards))?;
        let log = &entries[self.used_part(at)];
        let n = self.cards;
        let own = &mut self.seats[at].card;
        own.running()?;
        if own.role == Role::Electing {
            return Err(WRONG_ROLE);
        }
        if !own.is_supported(card, n) {
            return Err(NOTHING_DUE);
        }
        if own.next.2 == 0 {
            return Ok(deliver_older(own, log, &mut machines[at]));
        }
        let entry = log::find(log, own.next).ok_or(NOTHING_DUE)?;
        machines[at].apply_words(entry.queue, entry.payload);
        own.delivered(entry.header);
        Ok(1)
    }

    /// Fills the front of `out` with what the card has delivered.
    pub fn reading(&self, entries: &[Entry], card: u8, out: &mut [Entry]) -> Result<usize, u8> {
        let log = self.log(entries, card)?;
        let last = self.seats[self.index(card)?].card.committed;
        // A refused buffer stays as it was, so the list is counted before it is written.
        let count = log::up_to(log, last).count();
        sized(count <= out.len())?;
        for (place, entry) in out.iter_mut().zip(log::up_to(log, last)) {
            *place = *entry;
        }
        Ok(count)
    }

    pub fn log<'a>(&self, entries: &'a [Entry], card: u8) -> Result<&'a [Entry], u8> {
        let at = self.index(card)?;
        self.check_entries(entries)?;
        Ok(&entries[self.used_part(at)])
    }

    pub fn card(&self, card: u8) -> Result<Card, u8> {
        Ok(self.seats[self.index(card)?].card)
    }

    /// How many submits were accepted.
    pub fn tally(&self) -> u64 {
        self.tally
    }
}

/// The first commit of an epoch delivers all that the log holds from earlier ones, if anything.
fn deliver_older<M: Machine>(card: &mut Card, log: &[Entry], machine: &mut M) -> u32 {
    let mut last = card.committed;
    let mut count = 0;
    for entry in log::within(log, card.committed, card.next) {
        machine.apply_words(entry.queue, entry.payload);
        last = entry.header;
        count += 1;
    }
    card.delivered(last);
    count
}
