//! What one card holds, and what the calls that concern only its own fields do.

use crate::marks::{
    epoch_of, least_epoch, start_of, Epoch, Header, Vote, MOST_CARDS, NULL_EPOCH, NULL_HEADER,
    NULL_VOTE,
};
use crate::refusals::{NOT_ELECTED, STOPPED, WRONG_ROLE};

#[derive(Clone, Copy, PartialEq, Eq, Debug)]
pub enum Role {
    Electing,
    Leader,
    Follower,
}

/// What a card knows of one peer.
#[derive(Clone, Copy, PartialEq, Eq, Debug)]
pub struct PeerRow {
    /// Nothing yet, or up to which count messages went; 0 is the diff alone.
    pub shipped: Option<u32>,
    pub accept: Header,
    pub vote: Vote,
    pub commit: Header,
}

/// Peer j stands at index j − 1; the card's own place is never used.
#[derive(Clone, Copy, PartialEq, Eq, Debug)]
pub struct Card {
    pub role: Role,
    pub stopped: bool,
    pub current: Epoch,
    pub newest: Epoch,
    pub accepted: Header,
    pub committed: Header,
    pub next: Header,
    pub vote: Vote,
    pub peers: [PeerRow; MOST_CARDS as usize],
}

const NO_ROW: PeerRow =
    PeerRow { shipped: None, accept: NULL_HEADER, vote: NULL_VOTE, commit: NULL_HEADER };

/// Elect's answers.
pub(crate) const KEPT: u8 = 0;
pub(crate) const STOOD: u8 = 1;
pub(crate) const JOINED: u8 = 2;

#[inline]
pub(crate) fn is_majority(n: u8, count: usize) -> bool {
    count >= usize::from(n).div_ceil(2)
}

impl Card {
    pub(crate) const FRESH: Card = Card {
        role: Role::Electing,
        stopped: false,
        current: NULL_EPOCH,
        newest: NULL_EPOCH,
        accepted: NULL_HEADER,
        committed: NULL_HEADER,
        next: NULL_HEADER,
        vote: NULL_VOTE,
        peers: [NO_ROW; MOST_CARDS as usize],
    };

    #[inline]
    pub(crate) fn running(&self) -> Result<(), u8> {
        if self.stopped {
            Err(STOPPED)
        } else {
            Ok(())
        }
    }

    /// Refuses a stopped card first, and then one of another role.
    #[inline]
    pub(crate) fn acting_as(&self, role: Role) -> Result<(), u8> {
        self.running()?;
        if self.role == role {
            Ok(())
        } else {
            Err(WRONG_ROLE)
        }
    }

    /// The copies of the peers' rows: those of a rack of `n` cards, without the card's own place.
    #[inline]
    fn others(&self, own: u8, n: u8) -> impl Iterator<Item = &PeerRow> {
        (1..=n).zip(&self.peers).filter(move |(number, _)| *number != own).map(|(_, row)| row)
    }

    fn largest_vote(&self, own: u8, n: u8) -> Vote {
        self.others(own, n).fold(self.vote, |largest, row| largest.max(row.vote))
    }

    /// Votes for itself in the least epoch that it leads above all it knows of.
    fn stand(&mut self, own: u8, largest: Vote) -> Result<Epoch, u8> {
        let epoch = least_epoch(own, self.newest.max(largest.0))?;
        self.role = Role::Electing;
        self.newest = epoch;
        self.vote = (epoch, self.accepted);
        Ok(epoch)
    }

    pub(crate) fn timeout(&mut self, own: u8, n: u8) -> Result<Epoch, u8> {
        self.running()?;
        self.stand(own, self.largest_vote(own, n))
    }

    pub(crate) fn elect(&mut self, own: u8, n: u8) -> Result<u8, u8> {
        self.acting_as(Role::Electing)?;
        let largest = self.largest_vote(own, n);
        if self.accepted > largest.1 {
            self.stand(own, largest)?;
            Ok(STOOD)
        } else if largest > self.vote {
            self.vote = largest;
            self.newest = largest.0;
            Ok(JOINED)
        } else {
            Ok(KEPT)
        }
    }

    pub(crate) fn win(&mut self, own: u8, n: u8) -> Result<Epoch, u8> {
        self.acting_as(Role::Electing)?;
        let agreeing = self.others(own, n).filter(|row| row.vote == self.vote).count();
        if self.vote.0 .1 != own || !is_majority(n, 1 + agreeing) {
            return Err(NOT_ELECTED);
        }
        self.enter(Role::Leader, self.newest);
        for row in &mut self.peers {
            row.shipped = None;
        }
        Ok(self.newest)
    }

    /// Begins an epoch, in which nothing is accepted or delivered yet. What was shipped stands until
    /// the card wins the next time.
    pub(crate) fn enter(&mut self, role: Role, epoch: Epoch) {
        self.role = role;
        self.current = epoch;
        self.newest = epoch;
        self.accepted = start_of(epoch);
        self.next = start_of(epoch);
    }

    /// Whether the entry at `next` may be delivered, by the rows of the current epoch alone.
    #[inline]
    pub(crate) fn is_supported(&self, own: u8, n: u8) -> bool {
        let reaches = |row: Header| epoch_of(row) == self.current && row.2 >= self.next.2;
        match self.role {
            Role::Electing => false,
            Role::Leader => {
                let others = self.others(own, n).filter(|row| reaches(row.accept)).count();
                is_majority(n, usize::from(reaches(self.accepted)) + others)
            }
            // A follower's epoch is led by a peer, whose copy stands in its place.
            Role::Follower => {
                let leader = usize::from(self.current.1).wrapping_sub(1);
                self.peers.get(leader).is_some_and(|row| reaches(row.commit))
            }
        }
    }

    /// Notes that everything up to `header` was delivered.
    #[inline]
    pub(crate) fn delivered(&mut self, header: Header) {
        self.committed = header;
        self.next.2 += 1;
    }
}
